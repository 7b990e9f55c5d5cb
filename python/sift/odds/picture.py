"""The odds as a picture: over time, or over what varies."""
from typing import IO, Any, Sequence

from sift.odds.chain import DEATHS, Solution

COLOURS = dict(zip(DEATHS, ("#d7301f", "#1f78b4", "#fdbf6f")))  # told apart by the colour-blind, as in all our pictures
TOGETHER = "#cccccc"
POINTS = 40  # of a curve over time


def axes_of(title: str, across: str) -> Any:
    """A figure and its axes, both logarithmic."""
    import matplotlib

    matplotlib.use("svg")
    matplotlib.rcParams.update({"svg.fonttype": "none", "svg.hashsalt": "sift", "font.family": "sans-serif"})
    from matplotlib import pyplot

    figure, axes = pyplot.subplots(figsize=(8, 4.6), layout="constrained")
    axes.set_title(title, fontsize=11, loc="left")
    axes.set_xlabel(across)
    axes.set_ylabel("probability that the promise has ended")
    axes.set_xscale("log")
    axes.set_yscale("log")
    axes.grid(True, which="major", color="#dddddd", linewidth=0.6)
    return figure, axes


def write(figure: Any, out: IO[bytes]) -> None:
    """The figure as SVG, the same bytes for the same numbers."""
    from matplotlib import pyplot

    figure.savefig(out, format="svg", metadata={"Date": None, "Creator": None})
    pyplot.close(figure)


def over_time(solutions: Sequence[Solution], title: str, out: IO[bytes]) -> None:
    """Each way in which the promise ends over the hours, and all of them together."""
    figure, axes = axes_of(title, "hours")
    hours = [solution.hours for solution in solutions]
    axes.plot(hours, [solution.loss for solution in solutions], color=TOGETHER, linewidth=6, label="together")
    for death in DEATHS:
        values = [solution.death(death) for solution in solutions]
        if any(values):
            axes.plot(hours, values, color=COLOURS[death], label=death)
    axes.legend(frameon=False)
    write(figure, out)


def over_values(name: str, lines: Sequence[tuple[str, Sequence[float], Sequence[float]]], title: str, out: IO[bytes]) -> None:
    """The loss over the values of what varies, a line for each choice of the others."""
    figure, axes = axes_of(title, name)
    if name == "units":
        axes.set_xscale("linear")
        axes.set_xticks(sorted({value for _, values, _ in lines for value in values}))
    for label, values, losses in lines:
        axes.plot(values, losses, marker="o", markersize=3, label=label)
    if any(label for label, _, _ in lines):
        axes.legend(frameon=False)
    write(figure, out)
