"""How the time of a flight grows with its frames, its units and its workers."""
import os
import tempfile
import time

UNITS, FRAMES = 8, 1000
WORDS = [3] * 16 + [2] * 8  # of each task
# What grows: its values, and the units, the frames and the workers of each.
GROWTHS = {
    "frames": [(frames, UNITS, frames, 1) for frames in (125, 250, 500, 1000)],
    "units": [(units, units, FRAMES, 1) for units in (4, 5, 6, 7, 8)],
    "workers": [(workers, UNITS, FRAMES, workers) for workers in (1, 2, 4, 8)],
}


class NotFlown(Exception):
    """Why there is no time of a mission."""


def mission(units, frames):
    """The text of a mission."""
    lines = [f"units = {units}", f"frames = {frames}", "subframes = 64", "[clock]", "skew = 40", "error = 2", "rate = 3", "length = 100"]
    lines += [f"start = {[3 * unit - 10 for unit in range(units)]}", f"drift = {[unit % 5 - 2 for unit in range(units)]}"]
    for sensor in range(8):
        lines += ["[[sensor]]", f'name = "s{sensor}"', f"words = {[(7919 * (sensor + 1) * entry) % 65536 for entry in range(1, 65)]}"]
    for task, words in enumerate(WORDS):
        before = f"now t{task - 1}.1" if task else "last t23.1"
        text = f"let a = last t{task}.0; let b = sense s{task % 8} + {before}; repeat 48 {{ a = (a * 3) + b; b = b ^ (a >> 1); }} "
        text += " ".join(f"out {word} = a + (b * {word});" for word in range(words))
        lines += ["[[task]]", f'name = "t{task}"', f"start = {list(range(task, task + words))}", f'text = "{text}"']
    return "\n".join(lines) + "\n"


def flown(program, path, workers):
    """The wall time and the processor time of a flight, in milliseconds."""
    actions = [(os.POSIX_SPAWN_OPEN, 0, path, os.O_RDONLY, 0), (os.POSIX_SPAWN_OPEN, 1, os.devnull, os.O_WRONLY, 0)]
    begun = time.perf_counter()
    child = os.posix_spawn(program, [program, "run", "--workers", str(workers)], os.environ, file_actions=actions)
    _, status, used = os.wait4(child, 0)
    wall = time.perf_counter() - begun
    if status:
        raise NotFlown(f"{program} ends with status {os.waitstatus_to_exitcode(status)}")
    return 1000 * wall, 1000 * (used.ru_utime + used.ru_stime)


def rows(program, runs):
    """The rows, each as soon as it is known."""
    with tempfile.TemporaryDirectory() as folder:
        path = os.path.join(folder, "mission.toml")
        for what, values in GROWTHS.items():
            for value, units, frames, workers in values:
                with open(path, "w", encoding="utf-8") as file:
                    file.write(mission(units, frames))
                wall, processor = min(flown(program, path, workers) for _ in range(runs))
                yield "\t".join((what, str(value), str(workers), f"{wall:.1f}", f"{processor:.1f}"))
