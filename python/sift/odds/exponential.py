"""The exponential of a rate matrix, entry by entry, without a subtraction.

The odds that are asked for are as small as 1e-10 and less, beside rates that differ by a factor of a thousand million. A general
exponential (`scipy.linalg.expm`) is right to some digits of the largest entry, which is 1, and leaves none of such a number.
A rate matrix shifted by its largest rate has no negative entry, so its series and its squares have none either, and every entry
keeps its digits: Xue and Ye, Entrywise relative perturbation theory for exponentials of essentially non-negative matrices,
Numerische Mathematik 110 (2008); Shao, Gao and Xue, Aggressively truncated Taylor series method for accurate computation of
exponentials of essentially nonnegative matrices, SIAM Journal on Matrix Analysis and Applications 35 (2014).
"""
import math

import numpy as np

ROUNDING = float(np.finfo(float).eps)
MOST_LOST = 1e-3  # the largest relative error that a result may have
TERMS = 20  # of the series of a matrix whose norm is at most 1: the next term is below the rounding


class TooStiff(ValueError):
    """Rates and times that leave a result too few digits."""


def relative_error(fastest: float, size: int) -> float:
    """How wrong an entry may be, as a share of it, where the fastest rate times the time is `fastest`.

    Each square doubles what was lost before it, and rounds anew: so it is the rounding of one square times the number of
    squares' factors, which is `fastest`.
    """
    return 4 * ROUNDING * size * max(1.0, fastest)


def exponential(rates: np.ndarray, time: float) -> np.ndarray:
    """exp(rates * time), of a matrix whose entries off the diagonal aren't negative."""
    fastest = float(-np.diag(rates).min(initial=0.0)) * time
    if not math.isfinite(fastest) or relative_error(fastest, len(rates)) > MOST_LOST:
        raise TooStiff(f"the fastest rate times the time is {fastest:.3g}: too much for the digits of a float")
    squares = max(0, math.ceil(math.log2(max(fastest, 1.0))))
    step = time / 2**squares
    shift = fastest / 2**squares
    shifted = rates * step
    diagonal = np.einsum("ii->i", shifted)
    diagonal += shift
    np.maximum(diagonal, 0.0, out=diagonal)
    found = term = np.eye(len(rates))
    for power in range(1, TERMS + 1):
        term = term @ shifted / power
        found = found + term
    found *= math.exp(-shift)
    for _ in range(squares):
        found = found @ found
    return found
