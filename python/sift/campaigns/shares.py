"""A share of flights, and between which bounds it lies."""
from math import sqrt

CONFIDENCE = 0.95


def interval(some, of, confidence=CONFIDENCE):
    """The interval of Wilson for a share, of which some of so many were seen.

    E. B. Wilson, Probable inference, the law of succession, and statistical inference, Journal of the American Statistical
    Association 22 (1927). It holds near 0 and 1 as well, where the usual one is empty. Of nothing seen it is all from 0 to 1.
    """
    if not 0 <= some <= of:
        raise ValueError(f"{some} of {of} is no share")
    if not of:
        return 0.0, 1.0
    from statistics import NormalDist  # which takes long to load, and most campaigns have no shares

    z = NormalDist().inv_cdf((1 + confidence) / 2)
    share, weight = some / of, z * z / of
    middle = (share + weight / 2) / (1 + weight)
    reach = z / (1 + weight) * sqrt(share * (1 - share) / of + weight / of / 4)
    # Where none or all were seen one of the bounds is the share itself, whatever the roundings.
    return 0.0 if some == 0 else max(0.0, middle - reach), 1.0 if some == of else min(1.0, middle + reach)


def percent(share):
    """A share in three digits."""
    return f"{100 * share:.3g}%"


def told(some, of):
    """A share with its interval, in words."""
    low, high = interval(some, of)
    return f"{some:,}, {percent(some / of)} (95%: {percent(low)} to {percent(high)})"
