"""From a schedule and a rate of failures to the probability that the promise of a report ends within some hours."""
from sift.odds.account import LEVELS, Contribution, contributions
from sift.odds.bounds import Bounds, white_bounds
from sift.odds.chain import DEATHS, FEWER, FEWEST, OUTPUT, SECOND, Chain, Rates, Solution
from sift.odds.exponential import TooStiff, exponential
from sift.odds.ways import NoWays, Way, ways_of

__all__ = [
    "DEATHS", "FEWER", "FEWEST", "LEVELS", "OUTPUT", "SECOND", "Bounds", "Chain", "Contribution", "NoWays", "Rates", "Solution",
    "TooStiff", "Way", "contributions", "exponential", "ways_of", "white_bounds",
]
