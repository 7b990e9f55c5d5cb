"""Numbers that are spread over all from 1 to a count: so many, in no step with what comes by turns in them, and none kept."""
import math
from collections.abc import Sequence

GOLDEN = (math.sqrt(5) - 1) / 2


def floor_sum(terms, divisor, factor, summand):
    """The sum of (factor * i + summand) // divisor over the i below the count of terms, by Euclid's steps and not term by term."""
    total = 0
    while terms > 0:
        total += (factor // divisor) * (terms * (terms - 1) // 2) + (summand // divisor) * terms
        factor, summand = factor % divisor, summand % divisor
        reach = factor * terms + summand
        terms, summand = divmod(reach, divisor)
        divisor, factor = factor, divisor
    return total


class Spread(Sequence):
    """The residues of the multiples 0, step, 2 * step, .. of a step, in their order and counted from 1."""

    def __init__(self, count, limit):
        self.count, self.limit = count, limit
        self.step = next(step for step in range(int(count * GOLDEN), count) if math.gcd(step, count) == 1)
        self.inverse = pow(self.step, -1, count)
        self.least = self.multiple(self.residue(min(1, limit - 1)))
        self.greatest = self.multiple(self.residue(limit - 1))
        self.ahead = None, 0  # a place that was come to, and the multiple there: what is asked for next mostly begins at it

    def __len__(self):
        return self.limit

    def below(self, bound):
        """How many residues are below a bound."""
        return floor_sum(self.limit, self.count, self.step, self.count) - floor_sum(self.limit, self.count, self.step, self.count - bound)

    def residue(self, place):
        """The residue at a place of the order."""
        low, high = 0, self.count - 1
        while low < high:
            middle = (low + high) // 2
            if self.below(middle + 1) > place:
                high = middle
            else:
                low = middle + 1
        return low

    def multiple(self, residue):
        """Of which multiple it is the residue."""
        return residue * self.inverse % self.count

    def run_from(self, place, many):
        """So many residues from a place on, each found from the one before: there are three distances at most between them."""
        here = self.ahead[1] if self.ahead[0] == place else self.multiple(self.residue(place))
        found = []
        for _ in range(many):
            found.append(here * self.step % self.count)
            if here < self.limit - self.least:
                here += self.least
            else:
                here += -self.greatest if here >= self.greatest else self.least - self.greatest
        self.ahead = place + many, here
        return found

    def __getitem__(self, place):
        if not isinstance(place, slice):
            return self.residue(range(self.limit)[place]) + 1
        places = range(self.limit)[place]
        if places.step != 1:
            return [self[each] for each in places]
        return [residue + 1 for residue in self.run_from(places.start, len(places))] if places else []
