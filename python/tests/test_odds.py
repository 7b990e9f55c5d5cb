"""The odds against closed forms, against scipy, against a Monte Carlo, and White's bounds around them."""
import math
import random
from types import SimpleNamespace

import numpy as np
import pytest
from hypothesis import given, settings
from hypothesis import strategies as some
from scipy.integrate import solve_ivp
from scipy.sparse.linalg import expm_multiply

from sift.odds import DEATHS, FEWER, LEVELS, OUTPUT, SECOND, Chain, NoWays, Rates, TooStiff, Way, contributions, exponential, ways_of, white_bounds

AT_ONCE = 1e-4  # seconds of a frame, so that a unit that is caught is out at once


def all_alike(units, frames=1, lost=None):
    """Units that all fail in one way."""
    ways = [Way(unit, "clock", "wrong", 1.0, frames, lost) for unit in range(units)]
    return {size: ways for size in range(4, units + 1)}


def chain_of(units, ways, permanent=1e-4, transient=0.0, frame=0.1, **more):
    return Chain(Rates(permanent, transient, frame, **more), units, ways)


# Closed forms.


@pytest.mark.parametrize("units", [4, 5, 6, 7, 8])
@pytest.mark.parametrize("rate", [1e-6, 1e-4, 1e-2])
def test_units_that_are_out_at_once_are_a_binomial(units, rate):
    """The promise ends with the failure of one of the last four: units - 3 of the units have failed by then."""
    solution = chain_of(units, all_alike(units), rate, frame=AT_ONCE).solve(10)
    failed = -math.expm1(-rate * 10)
    due = math.fsum(math.comb(units, k) * failed**k * (1 - failed) ** (units - k) for k in range(units - 3, units + 1))
    assert solution.death(FEWER) == pytest.approx(due, rel=1e-5)
    assert solution.death(SECOND) <= 10 * (units * rate) ** 2 * 2 * AT_ONCE / 3600
    assert solution.death(OUTPUT) == 0


@pytest.mark.parametrize("rate", [1e-8, 1e-4, 1e-1])
def test_a_fault_that_stays_waits_for_a_second_one(rate):
    """Two exponential steps, of 5 and of 4 times the rate: 1 - 5 exp(-4 rate t) + 4 exp(-5 rate t)."""
    solution = chain_of(5, all_alike(5, frames=None), rate).solve(10)
    small = rate * 10
    due = 10 * small**2 * (1 - 3 * small) if small < 1e-6 else 1 - 5 * math.exp(-4 * small) + 4 * math.exp(-5 * small)
    assert solution.death(SECOND) == pytest.approx(due, rel=1e-6)
    assert solution.loss == pytest.approx(due, rel=1e-6)


def test_a_fault_that_costs_an_output_ends_the_promise_at_once():
    solution = chain_of(6, all_alike(6, lost=0), 1e-3).solve(10)
    assert solution.death(OUTPUT) == pytest.approx(-math.expm1(-6 * 1e-3 * 10), rel=1e-9)
    assert solution.loss == solution.death(OUTPUT)


def test_a_second_failure_in_the_frames_of_the_first():
    """To the first order: 5 rate t failures, each with 4 rate T of being overtaken."""
    rates = dict(permanent=1e-5, frame=2.0)
    solution = chain_of(5, all_alike(5, frames=3), **rates).solve(10)
    waiting = (3 + 1) * 2.0 / 3600
    assert solution.death(SECOND) == pytest.approx(5e-5 * 10 * 4e-5 * waiting, rel=1e-3)


def test_a_transient_failure_recovers_or_costs_the_unit():
    caught = chain_of(5, all_alike(5, frames=1), permanent=0.0, transient=1e-3, frame=AT_ONCE).solve(10)
    late = chain_of(5, all_alike(5, frames=2), permanent=0.0, transient=1e-3, frame=AT_ONCE).solve(10)
    assert caught.death(FEWER) == pytest.approx(math.fsum([1, -5 * math.exp(-0.04), 4 * math.exp(-0.05)]), rel=1e-5)
    assert late.death(FEWER) == 0
    assert late.states["well", 5] == pytest.approx(1, rel=1e-6)


def test_an_output_that_is_lost_later_than_a_transient_failure_lasts_is_not_lost():
    ways = all_alike(5, frames=None, lost=3)
    assert chain_of(5, ways, permanent=0.0, transient=1e-3, lasts=3).solve(10).death(OUTPUT) == 0
    assert chain_of(5, ways, permanent=0.0, transient=1e-3, lasts=4).solve(10).death(OUTPUT) > 0


# Other solvers.


MIXED = {
    size: [
        Way(unit, f"out a.{place}", "wrong", share, frames, lost)
        for unit in range(6)
        for place, (share, frames, lost) in enumerate(((0.5, 1, None), (0.3, 3, None), (0.15, None, None), (0.05, None, 0)))
    ]
    for size in (4, 5, 6)
}


def generator(chain):
    """The rates between states, without what is counted."""
    return chain.matrix[: len(chain.states), : len(chain.states)]


def test_a_stiff_solver_finds_the_same():
    chain = chain_of(6, MIXED, 1e-2, 1e-1, frame=20.0)
    rates = generator(chain)
    first = np.eye(len(rates))[0]
    ran = solve_ivp(lambda _, row: row @ rates, (0, 10), first, method="Radau", jac=rates.T, rtol=1e-9, atol=1e-14)
    found = chain.solve(10).states
    for place, state in enumerate(chain.states):
        assert found[state] == pytest.approx(ran.y[place, -1], rel=1e-5, abs=1e-12)


def test_expm_multiply_finds_the_same():
    chain = chain_of(5, {size: MIXED[size] for size in (4, 5)}, 1e-2, 1e-1, frame=200.0)
    rates = generator(chain)
    due = expm_multiply(rates.T * 10, np.eye(len(rates))[0])
    for place, state in enumerate(chain.states):
        assert chain.solve(10).states[state] == pytest.approx(due[place], rel=1e-6, abs=1e-13)


def test_small_entries_keep_their_digits():
    """A row of slow steps, each with rate 1e-8, beside one of 1e5: the last entry is (1e-8 t)^4 / 4!."""
    rates = np.zeros((7, 7))
    for place in range(4):
        rates[place, place], rates[place, place + 1] = -1e-8, 1e-8
    rates[5, 5], rates[5, 6] = -1e5, 1e5
    assert exponential(rates, 10.0)[0, 4] == pytest.approx(1e-28 / 24, rel=1e-6)


def test_phases_are_as_good_as_fixed_times():
    """More phases a frame change nothing that the error doesn't allow for."""
    coarse, fine = (chain_of(6, MIXED, 1e-4, 1e-3, phases=phases).solve(10) for phases in (None, 8))
    assert coarse.loss == pytest.approx(fine.loss, rel=coarse.error)


# White's bounds, and the account.


FAILING = some.floats(-7, -2).map(lambda power: 10.0**power)


@settings(max_examples=40, deadline=None)
@given(units=some.integers(4, 6), permanent=FAILING, transient=FAILING, frame=some.floats(-3, 0).map(lambda power: 10.0**power))
def test_the_loss_lies_in_whites_bounds_and_its_parts_come_to_it(units, permanent, transient, frame):
    chain = chain_of(units, MIXED, permanent, transient, frame)
    solution = chain.solve(10)
    low, high = white_bounds(chain, 10, solution.loss)
    assert low * (1 - 1e-4) <= solution.loss <= high * (1 + 1e-4)
    assert high <= 1.2 * low
    for level in LEVELS:
        assert math.fsum(row.probability for row in contributions(solution, level)) == pytest.approx(solution.loss, rel=1e-6)
    assert math.fsum(solution.states.values()) == pytest.approx(1, rel=1e-6)


@settings(max_examples=20, deadline=None)
@given(rate=FAILING, more=some.floats(1.01, 10))
def test_who_fails_more_often_or_flies_longer_loses_more(rate, more):
    one = chain_of(6, MIXED, rate).solve(10).loss
    assert chain_of(6, MIXED, rate * more).solve(10).loss > one
    assert chain_of(6, MIXED, rate).solve(10 * more).loss > one


# A Monte Carlo of the chain.


def walk(chain, hours, chance):
    """The state in which a walk is after these hours."""
    state, left = ("well", chain.start), hours
    while moves := [(to, rate) for (one, to), rate in chain.moves.items() if one == state]:
        whole = sum(rate for _, rate in moves)
        left -= chance.expovariate(whole)
        if left < 0:
            break
        state = chance.choices([to for to, _ in moves], [rate for _, rate in moves])[0]
    return state


def test_walks_end_as_often_as_the_solution_says():
    chain = chain_of(6, MIXED, 0.03, 0.05, frame=400.0, phases=2)
    solution, chance, walks = chain.solve(10), random.Random(1978), 6000
    ends = [walk(chain, 10, chance)[0] for _ in range(walks)]
    for death in DEATHS:
        due = solution.death(death)
        assert due > 0.005
        assert abs(ends.count(death) / walks - due) < 4.5 * math.sqrt(due * (1 - due) / walks)


# Campaigns, and what is no number.


class Row:
    """A row of a campaign."""

    def __init__(self, unit, slot, kind, removal, fate="out", wrong=0, first=None):
        self.faults = [SimpleNamespace(unit=str(unit), slot=slot, way=kind, begin=0)]
        self.fates, self.removals, self.wrong, self.first = [fate], [removal], wrong, first


def test_a_units_shares_come_to_one_and_slots_count_alike():
    rows = [Row(0, "clock", kind, 1) for kind in ("wrong", "silence")] + [Row(0, "out a.0", "wrong", None, "never caught")]
    ways = ways_of(rows, 1)
    assert [way.share for way in ways] == [0.25, 0.25, 0.5]
    assert [way.share for way in ways_of(rows, 1, [("*silence", 3.0)])] == pytest.approx([1 / 6, 3 / 6, 2 / 6])


def test_an_empty_campaign_says_nothing():
    with pytest.raises(NoWays, match="of unit 0, 1"):
        ways_of([], 2)
    with pytest.raises(NoWays, match="of unit 1"):
        ways_of([Row(0, "clock", "wrong", 1), Row(1, "clock", "wrong", None, "inert")], 2)
    with pytest.raises(NoWays, match="weights leave nothing of unit 0"):
        ways_of([Row(0, "clock", "wrong", 1)], 1, [("*", 0.0)])


@pytest.mark.parametrize("rates", [dict(permanent=-1.0), dict(permanent=math.inf), dict(transient=math.nan), dict(frame=0.0), dict(lasts=0)])
def test_rates_that_are_none_are_refused(rates):
    with pytest.raises(ValueError):
        Rates(**{"permanent": 1e-4, "transient": 0.0, "frame": 0.1, **rates})


def test_numbers_that_leave_no_digits_are_refused():
    with pytest.raises(TooStiff):
        chain_of(5, all_alike(5), frame=1e-12).solve(1e6)
    with pytest.raises(ValueError):
        chain_of(5, all_alike(5)).solve(math.inf)
    with pytest.raises(ValueError):
        chain_of(3, all_alike(5))


