#!/usr/bin/env python3
"""Try the rules themselves on tiny cases: of all selections within the limits, prices fit exactly the unbeaten ones.

Each case is so small that every selection within its limits can be listed and its total computed. For each of them prices
are looked for among the sums of at most two unit costs or their opposites, which are in range on every scale. They must be
found where nothing beats the selection, and nowhere else. This tries the oracle and the wording of docs/RULES.md; it needs no
verifier. Prints 'N passed, M failed'.
"""

import itertools
import random
import sys

import oracle


def tiny_case(rng, scale):
    areas = rng.randint(1, 3)
    demands = [rng.randint(-3, 3) for _ in range(areas)]
    borders, bids = [], []
    for _ in range(rng.randint(0, 3) if areas > 1 else 0):
        start = rng.randrange(areas)
        borders.append((start, (start + rng.randint(1, areas - 1)) % areas, rng.randint(0, 2), rng.randint(0, 2)))
    for _ in range(rng.randint(0, 4) if oracle.bids_take_part(scale) else 0):
        bids.append((rng.randrange(areas), rng.randrange(2), rng.randint(0, 2), rng.randint(-3, 3)))
    return demands, borders, bids


def selections(case):
    """All selections within the limits. What is satisfied follows from the rest, since every area balances."""
    demands, borders, bids = case
    flows = itertools.product(*(range(-backward, forward + 1) for _, _, forward, backward in borders))
    for flow in flows:
        for activated in itertools.product(*(range(volume + 1) for _, _, volume, _ in bids)):
            satisfied = [oracle.up_in(case, activated, a) - oracle.down_in(case, activated, a) + oracle.net_import(case, flow, a)
                         for a in range(len(demands))]
            selection = satisfied, flow, activated
            try:
                oracle.ask_limits(case, selection)
            except oracle.Refused:
                continue
            yield selection


def total(scale, case, selection):
    value = (0,) * len(scale)
    for x in selection[0]:
        value = tuple(v + abs(x) * t for v, t in zip(value, oracle.satisfied_cost(scale)))
    for bid, x in zip(case[2], selection[2]):
        value = tuple(v + x * u for v, u in zip(value, oracle.bid_cost(scale, bid)))
    return value


def candidates(scale, case):
    """The sums of at most two unit costs of the case or their opposites."""
    costs = {oracle.satisfied_cost(scale)} | {oracle.bid_cost(scale, bid) for bid in case[2]}
    signed = costs | {tuple(-level for level in cost) for cost in costs}
    sums = {(0,) * len(scale)}
    for _ in range(2):
        sums |= {oracle.plus(x, y) for x in sums for y in signed}
    return sorted(sums)


def fit(scale, case, selection, prices):
    try:
        oracle.ask_prices(scale, case, selection, prices)
    except oracle.Refused:
        return False
    return True


def own_choices(scale, case, selection, choices, a):
    """The prices that an area's demand and bids leave."""
    demands, _, bids = case
    satisfied, _, activated = selection
    own = [(0, *bid[1:]) for bid in bids if bid[0] == a]
    own_activated = [x for bid, x in zip(bids, activated) if bid[0] == a]
    return [price for price in choices if fit(scale, ([demands[a]], [], own), ([satisfied[a]], [], own_activated), [price])]


def has_prices(scale, case, selection, choices):
    """Whether some of the choices fit: area by area, and each border as soon as both its ends have a price."""
    areas = len(case[0])
    left = [own_choices(scale, case, selection, choices, a) for a in range(areas)]

    def extended(prices):
        a = len(prices)
        if a == areas:
            return fit(scale, case, selection, prices)
        reached = [(border, flow) for border, flow in zip(case[1], selection[1]) if max(border[:2]) == a]
        part = [0] * (a + 1), [border for border, _ in reached], []
        flows = [0] * (a + 1), [flow for _, flow in reached], []
        return any(fit(scale, part, flows, prices + [price]) and extended(prices + [price]) for price in left[a])

    return extended([])


def main():
    rng = random.Random(5)
    passed, failures = 0, []
    for number in range(1000):
        scale = oracle.NETTING if number % 4 == 0 else oracle.ACTIVATION
        case = tiny_case(rng, scale)
        choices = candidates(scale, case)
        every = list(selections(case))
        least = min(total(scale, case, selection) for selection in every)
        for selection in every:
            unbeaten = total(scale, case, selection) == least
            if has_prices(scale, case, selection, choices) == unbeaten:
                passed += 1
            else:
                failures.append("%s: %s %s" % (case, selection, "has no prices" if unbeaten else "is beaten, but has prices"))
    for failure in failures[:20]:
        print("FAILED", failure)
    print("%d passed, %d failed" % (passed, len(failures)))
    return 1 if failures else 0


if __name__ == "__main__":
    sys.exit(main())
