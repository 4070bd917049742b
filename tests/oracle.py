#!/usr/bin/env python3
"""The verdict on a case and a proposal, and the answers to calls on a cycle, by the rules in docs/ and as plainly as possible.

    verify(case, proposal) -> ("taken", listing) or ("refused", number, layer, place)
    replay(scale, calls)   -> what each call on a fresh cycle answers

It shares nothing with the verifier: it was written from the rules, works on Python's unbounded integers, and takes
each question by itself, in order. Where the two differ, one of them is wrong.

As a program, `oracle.py CASE PROPOSAL` prints the listing or the refusal, and ends with status 0 only when taken.
"""

import sys


class Refused(Exception):
    """A question got a no."""

    def __init__(self, number, place):
        super().__init__(number, place)
        self.number, self.place = number, place


def layer(number):
    for last, name in ((4, 1), (9, 2), (13, 3), (17, 4), (20, 5)):
        if number <= last:
            return name


# A scale is a tuple of single scales, and its values are tuples of whole numbers: Python compares tuples level by level.


class Single:
    def __init__(self, satisfied, up, down, most, bids):
        self.satisfied, self.up, self.down, self.most, self.bids = satisfied, up, down, most, bids


SATISFACTION = Single(-1, lambda price: 0, lambda price: 0, 8, False)
VOLUME = Single(0, lambda price: 1, lambda price: 1, 8, True)
MONEY = Single(0, lambda price: price, lambda price: -price, 79_999_200, True)

NETTING = (SATISFACTION,)
ACTIVATION = (SATISFACTION, VOLUME, MONEY)


def bids_take_part(scale):
    return any(single.bids for single in scale)


def satisfied_cost(scale):
    return tuple(single.satisfied for single in scale)


def bid_cost(scale, bid):
    _, direction, _, price = bid
    return tuple(single.up(price) if direction == 0 else single.down(price) for single in scale)


def plus(x, y):
    return tuple(a + b for a, b in zip(x, y))


# Bytes.


def number(data, offset, size, signed=False):
    assert offset + size <= len(data)
    return int.from_bytes(data[offset:offset + size], "little", signed=signed)


def word(data, k):
    return number(data, 4 * k, 4)


def ask_layout(data, kind, words, count_allowed, sizes):
    """Questions 1 to 4. count_allowed: for each count, whether a number is allowed. sizes: of each table, by all counts."""
    if len(data) < 4 * words:
        raise Refused(1, len(data))
    if word(data, 0) != kind:
        raise Refused(2, 0)
    counts = [word(data, k) for k in range(1, words, 2)]
    for i, allowed in enumerate(count_allowed):
        if not allowed(counts[i]):
            raise Refused(3, 2 * i + 1)
    offset = 4 * words
    offsets = []
    for i, size in enumerate(sizes(counts)):
        if word(data, 2 * i + 2) != offset:
            raise Refused(4, 2 * i + 2)
        offsets.append(offset)
        offset += size
    if len(data) != offset:
        raise Refused(4, words)
    return counts, offsets


def load(scale, data):
    """Questions 1 to 9. The case: demands, borders (from, to, forward, backward), bids (area, direction, volume, price)."""
    (areas, borders, bids), (area_at, border_at, bid_at) = ask_layout(
        data, 1, 7,
        [lambda n: n <= 48, lambda n: n <= 128, lambda n: n <= 1024 and (n == 0 or bids_take_part(scale))],
        lambda n: [4 * n[0], 12 * n[1], 12 * n[2]])
    demands = [number(data, area_at + 4 * k, 4, signed=True) for k in range(areas)]
    border_list = []
    for k in range(borders):
        at = border_at + 12 * k
        border_list.append((number(data, at, 2), number(data, at + 2, 2), number(data, at + 4, 4), number(data, at + 8, 4)))
    bid_list = []
    for k in range(bids):
        at = bid_at + 12 * k
        bid_list.append((number(data, at, 2), number(data, at + 2, 2), number(data, at + 4, 4),
                         number(data, at + 8, 4, signed=True)))

    for k, demand in enumerate(demands):
        if not -20_000_000 <= demand <= 20_000_000:
            raise Refused(5, k)
    for k, (start, end, _, _) in enumerate(border_list):
        if not (start < areas and end < areas and start != end):
            raise Refused(6, k)
    for k, (_, _, forward, backward) in enumerate(border_list):
        if not (forward <= 20_000_000 and backward <= 20_000_000):
            raise Refused(7, k)
    for k, (area, direction, _, _) in enumerate(bid_list):
        if not (area < areas and direction in (0, 1)):
            raise Refused(8, k)
    for k, (_, _, volume, price) in enumerate(bid_list):
        if not (volume <= 9_999_000 and -9_999_900 <= price <= 9_999_900):
            raise Refused(9, k)
    return demands, border_list, bid_list


def up_in(case, activated, a):
    return sum(x for bid, x in zip(case[2], activated) if bid[0] == a and bid[1] == 0)


def down_in(case, activated, a):
    return sum(x for bid, x in zip(case[2], activated) if bid[0] == a and bid[1] == 1)


def net_import(case, flows, a):
    flows_in = sum(x for border, x in zip(case[1], flows) if border[1] == a)
    flows_out = sum(x for border, x in zip(case[1], flows) if border[0] == a)
    return flows_in - flows_out


def fits(amount, lower, upper, left, right):
    """Below its upper limit an amount requires left >= right, above its lower limit left <= right."""
    return (not amount < upper or left >= right) and (not amount > lower or left <= right)


def ask_limits(case, selection):
    """Questions 10 to 13."""
    demands, borders, bids = case
    satisfied, flows, activated = selection
    for k, demand in enumerate(demands):
        if not min(0, demand) <= satisfied[k] <= max(0, demand):
            raise Refused(10, k)
    for k, (_, _, forward, backward) in enumerate(borders):
        if not -backward <= flows[k] <= forward:
            raise Refused(11, k)
    for k, (_, _, volume, _) in enumerate(bids):
        if not 0 <= activated[k] <= volume:
            raise Refused(12, k)
    for k in range(len(demands)):
        if up_in(case, activated, k) - down_in(case, activated, k) + net_import(case, flows, k) != satisfied[k]:
            raise Refused(13, k)


def ask_prices(scale, case, selection, prices):
    """Questions 14 to 17."""
    demands, borders, bids = case
    satisfied, flows, activated = selection
    for k, price in enumerate(prices):
        if not all(-single.most <= level <= single.most for single, level in zip(scale, price)):
            raise Refused(14, k)
    zero = (0,) * len(scale)
    t = satisfied_cost(scale)
    for k, demand in enumerate(demands):
        if demand > 0 and not fits(satisfied[k], 0, demand, plus(t, prices[k]), zero):
            raise Refused(15, k)
        if demand < 0 and not fits(-satisfied[k], 0, -demand, t, prices[k]):
            raise Refused(15, k)
    for k, (start, end, forward, backward) in enumerate(borders):
        if not fits(flows[k], -backward, forward, prices[start], prices[end]):
            raise Refused(16, k)
    for k, bid in enumerate(bids):
        area, direction, volume, _ = bid
        u, p = bid_cost(scale, bid), prices[area]
        left, right = (u, p) if direction == 0 else (plus(u, p), zero)
        if not fits(activated[k], 0, volume, left, right):
            raise Refused(17, k)


def submit(scale, case, data):
    """Questions 1 to 4 and 10 to 17. The selection: satisfied, flows, activated."""
    demands, borders, bids = case
    levels = len(scale)
    _, (satisfied_at, flow_at, activated_at, price_at) = ask_layout(
        data, 2, 9,
        [lambda n: n == len(demands), lambda n: n == len(borders), lambda n: n == len(bids), lambda n: n == levels],
        lambda n: [4 * n[0], 4 * n[1], 4 * n[2], 8 * n[3] * n[0]])
    satisfied = [number(data, satisfied_at + 4 * k, 4, signed=True) for k in range(len(demands))]
    flows = [number(data, flow_at + 4 * k, 4, signed=True) for k in range(len(borders))]
    activated = [number(data, activated_at + 4 * k, 4) for k in range(len(bids))]
    prices = [tuple(number(data, price_at + 8 * (levels * k + i), 8, signed=True) for i in range(levels))
              for k in range(len(demands))]

    selection = satisfied, flows, activated
    ask_limits(case, selection)
    ask_prices(scale, case, selection, prices)
    return selection


def listing(case, selection):
    demands, borders, bids = case
    satisfied, flows, activated = selection
    lines = ["area demand satisfied unsatisfied up down export"]
    for k, demand in enumerate(demands):
        up, down = up_in(case, activated, k), down_in(case, activated, k)
        lines.append("%d %d %d %d %d %d %d" % (k, demand, satisfied[k], demand - satisfied[k], up, down, up - down - satisfied[k]))
    lines += ["flow %d %d" % (k, flow) for k, flow in enumerate(flows)]
    lines += ["bid %d %d" % (k, amount) for k, amount in enumerate(activated)]
    all_satisfied = sum(abs(x) for x in satisfied)
    all_activated = sum(activated)
    assert (all_satisfied - all_activated) % 2 == 0
    netted = (all_satisfied - all_activated) // 2
    cost = sum((1 if direction == 0 else -1) * price * x for (_, direction, _, price), x in zip(bids, activated))
    lines.append("total %d %d %d %d" % (all_satisfied, all_activated, netted, cost))
    return "".join(line + "\n" for line in lines)


def verify(case_data, proposal_data):
    netting = len(proposal_data) >= 32 and word(proposal_data, 7) == 1
    scale = NETTING if netting else ACTIVATION
    try:
        case = load(scale, case_data)
        selection = submit(scale, case, proposal_data)
    except Refused as refusal:
        return "refused", refusal.number, layer(refusal.number), refusal.place
    return "taken", listing(case, selection)


class Cycle:
    """An open cycle: its scale, its case, and the standing selection or None. A call that raises has changed nothing."""

    def __init__(self, scale):
        self.scale = scale
        self.case = [], [], []
        self.standing = None

    def named(self, table, k):
        """Question 18, of one of the case's three tables."""
        if k >= len(self.case[table]):
            raise Refused(18, k)

    def load(self, data):
        self.case = load(self.scale, data)
        self.standing = None

    def revise(self, area, demand):
        self.named(0, area)
        if not -20_000_000 <= demand <= 20_000_000:
            raise Refused(5, area)
        self.case[0][area] = demand
        self.standing = None

    def limit(self, border, forward, backward):
        self.named(1, border)
        if not (forward <= 20_000_000 and backward <= 20_000_000):
            raise Refused(7, border)
        start, end, _, _ = self.case[1][border]
        self.case[1][border] = start, end, forward, backward
        self.standing = None

    def withdraw(self, bid):
        self.named(2, bid)
        area, direction, _, price = self.case[2][bid]
        self.case[2][bid] = area, direction, 0, price
        self.standing = None

    def submit(self, data):
        self.standing = submit(self.scale, self.case, data)

    def read(self, item, k):
        table = ("area", "border", "bid").index(item)
        self.named(table, k)
        if self.standing is None:
            raise Refused(19, 0)
        return self.standing[table][k]


def replay(scale, calls):
    """What each call answers, as text. A call is the name of one of a cycle's methods, then what it is given."""
    cycle = Cycle(scale)
    answers = []
    for name, *given in calls:
        try:
            amount = getattr(cycle, name)(*given)
            answers.append("taken" if amount is None else "amount %d" % amount)
        except Refused as refusal:
            answers.append("refused %d %d %d" % (refusal.number, layer(refusal.number), refusal.place))
    return answers


def text(verdict):
    return verdict[1] if verdict[0] == "taken" else "refused %d %d %d\n" % verdict[1:]


def main(arguments):
    if len(arguments) != 2:
        print("usage: oracle.py CASE PROPOSAL", file=sys.stderr)
        return 2
    data = []
    for path in arguments:
        with open(path, "rb") as file:
            data.append(file.read())
    verdict = verify(*data)
    sys.stdout.write(text(verdict))
    return 0 if verdict[0] == "taken" else 1


if __name__ == "__main__":
    sys.exit(main(sys.argv[1:]))
