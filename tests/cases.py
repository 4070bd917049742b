"""Cases and proposals to try a verifier on. All of them are the same in every run.

Each function below gives a list of tests. A test is (name, case, proposal, expected): the two files' bytes, and either
the verdict written out by hand or None, where only the oracle says it.
"""

import copy
import random
import struct
import sys
from pathlib import Path

ROOT = Path(__file__).resolve().parent.parent
sys.path.insert(0, str(ROOT / "tools"))

from encode import case_bytes, proposal_bytes  # noqa: E402

I32 = (-2**31, 2**31 - 1)
I64 = (-2**63, 2**63 - 1)

EXAMPLE = ROOT / "examples" / "two-areas"
CASE = {
    "demands": [80, -120],
    "borders": [{"from": 0, "to": 1, "forward": 50, "backward": 50}],
    "bids": [{"area": 0, "direction": 0, "volume": 100, "price": 3000},
             {"area": 1, "direction": 1, "volume": 150, "price": 5000}],
}
PROPOSAL = {
    "satisfied": [80, -120],
    "flows": [-50],
    "activated": [30, 70],
    "prices": [[0, 1, 3000], [0, -1, 5000]],
}
EMPTY_CASE = {"demands": [], "borders": [], "bids": []}
EMPTY_PROPOSAL = {"satisfied": [], "flows": [], "activated": [], "prices": []}
NETTED_CASE = {**CASE, "bids": []}
NETTED_PROPOSAL = {"satisfied": [50, -50], "flows": [-50], "activated": [], "prices": [[1], [-1]]}


def changed(base, *changes):
    """A copy with some numbers set: each change is a path of keys and places, then the number."""
    result = copy.deepcopy(base)
    for change in changes:
        *path, last, value = change
        part = result
        for step in path:
            part = part[step]
        part[last] = value
    return result


def test(name, case, proposal, expected=None):
    case = case_bytes(case) if isinstance(case, dict) else case
    proposal = proposal_bytes(proposal) if isinstance(proposal, dict) else proposal
    return name, case, proposal, expected


def refused(number, place):
    layers = [1] * 4 + [2] * 5 + [3] * 4 + [4] * 4
    return "refused", number, layers[number - 1], place


def one_area(demand, satisfied, *price):
    return ({"demands": [demand], "borders": [], "bids": []},
            {"satisfied": [satisfied], "flows": [], "activated": [], "prices": [list(price)]})


def with_word(data, k, value):
    return data[:4 * k] + struct.pack("<I", value) + data[4 * k + 4:]


def example():
    """The shipped example and what follows from changing a number or two of it."""
    case, proposal = (EXAMPLE / "case").read_bytes(), (EXAMPLE / "proposal").read_bytes()
    taken = "taken", (EXAMPLE / "listing").read_text()
    short = one_area(10, 0, 1, 0, 0)
    heading = "area demand satisfied unsatisfied up down export\n"
    return [
        test("example", case, proposal, taken),
        test("example encoded", CASE, PROPOSAL, taken),
        test("second price 4,999", CASE, changed(PROPOSAL, ("prices", 1, 2, 4999)), refused(17, 1)),
        test("second price 5,001", CASE, changed(PROPOSAL, ("prices", 1, 2, 5001)), refused(17, 1)),
        test("cheaper, but more volume", CASE,
             changed(PROPOSAL, ("flows", 0, 0), ("activated", 0, 80), ("activated", 1, 120)), refused(16, 0)),
        test("flow -51", CASE, changed(PROPOSAL, ("flows", 0, -51)), refused(11, 0)),
        test("amount 31", CASE, changed(PROPOSAL, ("activated", 0, 31)), refused(13, 0)),
        test("satisfied 81", CASE, changed(PROPOSAL, ("satisfied", 0, 81)), refused(10, 0)),
        test("short area", *short, ("taken", heading + "0 10 0 10 0 0 0\ntotal 0 0 0 0\n")),
        test("volume and money do not outweigh demand", short[0],
             changed(short[1], ("prices", 0, [0, 8, 79999200])), refused(15, 0)),
        test("price (9, 0, 0)", short[0], changed(short[1], ("prices", 0, [9, 0, 0])), refused(14, 0)),
        test("netting", NETTED_CASE, NETTED_PROPOSAL,
             ("taken", heading + "0 80 50 30 0 0 -50\n1 -120 -50 -70 0 0 50\nflow 0 -50\ntotal 100 0 50 0\n")),
        test("demand 20,000,000", *one_area(20_000_000, 0, 1, 0, 0),
             ("taken", heading + "0 20000000 0 20000000 0 0 0\ntotal 0 0 0 0\n")),
        test("demand 20,000,001", *one_area(20_000_001, 0, 1, 0, 0), refused(5, 0)),
        test("empty case", EMPTY_CASE, EMPTY_PROPOSAL, ("taken", heading + "total 0 0 0 0\n")),
        test("empty case, example's proposal", EMPTY_CASE, PROPOSAL, refused(3, 1)),
        test("27 bytes", case_bytes(EMPTY_CASE)[:27], EMPTY_PROPOSAL, refused(1, 27)),
    ]


def questions():
    """For each question and each kind of place one refusal, with the place not always the first."""
    case, proposal = case_bytes(CASE), proposal_bytes(PROPOSAL)
    third = {"area": 1, "direction": 0, "volume": 0, "price": 0}
    bids = {**CASE, "bids": CASE["bids"] + [third]}
    filled = {**PROPOSAL, "activated": [30, 70, 0]}
    loop = {**CASE, "borders": CASE["borders"] + [{"from": 1, "to": 0, "forward": 0, "backward": 0}]}
    looped = {**PROPOSAL, "flows": [-50, 0]}
    tests = [
        test("1: empty case file", b"", proposal, refused(1, 0)),
        test("1: empty proposal file", case, b"", refused(1, 0)),
        test("1: case header cut", case[:27], proposal, refused(1, 27)),
        test("1: proposal header cut", case, proposal[:35], refused(1, 35)),
        test("1: before the kind", with_word(case, 0, 7)[:20], proposal, refused(1, 20)),
        test("2: case of kind 2", with_word(case, 0, 2), proposal, refused(2, 0)),
        test("2: proposal of kind 1", case, with_word(proposal, 0, 1), refused(2, 0)),
        test("2: files swapped", proposal, case, refused(2, 0)),
        test("3: bids where none take part", CASE, with_word(proposal, 7, 1), refused(3, 5)),
        test("3: bids where none take part, proposal cut behind word 7", CASE, with_word(proposal, 7, 1)[:32], refused(3, 5)),
        test("1: proposal cut in word 7", CASE, with_word(proposal, 7, 1)[:31], refused(1, 31)),
        test("4: three levels said, one there", NETTED_CASE, {**NETTED_PROPOSAL, "levels": 3}, refused(4, 9)),
        test("3: counts before offsets", with_word(with_word(case, 2, 0), 5, 1025), proposal, refused(3, 5)),
        test("5: second demand", changed(CASE, ("demands", 1, -20_000_001)), PROPOSAL, refused(5, 1)),
        test("6: from unknown", changed(CASE, ("borders", 0, "from", 2)), PROPOSAL, refused(6, 0)),
        test("6: to unknown", changed(CASE, ("borders", 0, "to", 2)), PROPOSAL, refused(6, 0)),
        test("6: ends equal", changed(loop, ("borders", 1, "to", 1)), looped, refused(6, 1)),
        test("6: before 7", changed(loop, ("borders", 1, "to", 1), ("borders", 0, "forward", 20_000_001)), looped, refused(6, 1)),
        test("7: forward", changed(CASE, ("borders", 0, "forward", 20_000_001)), PROPOSAL, refused(7, 0)),
        test("7: backward", changed(loop, ("borders", 1, "backward", 20_000_001)), looped, refused(7, 1)),
        test("8: area", changed(CASE, ("bids", 1, "area", 2)), PROPOSAL, refused(8, 1)),
        test("8: direction", changed(CASE, ("bids", 1, "direction", 2)), PROPOSAL, refused(8, 1)),
        test("8: before 9", changed(CASE, ("bids", 1, "direction", 2), ("bids", 0, "volume", 9_999_001)), PROPOSAL, refused(8, 1)),
        test("9: volume", changed(CASE, ("bids", 1, "volume", 9_999_001)), PROPOSAL, refused(9, 1)),
        test("9: price", changed(CASE, ("bids", 0, "price", -9_999_901)), PROPOSAL, refused(9, 0)),
        test("10: wrong sign", CASE, changed(PROPOSAL, ("satisfied", 1, 1)), refused(10, 1)),
        test("10: before 11", CASE, changed(PROPOSAL, ("satisfied", 1, 1), ("flows", 0, 51)), refused(10, 1)),
        test("11: forward", CASE, changed(PROPOSAL, ("flows", 0, 51)), refused(11, 0)),
        test("11: second border", loop, changed(looped, ("flows", 1, 1)), refused(11, 1)),
        test("12: above the volume", CASE, changed(PROPOSAL, ("activated", 1, 151)), refused(12, 1)),
        test("12: no volume", bids, changed(filled, ("activated", 2, 1)), refused(12, 2)),
        test("13: second area", CASE, changed(PROPOSAL, ("activated", 1, 71)), refused(13, 1)),
        test("13: before 14", CASE, changed(PROPOSAL, ("activated", 1, 71), ("prices", 0, 0, 9)), refused(13, 1)),
        test("14: volume level", CASE, changed(PROPOSAL, ("prices", 1, 1, -9)), refused(14, 1)),
        test("14: money level", CASE, changed(PROPOSAL, ("prices", 1, 2, 79_999_201)), refused(14, 1)),
        test("14: before 15", CASE, changed(PROPOSAL, ("prices", 1, 1, -9), ("prices", 0, 0, 2)), refused(14, 1)),
        test("15: satisfied too dear", CASE, changed(PROPOSAL, ("prices", 0, 0, 2)), refused(15, 0)),
        test("15: surplus", CASE, changed(PROPOSAL, ("prices", 1, 0, -2)), refused(15, 1)),
        test("16: full backward, prices the other way", CASE, changed(PROPOSAL, ("prices", 0, [0, -1, 4999])), refused(16, 0)),
        test("16: before 17", CASE, changed(PROPOSAL, ("prices", 0, [0, -1, 4999]), ("prices", 1, 2, 5001)), refused(16, 0)),
        test("17: idle up bid that is cheap enough", changed(bids, ("bids", 2, {"area": 0, "direction": 0, "volume": 1, "price": 2999})),
             filled, refused(17, 2)),
        test("17: idle bid at the price", changed(bids, ("bids", 2, {"area": 0, "direction": 0, "volume": 1, "price": 3000})), filled,
             ("taken", (EXAMPLE / "listing").read_text().replace("total", "bid 2 0\ntotal"))),
        test("17: idle down bid that is dear enough", changed(bids, ("bids", 2, {"area": 1, "direction": 1, "volume": 1, "price": 5001})),
             filled, refused(17, 2)),
    ]
    for word, count in ((1, 49), (3, 129), (5, 1025)):
        tests.append(test("3: case count in word %d" % word, with_word(case, word, count), proposal, refused(3, word)))
    for word in (1, 3, 5, 7):
        tests.append(test("3: proposal count in word %d" % word, case, with_word(proposal, word, 4), refused(3, word)))
    for word in (2, 4, 6):
        tests.append(test("4: case offset in word %d" % word, with_word(case, word, 32), proposal, refused(4, word)))
    for word in (2, 4, 6, 8):
        tests.append(test("4: proposal offset in word %d" % word, case, with_word(proposal, word, 40), refused(4, word)))
    tests += [
        test("4: case one byte short", case[:-1], proposal, refused(4, 7)),
        test("4: case one byte long", case + b"\0", proposal, refused(4, 7)),
        test("4: proposal one byte short", case, proposal[:-1], refused(4, 9)),
        test("4: proposal one byte long", case, proposal + b"\0", refused(4, 9)),
        test("4: case 1 MB long", case + bytes(1_000_000), proposal, refused(4, 7)),
        test("4: proposal 1 MB long", case, proposal + bytes(1_000_000), refused(4, 9)),
        test("4: both 1 MB long", case + b"\xff" * 1_000_000, proposal + b"\xff" * 1_000_000, refused(4, 7)),
        test("1 MB of nothing", bytes(1_000_000), proposal, refused(2, 0)),
    ]
    return tests


def cuts():
    """Every length of both files, of the example and of the netting example."""
    tests = []
    for name, case, proposal in (("example", case_bytes(CASE), proposal_bytes(PROPOSAL)),
                                 ("netting", case_bytes(NETTED_CASE), proposal_bytes(NETTED_PROPOSAL))):
        for length in range(len(case)):
            tests.append(test("%s: case cut to %d" % (name, length), case[:length], proposal,
                              refused(1, length) if length < 28 else refused(4, 7)))
        for length in range(len(proposal)):
            if name == "netting" and length < 32:
                expected = refused(1, length)
            else:
                expected = refused(1, length) if length < 36 else refused(4, 9)
            tests.append(test("%s: proposal cut to %d" % (name, length), case, proposal[:length], expected))
    return tests


def header_words():
    """Every header word of both files set to many numbers."""
    tests = []
    for name, case, proposal in (("example", case_bytes(CASE), proposal_bytes(PROPOSAL)),
                                 ("netting", case_bytes(NETTED_CASE), proposal_bytes(NETTED_PROPOSAL)),
                                 ("empty", case_bytes(EMPTY_CASE), proposal_bytes(EMPTY_PROPOSAL))):
        for file, words, data in (("case", 7, case), ("proposal", 9, proposal)):
            for k in range(words):
                held = struct.unpack_from("<I", data, 4 * k)[0]
                for value in sorted({0, 1, 2, 3, 17, 28, 36, 48, 49, 128, 129, 1024, 1025, held - 1 & 0xFFFFFFFF, held + 1, held + 4,
                                     held + 256, held + 65536, held + 2**24, 2**31, 2**32 - 1} - {held}):
                    other = with_word(data, k, value)
                    tests.append(test("%s: %s word %d is %d" % (name, file, k, value),
                                      other if file == "case" else case, other if file == "proposal" else proposal))
    return tests


def random_bytes():
    """Bytes without sense, some behind a header that is right."""
    rng = random.Random(20260101)
    case, proposal = case_bytes(CASE), proposal_bytes(PROPOSAL)
    tests = []
    for k in range(120):
        tests.append(test("random case %d" % k, rng.randbytes(rng.randrange(200)), proposal))
        tests.append(test("random proposal %d" % k, case, rng.randbytes(rng.randrange(200))))
        tests.append(test("random tables %d" % k, case[:28] + rng.randbytes(44), proposal))
        tests.append(test("random sections %d" % k, case, proposal[:36] + rng.randbytes(68)))
        noisy_case, noisy_proposal = bytearray(case), bytearray(proposal)
        noisy_case[rng.randrange(72)] ^= 1 << rng.randrange(8)
        noisy_proposal[rng.randrange(104)] ^= 1 << rng.randrange(8)
        tests.append(test("one bit of the case %d" % k, bytes(noisy_case), proposal))
        tests.append(test("one bit of the proposal %d" % k, case, bytes(noisy_proposal)))
    return tests


def ends():
    """The ends of every range, and one past them."""
    tests = []
    # demands, fully unsatisfied
    for demand in (0, 1, -1, 20_000_000, 20_000_001, -20_000_000, -20_000_001, *I32):
        price = (1, 0, 0) if demand > 0 else (-1, 0, 0)
        tests.append(test("demand %d" % demand, *one_area(demand, 0, *price)))
    # satisfied amounts, at the price that allows any
    for demand in (0, 1, -1, 10, -10, 20_000_000, -20_000_000):
        for satisfied in sorted({0, 1, -1, demand, demand - 1, demand + 1, -demand, *I32}):
            tests.append(test("satisfied %d of %d" % (satisfied, demand), *one_area(demand, satisfied, 1 if demand > 0 else -1, 0, 0)))
    # prices of an area with an unsatisfied demand, with none, and with a demand that is met from a bid
    levels = [(-9, -8, -2, -1, 0, 1, 2, 8, 9, *I64), (-9, -8, -1, 0, 1, 8, 9, *I64),
              (-79_999_201, -79_999_200, -1, 0, 1, 79_999_200, 79_999_201, *I64)]
    for demand in (10, 0, -10):
        for i in range(3):
            for level in levels[i]:
                for base in ([0, 0, 0], [1, 0, 0], [-1, 0, 0]):
                    price = list(base)
                    price[i] = level
                    tests.append(test("demand %d at price %s" % (demand, price), *one_area(demand, 0, *price)))
        for level in levels[0]:
            tests.append(test("demand %d netted at price %d" % (demand, level), *one_area(demand, 0, level)))
    # limits and flows of a border between areas of equal and of different prices
    for forward, backward in ((0, 0), (20_000_000, 0), (0, 20_000_000), (20_000_000, 20_000_000), (20_000_001, 0), (0, 20_000_001),
                              (2**31, 0), (0, 2**31), (2**32 - 1, 0), (0, 2**32 - 1)):
        border = {"from": 0, "to": 1, "forward": forward, "backward": backward}
        for flow in sorted({0, 1, -1, 20_000_000, 20_000_001, -20_000_000, -20_000_001, *I32}):
            amount = max(-20_000_000, min(20_000_000, flow))
            case = {"demands": [-amount, amount], "borders": [border], "bids": []}
            for price_from in (0, 1, -1):
                tests.append(test("flow %d within %d and %d, from price %d" % (flow, forward, backward, price_from), case,
                                  {"satisfied": [-amount, amount], "flows": [flow], "activated": [],
                                   "prices": [[0, 0, price_from], [0, 0, 0]]}))
    # volumes, prices and amounts of a bid that meets a demand at its own price
    for direction, sign in ((0, 1), (1, -1)):
        for volume in (0, 1, 9_999_000, 9_999_001, 2**31, 2**32 - 1):
            for amount in sorted({0, 1, 9_999_000, 9_999_001, volume, max(volume - 1, 0), min(volume + 1, 2**32 - 1), 2**32 - 1}):
                met = min(amount, 20_000_000)
                case = {"demands": [sign * met], "borders": [],
                        "bids": [{"area": 0, "direction": direction, "volume": volume, "price": 70}]}
                tests.append(test("direction %d: %d of volume %d" % (direction, amount, volume), case,
                                  {"satisfied": [sign * met], "flows": [], "activated": [amount], "prices": [[0, sign, 70]]}))
        for price in (0, 1, -1, 9_999_900, 9_999_901, -9_999_900, -9_999_901, *I32):
            case = {"demands": [sign * 5], "borders": [], "bids": [{"area": 0, "direction": direction, "volume": 9, "price": price}]}
            for off in (-1, 0, 1):
                for amount in (0, 5, 9):
                    tests.append(test("direction %d: %d at bid price %d, area price off by %d" % (direction, amount, price, off),
                                      changed(case, ("demands", 0, sign * amount)),
                                      {"satisfied": [sign * amount], "flows": [], "activated": [amount],
                                       "prices": [[0, sign, price + off]]}))
    # numbers of areas and directions
    for area in (0, 1, 2, 3, 255, 256, 65535):
        tests.append(test("bid in area %d" % area, changed(CASE, ("bids", 0, "area", area)), PROPOSAL))
        tests.append(test("border from area %d" % area, changed(CASE, ("borders", 0, "from", area)), PROPOSAL))
        tests.append(test("border to area %d" % area, changed(CASE, ("borders", 0, "to", area)), PROPOSAL))
    for direction in (0, 1, 2, 256, 257, 65535):
        tests.append(test("direction %d" % direction, changed(CASE, ("bids", 0, "direction", direction)), PROPOSAL))
    # counts of records that are really there
    for areas, borders, bids in ((48, 128, 1024), (49, 128, 1024), (48, 129, 1024), (48, 128, 1025), (0, 0, 0), (1, 0, 0), (0, 1, 0),
                                 (0, 0, 1), (1, 1, 0), (1, 0, 1024), (2, 128, 0), (48, 0, 0)):
        case = {"demands": [0] * areas, "borders": [{"from": 0, "to": 1, "forward": 0, "backward": 0}] * borders,
                "bids": [{"area": 0, "direction": 1, "volume": 0, "price": 0}] * bids}
        proposal = {"satisfied": [0] * areas, "flows": [0] * borders, "activated": [0] * bids, "prices": [[0, 0, 0]] * areas}
        tests.append(test("%d areas, %d borders, %d bids" % (areas, borders, bids), case, proposal))
        tests.append(test("%d areas, %d borders, %d bids, netting" % (areas, borders, bids), case,
                          {**proposal, "prices": [[0]] * areas, "levels": 1}))
    return tests


def large_sums():
    """Sums that pass 32 bits, and totals that are as large as they get."""
    tests = []
    # bids that add up to 2^32 and to 2^31 do not balance an area of demand 0
    for whole in (2**31, 2**32, 2**33):
        amounts = [9_999_000] * (whole // 9_999_000) + [whole % 9_999_000]
        for direction in (0, 1):
            case = {"demands": [0], "borders": [],
                    "bids": [{"area": 0, "direction": direction, "volume": 9_999_000, "price": 0}] * len(amounts)}
            tests.append(test("bids of direction %d add up to %d" % (direction, whole), case,
                              {"satisfied": [0], "flows": [], "activated": amounts, "prices": [[0, 0, 0]]}, refused(13, 0)))
    # as much up as down in one area balances, and is never best
    bids = [{"area": 0, "direction": k % 2, "volume": 9_999_000, "price": 0} for k in range(1024)]
    tests.append(test("all up against all down", {"demands": [0], "borders": [], "bids": bids},
                      {"satisfied": [0], "flows": [], "activated": [9_999_000] * 1024, "prices": [[0, 0, 0]]}, refused(17, 0)))
    # flows that add up past 31 bits
    borders = [{"from": k % 2, "to": 1 - k % 2, "forward": 20_000_000, "backward": 20_000_000} for k in range(128)]
    case = {"demands": [0, 0], "borders": borders, "bids": []}
    around = {"satisfied": [0, 0], "flows": [20_000_000] * 128, "activated": [], "prices": [[0, 5, 5], [0, 5, 5]]}
    across = {**around, "flows": [20_000_000 * (1 - 2 * (k % 2)) for k in range(128)]}
    tests.append(test("flows around", case, around))
    tests.append(test("flows across", case, across, refused(13, 0)))
    # 48 areas of the largest demand, met from bids of the highest price
    for sign, direction in ((1, 0), (-1, 1)):
        for price in (9_999_900, -9_999_900):
            case = {"demands": [sign * 20_000_000] * 48, "borders": [],
                    "bids": [{"area": k // 3, "direction": direction, "volume": 9_999_000, "price": price} for k in range(144)]}
            proposal = {"satisfied": [sign * 20_000_000] * 48, "flows": [], "activated": [9_999_000, 9_999_000, 2_000] * 48,
                        "prices": [[0, sign, price]] * 48}
            tests.append(test("largest demand %d at %d" % (sign, price), case, proposal))
    return tests


# Cases with a proposal that is taken: prices first, then every bid and flow as the prices ask, then the demands that balance.


def area_price(rng, levels, common):
    """A price at which any demand that balances can be satisfied in full."""
    if levels == 1:
        return (rng.choice((-1, 0, 1)),)
    kind = rng.randrange(10)
    if kind < 3:
        return 0, 1, rng.choice(common)
    if kind < 6:
        return 0, -1, rng.choice(common)
    if kind == 6:
        return 0, 0, rng.randrange(-10_000, 10_001)
    if kind == 7:
        return rng.choice(((1, 0, 0), (-1, 0, 0)))
    if kind == 8:
        return 0, rng.choice((-8, -3, -2, 2, 3, 8)), rng.randrange(-79_999_200, 79_999_201)
    return rng.choice(((1, -1, 5), (1, 0, -7), (-1, 0, 3), (-1, 2, 0)))


def amount_by_order(rng, lower, upper, left, right):
    """The largest or the smallest amount as the order asks, and any where it asks for none."""
    if left < right:
        return upper
    if left > right:
        return lower
    return rng.choice((lower, upper, rng.randint(lower, upper)))


def taken_case(rng, areas, borders, bids, most, levels=3):
    """A case of these counts, with volumes and limits up to most, and a proposal that is taken."""
    common = [rng.randrange(-5_000, 5_001) for _ in range(max(1, areas // 6))]
    prices = [area_price(rng, levels, common) for _ in range(areas)]
    net = [0] * areas
    case = {"demands": [], "borders": [], "bids": []}
    proposal = {"satisfied": [], "flows": [], "activated": [], "prices": [list(price) for price in prices], "levels": levels}
    for _ in range(borders):
        start = rng.randrange(areas)
        end = (start + 1 + rng.randrange(areas - 1)) % areas
        forward, backward = rng.choice((0, rng.randint(0, most))), rng.randint(0, most)
        flow = amount_by_order(rng, -backward, forward, prices[start], prices[end])
        net[start] -= flow
        net[end] += flow
        case["borders"].append({"from": start, "to": end, "forward": forward, "backward": backward})
        proposal["flows"].append(flow)
    for _ in range(bids):
        area, direction = rng.randrange(areas), rng.randrange(2)
        p = prices[area]
        near = max(-9_999_900, min(9_999_900, p[2]))
        price = rng.choice((near, max(-9_999_900, near - 1), min(9_999_900, near + 1), rng.randrange(-20_000, 20_001)))
        volume = rng.choice((0, rng.randint(0, most), rng.randint(0, most)))
        if direction == 0:
            amount = amount_by_order(rng, 0, volume, (0, 1, price), p)
        else:
            amount = amount_by_order(rng, 0, volume, (p[0], 1 + p[1], p[2] - price), (0, 0, 0))
        net[area] += amount if direction == 0 else -amount
        case["bids"].append({"area": area, "direction": direction, "volume": volume, "price": price})
        proposal["activated"].append(amount)
    for area in range(areas):
        # at exactly (1, 0, 0) a positive demand may stay open, at (-1, 0, 0) a negative one
        spare, open_side = 0, prices[area][0]
        if open_side and not any(prices[area][1:]) and net[area] * open_side >= 0:
            spare = open_side * rng.randint(0, most)
        case["demands"].append(net[area] + spare)
        proposal["satisfied"].append(net[area])
    return case, proposal


BORDER_FIELDS = ((0, "<H", "from"), (2, "<H", "to"), (4, "<I", "forward"), (8, "<I", "backward"))
BID_FIELDS = ((0, "<H", "area"), (2, "<H", "direction"), (4, "<I", "volume"), (8, "<i", "price"))


def number_places(case, levels):
    """Where each number of the tables stands, by kind: lists of (file, offset, format, place)."""
    areas, borders, bids = len(case["demands"]), len(case["borders"]), len(case["bids"])
    border_at = 28 + 4 * areas
    bid_at = border_at + 12 * borders
    flow_at = 36 + 4 * areas
    activated_at = flow_at + 4 * borders
    price_at = activated_at + 4 * bids
    kinds = {
        "demand": [(0, 28 + 4 * k, "<i", k) for k in range(areas)],
        "satisfied": [(1, 36 + 4 * k, "<i", k) for k in range(areas)],
        "flow": [(1, flow_at + 4 * k, "<i", k) for k in range(borders)],
        "activated": [(1, activated_at + 4 * k, "<I", k) for k in range(bids)],
    }
    for at, form, name in BORDER_FIELDS:
        kinds["border's " + name] = [(0, border_at + 12 * k + at, form, k) for k in range(borders)]
    for at, form, name in BID_FIELDS:
        kinds["bid's " + name] = [(0, bid_at + 12 * k + at, form, k) for k in range(bids)]
    for level in range(levels):
        kinds["level %d of price" % level] = [(1, price_at + 8 * (levels * k + level), "<q", k) for k in range(areas)]
    return {kind: places for kind, places in kinds.items() if places}


def mutations(rng, name, case, proposal, levels, count):
    """The case or the proposal with one number changed a little, or to an end of what its bytes hold."""
    files = case_bytes(case), proposal_bytes(proposal)
    kinds = number_places(case, levels)
    tests = []
    for k in range(count):
        # every kind of number as often as every other
        kind = sorted(kinds)[(k + rng.randrange(2)) % len(kinds)]
        file, offset, form, place = rng.choice(kinds[kind])
        bits = 8 * struct.calcsize(form)
        least, most = (0, 2**bits - 1) if form[1].isupper() else (-2**(bits - 1), 2**(bits - 1) - 1)
        held = struct.unpack_from(form, files[file], offset)[0]
        value = rng.choice((held - 1, held + 1, held - 1, held + 1, held - 2, -held, 0, 1, least, most))
        value = max(least, min(most, value))
        if value == held:
            value = held + 1 if held < most else held - 1
        data = [bytearray(files[0]), bytearray(files[1])]
        struct.pack_into(form, data[file], offset, value)
        tests.append(test("%s: %s %d from %d to %d" % (name, kind, place, held, value), bytes(data[0]), bytes(data[1])))
    return tests


def small():
    """Small cases from a seed: a proposal that is taken, and single numbers changed in it."""
    rng = random.Random(7)
    tests = []
    for k in range(150):
        levels = rng.choice((1, 3, 3))
        areas = rng.randint(1, 4)
        borders = rng.randint(0, 4) if areas > 1 else 0
        bids = rng.randint(0, 6) if levels == 3 else 0
        most = rng.choice((1, 3, 20, 1_000_000))
        case, proposal = taken_case(rng, areas, borders, bids, most, levels)
        name = "small %d" % k
        files = case_bytes(case), proposal_bytes(proposal)
        tests.append((name, *files, "taken"))
        tests += mutations(rng, name, case, proposal, levels, 8)
    return tests


def full_size():
    """Cases of 48 areas, 128 borders and 1,024 bids from a seed, and single numbers changed in them."""
    rng = random.Random(48_128_1024)
    tests = []
    for k in range(8):
        levels = 1 if k % 4 == 3 else 3
        case, proposal = taken_case(rng, 48, 128, 1024 if levels == 3 else 0, 300_000, levels)
        name = "full %d" % k
        tests.append((name, case_bytes(case), proposal_bytes(proposal), "taken"))
        tests += mutations(rng, name, case, proposal, levels, 50)
    return tests


ALL = [example, questions, cuts, header_words, random_bytes, ends, large_sums, small, full_size]
