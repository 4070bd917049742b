#!/usr/bin/env python3
"""Write a case file or a proposal file from readable numbers.

    tools/encode.py case     INPUT.json OUTPUT
    tools/encode.py proposal INPUT.json OUTPUT

A case is written as

    { "demands": [80, -120],
      "borders": [ {"from": 0, "to": 1, "forward": 50, "backward": 50} ],
      "bids":    [ {"area": 0, "direction": "up", "volume": 100, "price": 3000} ] }

and a proposal as

    { "satisfied": [80, -120],
      "flows":     [-50],
      "activated": [30],
      "prices":    [ [0, 1, 3000], [0, -1, 5000] ] }

Demands, limits, volumes, satisfied amounts, flows and activated amounts are whole kilowatts; bid prices are whole
cents per MWh. A direction is "up", "down" or a number. The number of levels is the length of the first price; with
no areas, or to write another number into the header, give it as "levels" (3 where nothing else says).

The encoder lays numbers out and judges nothing: whatever fits its field is written, so that refused files can be
made too. It is a helper. No proof and no verdict rests on it.
"""

import json
import struct
import sys

DIRECTIONS = {"up": 0, "down": 1}


def header(kind, counts, offsets):
    """The kind, then each count followed by the offset of its table."""
    words = [kind]
    for count, offset in zip(counts, offsets):
        words += [count, offset]
    return struct.pack("<%dI" % len(words), *words)


def tables(kind, words, parts):
    """A header of so many words and the tables behind it. A part is (count, bytes)."""
    offset = 4 * words
    offsets = []
    for _, table in parts:
        offsets.append(offset)
        offset += len(table)
    return header(kind, [count for count, _ in parts], offsets) + b"".join(table for _, table in parts)


def border_bytes(border):
    return struct.pack("<HHII", border["from"], border["to"], border["forward"], border["backward"])


def bid_bytes(bid):
    direction = bid["direction"]
    return struct.pack("<HHIi", bid["area"], DIRECTIONS.get(direction, direction), bid["volume"], bid["price"])


def case_bytes(case):
    demands, borders, bids = case["demands"], case["borders"], case["bids"]
    return tables(1, 7, [
        (len(demands), struct.pack("<%di" % len(demands), *demands)),
        (len(borders), b"".join(map(border_bytes, borders))),
        (len(bids), b"".join(map(bid_bytes, bids))),
    ])


def proposal_bytes(proposal):
    satisfied, flows = proposal["satisfied"], proposal["flows"]
    activated, prices = proposal["activated"], proposal["prices"]
    levels = proposal.get("levels", len(prices[0]) if prices else 3)
    numbers = [level for price in prices for level in price]
    return tables(2, 9, [
        (len(satisfied), struct.pack("<%di" % len(satisfied), *satisfied)),
        (len(flows), struct.pack("<%di" % len(flows), *flows)),
        (len(activated), struct.pack("<%dI" % len(activated), *activated)),
        (levels, struct.pack("<%dq" % len(numbers), *numbers)),
    ])


def main(arguments):
    kinds = {"case": case_bytes, "proposal": proposal_bytes}
    if len(arguments) != 3 or arguments[0] not in kinds:
        print("usage: encode.py case|proposal INPUT.json OUTPUT", file=sys.stderr)
        return 2
    kind, source, target = arguments
    try:
        with open(source, encoding="utf-8") as file:
            content = kinds[kind](json.load(file))
        with open(target, "wb") as file:
            file.write(content)
    except OSError as trouble:
        print("encode: %s" % trouble, file=sys.stderr)
        return 1
    except (KeyError, TypeError, ValueError, struct.error) as trouble:
        print("encode: %s: %s: %s" % (source, type(trouble).__name__, trouble), file=sys.stderr)
        return 1
    return 0


if __name__ == "__main__":
    sys.exit(main(sys.argv[1:]))
