#!/usr/bin/env python3
"""Run a program `replay` on sequences of calls and compare each answer with the oracle's.

    tests/replay_tests.py PROGRAM

The program reads the file `calls` in its working folder, or a path given as an argument, and writes one answer to a line:
`taken`, `amount N` or `refused NUMBER LAYER PLACE`. The status is 0 when every call was made. Where a line or a file cannot
be read, there is a message on standard error with the line's number, nothing on standard output, and status 1. Prints what
failed, then 'N passed, M failed', and ends with a status that is not 0 when anything failed.
"""

import os
import random
import sys
import tempfile
from collections import Counter
from concurrent.futures import ThreadPoolExecutor
from pathlib import Path

import cases
import oracle
from verify_tests import WORKERS, Program, brief, in_trouble, informs

SEQUENCES = 400
U32_PAST = 2**32
I32_PAST = 2**31
USIZE_PAST = 2**64
SCALES = {1: oracle.NETTING, 3: oracle.ACTIVATION}


class Sequence:
    """Calls as the program reads them, the files that they name, and the same calls as the oracle takes them."""

    def __init__(self, name, levels):
        self.name, self.levels = name, levels
        self.lines, self.files, self.calls = [], {}, []

    def add(self, name, *given):
        self.lines.append(" ".join([name, *map(str, given)]))
        self.calls.append((name, *given))

    def add_file(self, name, data):
        """A `load` or a `submit`; equal contents are one file."""
        for path, held in self.files.items():
            if held == data:
                break
        else:
            path = "file%d" % len(self.files)
            self.files[path] = data
        self.lines.append("%s %s" % (name, path))
        self.calls.append((name, data))


def run(program, text, files, path=None):
    """In a fresh folder with these files and the list of calls, under its own name or by a path."""
    with tempfile.TemporaryDirectory() as folder:
        for name, data in files.items():
            (Path(folder) / name).write_bytes(data)
        (Path(folder) / (path or "calls")).write_bytes(text if isinstance(text, bytes) else text.encode())
        return program.run(folder, *([path] if path else []))


def wrong_answers(ended, expected):
    """What is wrong with how the program ended, or nothing."""
    if ended is None:
        return "did not end"
    printed = ended.stdout.decode(errors="replace").split("\n")
    if printed != expected + [""]:
        for k, (got, wanted) in enumerate(zip(printed, expected + [""])):
            if got != wanted:
                return "answer %d is %s, expected %s" % (k, brief(got), brief(wanted))
        return "%d lines, expected %d" % (len(printed) - 1, len(expected))
    if ended.returncode != 0:
        return "status %d" % ended.returncode
    return None


# Random sequences.


def damaged(rng, data):
    """Bytes with something wrong in them, mostly; a changed number may still be allowed."""
    kind = rng.randrange(5)
    if kind == 0:
        return data[:rng.randrange(len(data))]
    if kind == 1:
        return data + bytes(rng.randint(1, 4))
    if kind == 2:
        word = rng.randrange(9 if data[0] == 2 else 7)
        return cases.with_word(data, word, rng.choice((0, 1, 2, 3, 49, 129, 1025, 2**32 - 1)))
    at = rng.randrange(28, len(data)) if len(data) > 28 else rng.randrange(len(data))
    bit = 1 << rng.randrange(8) if kind == 3 else 1
    return data[:at] + bytes([data[at] ^ bit]) + data[at + 1:]


def flow_asked(rng, border, prices):
    return cases.amount_by_order(rng, -border["backward"], border["forward"], prices[border["from"]], prices[border["to"]])


def reworked(rng, sequence, case, proposal):
    """Takes a bid away or sets a border's limits, then revises the demands so that the prices fit again; the case and the
    proposal that follow from it."""
    case, proposal = cases.changed(case), cases.changed(proposal)
    prices = [tuple(price) for price in proposal["prices"]]
    moved = {}
    if case["bids"] and (not case["borders"] or rng.randrange(2)):
        k = rng.randrange(len(case["bids"]))
        bid = case["bids"][k]
        amount = proposal["activated"][k]
        moved[bid["area"]] = -amount if bid["direction"] == 0 else amount
        bid["volume"] = proposal["activated"][k] = 0
        sequence.add("withdraw", k)
    elif case["borders"]:
        k = rng.randrange(len(case["borders"]))
        border = case["borders"][k]
        border["forward"], border["backward"] = rng.choice((0, 1, 7, 300, 10_000)), rng.choice((0, 1, 7, 300, 10_000))
        flow = flow_asked(rng, border, prices)
        moved[border["from"]] = proposal["flows"][k] - flow
        moved[border["to"]] = flow - proposal["flows"][k]
        proposal["flows"][k] = flow
        sequence.add("limit", k, border["forward"], border["backward"])
    for area, more in sorted(moved.items()):
        proposal["satisfied"][area] += more
        case["demands"][area] = proposal["satisfied"][area]
        sequence.add("revise", area, case["demands"][area])
    return case, proposal


def some_number(rng, count):
    """Mostly a number below the count."""
    if count and rng.randrange(8):
        return rng.randrange(count)
    return rng.choice((count, count + 1, 48, 128, 1024, 2**31, 2**32, 2**63, USIZE_PAST - 1))


def read_some(rng, sequence, case):
    item, table = rng.choice((("area", "demands"), ("border", "borders"), ("bid", "bids")))
    sequence.add("read", item, some_number(rng, len(case[table])))


def change_something(rng, sequence, case):
    """A change that keeps a value, makes another one, or is refused. What the case becomes is left to the oracle."""
    kind = rng.randrange(3)
    if kind == 0:
        area = some_number(rng, len(case["demands"]))
        held = case["demands"][area] if area < len(case["demands"]) else 0
        sequence.add("revise", area, rng.choice((held, held, held + 1, -held, 0, 20_000_000, -20_000_000, 20_000_001, -20_000_001,
                                                 *cases.I32)))
    elif kind == 1:
        border = some_number(rng, len(case["borders"]))
        held = case["borders"][border] if border < len(case["borders"]) else {"forward": 0, "backward": 0}
        limits = [rng.choice((held[side], held[side], held[side], held[side] + 1, 0, 20_000_000, 20_000_001, U32_PAST - 1))
                  for side in ("forward", "backward")]
        sequence.add("limit", border, *limits)
    else:
        sequence.add("withdraw", some_number(rng, len(case["bids"])))


def random_case(rng, levels):
    areas = rng.randint(1, 4)
    borders = rng.randint(0, 4) if areas > 1 else 0
    bids = rng.randint(0, 6) if levels == 3 else 0
    return cases.taken_case(rng, areas, borders, bids, rng.choice((1, 3, 20, 1_000_000)), levels)


def random_sequence(rng, k):
    """Two cases and their proposals, loaded, changed, submitted and read in a random order."""
    levels = rng.choice((1, 3, 3))
    sequence = Sequence("random %d" % k, levels)
    known = [random_case(rng, levels), random_case(rng, levels), random_case(rng, 4 - levels)]
    case, proposal = cases.EMPTY_CASE, {**cases.EMPTY_PROPOSAL, "levels": levels}
    if rng.randrange(4):
        case, proposal = known[0]
        sequence.add_file("load", cases.case_bytes(case))
    for _ in range(rng.randint(3, 20)):
        step = rng.randrange(12)
        if step == 0:
            fresh = rng.choice(known)
            sequence.add_file("load", cases.case_bytes(fresh[0]))
            # a case with bids is refused where none take part
            if fresh is not known[2] or levels == 3 or not fresh[0]["bids"]:
                case, proposal = fresh
        elif step == 1:
            sequence.add_file("load", damaged(rng, cases.case_bytes(rng.choice(known)[0])))
        elif step == 2:
            sequence.add_file("submit", damaged(rng, cases.proposal_bytes(proposal)))
        elif step == 3:
            sequence.add_file("submit", cases.proposal_bytes(rng.choice(known)[1]))
        elif step == 4:
            case, proposal = reworked(rng, sequence, case, proposal)
            sequence.add_file("submit", cases.proposal_bytes(proposal))
            read_some(rng, sequence, case)
        elif step == 5:
            _, data, other, _ = rng.choice(cases.mutations(rng, "", *known[0], levels, 3))
            sequence.add_file("load", data)
            sequence.add_file("submit", other)
        elif step <= 7:
            change_something(rng, sequence, case)
        elif step <= 9:
            sequence.add_file("submit", cases.proposal_bytes(proposal))
        else:
            read_some(rng, sequence, case)
    for item, table in (("area", "demands"), ("border", "borders"), ("bid", "bids")):
        for number in range(len(case[table])):
            sequence.add("read", item, number)
    return sequence


def scale_lines(rng, levels):
    if levels == 1:
        return ["scale netting"]
    return rng.choice(([], ["scale activation"]))


def noisy(rng, lines):
    """The same lines with blank lines, remarks and more space between them."""
    text = []
    for line in lines:
        for _ in range(rng.randrange(8) // 6):
            text.append(rng.choice(("", "   ", "# a remark", "#load nothing", "\t")))
        text.append(rng.choice((line, line, line, "  " + line, line + " ", line.replace(" ", "   "), line.replace(" ", "\t"))))
    return "\n".join(text) + rng.choice(("", "\n", "\n\n"))


def random_sequences(program):
    """Every answer of every sequence; and that together they get every answer there is."""
    rng = random.Random(11)
    tests = []
    seen = Counter()
    for k in range(SEQUENCES):
        sequence = random_sequence(rng, k)
        expected = oracle.replay(SCALES[sequence.levels], sequence.calls)
        for (name, *_), answer in zip(sequence.calls, expected):
            seen[name, answer.split()[0]] += 1
            if answer.startswith("refused"):
                seen[int(answer.split()[1])] += 1
        text = noisy(rng, scale_lines(rng, sequence.levels) + sequence.lines)
        tests.append((sequence, text, expected, "list" if k % 5 == 0 else None))

    def tried(test):
        sequence, text, expected, path = test
        return sequence.name, wrong_answers(run(program, text, sequence.files, path), expected)

    with ThreadPoolExecutor(WORKERS) as pool:
        results = list(pool.map(tried, tests))
    wanted = [(name, "taken") for name in ("load", "submit", "revise", "limit", "withdraw")] + [("read", "amount")]
    wanted += [(name, "refused") for name in ("load", "submit", "revise", "limit", "withdraw", "read")] + list(range(1, 20))
    for kind in wanted:
        results.append(("some answer is %s" % (kind,), None if seen[kind] else "none of the sequences gets it"))
    return results


# Sequences written by hand, with the answers by the rules.


def written(program):
    case, proposal = cases.case_bytes(cases.CASE), cases.proposal_bytes(cases.PROPOSAL)
    netted_case, netted = cases.case_bytes(cases.NETTED_CASE), cases.proposal_bytes(cases.NETTED_PROPOSAL)
    files = {"case": case, "proposal": proposal, "netted_case": netted_case, "netted": netted, "empty": b"",
             "without_bid_1": cases.proposal_bytes({**cases.PROPOSAL, "satisfied": [80, -50], "activated": [30, 0],
                                                    "prices": [[0, 1, 3000], [-1, 0, 0]]}),
             "nothing": cases.proposal_bytes(cases.EMPTY_PROPOSAL)}
    tests = [
        ("no calls", "", []),
        ("only a scale", "scale netting", []),
        ("only remarks", "# load case\n\n   # submit proposal\n", []),
        ("a fresh cycle", "read area 0\nread border 0\nread bid 0\nrevise 0 0\nlimit 0 0 0\nwithdraw 0\nsubmit nothing\nread area 0",
         ["refused 18 5 0"] * 6 + ["taken", "refused 18 5 0"]),
        ("an empty file", "load empty\nsubmit empty", ["refused 1 1 0"] * 2),
        ("the wrong file", "load proposal\nload case\nsubmit case", ["refused 2 1 0", "taken", "refused 2 1 0"]),
        ("a load ends what stands", "load case\nsubmit proposal\nread area 0\nload case\nread area 0",
         ["taken", "taken", "amount 80", "taken", "refused 19 5 0"]),
        ("a refused load changes nothing", "load case\nsubmit proposal\nload empty\nread area 1",
         ["taken", "taken", "refused 1 1 0", "amount -120"]),
        ("a revision that keeps the demand", "load case\nsubmit proposal\nrevise 0 80\nread area 0\nsubmit proposal\nread area 0",
         ["taken", "taken", "taken", "refused 19 5 0", "taken", "amount 80"]),
        ("a revision that changes the demand", "load case\nrevise 0 79\nsubmit proposal\nrevise 0 80\nsubmit proposal",
         ["taken", "taken", "refused 10 3 0", "taken", "taken"]),
        ("a refused revision changes nothing", "load case\nsubmit proposal\nrevise 0 20000001\nrevise 2 0\nread area 0\nsubmit proposal",
         ["taken", "taken", "refused 5 2 0", "refused 18 5 2", "amount 80", "taken"]),
        ("18 before 5", "load case\nrevise 2 20000001", ["taken", "refused 18 5 2"]),
        ("the ends of a demand", "load case\nrevise 0 20000000\nrevise 0 -20000000\nrevise 1 -20000001\nrevise 1 2147483647",
         ["taken", "taken", "taken", "refused 5 2 1", "refused 5 2 1"]),
        ("a limit that keeps both", "load case\nsubmit proposal\nlimit 0 50 50\nread border 0\nsubmit proposal\nread border 0",
         ["taken", "taken", "taken", "refused 19 5 0", "taken", "amount -50"]),
        ("a smaller limit", "load case\nlimit 0 50 49\nsubmit proposal", ["taken", "taken", "refused 11 3 0"]),
        ("a larger limit", "load case\nlimit 0 50 51\nsubmit proposal", ["taken", "taken", "refused 16 4 0"]),
        ("a limit of the other side", "load case\nlimit 0 0 50\nsubmit proposal", ["taken", "taken", "taken"]),
        ("the ends of a limit", "load case\nlimit 0 20000000 20000000\nlimit 0 20000001 0\nlimit 0 0 20000001\nlimit 1 20000001 0",
         ["taken", "taken", "refused 7 2 0", "refused 7 2 0", "refused 18 5 1"]),
        ("a bid withdrawn", "load case\nsubmit proposal\nwithdraw 1\nread bid 1\nsubmit proposal\nsubmit without_bid_1\nread bid 1\nread area 1",
         ["taken", "taken", "taken", "refused 19 5 0", "refused 12 3 1", "taken", "amount 0", "amount -50"]),
        ("a bid withdrawn twice", "load case\nwithdraw 1\nwithdraw 1\nwithdraw 2", ["taken", "taken", "taken", "refused 18 5 2"]),
        ("18 before 19", "load case\nread area 2\nread border 1\nread bid 2\nread bid 1",
         ["taken", "refused 18 5 2", "refused 18 5 1", "refused 18 5 2", "refused 19 5 0"]),
        ("a refused submit leaves what stands", "load case\nsubmit proposal\nsubmit without_bid_1\nread bid 1",
         ["taken", "taken", "refused 17 4 1", "amount 70"]),
        ("netting", "scale netting\nload case\nload netted_case\nsubmit proposal\nsubmit netted\nread area 0\nread border 0\nread bid 0",
         ["refused 3 1 5", "taken", "refused 3 1 5", "taken", "amount 50", "amount -50", "refused 18 5 0"]),
        ("a netting proposal on the activation scale", "scale activation\nload netted_case\nsubmit netted", ["taken", "refused 3 1 7"]),
        ("a scale behind remarks", "\n# by satisfaction alone\n\nscale netting\nload netted_case\nsubmit netted", ["taken", "taken"]),
        ("the largest number", "read area 18446744073709551615", ["refused 18 5 18446744073709551615"]),
        ("lines that end in CR LF", "load case\r\nread area 7\r\n", ["taken", "refused 18 5 7"]),
        ("many calls", "load case\n" + "submit proposal\nread bid 0\n" * 2000, ["taken"] + ["taken", "amount 30"] * 2000),
    ]
    results = []
    for name, text, expected in tests:
        results.append((name, wrong_answers(run(program, text, files), expected)))
        said = oracle.ACTIVATION if "scale netting" not in text else oracle.NETTING
        calls = [call_of(line.split(), files) for line in text.splitlines() if line.split() and line.split()[0][0] != "#"]
        same = oracle.replay(said, [call for call in calls if call[0] != "scale"]) == expected
        results.append((name + ", by the oracle", None if same else "the oracle's answers differ from the written ones"))
    return results


def call_of(words, files):
    """A line's call as the oracle takes it."""
    if words[0] in ("load", "submit"):
        return words[0], files[words[1]]
    return tuple(int(word) if word.lstrip("-").isdigit() else word for word in words)


# How the program is used.


def in_trouble_at(line):
    """In trouble, with a message that names the line."""
    def test(ended):
        trouble = in_trouble(ended)
        if trouble:
            return trouble
        if ended.returncode != 1:
            return "status %d" % ended.returncode
        if line and b"line %d:" % line not in ended.stderr:
            return "the message is %s, without line %d" % (brief(ended.stderr), line)
        return None
    return test


def use(program):
    case, proposal = cases.case_bytes(cases.CASE), cases.proposal_bytes(cases.PROPOSAL)
    files = {"case": case, "proposal": proposal}
    results = []
    for bad in ("lode case", "load", "load case case", "submit", "submit proposal proposal", "revise", "revise 0", "revise 0 1 2", "revise x 1",
                "revise 0 x", "revise -1 0", "revise 0 1.5", "revise 0 %d" % I32_PAST, "revise 0 %d" % (-I32_PAST - 1), "revise %d 0" % USIZE_PAST,
                "limit", "limit 0", "limit 0 1", "limit 0 1 2 3", "limit 0 -1 0", "limit 0 0 -1", "limit 0 %d 0" % U32_PAST,
                "limit 0 0 %d" % U32_PAST, "limit %d 0 0" % USIZE_PAST, "withdraw", "withdraw 0 0", "withdraw x", "withdraw %d" % USIZE_PAST,
                "read", "read area", "read 0", "read area 0 0", "read zone 0", "read areas 0", "read area x", "read area -1",
                "read border %d" % USIZE_PAST, "read bid 1e3", "Load case", "LOAD case", "load nothing", "submit nothing", "load .", "close",
                "write", "release", "scale netting", "scale activation", "taken", "load case # remark", "-", "0"):
        text = "load case\n\n# remark\n%s\nsubmit proposal\n" % bad
        results.append(("line 4 is '%s'" % bad, in_trouble_at(4)(run(program, text, files))))
    for bad in ("scale", "scale money", "scale netting netting", "scale 1", "load nothing", "\0", "read area 99999999999999999999"):
        results.append(("the first line is %r" % bad, in_trouble_at(1)(run(program, bad + "\nload case\n", files))))
    results.append(("two scales", in_trouble_at(2)(run(program, "scale netting\nscale netting\n", files))))
    results.append(("the last line, without an end", in_trouble_at(3)(run(program, "load case\nsubmit proposal\nread", files))))
    results.append(("a byte that is no text", in_trouble(run(program, b"load case\n\xff\n", files))))

    with tempfile.TemporaryDirectory() as folder:
        results.append(("no list", in_trouble(program.run(folder))))
        results.append(("no such list", in_trouble(program.run(folder, "nothing"))))
        results.append(("a folder as the list", in_trouble(program.run(folder, "."))))
        results.append(("two lists", in_trouble(program.run(folder, "calls", "calls"))))
        results.append(("unknown option", in_trouble(program.run(folder, "--nothing"))))
        results.append(("empty argument", in_trouble(program.run(folder, ""))))
        results.append(("--help", informs(program.run(folder, "--help"))))
        results.append(("--version", informs(program.run(folder, "--version"))))

    with tempfile.TemporaryDirectory() as folder:
        inner = Path(folder) / "inner"
        inner.mkdir()
        (inner / "calls").write_text("load case\nload inner/case\n")
        (Path(folder) / "case").write_bytes(case)
        (inner / "case").write_bytes(b"")
        results.append(("files are looked for in the working folder",
                        wrong_answers(program.run(folder, "inner/calls"), ["taken", "refused 1 1 0"])))
        kept = (inner / "calls").read_text() == "load case\nload inner/case\n" and sorted(os.listdir(folder)) == ["case", "inner"]
        results.append(("files are left alone", None if kept else "the working folder has changed"))
        if os.path.exists("/dev/full"):
            with open("/dev/full", "wb") as full:
                ended = program.run(folder, "inner/calls", stdout=full)
            lost = ended is None or ended.returncode == 0
            results.append(("output that cannot be written", "status 0 though nothing was written" if lost else None))
    return results


def main(arguments):
    if len(arguments) != 1:
        print("usage: replay_tests.py PROGRAM", file=sys.stderr)
        return 2
    program = Program(arguments[0])
    if not os.access(program.path, os.X_OK):
        print("replay_tests: cannot run %s" % program.path, file=sys.stderr)
        return 2
    passed, failures = 0, []
    for group in (written, random_sequences, use):
        results = group(program)
        failures += [(group.__name__, *result) for result in results if result[1]]
        passed += sum(1 for result in results if not result[1])
    for group, name, trouble in failures:
        print("FAILED %s: %s: %s" % (group, name, trouble))
    print("%d passed, %d failed" % (passed, len(failures)))
    return 1 if failures else 0


if __name__ == "__main__":
    sys.exit(main(sys.argv[1:]))
