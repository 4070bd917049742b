#!/usr/bin/env python3
"""Run a program `verify` on the cases of cases.py and compare each answer with the oracle's.

    tests/verify_tests.py PROGRAM

The program reads the files `case` and `proposal` in its working folder, or two paths given as arguments. Standard output is
the listing or one line `refused NUMBER LAYER PLACE`; the status is 0 only when the proposal is taken. Where a file cannot
be read or the arguments are wrong, there is a message on standard error, nothing on standard output, and a status that is
not 0. Prints what failed, then 'N passed, M failed', and ends with a status that is not 0 when anything failed.
"""

import os
import subprocess
import sys
import tempfile
from concurrent.futures import ThreadPoolExecutor
from pathlib import Path

import cases
import oracle

WORKERS = 2
SECONDS = 20


class Program:
    """A program, and a working folder for each of its runs."""

    def __init__(self, path):
        self.path = str(Path(path).resolve())

    def run(self, folder, *arguments, **redirected):
        streams = {"stdin": subprocess.DEVNULL, "stdout": subprocess.PIPE, "stderr": subprocess.PIPE, **redirected}
        try:
            return subprocess.run([self.path, *arguments], cwd=folder, timeout=SECONDS, **streams)
        except subprocess.TimeoutExpired:
            return None

    def run_on(self, case, proposal, by_path):
        """In a fresh folder with the two files: read by their names, or by paths given as arguments."""
        with tempfile.TemporaryDirectory() as folder:
            names = ("first", "second") if by_path else ("case", "proposal")
            for name, data in zip(names, (case, proposal)):
                (Path(folder) / name).write_bytes(data)
            return self.run(folder, *(names if by_path else ()))


def wrong_answer(ended, verdict):
    """What is wrong with how the program ended, or nothing."""
    if ended is None:
        return "did not end"
    expected = oracle.text(verdict).encode()
    if ended.stdout != expected:
        return "printed %s, expected %s" % (brief(ended.stdout), brief(expected))
    if ended.returncode < 0 or (ended.returncode == 0) != (verdict[0] == "taken"):
        return "status %d after %s" % (ended.returncode, brief(expected))
    return None


def brief(text):
    shown = repr(text)
    return shown if len(shown) <= 160 else shown[:75] + " .. " + shown[-75:]


def judged(program, test, by_path=False):
    name, case, proposal, expected = test
    verdict = oracle.verify(case, proposal)
    if expected == "taken" and verdict[0] != "taken" or expected not in (None, "taken", verdict):
        return name, "the oracle says %s, expected %s" % (brief(verdict), brief(expected))
    return name, wrong_answer(program.run_on(case, proposal, by_path), verdict)


def in_trouble(ended):
    """A message on standard error, nothing on standard output, a status that is not 0; and no signal."""
    if ended is None:
        return "did not end"
    if ended.stdout:
        return "printed %s" % brief(ended.stdout)
    if not ended.stderr:
        return "no message"
    if ended.returncode <= 0:
        return "status %d" % ended.returncode
    return None


def informs(ended):
    """Some text that cannot be taken for a verdict, and status 0."""
    if ended is None:
        return "did not end"
    if not ended.stdout or ended.stdout.startswith((b"refused", b"area ")):
        return "printed %s" % brief(ended.stdout)
    if ended.returncode != 0:
        return "status %d" % ended.returncode
    return None


def use(program):
    """How the program is called: files, arguments, output."""
    case, proposal = cases.case_bytes(cases.CASE), cases.proposal_bytes(cases.PROPOSAL)
    listing = (cases.EXAMPLE / "listing").read_bytes()
    results = []

    def folder_with(**files):
        folder = tempfile.TemporaryDirectory()
        for name, data in files.items():
            (Path(folder.name) / name).write_bytes(data)
        return folder

    def check(name, test, folder, *arguments):
        with folder as path:
            results.append((name, test(program.run(path, *arguments))))

    check("both files missing", in_trouble, folder_with())
    check("case missing", in_trouble, folder_with(proposal=proposal))
    check("proposal missing", in_trouble, folder_with(case=case))
    check("case refused, but proposal missing", in_trouble, folder_with(case=b""))
    check("case missing, proposal refused", in_trouble, folder_with(proposal=b""))
    check("path of the case missing", in_trouble, folder_with(case=case, proposal=proposal), "nothing", "proposal")
    check("path of the proposal missing", in_trouble, folder_with(case=case, proposal=proposal), "case", "nothing")
    check("a folder as the case", in_trouble, folder_with(case=case, proposal=proposal), ".", "proposal")
    check("one path", in_trouble, folder_with(case=case, proposal=proposal), "case")
    check("three paths", in_trouble, folder_with(case=case, proposal=proposal), "case", "proposal", "case")
    check("unknown option", in_trouble, folder_with(case=case, proposal=proposal), "--nothing")
    check("empty argument", in_trouble, folder_with(case=case, proposal=proposal), "")
    check("--help", informs, folder_with(), "--help")
    check("--version", informs, folder_with(), "--version")

    def same_paths(ended):
        return wrong_answer(ended, ("refused", 2, 1, 0))

    check("one file for both", same_paths, folder_with(case=case), "case", "case")

    with folder_with(case=case, proposal=proposal) as folder:
        ended = program.run(folder)
        kept = sorted(os.listdir(folder)) == ["case", "proposal"] and all(
            (Path(folder) / name).read_bytes() == data for name, data in (("case", case), ("proposal", proposal)))
        results.append(("files are left alone", None if kept else "the working folder has changed"))
        again = program.run(folder)
        same = ended is not None and again is not None and ended.stdout == again.stdout == listing
        results.append(("the same answer again", None if same else "two runs differ"))
        if os.path.exists("/dev/full"):
            with open("/dev/full", "wb") as full:
                ended = program.run(folder, stdout=full)
            lost = ended is None or ended.returncode == 0
            results.append(("output that cannot be written", "status 0 though nothing was written" if lost else None))
    return results


def main(arguments):
    if len(arguments) != 1:
        print("usage: verify_tests.py PROGRAM", file=sys.stderr)
        return 2
    program = Program(arguments[0])
    if not os.access(program.path, os.X_OK):
        print("verify_tests: cannot run %s" % program.path, file=sys.stderr)
        return 2
    passed, failures = 0, []
    with ThreadPoolExecutor(WORKERS) as pool:
        for group in cases.ALL:
            results = list(pool.map(lambda test: judged(program, test), group()))
            if group is cases.example:
                results += pool.map(lambda test: judged(program, test, by_path=True), group())
            failures += [(group.__name__, *result) for result in results if result[1]]
            passed += sum(1 for result in results if not result[1])
    results = use(program)
    failures += [("use", *result) for result in results if result[1]]
    passed += sum(1 for result in results if not result[1])
    for group, name, trouble in failures:
        print("FAILED %s: %s: %s" % (group, name, trouble))
    print("%d passed, %d failed" % (passed, len(failures)))
    return 1 if failures else 0


if __name__ == "__main__":
    sys.exit(main(sys.argv[1:]))
