#!/usr/bin/env python3
"""Brings the repository's own definitions and lemmas from hyphens to snake case, and its types to camel case; run once, at the top,
after the kit's port.py: usage: respell.py [--dry].

It goes by text. A name is the repository's own where an .antt file of specs/ or of proofs/ declares it: at the head of a line, as a field, a
constructor, a parameter or a `let`. Names of the kit's libraries keep their hyphens. In the names of goals and of what a proof's context holds, which
the kit makes, the parts that are names of functions get theirs back. It turns .antt files, the ghost lines and clauses of .rt files, their comments, and must-fail edits; never strings, and no
other name of the code. It prints the names that fall together with one that was there."""

import glob
import os
import re
import sys

HYPHENED = r"(?<![\w'·◌«-])[A-Za-z_][\w']*(?:-[\w']+)+(?![\w'◌»-])"
PLAIN = r"(?<![\w'·◌«-])[A-Za-z_][\w']*(?![\w'◌»-])"
DECLARED = re.compile(r"(?:^\s*(?:(?:pub|abbrev|unfoldable|record|data) )*|\blet |[({] ?|λ |\bin )((?:[A-Za-z_][\w']*(?:-[\w']+)* )*[A-Za-z_][\w']*(?:-[\w']+)*) ?(?::|=(?!\w))", re.M)
# theorems and types that are named by what they say
TYPES = re.compile(r"^[A-Z][a-z]+(?:-[a-z]+)+$")


def read(path):
    with open(path, encoding="utf-8") as f:
        return f.read()


def code_of(text):
    return "\n".join(line.split("--", 1)[0] for line in text.split("\n"))


def own_names(files):
    own, made, kits = set(), set(), set()
    for path in files:
        code = code_of(read(path))
        for line in code.split("\n"):
            if line.startswith("use "):
                if re.match(r"use Rattle\.(std|core|alloc)\b|use (?!Rattle)", line):
                    kits |= set(re.findall(HYPHENED, line))
        body = "\n".join(l for l in code.split("\n") if not l.startswith("use "))
        goals = set(re.findall(r"(?:\bgoal|\bGoals)\.([\w'-]+)", body))
        made |= goals
        for m in DECLARED.finditer(body):
            own |= {n for n in m[1].split() if "-" in n and n not in goals}
        own |= set(re.findall(r"^\s*(?:pub )?(?:record|data) ([A-Za-z_][\w']*(?:-[\w']+)+)", body, re.M))
        # a definition by clauses, whose first line has no type
        own |= {m[1] for m in re.finditer(r"^\s*(?:pub )?([A-Za-z_][\w']*(?:-[\w']+)+)[^=:\n]* =", body, re.M) if m[1] not in goals}
    return own, made, kits


def respelled(name, types):
    if name in types:
        return "".join(w.capitalize() if not w[0].isupper() else w for w in name.split("-"))
    head = name.split("-")
    if head[0] in ("All", "Bool", "Fits") or name[0].isupper() and name[1] == "-":
        head[0] = head[0].lower()
    return "_".join(head)


def turn(text, names):
    return re.sub(HYPHENED, lambda m: names.get(m[0], m[0]), text)


# functions of the kit's library that proofs cite, and how a goal's name says which case it stands in
MADE = """as_slice checked_add copy_from_slice from_le_bytes from_residual get_or in_default in_err in_ok is_ok is_some push_reserved saturating_mul saturating_sub
slice_bounds split_at to_le_bytes type_inv unsigned_abs unwrap_or with_capacity push_str extend_from_slice"""


def turn_made(text, functions):
    def one(m):
        parts, out, i = m[0].split("-"), [], 0
        while i < len(parts):
            for j in range(len(parts), i + 1, -1):
                if "_".join(parts[i:j]) in functions:
                    out.append("_".join(parts[i:j]))
                    i = j
                    break
            else:
                out.append(parts[i])
                i += 1
        return "-".join(out)

    return "\n".join(line if line.startswith("use Rattle.std") else re.sub(HYPHENED, one, line) for line in text.split("\n"))


def turn_rt(text, names):
    """Only ghost lines, clauses, ghost items and comments; a string stays."""
    out, ghost, deep = [], False, 0
    for line in text.split("\n"):
        if ghost or re.match(r"\s*(ghost |requires\b|ensures\b|//)", line) or re.search(r"\b(requires|ensures|ghost)\b.*[{⌜]", line):
            head = re.match(r"(\s*//)", line)
            if not head:
                deep += line.count("{") - line.count("}")
                ghost = deep > 0
                if not ghost:
                    deep = 0
            line = turn(line, names)
        out.append(line)
    return "\n".join(out)


def turn_all(text):
    """The kit's script imports the older `All`, by recursion, under the name of today's, by index, which the gate refuses."""
    if "AllByRecursion as All" not in text:
        return text
    text = text.replace("AllByRecursion as All", "AllByRecursion")
    return re.sub(r"(?<![\w'.-])All(?![\w'-])", "AllByRecursion", text)


def main():
    dry = "--dry" in sys.argv
    antt = sorted(glob.glob("crates/*/specs/**/*.antt", recursive=True) + glob.glob("crates/*/proofs/**/*.antt", recursive=True))
    own, made, kits = own_names(antt)
    for n in sorted(own & kits):
        print("also the kit's, so it stays:", n)
    for n in sorted(own & made):
        print("also a goal's:", n)
    for path in glob.glob("crates/*/src/**/*.rt", recursive=True):
        own |= set(re.findall(r"^ghost use .*\bas ([A-Za-z_][\w']*(?:-[\w']+)+)", read(path), re.M))
    own -= kits
    types = {n for n in own if TYPES.match(n) and n.split("-")[0] not in ("All", "Bool", "Fits")}
    names = {n: respelled(n, types) for n in own}
    there = set()
    for path in antt:
        there |= set(re.findall(PLAIN, code_of(read(path))))
    for path in glob.glob("crates/*/src/**/*.rt", recursive=True):
        there |= set(re.findall(PLAIN, re.sub(r'"[^"\n]*"|//.*', "", read(path))))
    back = {}
    for n, s in sorted(names.items()):
        if s in there:
            print("falls together with a name that is there:", n, "->", s)
        if s in back:
            print("fall together:", n, back[s], "->", s)
        back[s] = n
    if dry:
        for n, s in sorted(names.items()):
            print(n, s)
        return
    functions = set(MADE.split())
    for path in glob.glob("crates/*/src/**/*.rt", recursive=True):
        functions |= set(re.findall(r"\bfn (\w+_\w+)", read(path)))
    for path in antt:
        text = read(path)
        new = turn(text, names)
        if re.search(r"/proofs/.+/", path):
            new = turn_made(new, functions)
        new = turn_all(new)
        if new != text:
            open(path, "w", encoding="utf-8").write(new)
    for path in glob.glob("crates/*/src/**/*.rt", recursive=True):
        text = read(path)
        new = turn_all(turn_rt(text, names))
        if new != text:
            open(path, "w", encoding="utf-8").write(new)
    for path in glob.glob("crates/*/must-fail/*.edit"):
        text = read(path)
        if "file: specs/" in text or "file: proofs/" in text:
            new = turn(text, names)
            if new != text:
                open(path, "w", encoding="utf-8").write(new)


if __name__ == "__main__":
    main()
