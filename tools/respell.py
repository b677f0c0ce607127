#!/usr/bin/env python3
"""Respells the repository's own definitions and lemmas, once, after the toolchain's own script has turned it.

usage: python3 tools/respell.py     at the top of the repository, with everything committed

Words are in snake case, types in camel case. Only names that specs/ and proofs/ declare are respelled, and the names
that a file gives to an import; functions of src/, strings, comments, inputs and outputs keep theirs. Names that fall
together with another are printed, and nothing is written where there is one.
"""

import glob
import re
import sys

# Facts that had a word's spelling, and names that an import or a `let` gives.
BY_HAND = {
    "says": "Says",
    "edge-says": "EdgeSays",
    "creating": "Creating",
    "table-gives": "TableGives",
    "after-it": "after_it",
    "at-0": "at_0",
    "change-of": "change_of",
    "column-of": "column_of",
    "round-of": "round_of",
    "passwords-from": "passwords_from",
    "view-between": "view_between",
    "view-during": "view_during",
    "need-one": "need_one",
    "found-is": "found_is",
}

NAME = r"[A-Za-z][A-Za-z0-9_'→\u2080-\u2089]*(?:-[A-Za-z0-9_'→\u2080-\u2089]+)*"
TOKEN = re.compile(NAME)
DECLARED = re.compile(r"^\s*(?:(?:abbrev|unfoldable|pub|data|record)\s+)*(" + NAME + r")(?:\s+(?:\{[^}]*\}|\([^)]*\)))*\s*:\s")
IMPORT = re.compile(r"^(?:ghost )?use ([A-Za-z_.]+)\.\{(.*)\};?$")


def texts():
    for kind in ("specs/**/*.antt", "proofs/**/*.antt", "src/**/*.rt"):
        yield from sorted(glob.glob("crates/*/" + kind, recursive=True))


def respelled(name):
    if name in BY_HAND:
        return BY_HAND[name]
    if name[0].isupper():
        return "".join(part[0].upper() + part[1:] for part in name.split("-"))
    humps = re.sub(r"(?<=[a-z0-9])(?=[A-Z])", "-", name) if "→" not in name else name
    return humps.replace("-", "_").lower()


def declared():
    names = set(BY_HAND)
    for path in texts():
        if path.endswith(".antt"):
            with open(path, encoding="utf-8") as f:
                # an answer has the name of its goal
                names |= {m.group(1) for m in map(DECLARED.match, f) if m and not re.search(r": goal\.", m.string)}
    return names


def imported_elsewhere(path):
    """The names that a file takes from the library."""
    found = set()
    with open(path, encoding="utf-8") as f:
        for line in f:
            m = IMPORT.match(line.rstrip())
            if m and not m.group(1).startswith("Rattle.") or m and m.group(1).startswith("Rattle.std."):
                found |= {item.strip().split(" as ")[-1] for item in m.group(2).split(",")}
    return found


def turned(line, names, comment, answers):
    code, mark, rest = line.partition(comment)
    if re.match(r"use .*\.Goals\.\{", code):
        return line

    def one(m):
        before = code[: m.start()]
        # in an answer, the names of its goal and of the steps before it
        if answers and before.endswith(("c.", "goal.")):
            return m.group()
        return names.get(m.group(), m.group())

    return TOKEN.sub(one, code) + mark + rest


def main():
    old = declared()
    names = {n: respelled(n) for n in old if respelled(n) != n}
    clash = []
    taken = old - set(names)
    for n, new in sorted(names.items()):
        if new in taken:
            clash.append(f"{n}: {new} is declared already")
        others = [m for m in names if m != n and names[m] == new]
        if others:
            clash.append(f"{n}: so is {others}")
    for path in texts():
        with open(path, encoding="utf-8") as f:
            text = f.read()
        used = {names[t] for t in TOKEN.findall(text) if t in names}
        for new in sorted(used & imported_elsewhere(path)):
            clash.append(f"{path}: {new} is imported from the library")
        if path.endswith(".rt"):
            code = re.sub(r"//.*|^ghost use .*|(?:requires|ensures|ghost)[^{]*\{.*\}", "", text, flags=re.M)
            words = set(re.findall(r"[A-Za-z_][A-Za-z0-9_]*", code))
            for new in sorted(used & words):
                print(f"look: {path}: {new} is a word of its code too")
    if clash:
        print("\n".join(clash))
        return 1
    for path in texts():
        comment = "--" if path.endswith(".antt") else "//"
        with open(path, encoding="utf-8") as f:
            before = f.readlines()
        after = [turned(line, names, comment, path.endswith("Answers.antt")) for line in before]
        if after != before:
            with open(path, "w", encoding="utf-8") as f:
                f.writelines(after)
    for path in ["README.md", *sorted(glob.glob("docs/*.md"))]:
        with open(path, encoding="utf-8") as f:
            before = f.read()
        after = re.sub(r"`[^`\n]*`", lambda m: TOKEN.sub(lambda t: names.get(t.group(), t.group()), m.group()), before)
        if after != before:
            with open(path, "w", encoding="utf-8") as f:
                f.write(after)
    print(f"{len(names)} names respelled")
    return 0


if __name__ == "__main__":
    sys.exit(main())
