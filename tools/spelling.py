#!/usr/bin/env python3
"""Brings the names of this repository's own definitions and lemmas to today's spelling.

usage: python3 tools/spelling.py [FOLDER]      at the top of a checkout that /opt/rattle/port/port.py has turned

A fact or a type goes to upper camel case (Spell-all becomes SpellAll), every other name to snake case (read-slots becomes
read_slots). Names of src/, names that Rattle makes (goals, steps, loops) and names of the library stay. It renames in specs/,
in proofs/ and in src/, where only clauses have such names, and leaves comments as they are. It stops before it writes
anything where two names would fall together.
"""
import collections
import os
import re
import sys

WORD = r"[A-Za-z_][\w']*(?:-[\w'+*]+)*"
DEFINED = re.compile(r"^\s*(?:abbrev |unfoldable )?(?:pub )?(?:(?:record|data) )?(" + WORD + r")(?: .*)? : (.*)")
IMPORT = re.compile(r"(?m)^(?:ghost )?use ([\w.+]+)\.\{(.*?)\}")


def files(top, ends):
    for folder, dirs, names in os.walk(os.path.join(top, "crates")):
        dirs[:] = sorted(d for d in dirs if d not in ("out", "must-fail", "data"))
        for name in sorted(names):
            if name.endswith(ends):
                yield os.path.join(folder, name)


def read(path):
    with open(path, encoding="utf-8") as f:
        return f.read()


def spelled(name):
    parts = name.split("-")
    if parts[0][0].isupper():
        return "".join(p[0].upper() + p[1:] for p in parts)
    return "_".join(parts)


def gathered(texts):
    """The names that this repository defines, and those that others make: the library, and Rattle for proofs."""
    own, others = set(), set()
    for text in texts:
        for path, names in IMPORT.findall(text):
            if not path.startswith("Rattle.") or path.startswith("Rattle.std.") or path.endswith((".Goals", ".Given")):
                others.update(w for n in names.split(",") for w in n.strip().split(" as "))
        for line in text.split("\n"):
            found = DEFINED.match(line)
            if found:
                (others if found.group(2).startswith("goal.") else own).add(found.group(1))
    return own, others


def bound(text, known):
    """Names with a dash that only a pattern or a `let` binds."""
    text = re.sub(r"--.*", "", text)
    for found in re.finditer(r"(?<![\w'.-])[A-Za-z_][\w']*(?:-[\w'+*]+)+", text):
        if found.group(0) not in known:
            yield found.group(0)


def main(top):
    antt = {p: read(p) for p in files(top, ".antt")}
    rt = {p: read(p) for p in files(top, ".rt")}
    own, others = gathered(antt.values())
    for text in antt.values():
        own.update(bound(text, own | others))
    turned = {n: spelled(n) for n in own if "-" in n and n not in others}
    if not turned:
        print("no names are left to turn")
        return
    goals = collections.Counter(turned.values())
    clash = [n for n, t in turned.items() if goals[t] > 1 or t in own or t in others]
    if clash:
        sys.exit("names that would fall together: " + " ".join(sorted(clash)))
    name = re.compile(r"(?<![\w'-])(?:" + "|".join(sorted(map(re.escape, turned), key=len, reverse=True)) + r")(?![\w'-])")
    for path, text in {**antt, **rt}.items():
        lines = []
        for line in text.split("\n"):
            comment = re.match(r"\s*(--|//)", line)
            lines.append(line if comment else name.sub(lambda m: turned[m.group(0)], line))
        new = "\n".join(lines)
        if new != text:
            with open(path, "w", encoding="utf-8") as f:
                f.write(new)
    print(f"{len(turned)} names")


if __name__ == "__main__":
    main(sys.argv[1] if len(sys.argv) > 1 else ".")
