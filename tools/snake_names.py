#!/usr/bin/env python3
"""Brings the names of this repository's own definitions, lemmas and record fields to snake case.

usage: python3 tools/snake_names.py [--list]     at the top of a repository that port.py has just turned

A name counts as the repository's own where a file of specs/ or proofs/ defines it. A name that the checker
makes (a goal, a step, a loop) and a name of the library stay, unless spelled as an own name. `--list` prints old
and new names only. A commit from before this file needs it copied in, outside of git.
"""
import glob
import re
import sys

NAME = r"[A-Za-z_][\w'₀-₉]*(?:-[\w'₀-₉]+)*"
# names that would fall together with another one, or stand beside a word of the library
OTHER = {
    "bit-and": "bit_of_and",
    "bit-or": "bit_of_or",
    "bit-shl": "bit_of_shl",
    "bit-shr": "bit_of_shr",
    "front-fault": "front_fault_lem",
    "no-rule": "no_rule_lem",
    "word-at": "word_at_lem",
}


def antt_files():
    for pattern in ("crates/*/specs/**/*.antt", "crates/*/proofs/**/*.antt"):
        yield from sorted(glob.glob(pattern, recursive=True))


def rt_files():
    yield from sorted(glob.glob("crates/*/src/**/*.rt", recursive=True))


def defined():
    names = set()
    for path in antt_files():
        for line in open(path, encoding="utf-8"):
            m = re.match(rf"^(?:abbrev |unfoldable )?(?:pub )?({NAME})\s*(?:[({{].*)?:\s", line)
            if m and not re.search(r":\s*goal\.", line):
                names.add(m.group(1))
            m = re.match(rf"^\s+(?:pub )?({NAME})\s*:\s", line)
            if m:
                names.add(m.group(1))
    return names


def snake(name):
    if name in OTHER:
        return OTHER[name]
    name = re.sub(r"(?<=[a-z0-9])([A-Z])", lambda m: "_" + m.group(1).lower(), name)
    return name.replace("-", "_")


def old_style(name):
    return "-" in name or (name[0].islower() and re.search("[A-Z]", name))


def main():
    turned = {n: snake(n) for n in sorted(defined()) if old_style(n)}
    if "--list" in sys.argv:
        for old, new in turned.items():
            print(old, new)
        return
    token = re.compile(rf"(?<![\w'\-])({NAME})(?![\w'])")

    def turn(text):
        return token.sub(lambda m: turned.get(m.group(1), m.group(1)), text)

    for path in list(antt_files()) + list(rt_files()):
        old = open(path, encoding="utf-8").read()
        if path.endswith(".rt"):
            # clauses, ghost items and imports only: code and strings keep their names
            new = "\n".join(turn_line(line, turn) for line in old.split("\n"))
        else:
            new = "\n".join(turn_proof(line, turn) for line in old.split("\n"))
        if new != old:
            open(path, "w", encoding="utf-8").write(new)


def turn_proof(line, turn):
    # strings stay
    return "".join(p if p.startswith('"') else turn(p) for p in re.split(r'("(?:[^"\\]|\\.)*")', line))


def turn_line(line, turn):
    if re.match(r"\s*(ghost|requires|ensures)\b", line) or "ghost " in line:
        return turn_proof(line, turn)
    return line


main()
