#!/usr/bin/env python3
"""Turns the repository's own definitions and lemmas to today's spelling: words in snake case (types and facts stay in upper camel case).

usage: python3 tools/port_names.py        at the top of a checkout, once, after port.py

It rewrites specs/, proofs/, src/, must-fail/, README.md and docs/. Names of functions in src/, exported names, strings, inputs and outputs have
no capital inside a word, so none of them changes.
"""

import pathlib
import re
import sys

# Names of the prover's own making, or of a loop's proof by hand.
KEPT = {"no_Operand", "cut-Inv-loop"}
# Where the rule alone gives no good word.
GIVEN = {
    "eqZ": "int_same",
    "get_d_part": "get_or_part",
}
NAME = r"[A-Za-z_][A-Za-z0-9_'₀₁₂₃₄₅₆₇₈₉-]*"
CAMEL = re.compile(r"^[a-z][a-z0-9_-]*[A-Z]")
DEFINED = re.compile(r"^\s*(?:abbrev |unfoldable |pub )*(" + NAME + r")(?: \{[^}]*\})* :", re.M)


def snake(word):
    """One part of a name between dashes."""
    if word in GIVEN:
        return GIVEN[word]
    if word == "getD":
        return "get_or"
    if not re.match(r"^[a-z][a-z0-9_]*[A-Z]", word):
        return word
    return re.sub(r"(?<=[a-z0-9])([A-Z])", lambda m: "_" + m.group(1).lower(), word)


def files(root):
    for part in ("specs", "proofs"):
        yield from sorted(root.glob(f"crates/*/{part}/**/*.antt"))


def table(root):
    names = set()
    for path in files(root):
        text = re.sub(r"^\s*--.*$", "", path.read_text(), flags=re.M)
        names.update(re.findall(NAME, text))
    found = {}
    for name in names:
        new = "-".join(snake(w) for w in name.split("-"))
        if new != name and name not in KEPT and (CAMEL.match(name) or name in GIVEN):
            found[name] = new
    together = {n: o for o, n in found.items() if n in names}
    for new, old in sorted(together.items()):
        print(f"{old}: {new} is a name here already", file=sys.stderr)
    return found


def main():
    root = pathlib.Path(".")
    names = table(root)
    word = re.compile(r"(?<![A-Za-z0-9_'-])(" + "|".join(sorted(map(re.escape, names), key=len, reverse=True)) + r")(?![A-Za-z0-9_'₀₁₂₃₄₅₆₇₈₉]|-[A-Za-z0-9])")
    texts = list(files(root))
    for pattern in ("crates/*/src/**/*.rt", "crates/*/must-fail/*.edit", "docs/*.md", "README.md"):
        texts += sorted(root.glob(pattern))
    changed = 0
    for path in texts:
        old = path.read_text()
        new = word.sub(lambda m: names[m.group(1)], old)
        if new != old:
            path.write_text(new)
            changed += 1
    for old, new in sorted(names.items()):
        print(f"{old} -> {new}")
    print(f"{len(names)} names in {changed} files", file=sys.stderr)


main()
