#!/usr/bin/env python3
"""Brings this repository's own names of definitions, lemmas, fields and variables of the logic to
snake case, after the kit's port.py: hasIncurred -> has_incurred, r-near -> r_near.

usage: tools/respell.py [--collisions]      at the top of the repository, once

A name is its own where a file of specs/ or proofs/ declares or binds it and no library does. A dash
stays where it stands before an operator, as in nat_abs-+ℤ. Types, modules, and all that Rattle makes
keep their names, and so do functions of src/, strings, and names for C. A clause of src/ and the
words between backquotes in comments and pages follow; must-fail edits are brought over by hand.
"""

import collections
import os
import re
import sys

# Parts that the library spells otherwise, and names that would fall together.
PARTS = {"natAbs": "nat_abs", "negℤ": "neg_ℤ", "getD": "get_or", "leZ": "le_z", "ltZ": "lt_z"}
APART = {
    old: old.replace("-", "_") + "_lem"
    for old in (
        "claim-costs delay-is delays-refusal fold-list forecast-refusal g-down given-set if-accepted in-kind "
        "in-year is-date line-is no-incurred of-dates of-kind of-set page-line records-of shares-refusal tally-to "
        "year-at year-cells year-is year-weights b-list cell-of in-range"
    ).split()
}

OWN = sorted(os.listdir("crates"))
TOKEN = r"[^\s(){}\[\].,;«»\"`@]+"
WORD = re.compile(r"[a-z0-9][\w'⁺⁻₀-₉]*$")


def hump(part):
    if part in PARTS:
        return PARTS[part]
    part = re.sub(r"([a-z0-9'])([A-Z])(?=[a-z]|$|[0-9'_⁺⁻₀-₉])", lambda m: m[1] + "_" + m[2].lower(), part)
    return re.sub(r"([a-z0-9])([A-Z]+)(?![a-z])", lambda m: m[1] + "_" + m[2].lower(), part)


def snake(name):
    if name in APART:
        return APART[name]
    first, *rest = re.split(r"(?<=\S)-(?=\S)", name)
    out = hump(first)
    for part in rest:
        part = hump(part)
        out += ("_" if WORD.match(part) and part != "neg_ℤ" else "-") + part
    return out


def files(*ends):
    for folder, dirs, names in os.walk("crates"):
        dirs[:] = sorted(d for d in dirs if d != "out")
        for name in sorted(names):
            if name.endswith(ends):
                yield os.path.join(folder, name)


def bare(line):
    """The line without its comment."""
    at = 0 if line.startswith("--") else line.find("-- ")
    return line if at < 0 else line[:at]


MARK = r"(?:(?:pub|abbrev|unfoldable|ghost)\s+)*"
NAMES = r"([^\s:(){}=|λ]+(?:\s+[^\s:(){}=|λ]+)*)"


def declared(text):
    found = set()
    for line in map(bare, text.split("\n")):
        for pattern in (r"^\s*" + MARK + NAMES + r"\s*:(?=\s)", r"[({]\s*" + NAMES + r"\s+:\s", r"λ\s+([^.(]+)\."):
            for m in re.finditer(pattern, line):
                found.update(m[1].split())
        found.update(m[1] for m in re.finditer(r"\blet\s+([^\s:(){}=]+)", line))
    return found


def imported(text):
    """The names that a file takes from other libraries than those of this repository."""
    found = set()
    for m in re.finditer(r"use ([\w.'-]+)\.\{([^}]*)\}", text):
        of = re.match(r"Rattle\.(\w+)\.(specs|proofs)\b", m[1])
        if not of or of[1] not in OWN:
            found.update(it.split(" as ")[-1].strip() for it in m[2].split(","))
    return found


def renamings():
    own, others = set(), set()
    for path in files(".antt"):
        with open(path, encoding="utf-8") as f:
            text = f.read()
        own |= declared(text)
        others |= imported(text)
    for path in files(".rt"):
        with open(path, encoding="utf-8") as f:
            others |= imported(f.read())
    own = {n for n in own - others if not re.match(r"[A-Z?]|(invariant|decreases)-", n)}
    return {n: snake(n) for n in own if snake(n) != n}


def respell(text, names):
    return re.sub(TOKEN, lambda m: names.get(m[0], m[0]), text)


def respell_antt(text, names):
    out = []
    for line in text.split("\n"):
        code = bare(line)
        out.append(respell(code, names) + respell_marked(line[len(code) :], names))
    return "\n".join(out)


def respell_marked(text, names):
    """The words between backquotes."""
    return re.sub(r"`[^`\n]+`", lambda m: respell(m[0], names), text)


def respell_rt(text, names):
    """Clauses and imports of the logic, which stand in braces after a ghost word."""
    out, at = [], 0
    for m in re.finditer(r"(?m)^\s*(?:(?:pub )?ghost\b|requires\b|ensures\b|decreases\b)[^{;]*\{", text):
        if m.start() < at:
            continue
        depth, end = 1, m.end()
        while depth and end < len(text):
            depth += {"{": 1, "}": -1}.get(text[end], 0)
            end += 1
        out += [respell_marked(text[at : m.end()], names), respell(text[m.end() : end], names)]
        at = end
    return "".join(out) + respell_marked(text[at:], names)


def collisions(names):
    for path in files(".antt", ".rt"):
        with open(path, encoding="utf-8") as f:
            text = f.read()
        if path.endswith(".antt"):
            text = "\n".join(map(bare, text.split("\n")))
        tokens = collections.Counter(m[0] for m in re.finditer(r"(?<![\w.'])" + TOKEN, text))
        met = collections.defaultdict(set)
        for t in tokens:
            met[names.get(t, t)].add(t)
        for new, olds in sorted(met.items()):
            if len(olds) > 1:
                print(path, new, sorted(olds))
    by = collections.defaultdict(set)
    for old, new in names.items():
        by[new].add(old)
    for new, olds in sorted(by.items()):
        if len(olds) > 1:
            print("together:", new, sorted(olds))


def main():
    names = renamings()
    if "--collisions" in sys.argv:
        collisions(names)
        return
    pages = [os.path.join("docs", p) for p in os.listdir("docs") if p.endswith(".md") and not p.startswith("PORT")]
    for path in [*files(".antt", ".rt"), "README.md", *pages]:
        with open(path, encoding="utf-8") as f:
            text = f.read()
        turn = respell_antt if path.endswith(".antt") else respell_rt if path.endswith(".rt") else respell_marked
        new = turn(text, names)
        if new != text:
            with open(path, "w", encoding="utf-8") as f:
                f.write(new)
    print(f"{len(names)} names respelled")


main()
