#!/usr/bin/env python3
"""The names that tools/respell.py passes over, since their signatures begin on a line of their own
or have a level, brought to snake case as the others.

usage: tools/respell_more.py      at the top of the repository, once, after tools/respell.py
"""

import os
import re

NAMES = {
    "windows-of-K": "windows_of-K",
    "year-bytes": "year_bytes_lem",
    "record-bytes": "record_bytes_lem",
    "form-pos+": "form_pos+",
    "form-pos*": "form_pos*",
}
NAMES |= {
    name: name.replace("-", "_")
    for name in (
        "accepted-windows by-cell by-test cut-sets halves-to-even impossible-dates key-parts ladder-lines "
        "line-in-order no-first-line one-off other-years rbns-rounded refused-sets refused-windows "
        "rounded-once same-written tally-years unwritten-5 written-again written-lines written-order "
        "wrong-lines t-pos s-pos a-pos zero-at g-s t-s"
    ).split()
}
TOKEN = r"[^\s(){}\[\].,;«»\"`@]+"


def main():
    paths = ["README.md"] + [os.path.join("docs", p) for p in os.listdir("docs") if p.endswith(".md")]
    for folder, dirs, names in os.walk("crates"):
        dirs[:] = [d for d in dirs if d != "out"]
        paths += [os.path.join(folder, n) for n in names if n.endswith(".antt")]
    for path in paths:
        with open(path, encoding="utf-8") as f:
            text = f.read()
        new = re.sub(TOKEN, lambda m: NAMES.get(m[0], m[0]), text)
        if new != text:
            with open(path, "w", encoding="utf-8") as f:
                f.write(new)


main()
