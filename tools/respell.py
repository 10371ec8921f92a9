#!/usr/bin/env python3
"""Brings this repository's own definitions and lemmas to snake case, as the library spells them.

usage: python3 tools/respell.py [--look]     at the top, once, after port.py

A name that an .antt file of specs/ or proofs/ defines, that begins with a small letter and has a capital further on, gets its
words joined by `_`: durableOk becomes durable_ok, and wakeAll-formed becomes wake_all-formed. The older words that stand within
such a name follow the library's: getD is get_or. Everything that cites a name follows: .rt files, .antt files and must-fail
edits. Pages, strings, inputs and outputs stay. With --look nothing is written: the names are printed, with what they meet.
"""

import os
import re
import sys

WORD = r"[\w'₀-₉ₐ-ₜ-]+"
DEFINES = re.compile(r"^\s*(?:(?:abbrev|unfoldable|pub|mutual)\s+)*(" + WORD + r"(?:\s+" + WORD + r")*)\s+:(?:\s|$)")
TOKEN = re.compile(r"[\w'₀-₉ₐ-ₜ-]+")
# Lemmas whose names would fall together with a definition's: file, name, new name.
APART = [
    ("crates/net_formed/proofs/Laws.antt", "laid_out", "laid_out_lem"),
    ("crates/sys_system/proofs/Laws.antt", "laid_out", "laid_out_lem"),
]
PARTS = {"getD": "get_or"}


def files(*endings):
    for folder, dirs, names in os.walk("crates"):
        dirs[:] = sorted(d for d in dirs if d not in ("out", "data", "samples"))
        for n in sorted(names):
            if n.endswith(endings):
                yield os.path.join(folder, n)


def snake(name):
    parts = []
    for part in name.split("-"):
        if part in PARTS:
            part = PARTS[part]
        elif re.match(r"[^\W\d_A-Z]", part):
            part = re.sub(r"(?<=[^\W_])([A-Z])", lambda m: "_" + m.group(1).lower(), part)
        parts.append(part)
    return "-".join(parts)


def defined():
    names = set()
    for path in files(".antt"):
        with open(path, encoding="utf-8") as f:
            for line in f:
                if line.startswith("use ") or line.lstrip().startswith("--"):
                    continue
                m = DEFINES.match(line)
                if m:
                    names.update(m.group(1).split())
    return {n for n in names if re.match(r"[^\W\d_A-Z]", n) and re.search(r"[A-Z]", n) and snake(n) != n}


def main(argv):
    names = {n: snake(n) for n in defined()}
    if "--look" in argv:
        used = {}
        for path in files(".antt", ".rt"):
            with open(path, encoding="utf-8") as f:
                for t in TOKEN.findall(f.read()):
                    if t not in names:
                        used.setdefault(t, set()).add(path)
        to = {}
        for old, new in sorted(names.items()):
            to.setdefault(new, []).append(old)
            print(old, new, ("MEETS " + " ".join(sorted(used[new])[:6])) if new in used else "")
        for new, olds in to.items():
            if len(olds) > 1:
                print("TOGETHER", new, olds)
        return 0
    for path in files(".antt", ".rt", ".edit"):
        with open(path, encoding="utf-8") as f:
            text = f.read()
        apart = {old: new for file, old, new in APART if path == file}
        turned = TOKEN.sub(lambda m: apart.get(m.group(0)) or names.get(m.group(0), m.group(0)), text)
        if turned != text:
            with open(path, "w", encoding="utf-8") as f:
                f.write(turned)
    return 0


if __name__ == "__main__":
    raise SystemExit(main(sys.argv[1:]))
