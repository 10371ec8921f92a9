#!/usr/bin/env python3
"""Lists the places in crates/*/src that an older language would have left: what docs/DESIGN-PASS.md counts.

usage: tools/places.py [--list] [DIR]        DIR: a checkout, by default this one

Each line is a point and its count; with --list the places follow. It goes by text alone, so a place is one to look at:
docs/DESIGN-PASS.md says of each that is left why it stays.
"""
import os
import re
import sys

WHERE = [a for a in sys.argv[1:] if not a.startswith("--")]
TOP = WHERE[0] if WHERE else os.path.join(os.path.dirname(os.path.abspath(__file__)), "..")

ENUM = re.compile(r"^\s*(?:pub )?enum (\w+)[^{]*\{(.*?)^\}", re.S | re.M)
STRUCT = re.compile(r"^\s*(?:pub )?struct (\w+)[^{;(]*\{(.*?)^\}", re.S | re.M)
FN = re.compile(r"^(?P<in>[ ]*)(?:pub )?(?:extern \"C\" )?fn (?P<name>\w+)(?:<[^(]*>)?\((?P<args>.*?)\)(?: -> [^\n{]*)?$", re.S | re.M)
BY_HAND = re.compile(r"(^|_)(same|before|compare|equal|is_zero|blank|zero_command|nothing_saved|number_of|kind_of|flag_of|flag|wide|and_then|from_written)(_|$)")


def sources():
    for crate in sorted(os.listdir(os.path.join(TOP, "crates"))):
        folder = os.path.join(TOP, "crates", crate, "src")
        for name in sorted(os.listdir(folder)) if os.path.isdir(folder) else []:
            if name.endswith(".rt"):
                with open(os.path.join(folder, name), encoding="utf-8") as f:
                    yield f"{crate}/{name}", re.sub(r"//[^\n]*", "", f.read())


def variants(body):
    flat = re.sub(r"\([^()]*(\([^()]*\)[^()]*)*\)", "(_)", body)
    return [v.strip() for v in flat.split(",") if v.strip()]


def arguments(text):
    parts, depth, word = [], 0, ""
    for c in text:
        depth += c in "([<{"
        depth -= c in ")]>}"
        if c == "," and depth == 0:
            parts.append(word.strip())
            word = ""
        else:
            word += c
    return [p for p in parts + [word.strip()] if p]


def functions(text):
    for m in FN.finditer(text):
        rest = text[m.end():]
        clauses = re.match(r"(?:\s*\n\s+(?:where|requires|ensures)\b.*?)?(?=^" + m["in"] + r"\{)", rest, re.S | re.M)
        yield m["name"], arguments(m["args"]), clauses[0] if clauses else ""


def point1(text):
    for m in ENUM.finditer(text):
        vs = variants(m[2])
        full = [v for v in vs if "(" in v]
        if 2 <= len(vs) <= 3 and full and (len(full) < len(vs) or len(vs) == 2):
            yield f"enum {m[1]}: {', '.join(vs)}"
    for m in STRUCT.finditer(text):
        fields = re.findall(r"(\w+): ([^,\n]+)", m[2])
        for name, of in fields:
            if len(fields) > 1 and (of == "Answer" or (of == "bool" and name in ("found", "some", "changed", "same"))):
                yield f"struct {m[1]}: {name} beside a value"
    for name, args, _ in functions(text):
        for a in args:
            if re.fullmatch(r"(kind|event|answer): u(8|32|64)", a):
                yield f"fn {name}: {a}"


def point3(text):
    name = "?"
    for line in text.split("\n"):
        m = re.match(r"\s*(?:pub )?(?:extern \"C\" )?fn (\w+)", line)
        if m:
            name = m[1]
        if re.match(r"\s*(while|loop)\b", line):
            yield f"fn {name}: {line.strip()}"


def point4(text):
    for name, _, _ in functions(text):
        if BY_HAND.search(name):
            yield f"fn {name}"


def point5(text):
    for name, args, _ in functions(text):
        if len(args) >= 7:
            yield f"fn {name}: {len(args)} parameters"


def point6(text):
    for m in STRUCT.finditer(text):
        fields = re.findall(r"(\w+): ([^,\n]+)", m[2])
        if any(of.startswith("[") for _, of in fields) and any(of == "usize" for _, of in fields):
            yield f"struct {m[1]}: an array with its count"
    for name, args, _ in functions(text):
        arrays = [a for a in args if re.search(r": &(mut )?\[", a) or re.search(r": \[", a)]
        counts = [a for a in args if re.fullmatch(r"(used|n|rules|first|count|len): (usize|u64)", a)]
        if arrays and counts:
            yield f"fn {name}: {arrays[0]} with {counts[0]}"


def point7(text):
    for m in ENUM.finditer(text):
        name = m[1]
        if re.search(r"^\s*fn \w+\((?:[^()]*, )?\w+: " + name + r"\b[^()]*\)", text, re.M) and name in ("Look", "Test", "Change"):
            yield f"enum {name}: a step by its name"
    for name, args, _ in functions(text):
        for a in args:
            if re.fullmatch(r"(free|write|delivers): bool", a):
                yield f"fn {name}: {a}"


def clauses_of_many(texts):
    """A line of a `requires` that stands in three or more functions of a crate."""
    seen = {}
    for path, text in texts:
        for name, _, clauses in functions(text):
            for line in re.findall(r"requires(?: \w+)? (\{.*?\})(?=\s*(?:requires|ensures|$))", clauses, re.S):
                for fact in re.split(r" × ", re.sub(r"\s+", " ", line.strip("{} \n"))):
                    seen.setdefault((path.split("/")[0], fact.strip()), set()).add(name)
    return [f"{crate}: {fact} ({len(names)})" for (crate, fact), names in sorted(seen.items()) if len(names) >= 3]


def main():
    texts = list(sources())
    points = [("1 own Option or Result, flag with a value, number for a kind", point1), ("3 while or loop", point3),
              ("4 equality, order, conversion by hand", point4), ("5a functions of seven or more parameters", point5),
              ("6 array or slice with its count beside", point6), ("7 switch on which step to run", point7)]
    rows = [(title, [f"{path} {p}" for path, text in texts for p in find(text)]) for title, find in points]
    rows.insert(4, ("5b facts that three or more functions of a crate require", clauses_of_many(texts)))
    for title, places in rows:
        print(f"{title}: {len(places)}")
        if "--list" in sys.argv:
            for p in places:
                print("    " + p)


main()
