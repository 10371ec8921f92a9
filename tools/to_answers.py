#!/usr/bin/env python3
"""Turns the older proofs of a crate's functions, Proof.antt, to Invariants.antt and Answers.antt.

usage: python3 tools/to_answers.py NAMES [FUNCTION..]      in the crate's folder

NAMES is the folder that `rt check --generated NAMES --old-names` wrote for this crate. Each Proof.antt in proofs/F, or only those
of the functions named, becomes Invariants.antt, with the invariants and measures, and Answers.antt, with the goals that were
answered by more than a search; goals and steps get their names of today. What is in no table is left as it was and printed.
The older file goes to NAMES/aside/F.
"""

import json
import os
import re
import shutil
import sys

FUNCTIONS = {}
ASIDE = "aside"
CHAR = r"[\w'₀-₉-]"
NAME = CHAR + "+"


def alike(name):
    name = name.replace("_", "-").lower()
    for head in ("overflow-",):
        if name.startswith(head):
            name = name[len(head):]
    return name


def items(text):
    """The header, and then each top-level item as (signature lines, body lines)."""
    lines = text.split("\n")
    at = 0
    head = []
    while at < len(lines) and (lines[at].startswith("--") or lines[at].startswith("use ") or not lines[at].strip()):
        head.append(lines[at])
        at += 1
    found, now = [], []
    for line in lines[at:]:
        if re.match(r"^(?:(?:abbrev|unfoldable|pub)\s+)*" + NAME + r"(?:\s+" + NAME + r")*\s+:(\s|$)", line) or re.match(r"^(--|use |pub use |module |record |data |pub record |abbrev pub )", line) and (not now or not now[-1].startswith("--")):
            if now and not (now[-1].startswith("--") and line.startswith("--")) and not all(l.startswith("--") for l in now if l.strip()):
                found.append(now)
                now = []
            now.append(line)
        else:
            now.append(line)
    if now:
        found.append(now)
    return head, found


def contracts(root):
    """crate::function -> its &mut parameters, and the names of its requires and ensures."""
    found = {}
    for crate in sorted(os.listdir(os.path.join(root, "crates"))):
        src = os.path.join(root, "crates", crate, "src")
        if not os.path.isdir(src):
            continue
        for name in sorted(os.listdir(src)):
            if not name.endswith(".rt"):
                continue
            with open(os.path.join(src, name), encoding="utf-8") as f:
                text = f.read()
            owner = None
            for m in re.finditer(r"^impl (\w+)|^( *)(?:pub )?(?:extern \"C\" )?fn (\w+)\(", text, re.M):
                if m.group(1):
                    owner = m.group(1)
                    continue
                if not m.group(2):
                    owner = None
                at = m.end()
                depth = 1
                while depth:
                    depth += {"(": 1, ")": -1}.get(text[at], 0)
                    at += 1
                params = text[m.end(): at - 1]
                lent = re.findall(r"(\w+): &", params)
                if re.search(r"&(mut )?self", params):
                    lent.insert(0, "self")
                end = re.compile(r"^ *\{ *$|\{$", re.M).search(text, at)
                stop = re.compile(r"^" + (m.group(2) or "") + r"\{", re.M).search(text, at)
                line_end = text.index("\n", at)
                head = text[at: stop.start()] if stop and not text[at:line_end].rstrip().endswith("{") else ""
                asks = re.findall(r"^\s+requires(?: (\w+))? \{", head, re.M)
                gives = re.findall(r"^\s+ensures(?: (\w+))? \{", head, re.M)
                key = crate + "::" + (owner + "::" if owner else "") + m.group(3)
                named = re.findall(r"(?:^|,)\s*(?:mut )?(\w+)(?=:|\s*(?:,|$))", re.sub(r"<[^>]*>|\[[^\[\]]*\]", "", params))
                found[key] = (lent, asks, gives, named)
    return found


def parts_of(inner):
    """The parts of a tuple, at its top-level commas."""
    parts, depth, now = [], 0, ""
    for ch in inner:
        if ch in "([{":
            depth += 1
        elif ch in ")]}":
            depth -= 1
        if ch == "," and depth == 0:
            parts.append(now)
            now = ""
        else:
            now += ch
    if now.strip():
        parts.append(now)
    return parts


def as_record(body, clauses):
    """A tuple that ends a body, one part for each clause, as a record."""
    text = body.rstrip()
    if len(clauses) < 2 or not text.endswith(")"):
        return None
    depth = 0
    for at in range(len(text) - 1, -1, -1):
        depth += {")": 1, "(": -1}.get(text[at], 0)
        if depth == 0:
            break
    parts = parts_of(text[at + 1: -1])
    if len(parts) != len(clauses):
        return None
    before = text[:at]
    if before.strip() and not re.search(r"(\bin|=|\[|↦)\s*$", before):
        return None
    return before + "record {\n" + "".join(f"      {n} = {p.strip()};\n" for n, p in zip(clauses, parts)) + "    }"


def as_told(body, clauses):
    """A lemma that gives a tuple, one part for each clause, as a record."""
    if len(clauses) < 2 or re.search(r"(^|\bin)\s*(record \{|elim\b|⊎_elim)", body):
        return None
    text = body.strip()
    parts = " ".join(f"{n} = told.{k};" for k, n in enumerate(clauses))
    return "\n    let told = (" + text + ") in\n    record { " + parts + " }"


def tokens(body, table):
    return re.sub(r"(?<![\w'₀-₉.-])(" + NAME + ")", lambda m: table.get(m.group(1), m.group(1)), body)


def flatten(body, steps, left, arms=(), raws=(), calls=None, own=None):
    """c.before.before.loop.i becomes c.loop-i.i, and a name for a place becomes c."""
    calls = calls or {}
    body = re.sub(r"((?:\.before)+)(?![\w'-])", "", body)
    while True:
        m = re.search(r"let (" + NAME + r") = (c) in\s*", body)
        if not m:
            break
        body = body[: m.start()] + body[m.end():]
        body = tokens_field(body, m.group(1), "c")
    def step(m):
        old = m.group(1)
        if old in ("args", "requires", "ranges", "type_inv", "well_formed", "utf8"):
            return m.group(0)
        new = steps.get(alike(old)) or steps.get(old) or steps.get(alike(re.sub(r"_lem$", "", old))) or steps.get({"type_size": "size-of"}.get(old))
        if new is None:
            left.append("step " + old)
            return m.group(0)
        return "c." + new
    while True:
        m = re.search(r"let (" + NAME + r") = (c\." + NAME + r"\.given) in\s*", body)
        if not m:
            break
        body = tokens_field(body[: m.start()] + body[m.end():], m.group(1), m.group(2))
    for old, way, new in arms:
        body = re.sub(r"(?<![\w'₀-₉.-])c\." + re.sub(r"[-_]", "[-_]", re.escape(old).replace("\\-", "-")) + re.escape("." + ".".join(way)) + r"(?![\w'₀-₉-])", "c." + new, body)
    body = re.sub(r"(?<![\w'₀-₉.-])c\.well-formed", "c.well_formed", body)
    body = re.sub(r"(?<![\w'₀-₉.-])c\.(" + NAME + ")(?!" + CHAR + r"|\.is(?![\w-]))", step, body) if not arms else re.sub(r"(?<![\w'₀-₉.-])c\.(" + NAME + ")", lambda m: m.group(0) if m.group(1).startswith("in-") else step(m), body)
    for new in raws:
        body = re.sub(re.escape("c." + new) + r"\.(true|false)(?![\w-])", "c." + new + r".\1-raw", body)
        body = re.sub(r"not-(true|false) (?:_|[\w'.-]+|\([^()]*\)) (" + re.escape("c." + new) + r"\.(?:true|false))-raw", r"\2", body)
        body = re.sub(r"\((" + re.escape("c." + new) + r"\.(?:true|false))\)", r"\1", body)
    for new, (lent, asks, gives, _) in calls.items():
        names = {new}
        for m in re.finditer(r"let (" + NAME + r") = " + re.escape("c." + new) + r" in", body):
            names.add("=" + m.group(1))
        for n in names:
            head = "c." + n if not n.startswith("=") else n[1:]
            for k, p in reversed(list(enumerate(lent))):
                body = re.sub(r"(?<![\w'₀-₉.-])" + re.escape(head) + r"\.new" + r"\.1" * k + r"\.0(?![\w-])", f"{head}.new.{p}", body)
            if len(gives) > 1:
                for k, p in enumerate(gives):
                    body = re.sub(r"(?<![\w'₀-₉.-])" + re.escape(head) + rf"\.ensures\.{k}(?![\w-])", f"{head}.ensures.{p}", body)
    if own:
        # an array that was passed by value had a number for its name
        for k, p in enumerate(own[3]):
            body = re.sub(rf"(\.args\.|\ba\.)t{k + 1}(?![\w'-])", r"\1" + p, body)
    if own and len(own[1]) > 1:
        for k, p in enumerate(own[1]):
            body = re.sub(r"(?<![\w'₀-₉.-])c\.requires" + rf"\.{k}(?![\w-])", f"c.requires.{p}", body)
    return body


def tokens_field(body, old, new):
    return re.sub(r"(?<![\w'₀-₉.-])" + re.escape(old) + r"(?![\w'₀-₉-])", new, body)


def searched(body):
    flat = re.sub(r"\s+", " ", body).strip()
    return re.fullmatch(r"(?:search rules|\((?:search rules,? ?)+\))", flat) is not None


def convert(folder, crate, path, names):
    left = []
    with open(os.path.join(folder, "Proof.antt"), encoding="utf-8") as f:
        text = f.read()
    needs = {}
    for old, new in names["needs"]:
        needs.setdefault(alike(old), new)
    # the older words of a step's name were joined by dashes, and the first of its kind had no number
    steps = {}
    for _, _, (old, new), *_ in names["places"]:
        if old:
            steps.setdefault(alike(old), new)
    arms = []
    for arm in names["arms"]:
        if arm:
            for new, old, way in arm[2]:
                if way and way[0] == "given":
                    arms.append((old, way, arm[0] + "." + new))
    arms.sort(key=lambda a: -len(a[1]))
    raws = sorted({p[2][1] for p in names["places"] if p[4] and ["true", "true-raw"] in p[4] or p[4] and ["false", "false-raw"] in p[4]})
    calls = {p[2][1]: FUNCTIONS[p[3]] for p in names["places"] if p[3] in FUNCTIONS}
    mine = FUNCTIONS.get(crate + "::" + path.replace(".", "::"))
    helpers = []

    def turn(body):
        return flatten(body, steps, left, arms, raws, calls, mine)

    def with_helpers(body, opened):
        """Helpers at a place: facts become lets before the body, values are written out."""
        wanted = []
        for h in reversed(helpers):
            name, kind, value, args = h["name"], h["type"], h["body"], h["args"]
            pattern = r"(?<![\w'₀-₉.-])" + re.escape(name) + r" c(?![\w'₀-₉.-])"
            used = re.search(pattern, body) or any(re.search(pattern, w["type"] + w["body"]) for w in wanted)
            if not used:
                continue
            if h["fact"] and not args:
                body = re.sub(pattern, name, body)
                body = re.sub(r"\(" + re.escape(name) + r"\)", name, body)
                for w in wanted:
                    w["body"] = re.sub(pattern, name, w["body"])
                wanted.append(dict(h))
                for u in h["opened"]:
                    if u not in opened:
                        opened.append(u)
            else:
                flat = re.sub(r"\s+", " ", value).strip()
                put = flat if re.fullmatch(r"[\w'.-]+", flat) else "(" + flat + ")"
                body = re.sub(r"\(" + re.escape(name) + r" c\)", lambda m: put, body)
                body = re.sub(pattern, lambda m: put, body)
                for w in wanted:
                    for k in ("type", "body"):
                        w[k] = re.sub(r"\(" + re.escape(name) + r" c\)", lambda m: put, w[k])
                        w[k] = re.sub(pattern, lambda m: put, w[k])
        lets = "".join(f"\n    let {w['name']} : {re.sub(chr(92) + 's+', ' ', w['type']).strip()} = {w['body'].strip()} in" for w in reversed(wanted))
        return lets + ("\n    " + body.strip() if lets else body), opened

    loops = {}
    for k, ((old, new), variables) in enumerate(names["loops"]):
        loops[alike(old)] = (new, variables, names["changed"][k])
    head, found = items(text)
    comments = [l for l in head if l.startswith("--")]
    uses = [l for l in head if l.startswith("use ") and not re.search(r"\.(Tie|Statement|Lts|Code)( as |\.\{|$)", l)]
    invariants, answers = [], []
    for it in found:
        block = "\n".join(it).rstrip()
        lead = [l for l in it if l.startswith("--")]
        code = [l for l in it if not l.startswith("--")]
        while code and not code[0].strip():
            code.pop(0)
        sig = code[0] if code else ""
        whole = "\n".join(code).rstrip()
        m = re.match(r"^(?:abbrev )?(?:pub )?(" + NAME + r") : tie\.(invariant|decreases)-(" + NAME + r")\s*\n(.*)$", whole, re.S)
        if m:
            own, kind, loop, rest = m.groups()
            if alike(loop) not in loops:
                left.append("loop " + loop)
                answers.append(block)
                continue
            new, variables, changed = loops[alike(loop)]
            c = re.match(re.escape(own) + r"((?:\s+" + NAME + r")*)\s*=(.*)$", rest, re.S)
            if not c:
                left.append("invariant " + own)
                answers.append(block)
                continue
            args = c.group(1).split()
            body = c.group(2)
            table = {}
            first = args[: len(variables)]
            after = args[len(variables):]
            moving = [v for v, ch in zip(variables, changed) if ch]
            if len(after) != len(moving):
                left.append(f"arguments of {own}: {args} for {variables} {changed}")
            for a, v, ch in zip(first, variables, changed):
                table[a] = ("l.initial." if ch else "l.") + v
            for a, v in zip(after, moving):
                table[a] = "l." + v
            body = tokens(body, table)
            invariants.append("\n".join(lead + [f"abbrev pub {kind}-{new} : goal.{kind}-{new}", f"{kind}-{new} l ={body}"]).rstrip())
            continue
        m = re.match(r"^(?:pub )?(" + NAME + r") : tie\.Need-(" + NAME + r")((?:\s+" + NAME + r")*?)\s*\n((?:\s*(?:unfolding|steps) [^\n]*\n)*\1[^\n]*=.*)$", whole, re.S)
        if m:
            own, need, _, rest = m.groups()
            opened = ""
            while True:
                u = re.match(r"^(\s*(?:unfolding|steps) [^\n]*\n)(.*)$", rest, re.S)
                if not u:
                    break
                opened += u.group(1)
                rest = u.group(2)
            c = re.match(r"^" + re.escape(own) + r"((?:\s+" + NAME + r")+)\s*=(.*)$", rest, re.S)
            if not c:
                left.append("answer " + own)
                answers.append(block)
                continue
            new = needs.get(alike(need))
            if new is None:
                left.append("goal " + need)
                new = need
            if searched(c.group(2)) and not opened.strip():
                continue
            body = turn(c.group(2))
            opens = [w for l in opened.split("\n") if l.strip().startswith("unfolding") for w in l.split()[1:]]
            others = [l for l in opened.split("\n") if l.strip() and not l.strip().startswith("unfolding")]
            body, opens = with_helpers(body, opens)
            if new.startswith("returns") and mine:
                body = as_record(body, mine[2]) or as_told(body, mine[2]) or body
            opened = ("unfolding " + " ".join(opens) + "\n" if opens else "") + "".join(o + "\n" for o in others)
            answers.append("\n".join(lead + [f"pub {new} : goal.{new}"]) + "\n" + opened + f"{new} c =" + body.rstrip())
            continue
        if re.match(r"^pub " + NAME + r"[-_]spec :", sig):
            continue
        h = re.match(r"^(abbrev )?(?:pub )?(" + NAME + r")\s+: (?:\((" + NAME + r") : tie\.(" + NAME + r")(?: [\w'-]+)*\) → (.*?)|tie\.(" + NAME + r")(?: [\w'-]+)* → (.*?))\n((?:\s*unfolding [^\n]*\n)*)\2 (" + NAME + r") =(.*)$", whole, re.S)
        if h:
            abbrev, name, var, _, kind, _, kind2, opens, arg, value = h.groups()
            kind = kind or kind2
            if "tie." not in kind or re.fullmatch(r"tie\." + NAME, kind.strip()):
                if var:
                    kind = tokens_field(kind, var, "c")
                value = tokens_field(value, arg, "c")
                helpers.append({
                    "name": name, "type": turn(kind), "body": turn(value), "args": False,
                    "fact": not abbrev and not kind.strip().startswith("tie."),
                    "opened": [w for l in opens.split("\n") if l.strip() for w in l.split()[1:]],
                })
                continue
        if re.search(r"\btie\.", whole):
            left.append("helper " + sig[:80])
            block = tokens_field(block, "tie", "goal")
        answers.append(block)
    aside = os.path.join(ASIDE, os.path.relpath(folder, "proofs"))
    os.makedirs(aside, exist_ok=True)
    shutil.move(os.path.join(folder, "Proof.antt"), os.path.join(aside, "Proof.antt"))
    mod = os.path.relpath(folder, "proofs").replace("/", ".")
    def used(blocks):
        text = "\n".join(blocks)
        kept = []
        for u in uses:
            m = re.match(r"use (\S+?)\.\{(.*)\}$", u)
            if not m:
                kept.append(u)
                continue
            keep = []
            for n in [x.strip() for x in m.group(2).split(",")]:
                bare = n.split(" as ")[-1]
                parts = [p for p in bare.split("◌") if p]
                if all(p in text for p in parts):
                    keep.append(n)
            if keep:
                kept.append(f"use {m.group(1)}." + "{" + ", ".join(keep) + "}")
        return kept
    if invariants:
        with open(os.path.join(folder, "Invariants.antt"), "w", encoding="utf-8") as f:
            f.write("\n".join(comments + used(invariants) + [f"use Rattle.{crate}.proofs.{mod}.Given as goal", ""]) + "\n" + "\n\n".join(invariants) + "\n")
        comments = []
    answers = [a for a in answers if a.strip()]
    if any(" : goal." in a or "goal." in a for a in answers):
        with open(os.path.join(folder, "Answers.antt"), "w", encoding="utf-8") as f:
            f.write("\n".join(comments + used(answers) + [f"use Rattle.{crate}.proofs.{mod}.Goals as goal", ""]) + "\n" + "\n\n".join(answers) + "\n")
    elif answers:
        left.append("only helpers were left, and are not written: " + "; ".join(a.split("\n")[0][:60] for a in answers))
    if not os.listdir(folder):
        os.rmdir(folder)
    for it in left:
        print(f"left: {crate}/{folder}: {it}")


def main(argv):
    global FUNCTIONS, ASIDE
    ASIDE = os.path.join(argv[0], "aside")
    crate = os.path.basename(os.getcwd())
    FUNCTIONS = contracts(os.path.join(os.getcwd(), "..", ".."))
    with open(os.path.join(argv[0], "names.json"), encoding="utf-8") as f:
        every = json.load(f)
    only = argv[1:]
    for folder, dirs, files in sorted(os.walk("proofs")):
        if "Proof.antt" not in files:
            continue
        mod = os.path.relpath(folder, "proofs").replace("/", ".")
        if only and mod not in only and mod.split(".")[-1] not in only:
            continue
        key = f"Rattle-{crate}-proofs.{mod}.Lts"
        if key not in every:
            print(f"left: {crate}/{folder}: no names")
            continue
        convert(folder, crate, mod, every[key])
    return 0


if __name__ == "__main__":
    raise SystemExit(main(sys.argv[1:]))
