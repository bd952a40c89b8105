#!/usr/bin/env python3
"""Brings the repository's own definitions, lemmas, constructors and fields to today's spelling: words in snake case.

usage: python3 tools/snake_names.py [--check]     at the top, once, behind the kit's port.py

camelCase becomes snake_case. A dash stays only where it joins names of definitions, as in count-cut; else it
becomes an underscore. What Rattle generates for a function (proofs/FUNCTION/) keeps its names; so do strings.
Names that would fall together keep their old spelling, or get the one of OTHER; they are printed.
"""
import os
import re
import sys

TOKEN = re.compile(r"[^\s(){}\[\],;.:`\"|/\\]+")
HEAD = re.compile(r"^ *(?:(?:abbrev|unfoldable|pub|opaque|ruleset) )*([^\s:(){}\[\].;,]+) :")
NAMED = re.compile(r"\bas ([^\s:(){}\[\].;,]+)")
MEMBER = re.compile(r"^ {2,4}(?:pub )?([^\s:(){}\[\].;,=]+) :")
GHOST = re.compile(r"^\s*ghost ([^\s:(){}\[\].;,=]+) ?:")
GENERATED = ("Proof.antt", "Answers.antt", "Invariants.antt")
# A better name where the plain one means something else in a file that has both.
OTHER = {
    "readTold": "told_by_read",
    "in-range": "in_range_listed",
}
# A lemma that port.py already gave the spelling that its function takes here.
HERE = {
    "crates/book/proofs/DeskLaws.antt": {"is_open": "is_open_lem", "is_live": "is_live_lem"},
    "crates/book/proofs/HeldLaws.antt": {"held_by": "held_by_lem"},
    "crates/book/proofs/History.antt": {"held_by": "held_by_lem"},
    "crates/pdu/proofs/ReadLaws.antt": {"same_read": "same_read_lem"},
}


def files(top):
    for root, dirs, names in os.walk(top):
        dirs[:] = sorted(d for d in dirs if d not in ("out", ".git", "target"))
        for n in sorted(names):
            yield os.path.join(root, n)


def read(path):
    with open(path, encoding="utf-8", newline="") as f:
        return f.read()


def snake(name):
    return re.sub(r"(?<=[a-z0-9])([A-Z])", lambda m: "_" + m[1].lower(), name)


def wanted(name, known):
    parts = [snake(p) if p[:1].islower() else p for p in name.split("-")]
    parts = ["_".join(p) if isinstance(p, list) else p for p in parts]
    if len(parts) > 1 and not all(p in known or snake(p) in known for p in parts):
        return "_".join(parts)
    return "-".join(parts)


def main():
    check = "--check" in sys.argv
    antt, rt, other = [], [], []
    for p in files("crates"):
        if p.endswith(".antt"):
            antt.append(p)
        elif p.endswith((".rt", ".rt.in")):
            rt.append(p)
        elif p.endswith(".edit") or os.path.basename(p) == "trials.txt":
            other.append(p)
    own, fields, words = set(), set(), set()
    texts = {p: read(p) for p in antt + rt + other}
    for p in antt:
        made = os.path.basename(p) in GENERATED
        for line in texts[p].split("\n"):
            m = HEAD.match(line)
            if m and not made:
                own.add(m[1])
                if "/specs/" in p and not line.startswith(("  pub ", "  " + m[1])):
                    words.add(snake(m[1]))
            m = MEMBER.match(line)
            if m and not made:
                own.add(m[1])
                fields.add(m[1])
            if not made and re.match(r"\s*(?:pub )?use ", line):
                own.update(NAMED.findall(line))
            m = re.match(r"\s*(?:pub )?use (?!Rattle\.(?:%s)\b)[^{]*\{(.*)\}" % "|".join(os.listdir("crates")), line)
            if m:
                words.update(x.split()[0] for x in m[1].split(",") if x.split() and "-" not in x)
    known = {w for w in words if "-" not in w}
    turn = {}
    for name in sorted(own):
        if not (name[:1].islower() or "-" in name) or name in ("ℕ",):
            continue
        new = OTHER.get(name) or wanted(name, known)
        if new != name:
            turn[name] = new
    # A lemma that would have its function's name gets `_lem`.
    for name, new in turn.items():
        if "-" in name and "-" not in new and any(o != name and "-" not in o and turn.get(o, o) == new for o in own):
            turn[name] = new + "_lem"
    # names that fall together
    said = []
    taken = {}
    for name in own:
        taken.setdefault(turn.get(name, name), set()).add(name)
    for new, olds in sorted(taken.items()):
        if len(olds) > 1:
            said.append(f"{new}: {', '.join(sorted(olds))}")
    for p in antt + rt:
        if os.path.basename(p) in GENERATED:
            continue
        tokens = set(TOKEN.findall(re.sub(r"(--|//).*", "", texts[p])))
        for name, new in turn.items():
            if name in tokens and new in tokens:
                said.append(f"{p}: {name} would be {new}, which stands there too")
    print("\n".join(said))
    print(f"{len(turn)} names, {len(said)} to look at")

    def turned(path, text):
        made = os.path.basename(path) in GENERATED
        code = path.endswith((".rt", ".rt.in"))
        prose = path.endswith(".md")
        mark = "//" if code else "--"
        here = HERE.get(path, {})

        def one(m):
            w = m[0]
            before = text[m.start() - 1] if m.start() else " "
            if w in here:
                return here[w]
            tail = re.search(r"[′'₀-₉]*$", w)[0]
            core = w if w in turn else w[: len(w) - len(tail)] if tail else w
            if core not in turn:
                return w
            if made and before == "." and core not in fields:
                return w
            if code and before == '"':
                return w
            if not re.search("[a-z][A-Z]", core) or prose:
                line = text[text.rfind("\n", 0, m.start()) + 1 : m.start()]
                if (prose or mark in line) and line.count("`") % 2 == 0:
                    return w
            return turn[core] + w[len(core):]

        return TOKEN.sub(one, text)

    n = 0
    for p in antt + rt + other + [q for top in ("docs", "README.md", "tools", "tests", "include") for q in ([top] if os.path.isfile(top) else files(top)) if q.endswith((".md", ".txt"))]:
        text = texts.get(p) or read(p)
        new = turned(p, text)
        if new != text:
            n += 1
            if not check:
                with open(p, "w", encoding="utf-8", newline="") as f:
                    f.write(new)
    print(f"{n} files")


main()
