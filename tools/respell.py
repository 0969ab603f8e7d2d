#!/usr/bin/env python3
"""Brings the repository's own definitions and lemmas to today's spelling, once, after the kit's port.py: words in snake case, joined by a dash only where
each part is the name of a definition; a record's fields are Rust identifiers. Structs and enums of src/ hold plain values, so each derives Clone and Copy;
each crate's root asks for the tactics. Names of src/, strings, inputs and outputs stay.

usage: tools/respell.py [FOLDER]     the checkout, or another one
"""
import os
import re
import sys

ROOT = sys.argv[1] if len(sys.argv) > 1 else "."
WORD = r"[A-Za-z0-9_'₀₁₂₃]"
HEAD = re.compile(r"^( *)((?:(?:abbrev|unfoldable|pub|private) )*)((?:record|data) )?([A-Za-z][\w'-]*)((?: *[({][^:]*?:.*?[)}])*) *:(?= |$)")
# Functions of the library by which lemmas are named.
LIBRARY = set("length take drop map set replicate sum get_or append reverse zip min max all any eqb ltb leb cond mod div add mul sub nil cons zero suc".split())
# What would fall together with another name of its files, and is not told by the rules below (a lemma on a definition of its name ends in _lem, a
# definition with a function's name in _of).
CLASHES = {
    "entryIn": "entry_from",
    "modelOf": "model_of_chunks",
    "inOrder": "refs_in_order",
    "ratioOf": "ratio_by",
    "toldAt": "told_fits",
    "linkPlace": "link_place_of",
    "frontIs": "front_matches",
    "file-bytes": "file_is_bytes",
    "rate-at": "rate_at_lem",
}


def files(*ends):
    for folder, dirs, names in os.walk(os.path.join(ROOT, "crates")):
        dirs[:] = sorted(d for d in dirs if d != "out")
        for n in sorted(names):
            if n.endswith(ends):
                yield os.path.join(folder, n)


def snake(word):
    if word == "getD":
        return "get_or"
    word = re.sub(r"([a-z0-9])([A-Z])([A-Z]+)(?![a-z])", lambda m: m[1] + "_" + (m[2] + m[3]).lower(), word)
    word = re.sub(r"([a-z0-9])([A-Z])", lambda m: m[1] + "_" + m[2].lower(), word)
    return word


def declared(path, text):
    """The names that a file declares: (name, kind), kind one of definition, lemma, field."""
    found, record = [], None
    for line in text.split("\n"):
        if re.match(r"^ *--", line):
            continue
        m = HEAD.match(line)
        if line and not line.startswith(" "):
            record = None
        if not m:
            continue
        indent, marks, kind, name = len(m[1]), m[2], m[3], m[4]
        if kind:
            record = (indent, kind.strip())
            continue
        if record and indent > record[0]:
            found.append((name, "field"))
            continue
        record = None
        if "tie.Need" in line or "tie.invariant" in line or "tie.decreases" in line or name.endswith("-spec") and path.endswith("Proof.antt"):
            continue
        found.append((name, "definition" if "abbrev" in marks or "unfoldable" in marks else "lemma"))
    return found


def token(name):
    return re.compile(r"(?<![\w'₀₁₂₃.-])" + re.escape(name) + r"(?![\w'₀₁₂₃]|-(?=[\w]))")


def main():
    texts = {p: open(p, encoding="utf-8").read() for p in files(".antt", ".rt", ".edit")}
    definitions, lemmas, fields = set(), set(), set()
    for p, t in texts.items():
        if p.endswith(".antt"):
            for name, kind in declared(p, t):
                {"definition": definitions, "lemma": lemmas, "field": fields}[kind].add(name)
    functions = set()
    for p, t in texts.items():
        if p.endswith(".rt"):
            functions |= set(re.findall(r"\bfn (\w+)", t))
    known = {snake(d) for d in definitions if d[0].islower()} | {d for d in definitions} | LIBRARY | functions

    words = {p: set(re.findall(r"[A-Za-z0-9_'₀₁₂₃]+(?:-[A-Za-z0-9_'₀₁₂₃]+)*", t)) for p, t in texts.items()}
    everywhere = set().union(*words.values())
    new = {}
    for name in sorted(definitions | lemmas | fields):
        if "-" in name and name[0].isupper():
            continue
        parts = [snake(x) if x[:1].islower() else x for x in name.split("-")]
        is_lemma = "-" in name and name not in definitions and name not in fields
        to = ("-" if is_lemma and all(x in known for x in parts) else "_").join(parts)
        if to == name or not re.search(r"[a-z]", name):
            continue
        if name in CLASHES:
            to = CLASHES[name]
        elif is_lemma and "-" not in to and (to in definitions or any(snake(d) == to for d in definitions)):
            to += "_lem"
        elif name in definitions and to in functions:
            to += "_of"
        new[name] = to
    # what falls together all the same
    taken = {}
    for name, to in new.items():
        taken.setdefault(to, []).append(name)
    clash = []
    for name, to in new.items():
        where = [p for p, w in words.items() if name in w and to in w]
        if where or len(taken[to]) > 1 or name in CLASHES and to in everywhere:
            clash.append((name, to, taken[to], where[:3]))
    if "--names" in sys.argv:
        for n, t in new.items():
            print(n, t)
        return
    if "--clashes" in sys.argv:
        for c in clash:
            print(*c)
        return
    for p, t in texts.items():
        foreign = set()
        for m in re.finditer(r"use (?!Rattle\.(?!std))[\w.]*\.\{([^}]*)\}|use Rattle\.std\.[\w.]*\.\{([^}]*)\}", t):
            foreign |= {x.strip() for x in (m[1] or m[2]).split(",")}

        def turn(m):
            dot, w = m[1], m[2]
            if w in foreign:
                return m[0]
            if dot and w not in fields:
                return m[0]
            return dot + new.get(w, w)
        s = re.sub(r"(\.?)(?<![\w'₀₁₂₃-])([A-Za-z][A-Za-z0-9_'₀₁₂₃]*(?:-[A-Za-z0-9_'₀₁₂₃]+)*)", turn, t)
        if p.endswith(".rt"):
            s = s.replace("#[derive(Drop)]", "#[derive(Clone, Copy)]")
            if p.endswith(("src/lib.rt", "src/main.rt")) and "#![tactic(auto)]" not in s:
                lines = s.split("\n")
                at = 0
                while at < len(lines) and (lines[at].startswith("//") or not lines[at]):
                    at += 1
                lines[at:at] = ["#![tactic(auto)]", ""]
                s = "\n".join(lines)
        if s != t:
            open(p, "w", encoding="utf-8").write(s)


main()
