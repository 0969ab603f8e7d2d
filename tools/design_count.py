#!/usr/bin/env python3
"""Counts the places that docs/DESIGN-PASS.md speaks of in crates/*/src, point by point; with --list it names them.

    python3 tools/design_count.py [--list] [FOLDER]

It goes by text, so a count is of places to look at: what stays is named in the page with its reason.
"""
import collections
import glob
import re
import sys

LIST = "--list" in sys.argv
ROOT = next((it for it in sys.argv[1:] if not it.startswith("--")), ".")


def sources():
    for path in sorted(glob.glob(f"{ROOT}/crates/*/src/**/*.rt", recursive=True)):
        with open(path, encoding="utf-8") as it:
            text = re.sub(r"//[^\n]*", "", it.read())
        yield path[len(ROOT) + 8 :], text


def functions(text):
    """Yields name, head (with its clauses) and body of each function."""
    for found in re.finditer(r"(?m)^( *)(?:pub(?:\([^)]*\))? )?(?:extern \"C\" )?fn (\w+)", text):
        indent = found[1]
        # The body's braces stand alone, or end the line of the signature.
        opens = re.search(rf"(?m)(?:^{indent}\{{$| \{{$)", text[found.start() :])
        if not opens:
            continue
        start = found.start() + opens.end()
        end = text.find(f"\n{indent}}}", start)
        yield found[2], text[found.start() : start - 1], text[start:end]


def show(point, what, places):
    print(f"{point:3} {len(places):4}  {what}")
    if LIST:
        for it in places:
            print(f"          {it}")


enums, flags, codes, loops, by_index, numbers, steps = [], [], [], [], [], [], []
twins = collections.defaultdict(list)
facts = collections.defaultdict(set)
groups = collections.defaultdict(set)
lengths = []
for path, text in sources():
    for name, body in re.findall(r"\benum (\w+)[^{]*\{((?:[^{}]|\{[^}]*\})*)\}", text):
        arms = [it.strip() for it in re.split(r",(?![^({]*[)}])", body) if it.strip()]
        bare = [it for it in arms if re.fullmatch(r"\w+", it)]
        refuses = any(re.search(r"number: u64|\(u64, usize\)", it) for it in arms)
        if refuses or (len(arms) == 2 and len(bare) == 1) or {"Unsure", "Nothing"} & set(bare) and len(arms) < 4:
            enums.append(f"{path} {name}")
    for name, body in re.findall(r"\bstruct (\w+)[^{;]*\{([^}]*)\}", text):
        if ": bool" in body and body.count(":") > 1:
            flags.append(f"{path} {name}")
    codes += [f"{path} {it}" for it in re.findall(r"(?:number: |refused\(|(?:No|Not|Keep|Stay)\()\d+", text)]
    for name, head, body in functions(text):
        for test in re.findall(r"while ([^{]*)\{", body):
            counted = [v for v in set(re.findall(r"\b[a-z]\w*\b", test)) if re.search(rf"\b{v} [+-]= 1;", body)]
            if counted:
                loops.append(f"{path} {name}")
        for v, over in re.findall(r"for (\w+) in 0\.\.([\w.()]+)", body):
            if re.search(rf"\w\[{v}\]", body):
                by_index.append(f"{path} {name}")
        if re.search(r"[*/%] (256|65536|16777216)\b", body):
            numbers.append(f"{path} {name}")
        if re.search(r"\bkind\)? == [1-6]\b|match s\[|\b[1-6] => ", body):
            steps.append(f"{path} {name}")
        plain = re.sub(r"\b\d+\w*\b", "0", re.sub(r"\b[a-zA-Z_]\w*\b", "x", body))
        plain = re.sub(r"\s+", "", plain)
        if len(plain) > 40:
            twins[plain].append(f"{path} {name}")
        for clause in re.findall(r"requires(?: \w+)? \{(.*?)\}\n", head, re.S):
            for fact in re.split(r"\s×\s", re.sub(r"\s+", " ", clause)):
                fact = fact.strip().strip("()").strip()
                if fact:
                    facts[(path.split("/")[0], fact)].add(f"{path} {name}")
        args = [re.sub(r"\s+", " ", it.strip()) for it in re.findall(r"(\w+: [^,()]+)(?=[,)])", head.split("\n    requires")[0].split("->")[0])]
        for size in (3,):
            for i in range(len(args) - size + 1):
                groups[", ".join(args[i : i + size])].add(f"{path} {name}")
        if re.search(r"\w+: &(mut )?\[\w+(; \d+)?\], (len|count|n|used|rows): usize", re.sub(r"\s+", " ", head)):
            lengths.append(f"{path} {name}")

show("1", "enums of the shape of Option or Result", enums)
show("1", "structs with a flag beside a value", flags)
show("1", "numbers for refusals", codes)
alike = {k: v for k, v in twins.items() if len(v) > 1}
show("2", "functions whose bodies differ in names and numbers only", [" = ".join(v) for v in alike.values()])
show("3", "while loops that count by one", loops)
show("3", "for loops over an index that only reads its slice", by_index)
show("4", "functions that take numbers apart or together byte by byte", numbers)
show("5", "facts in the requires of three or more functions of a crate", [f"{k[0]}: {k[1]}  ({len(v)})" for k, v in facts.items() if len(v) > 2])
show("5", "three parameters that travel together through three or more functions", [f"{k}  ({len(v)})" for k, v in groups.items() if len(v) > 2])
show("6", "slices with a length or count beside them", lengths)
show("7", "functions that switch on a number for a step", steps)
