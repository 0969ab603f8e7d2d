"""The figures against each other and the documents: stack_figures.py ROOT ARCHIVE MEASURED [--write].

ARCHIVE and MEASURED have a line "call bytes" for each call: the first from the machine code (stack_archive.py), the second measured
(stack_depth.c). No call may be measured deeper than its machine code tells. The table of docs/ARCHITECTURE.md has to show both, and beside each
constant of include/blorb.h stands the largest figure of its calls, "as compiled"; --write puts them there.
"""
import re
import sys
from pathlib import Path

from stack_calls import CALLS, LIMITS, limits_of

HEAD = "| Call | Group | Archive | Measured |\n|---|---|--:|--:|\n"


def figures_of(path):
    return {name: int(bytes_) for name, bytes_ in (line.split() for line in Path(path).read_text().splitlines())}


def table(archive, measured):
    return "".join(f"| `{c}` | {group} | {archive[c]} | {measured[c]} |\n" for group, c, _ in CALLS if c is not None)


def with_table(text, archive, measured):
    return re.sub(re.escape(HEAD) + r"(\|.*\n)*", HEAD + table(archive, measured), text)


def with_largest(text, archive):
    for name in sorted(set(LIMITS.values())):
        largest = max(archive[c] for group, c, _ in CALLS if c is not None and LIMITS[group] == name)
        text, found = re.subn(rf"(\b{name} = .*?)\d+( as compiled)", rf"\g<1>{largest}\g<2>", text)
        if found != 1:
            sys.exit(f"stack_figures: include/blorb.h says of {name} no figure \"as compiled\"")
    return text


def kept(path, wanted, write):
    """The document has just this text, or gets it."""
    if path.read_text() != wanted and not write:
        sys.exit(f"stack_figures: {path} has other figures; host/tests/stack --write puts these in")
    if path.read_text() != wanted:
        path.write_text(wanted)


def main():
    root, archive, measured = Path(sys.argv[1]), figures_of(sys.argv[2]), figures_of(sys.argv[3])
    limits = limits_of((root / "include/blorb.h").read_text())
    if archive.keys() != measured.keys():
        sys.exit(f"stack_figures: one of both has not {archive.keys() ^ measured.keys()}")
    for group, c, _ in CALLS:
        if c is not None and not measured[c] <= archive[c] <= limits[group]:
            sys.exit(f"stack_figures: {c}: {measured[c]} measured, {archive[c]} in the archive, {LIMITS[group]} is {limits[group]}")
    document, header, write = root / "docs/ARCHITECTURE.md", root / "include/blorb.h", "--write" in sys.argv[4:]
    print(table(archive, measured), end="")
    kept(document, with_table(document.read_text(), archive, measured), write)
    kept(header, with_largest(header.read_text(), archive), write)
    print(f"stack_figures: ok, {len(archive)} calls")


if __name__ == "__main__":
    main()
