"""The documents against the header and the files: documents.py ROOT. A request that adds a refusal has to add its row to docs/RULES.md and its
sentence to host/library/sentences.c."""
import re
import sys
from pathlib import Path

ROOT = Path(sys.argv[1])
checks = 0


def same(what, found, expected):
    global checks
    checks += 1
    if found != expected:
        sys.exit(f"documents: {what}\n  expected: {expected}\n  found:    {found}")


def refusals_of_header(text):
    """Number and name of each refusal: those of a file and a call, not 0 and not the 100 + k."""
    listed = text[text.index("BLORB_DONE = 0"):text.index("BLORB_RESULT = 100")]
    pairs = re.findall(r"^\s*(BLORB_\w+) = (\d+),", listed, re.MULTILINE)
    return {int(number): name for name, number in pairs if number != "0"}


def refusals_of_rules(text):
    """The same from the rows of the tables: | 6 | reason | place | `BLORB_CHUNK_CUT` |"""
    rows = re.findall(r"^\| (\d+) \|.*\| `(BLORB_\w+)` \|$", text, re.MULTILINE)
    same("a number stands twice in docs/RULES.md", len({number for number, _ in rows}), len(rows))
    return {int(number): name for number, name in rows}


def named_refusals(text):
    """All names that the header lists, 0 and those of 100 + k too, but not the bare 100."""
    listed = text[text.index("BLORB_DONE = 0"):text.index("BLORB_RESULT_FRONTISPIECE")]
    names = re.findall(r"^\s*(BLORB_\w+) = ", listed, re.MULTILINE)
    return sorted({*names, "BLORB_RESULT_FRONTISPIECE"} - {"BLORB_RESULT"})


def bytes_of_dump(text, title):
    """The bytes of the first dump behind the title."""
    found = b""
    for line in text[text.index(title):].split("```")[1].strip("\n").splitlines():
        found += bytes.fromhex(line[4:4 + 47])
    return found


def is_there(path):
    """A path that a document names; a star stands for any letters, and .rs may be left out."""
    if "*" in path:
        return any(ROOT.glob(path))
    return (ROOT / path).exists() or (ROOT / path).with_suffix(".rs").exists()


def check_paths(document):
    """Every file of the host side and every document that is named is there."""
    for path in re.findall(r"(?<![\w/.-])(?:docs|examples|host|include|samples|tests)/[\w./*-]*[\w*]", document.read_text()):
        same(f"{document.name} names {path}", is_there(path), True)


def check_edits(text):
    """Every row of the wrong programs in docs/HOST-TESTS.md is an edit that the gate tries."""
    listed = text[text.index("| Edit | What it stands for |"):].split("\n\n")[0]
    rows = re.findall(r"^\| ([a-z_0-9]+)/([a-z_0-9]+) \|", listed, re.MULTILINE)
    same("docs/HOST-TESTS.md lists wrong programs", len(rows) > 40, True)
    for crate, label in rows:
        same(f"there is the edit {crate}/{label}", (ROOT / f"crates/{crate}/must-fail/{label}.edit").exists(), True)


def check_proved(text):
    """Every row of docs/PROVED.md: its theorems are stated in the file that it names, its contracts are those of functions there."""
    rows = re.findall(r"^\| .* \| (.*) \| (crates/\S+) \|$", text, re.MULTILINE)
    same("docs/PROVED.md has rows", len(rows) > 40, True)
    for theorem, path in rows:
        source = (ROOT / path).read_text() if (ROOT / path).exists() else ""
        for name in re.findall(r"`([^`]+)`", theorem):
            stated = rf"^ *(pub )?{re.escape(name)} :" if not theorem.startswith("contract") else rf"^pub (extern \"C\" )?fn {name}"
            same(f"{path} has {name}", bool(re.search(stated, source, re.MULTILINE)), True)


def main():
    rules = (ROOT / "docs/RULES.md").read_text()
    header = refusals_of_header((ROOT / "include/blorb.h").read_text())
    same("the refusals of docs/RULES.md are those of include/blorb.h", refusals_of_rules(rules), header)
    sentences = re.findall(r"^    case (BLORB_\w+):$", (ROOT / "host/library/sentences.c").read_text(), re.MULTILINE)
    same("every refusal has its sentence", sorted(sentences), named_refusals((ROOT / "include/blorb.h").read_text()))
    same("the first example of docs/RULES.md is samples/eel.blb", bytes_of_dump(rules, "## An example in bytes"),
         (ROOT / "samples/eel.blb").read_bytes())
    check_proved((ROOT / "docs/PROVED.md").read_text())
    check_edits((ROOT / "docs/HOST-TESTS.md").read_text())
    for document in [ROOT / "README.md", *sorted((ROOT / "docs").glob("*.md"))]:
        check_paths(document)
    print(f"documents: ok, {checks} checks")


if __name__ == "__main__":
    main()
