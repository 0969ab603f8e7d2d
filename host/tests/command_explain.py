"""explain: every refusal of the header by its number."""
import re

from command_kit import ROOT, done, expect, failed, same

# Those that the program cannot meet: what helps is for C programs.
FOR_PROGRAMS = {20, 24, 25, 34, 45, 52}


def numbers_of_header():
    """Every refusal of include/blorb.h, and those of 100 + k that can occur."""
    text = (ROOT / "include/blorb.h").read_text()
    listed = text[text.index("BLORB_DONE = 0"):text.index("BLORB_RESULT = 100")]
    names = dict(re.findall(r"^\s*(BLORB_\w+) = (\d+),", listed, re.MULTILINE))
    results = re.findall(r"^\s*BLORB_RESULT_\w+ = BLORB_RESULT \+ (BLORB_\w+)", text, re.MULTILINE)
    return {int(n) for n in names.values()} - {0}, {int(names[name]) for name in results}


def sentences():
    """The library's sentence of each number, from its source."""
    header = (ROOT / "include/blorb.h").read_text()
    numbers = {name: int(number) for name, number in re.findall(r"(BLORB_\w+) = (\d+)", header)}
    numbers.update({name: 100 + numbers[base] for name, base in re.findall(r"(BLORB_\w+) = BLORB_RESULT \+ (BLORB_\w+)", header)})
    source = (ROOT / "host/library/sentences.c").read_text()
    return {numbers[name]: text for name, text in re.findall(r'case (BLORB_\w+):\n\s*return "(.*)";', source)}


def flowing(text):
    return " ".join(text.split())


def every_number(work):
    said, (files, results) = sentences(), numbers_of_header()
    expect(len(files) >= 45 and len(results) == 8, f"{len(files)} refusals and {len(results)} of results in the header")
    for number in sorted(files):
        text = done("explain", str(number)).decode()
        expect(all(len(line) <= 80 for line in text.splitlines()), f"explain {number} fits 80 columns")
        expect(flowing(text).startswith(f"{number}: {said[number]} Place: "), f"explain {number}: sentence and place: {text}")
        expect(" What helps: " in flowing(text), f"explain {number}: what helps: {text}")
        same("Only a C program" in text, number in FOR_PROGRAMS, f"explain {number}: who meets it")
    for k in sorted(results):
        text = flowing(done("explain", str(100 + k)).decode())
        expect(text.startswith(f"{100 + k}: {said[100 + k]} Place: ") and " What helps: " in text, f"explain {100 + k}: {text}")
        expect(text.endswith(f"would be refused with {k}, {said[k]}"), f"explain {100 + k}: what the result would be: {text}")


def others(work):
    """100 + k that no edit ends with, numbers that are none, and wrong use."""
    text = flowing(done("explain", "105").decode())
    expect(text.startswith("105: no edit ends so") and "refused with 5, the FORM length" in text, f"explain 105: {text}")
    for number in ("0", "53", "99", "100", "120", "126", "130", "152", "200", "4294967295"):
        failed("explain", number, saying="no refusal of the library")
    for wrong in ("x", "-1", "", "4294967296"):
        failed("explain", wrong, saying="usage: blorb explain NUMBER")
    failed("explain", saying="missing: NUMBER")
    expect("the first byte of the entry in the index" in flowing(done("explain", "14").decode()), "14's place")
    expect("`blorb table FILE` writes it anew." in done("explain", "35").decode(), "35's help")


PARTS = (every_number, others)
