#!/usr/bin/env python3
"""Holds the library against reference.py on many generated files.

usage: compare_reading.py [FILES [SEED]]      10,000 files and seed 2 unless given; `host/prove reading_samples` first

Half of the files may have types of the ADRIFT profile; the profiles, known and unknown, go by turns.

Packs the files as make_reading_samples.py does, runs crates/reading_samples/out/reading_samples on them, a buffer at a time, and compares
what it prints, line by line. Stops at the first difference, with the file as hexadecimal digits.
"""
import pathlib
import subprocess
import sys
from collections import Counter
from itertools import chain

from make_reading_samples import FAR, PROFILES, ROOM, asked, lines, packed
from reading_generated import ADRIFT_RESOURCES, RESOURCES, generated

PROGRAM = pathlib.Path(__file__).resolve().parent.parent / "crates" / "reading_samples" / "out" / "reading_samples"


def compare(samples):
    bytes_in = b"".join(packed(*x) for x in samples)
    said = subprocess.run([PROGRAM], input=bytes_in, capture_output=True, check=True).stdout
    said = iter(said.decode("latin-1").split("\n"))
    for x in samples:
        for line in lines(*x):
            answer = next(said, "nothing")
            if answer != line:
                sys.exit(f"the library: {answer}\nthe reference: {line}\nthe file {x[0]}: {x[1].hex()}")
    if list(said) != [""]:
        sys.exit("the library says more")


def main():
    count, seed = [int(w) for w in sys.argv[1:3]] + [10_000, 2][len(sys.argv) - 1:]
    verdicts, batch, size = Counter(), [], 0
    files = chain(generated(count // 2, seed, ADRIFT_RESOURCES), generated(count - count // 2, seed, RESOURCES))
    for i, s in enumerate(files):
        x = asked(f"generated {i}", s, PROFILES[i % len(PROFILES)], FAR[i % len(FAR):][:1])
        size += len(packed(*x))
        if size >= ROOM:
            compare(batch)
            batch, size = [], len(packed(*x))
        batch.append(x)
        words = next(lines(*x)).split(": ")[1].split()
        verdicts[int(words[1]) if words[0] == "refused" else 0] += 1
    compare(batch)
    print(f"{count} files, no difference; by refusal (0: accepted):", *(f"{k}: {verdicts[k]}" for k in sorted(verdicts)))


if __name__ == "__main__":
    main()
