#!/usr/bin/env python3
"""Holds the library against editing_reference.py on many generated runs and single calls.

usage: compare_editing.py [RUNS [SEED]]      200 runs and seed 2 unless given; `host/prove editing_samples` first

Every run comes with 40 single calls on files and journals that may be spoiled. Every run is held to the ledger as well.
Packs the scenarios as make_editing_samples.py does, runs crates/editing_samples/out/editing_samples on them, a buffer at a time, and
compares what it prints, line by line. Stops at the first difference, with the scenario up to there: both buffers before the
first call as hexadecimal digits, and the calls.
"""
import pathlib
import subprocess
import sys
from collections import Counter
from itertools import chain

from editing_generated import run_of_many, runs, singles
from editing_run import ROOM, held_to_ledger, is_run, lines, packed, results

PROGRAM = pathlib.Path(__file__).resolve().parent.parent / "crates" / "editing_samples" / "out" / "editing_samples"


def differs(x, k, answer, line):
    """Ends with all that is needed to see a difference in line k of a scenario."""
    calls = "\n".join(str(step) for step in x.steps[:k])
    sys.exit(f"the library: {answer}\nthe reference: {line}\n{x.name}, step {k - 1}: L {x.len} U {x.used}\n"
             f"buffer {x.buf.hex()}\njournal {x.jrn.hex()}\n{calls}")


def compare(scenarios):
    bytes_in = b"".join(packed(x) for x in scenarios)
    said = subprocess.run([PROGRAM], input=bytes_in, capture_output=True, check=True).stdout
    said = iter(said.decode().split("\n"))
    for x in scenarios:
        for k, line in enumerate(lines(x)):
            answer = next(said, "nothing")
            if answer != line:
                differs(x, k, answer, line)
    if list(said) != [""]:
        sys.exit("the library says more")


def main():
    count, seed = [int(w) for w in sys.argv[1:3]] + [200, 2][len(sys.argv) - 1:]
    numbers, batch, size, calls = Counter(), [], 0, 0
    for x in chain(runs(count, seed), singles(40 * count, seed), [run_of_many(seed)]):
        wrong = held_to_ledger(x) if is_run(x) else None
        if wrong:
            sys.exit(f"{x.name}: {wrong}")
        size += len(packed(x))
        if size >= ROOM:
            compare(batch)
            batch, size = [], len(packed(x))
        batch.append(x)
        calls += len(x.steps)
        numbers.update(answer.number for answer, _, _ in results(x))
    compare(batch)
    print(f"{count} runs, {40 * count} single calls, {calls} calls in all, no difference")
    print("by number (0: done):", *(f"{k}: {numbers[k]}" for k in sorted(numbers)))


if __name__ == "__main__":
    main()
