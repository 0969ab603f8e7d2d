#!/usr/bin/env python3
"""Makes the run samples of editing: crates/editing_samples/stdin and crates/editing_samples/stdout.

usage: make_editing_samples.py            writes both files and says what they contain
       make_editing_samples.py --check    writes nothing; fails where a file is not as it would be written

The program of that crate reads the packed scenarios (see editing_run.py) and prints what the library answers, with sums
of both whole buffers after every call; `rt ci` holds what it prints to the file stdout.

How the expectations are computed: by editing_reference.py, an editor in Python written from 01 alone. The answers to every
scenario of editing_by_hand.py, undo_by_hand.py, profile_by_hand.py, whole_by_hand.py and link_by_hand.py are stated there by hand as well, and every
scenario that is a run as under 01's 'Whole runs' is held to editing_ledger.py, which is told neither answers nor buffers: this script stops where
they say another. Nothing comes from the library: neither its code nor anything it prints is read here.
"""
import sys
from collections import Counter

from editing_generated import run_of_many, runs, singles
from editing_run import ROOM, held_to_ledger, is_run, lines, packed, results
from link_by_hand import SCENARIOS
from samples import only_check, save

RUNS, SINGLES, SEED = 48, 500, 1


def as_stated(stated, answer, file):
    """Whether an answer and the file after it are what is stated of them."""
    right = (stated.number, stated.place) == (answer.number, answer.place)
    right = right and stated.len in (None, answer.len) and stated.used in (None, answer.used)
    return right and stated.file in (None, file)


def held_to_hand(x, stated):
    for k, (s, (answer, buf, _)) in enumerate(zip(stated, results(x), strict=True)):
        if s and not as_stated(s, answer, buf[:answer.len]):
            sys.exit(f"{x.name}, step {k}: by hand {s}, the reference {answer}")


def made():
    """All scenarios, held to what is stated by hand and to the ledger."""
    for x, stated in SCENARIOS:
        held_to_hand(x, stated)
    scenarios = [x for x, _ in SCENARIOS] + [*singles(SINGLES, SEED), *runs(RUNS, SEED), run_of_many(SEED)]
    if len({x.name for x in scenarios}) != len(scenarios):
        sys.exit("a name stands twice")
    for x in scenarios:
        wrong = held_to_ledger(x) if is_run(x) else None
        if wrong:
            sys.exit(f"{x.name}: {wrong}")
    return scenarios


def tally(scenarios):
    """How often each call gives each number (0: done)."""
    counts = Counter()
    for x in scenarios:
        counts.update((step[0], answer.number) for step, (answer, _, _) in zip(x.steps, results(x)) if answer)
    for what in ("blank", "add", "replace", "remove", "link", "undo"):
        numbers = sorted(n for w, n in counts if w == what)
        print(f"{what}:", *(f"{n}: {counts[what, n]}" for n in numbers))


def main():
    only_check()
    scenarios = made()
    stdin = b"".join(packed(x) for x in scenarios)
    stdout = "".join(line + "\n" for x in scenarios for line in lines(x)).encode()
    save("editing_samples", stdin, stdout, ROOM)
    calls = sum(step[0] != "given" for x in scenarios for step in x.steps)
    print(f"{len(SCENARIOS)} scenarios by hand, {SINGLES} single calls, {RUNS + 1} long runs; {calls} calls in all")
    print(f"{sum(map(is_run, scenarios))} held to the ledger; {len(stdin)} bytes in, {len(stdout)} out")
    print("by number (0: done)")
    tally(scenarios)


if __name__ == "__main__":
    main()
