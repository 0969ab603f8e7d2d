#!/usr/bin/env python3
"""Makes the run samples of reading: crates/reading_samples/stdin and crates/reading_samples/stdout.

usage: make_reading_samples.py            writes both files and says how many samples of each verdict there are
       make_reading_samples.py --check    writes nothing; fails where a file is not as it would be written

The program of that crate reads the packed samples and prints what the library answers; `rt ci` holds what it prints
to the file stdout.

How the expectations are computed: by reference.py, a reader in Python written from the papers alone. The verdict of every
sample of reading_by_hand.py is stated there by hand as well, from 01's table, and some lookups; this script stops where the
reference says another. Nothing comes from the library: neither its code nor anything it prints is read here.

A packed sample: five numbers of four bytes (the length of its name, the length of its file, how many entries and how
many pairs are asked, and the profile), the name, the file, eight bytes for each entry's number, four bytes of usage and
four of number for each pair.
"""
import sys
from collections import Counter

import reference
from building import be
from reading_by_hand import DATA, EXEC, LOOKED, PICT, SAMPLES, SND
from reading_generated import ADRIFT_RESOURCES, generated
from samples import checksum, only_check, save

ROOM = 1_048_576          # the program's buffer; the input has to be shorter
GENERATED, SEED = 1200, 1
ADRIFT_GENERATED, ADRIFT_SEED = 300, 2
PROFILES = [1, 0, 1, 2, 1, 0, 1, 2 ** 32 - 1]     # of those with the types of the ADRIFT profile, by turns
# Beyond 32 bits, and such that 12 x i wraps to 0 or 12 in 64 bits, or that i would be negative.
FAR = [2 ** 32, 2 ** 32 + 1, 2 ** 62, 2 ** 62 + 1, 2 ** 63, 2 ** 64 - 1]


def questions(s, far, profile):
    """The entry numbers and the pairs that are asked of a file."""
    try:
        entries = reference.parse(s, profile)[1]
    except reference.Refusal:
        return [0, 1, far[0]], [(DATA, 7), (PICT, 1), (b"None", 0)]
    n = len(entries)
    picked = range(n) if n <= 6 else [0, 1, n // 2, n - 2, n - 1]
    pairs = [entries[i][:2] for i in picked]
    usage, number = pairs[-1] if pairs else (DATA, 7)
    pairs += [(u, number) for u in (PICT, SND, DATA, EXEC)]                   # other kinds, the same number
    pairs += [(usage, (number + k) % 2 ** 32) for k in (1, 2 ** 16, 2 ** 24, 2 ** 32 - 1)]
    pairs += [(usage.swapcase(), number), (b"RIdx", number), (b"    ", 0)]    # no usage
    return [*picked, n, n + 1, *far], list(dict.fromkeys(pairs))


def words(answer):
    """An answer as the program prints it."""
    what, *values = answer
    values = [v.decode() if isinstance(v, bytes) else v for v in values]
    return {
        "accepted": "accepted {} bytes {} entries",
        "refused": "refused {} at {}",
        "given": "{} {} at {}",
        "found": "{} at {} length {}",
    }[what].format(*values)


def lines(name, s, profile, numbers, pairs):
    yield f"{name}: {words(reference.read(s, profile))}"
    for i in numbers:
        yield f" entry {i}: {words(reference.entry(s, i, profile))}"
    for usage, number in pairs:
        part = reference.part(s, usage, number, profile)
        found = words(reference.lookup(s, usage, number, profile))
        yield f" {usage.decode()} {number}: {found}; part {len(part)} sum {checksum(part)}"


def packed(name, s, profile, numbers, pairs):
    rows = [i.to_bytes(8, "big") for i in numbers] + [u + be(n) for u, n in pairs]
    return b"".join([be(len(name)), be(len(s)), be(len(numbers)), be(len(pairs)), be(profile), name.encode(), s, *rows])


def asked(name, s, profile, far):
    return (name, s, profile, *questions(s, far, profile))


def main():
    only_check()
    for name, s, verdict, profile in SAMPLES:
        stated = ("refused", *verdict) if isinstance(verdict, tuple) else ("accepted", len(s), verdict)
        if reference.read(s, profile) != stated:
            sys.exit(f"{name}: by hand {stated}, the reference {reference.read(s, profile)}")
    for s, usage, number, kind, start, part in LOOKED:
        said = reference.lookup(s, usage, number), reference.part(s, usage, number)
        if said != (("found", kind, start, len(part)), part):
            sys.exit(f"{usage.decode()} {number} of {s.hex()}: by hand {kind.decode()} at {start} and {part}, the reference {said}")
    samples = [asked(name, s, profile, FAR) for name, s, _, profile in SAMPLES]
    for i, s in enumerate(generated(GENERATED, SEED)):
        samples.append(asked(f"generated {i}", s, 0, FAR[i % len(FAR):][:1]))
    for i, s in enumerate(generated(ADRIFT_GENERATED, ADRIFT_SEED, ADRIFT_RESOURCES)):
        profile = PROFILES[i % len(PROFILES)]
        samples.append(asked(f"generated {i}, profile {profile}", s, profile, FAR[i % len(FAR):][:1]))
    if len({name for name, *_ in samples}) != len(samples):
        sys.exit("a name stands twice")
    stdin = b"".join(packed(*x) for x in samples)
    stdout = "".join(line + "\n" for x in samples for line in lines(*x)).encode()
    save("reading_samples", stdin, stdout, ROOM)
    verdicts = Counter(a[1] if a[0] == "refused" else 0 for a in (reference.read(x[1], x[2]) for x in samples))
    print(f"{len(samples)} samples ({len(SAMPLES)} by hand, {GENERATED + ADRIFT_GENERATED} generated), {len(stdin)} bytes")
    print(f"{sum(len(x[3]) for x in samples)} entries asked, {sum(len(x[4]) for x in samples)} pairs asked")
    print("by refusal (0: accepted):", *(f"{k}: {verdicts[k]}" for k in sorted(verdicts)))


if __name__ == "__main__":
    main()
