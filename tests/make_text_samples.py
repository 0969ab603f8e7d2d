#!/usr/bin/env python3
"""Writes the samples of the texts of 'RDes' (02, P7) and what reading them answers, for crates/text_samples.

    make_text_samples.py [--check]

The answers come from text_reference.py; those that the papers settle by a word are given by hand here too, and held against it.
"""
import random
import sys
from collections import Counter

import text_reference as reference
from building import be, blorb
from samples import only_check, save

ROOM = 262_143
PICT, SND = 0x50696374, 0x536E6420


def rdes(entries, count=None, behind=b""):
    rows = b"".join(be(u) + be(n) + be(len(t)) + t for u, n, t in entries)
    return be(len(entries) if count is None else count) + rows + behind


def file(*bodies, second=b"JPEG"):
    """A file with pictures 1 and 2, and behind them an 'RDes' for each of the bodies; second: the type of picture 2."""
    chunks = [(b"PNG ", b"picture"), (second, b"another!")] + [(b"RDes", b) for b in bodies]
    return blorb([(b"Pict", 1, 0), (b"Pict", 2, 1)], chunks)


FIRST = 12 + 8 + 28 + 16 + 16    # where the first 'RDes' of these files starts

# RFC 3629, section 4: each sequence as its ranges
TAIL = (0x80, 0xBF)
TABLE = (
    ((0x00, 0x7F),), ((0xC2, 0xDF), TAIL),
    ((0xE0, 0xE0), (0xA0, 0xBF), TAIL), ((0xE1, 0xEC), TAIL, TAIL), ((0xED, 0xED), (0x80, 0x9F), TAIL), ((0xEE, 0xEF), TAIL, TAIL),
    ((0xF0, 0xF0), (0x90, 0xBF), TAIL, TAIL), ((0xF1, 0xF3), TAIL, TAIL, TAIL), ((0xF4, 0xF4), (0x80, 0x8F), TAIL, TAIL),
)


def of_text(name, text, right=None):
    """A file whose second entry has the text; right: 0 if it is good, else how many bytes of it are."""
    answer = None
    if right is not None:
        place = FIRST + 8 + 4 + 12 + 3 + 12
        answer = ("refused", 39, place + right)
    return name, file(rdes([(PICT, 2, b"one"), (PICT, 1, text)])), 0, PICT, 1, answer


def table():
    """Each row at its first and its last byte in each place, and one beyond either."""
    for row in TABLE:
        for at, (low, high) in enumerate(row):
            for byte in (low, high):
                text = bytes(byte if i == at else lowest for i, (lowest, _) in enumerate(row))
                yield of_text(f"row {row[0][0]:02x} byte {at} is {byte:02x}", b"a" + text + b"b")
            for byte in (low - 1, high + 1):
                if 0 <= byte < 256:
                    text = bytes(byte if i == at else lowest for i, (lowest, _) in enumerate(row))
                    yield of_text(f"row {row[0][0]:02x} byte {at} beyond, {byte:02x}", b"a" + text + b"b")
        if len(row) > 1:
            whole = bytes(low for low, _ in row)
            for cut in range(1, len(row)):
                yield of_text(f"row {row[0][0]:02x} cut after {cut}", b"xy" + whole[:cut], 2)


def by_hand():
    yield of_text("overlong slash in two bytes", b"\xc0\xaf", 0)
    yield of_text("overlong slash in three bytes", b"\xe0\x80\xaf", 0)
    yield of_text("overlong slash in four bytes", b"ab\xf0\x80\x80\xaf", 2)
    yield of_text("overlong 7FF", b"\xe0\x9f\xbf", 0)
    yield of_text("surrogate D800", b"caf\xc3\xa9\xed\xa0\x80", 5)
    yield of_text("surrogate DFFF", b"\xed\xbf\xbf", 0)
    yield of_text("above 10FFFF", b"\xf4\x90\x80\x80", 0)
    yield of_text("five bytes", b"\xf8\x88\x80\x80\x80", 0)
    yield of_text("A81: E2 82 at the text's end", b"\xe2\x82", 0)
    yield of_text("A83: an empty text", b"")
    yield of_text("a text of all lengths", "aé漢😀".encode())
    good, bad = (PICT, 1, b"one"), (PICT, 2, b"\xff")
    cut = (PICT, 2, b"\xe2\x82")
    yield "a character cut at the chunk's end", file(rdes([good, cut])), 0, PICT, 1, ("refused", 39, FIRST + 8 + 4 + 15 + 12)
    yield "no 'RDes'", file(), 0, PICT, 1, ("refused", 22, 0)
    yield "no entries", file(rdes([])), 0, PICT, 1, ("refused", 22, 0)
    yield "a text that isn't there", file(rdes([good])), 0, PICT, 2, None
    yield "A83: a resource not in the index", file(rdes([good, (SND, 3, b"sound")])), 0, SND, 3, None
    yield "A82: a usage that there is none of", file(rdes([good, (0, 0, b"none")])), 0, 0, 0, None
    yield "a repeated pair", file(rdes([good, (PICT, 2, b"two"), good])), 0, PICT, 1, ("refused", 38, FIRST + 8 + 4 + 15 + 15)
    yield "38 before 39 within an entry", file(rdes([good, (PICT, 1, b"\xff")])), 0, PICT, 1, ("refused", 38, FIRST + 8 + 4 + 15)
    yield "39 of an earlier entry", file(rdes([bad, good, good])), 0, PICT, 1, ("refused", 39, FIRST + 8 + 4 + 12)
    yield "38 of an earlier entry", file(rdes([good, good, bad])), 0, PICT, 1, ("refused", 38, FIRST + 8 + 4 + 15)
    for n in (0, 1, 2, 3):
        yield f"A84: {n} bytes of data", file(bytes(n)), 0, PICT, 1, ("refused", 37, FIRST)
    yield "count too large", file(rdes([good], 2)), 0, PICT, 1, ("refused", 37, FIRST)
    yield "count too small", file(rdes([good, bad], 1)), 0, PICT, 1, ("refused", 37, FIRST)
    yield "the greatest count", file(rdes([good], 0xFFFFFFFF)), 0, PICT, 1, ("refused", 37, FIRST)
    yield "a byte left over", file(rdes([good], None, b"\0")), 0, PICT, 1, ("refused", 37, FIRST)
    long = be(1) + be(PICT) + be(1) + be(4) + b"one"
    yield "a text past the chunk", file(long), 0, PICT, 1, ("refused", 37, FIRST)
    yield "the greatest text length", file(be(1) + be(PICT) + be(1) + be(0xFFFFFFFF) + b"one"), 0, PICT, 1, ("refused", 37, FIRST)
    size = 8 + len(rdes([good])) + len(rdes([good])) % 2
    yield "36", file(rdes([good]), rdes([good])), 0, PICT, 1, ("refused", 36, FIRST + size)
    yield "A79: 36 before 37 of the second", file(rdes([good]), b"\0"), 0, PICT, 1, ("refused", 36, FIRST + size)
    yield "A79: 37 of the first before 36", file(b"\0", rdes([good])), 0, PICT, 1, ("refused", 37, FIRST)
    yield "A79: 38 of the first before 36", file(rdes([good, good]), rdes([good])), 0, PICT, 1, ("refused", 38, FIRST + 8 + 4 + 15)
    yield "A79: 39 of the first before 36", file(rdes([bad]), rdes([good])), 0, PICT, 1, ("refused", 39, FIRST + 8 + 4 + 12)
    yield "36 of three", file(rdes([good]), rdes([good]), rdes([bad])), 0, PICT, 1, ("refused", 36, FIRST + size)
    yield "under ADRIFT", file(rdes([good, (PICT, 2, b"two")])), 1, PICT, 2, None
    yield "52", file(rdes([good, good])), 2, PICT, 1, ("refused", 52, 0)
    yield "the reader's own", file(rdes([good, good]))[:-1], 0, PICT, 1, ("refused", 5, 4)
    yield from profiles(good)


def profiles(good):
    """02, P12: a 'GIF ' with a text is plain's 14 at its entry and ADRIFT's text; an unknown profile is 52 before all else."""
    house = file(rdes([(PICT, 2, b"a door"), good]), second=b"GIF ")
    yield "a 'GIF ' under plain", house, 0, PICT, 2, ("refused", 14, 24 + 12)
    yield "a 'GIF ' under ADRIFT", house, 1, PICT, 2, ("given", PICT, 2, FIRST + 8 + 4 + 12, b"a door")
    for profile in (2, 2 ** 32 - 1):
        yield f"a broken file under profile {profile}", house[:-1], profile, PICT, 2, ("refused", 52, 0)
        yield f"an empty file under profile {profile}", b"", profile, PICT, 2, ("refused", 52, 0)


def generated():
    rng = random.Random(7)
    pieces = [b"a", b"\xc3\xa9", b"\xe6\xbc\xa2", b"\xf0\x9f\x98\x80", b"\x7f", b"\0"]
    for i in range(120):
        entries = []
        for _ in range(rng.randrange(1, 6)):
            text = b"".join(rng.choice(pieces) for _ in range(rng.randrange(6)))
            if rng.random() < 0.2:
                at = rng.randrange(len(text) + 1)
                text = text[:at] + bytes([rng.choice((0x80, 0xBF, 0xC0, 0xC2, 0xE0, 0xED, 0xF0, 0xF4, 0xF5, 0xFF))]) + text[at:]
            entries.append((rng.choice((PICT, PICT, SND)), rng.randrange(1, 5), text))
        body = rdes(entries, len(entries) + (rng.choice((-1, 1)) if rng.random() < 0.1 else 0))
        bodies = [body] + ([rdes([(PICT, 1, b"one")])] if rng.random() < 0.1 else [])
        yield f"drawn {i}", file(*bodies), 0, PICT, rng.randrange(1, 4), None


def refusal(answer):
    return f"refused {answer[1]} at {answer[2]} text \n"


def told(name, s, profile, usage, number):
    lines = [f"{name}\n"]
    for i in range(3):
        a = reference.by_entry(s, i, profile)
        if a[0] == "refused":
            lines.append(f"  entry {i}: {refusal(a)}")
        else:
            lines.append(f"  entry {i}: usage {a[1]} number {a[2]} start {a[3]} length {len(a[4])} text {a[4].hex()}\n")
    a = reference.by_pair(s, usage, number, profile)
    lines.append(f"  pair: {refusal(a)}" if a[0] == "refused" else f"  pair: start {a[1]} length {len(a[2])} text {a[2].hex()}\n")
    return "".join(lines)


def main():
    only_check()
    packed, lines, counts = [], [], Counter()
    for samples in (table(), by_hand(), generated()):
        for name, s, profile, usage, number, right in samples:
            answer = reference.by_entry(s, 0, profile)
            if right is not None and answer != right:
                sys.exit(f"{name}: by hand {right}, the reference says {answer}")
            counts[answer[1] if answer[0] == "refused" else "given"] += 1
            packed.append(be(len(name)) + be(len(s)) + be(profile) + be(usage) + be(number) + name.encode("ascii") + s)
            lines.append(told(name, s, profile, usage, number))
    stdin = b"".join(packed)
    save("text_samples", stdin, "".join(lines).encode("ascii"), ROOM)
    print(f"{len(lines)} samples, {len(stdin)} bytes:", ", ".join(f"{k} {n}" for k, n in sorted(counts.items(), key=str)))


if __name__ == "__main__":
    main()
