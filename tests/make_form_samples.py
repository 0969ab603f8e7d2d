#!/usr/bin/env python3
"""Makes the run samples of the artists' group files: crates/form_samples/stdin and crates/form_samples/stdout.

usage: make_form_samples.py            writes both files and says how many samples of each answer there are
       make_form_samples.py --check    writes nothing; fails where a file is not as it would be written

The program of that crate reads the packed samples and prints what the library answers; `rt ci` holds what it prints
to the file stdout. The expectations come from forms_reference.py, written from 02 alone; the list's answer of every
sample by hand is stated here as well, and this script stops where the reference says another.

A packed sample: four numbers of four bytes (the length of its name, the length of its file, how many numbers its slice
has, how many rows are picked), the name, the file. Each number of the slice is 7 before. The file is listed into the
slice, and the rows picked, with one that no file has.
"""
import sys
from collections import Counter

import forms_reference as reference
from building import Dice, be, blorb, chunk
from forms_reference import CAT, FORM, LIST, PROP
from samples import CRATES, NUMBERS, checksum, only_check, save

ROOM = 1_048_576          # the program's buffer; the input has to be shorter
FILLER = 7                # each number of the slice, before
GENERATED, SEED = 1500, 9


def holder(kind, *members, length=None, pad=0, own=b"ILBM"):
    """A FORM, group or PROP with its four bytes and these members."""
    return chunk(kind, own + b"".join(members), length, pad)


def form(*members, **more):
    return holder(FORM, *members, **more)


def nested(depth, inner, kind=CAT):
    """This many groups or FORMs in one another, around these bytes."""
    for _ in range(depth):
        inner = holder(kind, inner)
    return inner


def mixed(depth, inner):
    """FORM, LIST and CAT by turns, from the outside in."""
    for k in reversed(range(depth)):
        inner = holder((FORM, LIST, CAT)[k % 3], inner)
    return inner


EMPTY = form()
EVEN, ODD = chunk(b"BODY", b"ab"), chunk(b"BODY", b"abc")
NONZERO = chunk(b"BODY", b"abc", pad=1)
PROPS = holder(PROP, chunk(b"CMAP", b"rgb"), chunk(b"BMHD"))
SMALL = FORM + be(3) + b"abc\0"            # a FORM of under four data bytes, padded
OPEN = chunk(b"BODY", b"ab", length=3)     # a size one byte more than there is


def accepted():
    """(name, file, (form type, start, length field, depth) of each row without the type)"""
    yield "an empty FORM", EMPTY, [(0, 4, 1)]
    yield "an empty CAT", holder(CAT), []
    yield "an empty LIST", holder(LIST), []
    yield "a LIST of PROPs only", holder(LIST, PROPS, PROPS), []
    yield "an empty PROP", holder(LIST, holder(PROP)), []
    yield "a FORM of chunks", form(EVEN, ODD, chunk(b"CMAP")), [(0, 34, 1)]
    yield "a FORM of a FORM, a LIST and a CAT", form(EMPTY, holder(LIST, PROPS, EMPTY), holder(CAT, EMPTY)), [(0, 96, 1), (12, 4, 2), (68, 4, 3), (92, 4, 3)]
    yield "a CAT of three FORMs", holder(CAT, EMPTY, form(ODD), EMPTY), [(12, 4, 2), (24, 16, 2), (48, 4, 2)]
    yield "a LIST of all", holder(LIST, PROPS, holder(CAT, EMPTY), form(ODD, EMPTY)), [(56, 4, 3), (68, 28, 2), (92, 4, 3)]
    yield "plain chunks of no bytes", form(chunk(b"BODY"), chunk(b"    "), chunk(b"LIS1")), [(0, 28, 1)]
    yield "16 levels, a FORM innermost", nested(15, EMPTY), [(180, 4, 16)]
    yield "16 levels of FORMs", nested(16, b"", FORM), [(12 * k, 184 - 12 * k, k + 1) for k in range(16)]
    yield "16 levels, mixed, a chunk innermost", mixed(15, form(ODD)), [(12 * k, 196 - 12 * k, k + 1) for k in range(0, 16, 3)]
    yield "16 levels, a PROP at 17", nested(15, holder(LIST, PROPS)), []
    yield "a PROP at 16", nested(14, holder(LIST, PROPS, EMPTY)), [(12 * 15 + len(PROPS), 4, 16)]
    yield "200 FORMs", holder(CAT, *[EMPTY] * 200), [(12 * k, 4, 2) for k in range(1, 201)]
    yield "B as a FORM", blorb([(b"Data", 7, 0), (b"Pict", 1, 1)], [(b"TEXT", b"eel"), (b"Rect", bytes(8))]), [(0, 68, 1)]
    yield "a game with a sound, a FORM in a FORM", blorb([(b"Snd ", 3, 0)], [(FORM, b"AIFF")]), [(0, 40, 1), (36, 4, 2)]
    eel = (CRATES.parent / "samples" / "eel.blb").read_bytes()
    yield "the sample file", eel, [(0, len(eel) - 8, 1)]


def refused():
    """(name, file, number, place)"""
    # 41: a header cut short, a size past the parent, under four data bytes
    yield "no bytes", b"", 41, 0
    yield "seven bytes", EMPTY[:7], 41, 0
    yield "a top past the end", form(length=5), 41, 0
    yield "a top of 2 ** 32 - 1 bytes", form(length=2 ** 32 - 1), 41, 0
    yield "a FORM of three bytes", SMALL, 41, 0
    yield "a CAT of no bytes", chunk(CAT), 41, 0
    yield "a LIST of three bytes in a CAT", holder(CAT, LIST + be(3) + b"abc\0"), 41, 12
    yield "a PROP of two bytes", holder(LIST, chunk(PROP, b"ab")), 41, 12
    yield "a header cut short in a FORM", form(EVEN, b"BODY\0\0\0"), 41, 22
    yield "a header of one byte, the FORM padded", form(b"B"), 41, 12
    yield "a chunk past its FORM, in the file", holder(CAT, form(OPEN), EMPTY), 41, 24
    yield "a chunk past its FORM by a byte", form(OPEN), 41, 12
    yield "a FORM past its CAT", holder(CAT, holder(CAT, form(length=16)), EMPTY), 41, 24
    yield "a chunk past its PROP", holder(LIST, holder(PROP, OPEN), EMPTY), 41, 24
    # 42
    yield "17 levels of CATs", nested(17, b""), 42, 192
    yield "17 levels, a FORM innermost", nested(16, EMPTY), 42, 192
    yield "17 levels of FORMs", nested(17, b"", FORM), 42, 192
    yield "17 levels, behind a FORM", holder(CAT, EMPTY, nested(15, EMPTY)), 42, 204
    yield "17 levels, mixed", mixed(17, b""), 42, 192
    yield "18 levels", nested(17, EMPTY), 42, 192
    yield "a FORM in a PROP at 16", nested(14, holder(LIST, holder(PROP, EMPTY))), 42, 192
    # 43
    yield "a plain top", EVEN, 43, 0
    yield "a PROP at the top", PROPS, 43, 0
    yield "a byte after the top", EMPTY + b"\0", 43, 12
    yield "a FORM after the top", form(EVEN) + EMPTY, 43, 22
    yield "a PROP in a FORM", form(EVEN, PROPS), 43, 22
    yield "a PROP in a CAT", holder(CAT, PROPS), 43, 12
    yield "a PROP behind a FORM", holder(LIST, PROPS, EMPTY, PROPS), 43, 56
    yield "a PROP behind a CAT", holder(LIST, holder(CAT), PROPS), 43, 24
    yield "a chunk in a LIST", holder(LIST, EVEN), 43, 12
    yield "a chunk behind a FORM in a CAT", holder(CAT, EMPTY, EVEN), 43, 24
    yield "a FORM in a PROP", holder(LIST, holder(PROP, EMPTY)), 43, 24
    yield "a PROP in a PROP", holder(LIST, holder(PROP, ODD, PROPS)), 43, 36
    # 44
    yield "a padding byte of 1", form(NONZERO), 44, 12
    yield "a padding byte of 1 behind a chunk", form(EVEN, NONZERO), 44, 22
    yield "a padding byte in a PROP", holder(LIST, holder(PROP, NONZERO)), 44, 24
    yield "a padding byte outside its FORM", form(ODD[:-1]), 44, 12
    yield "a padding byte outside its PROP", holder(LIST, holder(PROP, ODD[:-1])), 44, 24
    yield "a padding byte missing at the end", form(ODD[:-1])[:-1], 44, 0
    # the first in file order
    yield "an outer padding byte before a fault inside", form(b"B", pad=1), 44, 0
    yield "the same of an inner FORM", holder(CAT, EMPTY, form(PROPS, b"B", pad=1)), 44, 24
    yield "a fault inside before one behind", holder(LIST, form(PROPS), EVEN), 43, 24
    yield "43 before a later 41", form(PROPS, OPEN), 43, 12
    yield "41 before a later 43", form(form(b"BODY"), PROPS), 41, 24
    yield "a fault inside before bytes after the top", form(NONZERO) + b"\0", 44, 12
    yield "a late fault with FORMs before it", holder(CAT, EMPTY, form(ODD, EMPTY), form(NONZERO)), 44, 72
    # at one place in this order
    yield "41 before 42", nested(16, SMALL), 41, 192
    yield "41 before 42, behind a FORM", holder(CAT, EMPTY, nested(15, SMALL)), 41, 204
    yield "42 before 43", nested(14, holder(LIST, holder(PROP, holder(CAT)))), 42, 192
    yield "42 before 43, behind a chunk", nested(14, holder(LIST, holder(PROP, EVEN, EMPTY))), 42, 202
    yield "42 before 44", nested(16, form(b"B", pad=1)), 42, 192
    yield "43 before 44, a chunk in a CAT", holder(CAT, NONZERO), 43, 12
    yield "43 before 44, a PROP in a FORM", form(holder(PROP, b"B", pad=1)), 43, 12
    yield "41 before 43, a PROP in a FORM", form(chunk(PROP, b"ab")), 41, 12
    yield "41 before 43, a chunk in a CAT", holder(CAT, EMPTY, OPEN), 41, 24
    yield "41 before 44, a chunk of odd length", form(chunk(b"BODY", b"abcd", length=5)), 41, 12
    yield "41 before 43 at the top", chunk(b"BODY", length=1), 41, 0


def by_hand():
    """(name, file, slice, picks, the list's answer)"""
    for name, s, rows in accepted():
        n = len(rows)
        stands = reference.read(s)[0]
        if stands is None or [row[1:] for row in stands] != rows:
            sys.exit(f"{name}: by hand {rows}, the reference {reference.read(s)}")
        yield name, s, 4 * n, min(n + 1, 20), ("rows", n)
        yield name + ", room to spare", s, 4 * n + 5, 0, ("rows", n)
        if n:
            yield name + ", a number too few", s, 4 * n - 1, 0, ("refused", 45, 0)
            yield name + ", no slice", s, 0, 0, ("refused", 45, 0)
    for name, s, number, place in refused():
        yield name, s, 8, 1, ("refused", number, place)
        yield name + ", no slice", s, 0, 0, ("refused", number, place)


def tree(dice, depth, kind):
    """A random chunk of this kind, mostly as its parent may have it."""
    if kind not in reference.HOLDERS:
        return chunk(kind, dice.bytes(dice.below(6)))
    members = []
    if kind == LIST:
        members += [tree(dice, depth + 1, PROP) for _ in range(dice.below(3))]
    kinds = {FORM: (FORM, LIST, CAT, b"BODY", b"CMAP"), PROP: (b"BODY", b"CMAP")}.get(kind, (FORM, LIST, CAT))
    for _ in range(dice.below(4) if depth < 17 else 0):
        chosen = dice.one_of(kinds)
        if dice.below(60) == 0:
            chosen = dice.one_of((FORM, LIST, CAT, PROP, b"BODY"))
        members.append(tree(dice, depth + 1, chosen))
    return holder(kind, *members, own=dice.bytes(4))


def damaged(s, dice):
    """s with a byte changed, bytes cut off or put in, or a length field moved."""
    way = dice.below(5)
    at = dice.below(len(s))
    if way == 0:
        return s[:at] + dice.bytes(1) + s[at + 1:]
    if way == 1:
        return s[:at]
    if way == 2:
        return s[:at] + dice.bytes(1 + dice.below(3)) + s[at:]
    found = [k for k in range(len(s) - 7) if s[k:k + 4] in (*reference.HOLDERS, b"BODY", b"CMAP")]
    at = dice.one_of(found) if found else 0
    if way == 3:
        return s[:at + 4] + be((reference.be32(s, at + 4) + dice.below(9) - 4) % 2 ** 32) + s[at + 8:]
    return s[:at] + dice.one_of((FORM, LIST, CAT, PROP, b"BODY")) + s[at + 4:]


def generated(count, seed):
    """Trees of chunks, most of them good, half of them damaged."""
    dice = Dice(seed)
    for i in range(count):
        s = tree(dice, 1, dice.one_of((FORM, LIST, CAT)))
        while len(s) > 600:
            s = tree(dice, 1, dice.one_of((FORM, LIST, CAT)))
        around = dice.below(20)
        if around > 12:
            s = nested(around - 5, s, dice.one_of((FORM, CAT)))
        if dice.below(2):
            s = damaged(s, dice)
        yield f"generated {i}", s, dice.below(60), dice.below(4)


def words(answer):
    what, *values = answer
    return {"refused": "refused {} at {}", "rows": "rows {}", "at": "at {} length {}"}[what].format(*values)


def lines(name, s, room, picks):
    answer = reference.listing(s, [FILLER] * room)
    yield f"{name}: {words(answer)} sum {checksum(answer[-1], NUMBERS)}"
    for i in [*range(picks), 2 ** 64 - 1]:
        yield f" {i}: {words(reference.pick(s, i))} sum {checksum(reference.picked(s, i))}"


def packed(name, s, room, picks):
    return b"".join((be(len(name)), be(len(s)), be(room), be(picks), name.encode(), s))


def main():
    only_check()
    samples, answers = [], Counter()
    for name, s, room, picks, said in by_hand():
        answer = reference.listing(s, [FILLER] * room)
        if answer[:len(said)] != said:
            sys.exit(f"{name}: by hand {said}, the reference {answer[:3]}")
        samples.append((name, s, room, picks))
    samples += generated(GENERATED, SEED)
    for name, s, room, picks in samples:
        answer = reference.listing(s, [FILLER] * room)
        answers["listed" if answer[0] == "rows" else answer[1]] += 1
    stdin = b"".join(packed(*sample) for sample in samples)
    stdout = "".join(line + "\n" for sample in samples for line in lines(*sample)).encode()
    save("form_samples", stdin, stdout, ROOM)
    print(len(samples), "samples:", ", ".join(f"{answers[k]} {k}" for k in sorted(answers, key=str)))


if __name__ == "__main__":
    main()
