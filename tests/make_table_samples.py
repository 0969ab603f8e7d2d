#!/usr/bin/env python3
"""Makes the run samples of the finding table: crates/table_samples/stdin and crates/table_samples/stdout.

usage: make_table_samples.py            writes both files and says how many samples of each answer there are
       make_table_samples.py --check    writes nothing; fails where a file is not as it would be written

The program of that crate reads the packed samples and prints what the library answers; `rt ci` holds what it prints
to the file stdout. The expectations come from table_reference.py, written from 02 alone; the check's answer of every
sample by hand, and what a table in columns answers, are stated here as well, and this script stops where the reference
says another.

A packed sample: six numbers of four bytes (the length of its name, the length of its file, how many numbers its slice
has, how many a second slice has, how many pairs are sought, and the profile), the name, the file, four bytes for each
number of the slice, four bytes of usage and four of number for each pair. Each slice is checked, then built in; then, as it was given,
checked as three columns, turned in the second slice into columns and (as columns) into rows, each of which is checked,
and searched in both forms for each pair.
"""
import sys
from collections import Counter

import table_reference as reference
from building import Dice, be, blorb, put32
from reference import DATA, EXEC, PICT, SND
from samples import NUMBERS, checksum, only_check, save

ROOM = 1_048_576          # the program's buffer; the input has to be shorter
SLICE = 16_384            # numbers in its longest slice
FILLER = 7                # each number of the second slice, before
GENERATED, SEED = 400, 2
KIND = {PICT: (b"Rect", bytes(8)), SND: (b"MOD ", b"m"), DATA: (b"TEXT", b"eel"), EXEC: (b"ZCOD", b"z")}


ADRIFT_KIND = {**KIND, PICT: (b"GIF ", b"GIF89a"), SND: (b"WAV ", b"RIFF")}


def game(pairs, kind=None):
    """A file of these pairs in index order, a chunk for each, in the same order."""
    return blorb([(u, n, k) for k, (u, n) in enumerate(pairs)], [(kind or KIND)[u] for u, _ in pairs])


def shared(numbers):
    """A file of data resources with these numbers, all on one chunk."""
    return blorb([(DATA, n, 0) for n in numbers], [KIND[DATA]])


def good(s, profile=0):
    """The numbers of the file's table."""
    return reference.build(s, [0] * SLICE, profile)[2][:3 * len(reference.rows_for(s, profile))]


def with_at(table, at, x):
    return table[:at] + [x] + table[at + 1:]


def without_row(table, i):
    return table[:3 * i] + table[3 * i + 3:]


def swapped(table, i, j):
    rows = reference.rows_of(table)
    rows[i], rows[j] = rows[j], rows[i]
    return [x for row in rows for x in row]


BLANK = game([])
A = game([(DATA, 7)])
B = game([(DATA, 7), (PICT, 1)])
MANY = game([(SND, 3), (PICT, 9), (DATA, 2 ** 32 - 1), (EXEC, 0), (PICT, 2 ** 31), (PICT, 1), (DATA, 0), (SND, 2)])
FULL = shared((n * 2654435761) % 2 ** 32 for n in range(4096))
GIFS = game([(PICT, 4), (SND, 9), (DATA, 1)], ADRIFT_KIND)
DOUBLE = put32(B, 24 + 12, int.from_bytes(DATA, "big"))      # two entries of one usage; the second chunk does not suit it
OTHER = game([(SND, 3), (PICT, 9), (DATA, 2 ** 32 - 1), (EXEC, 0), (PICT, 2 ** 31), (PICT, 1), (DATA, 0), (SND, 4)])


def by_hand():
    """(name, file, slice, the check's answer: None where accepted, else number and place, and a profile other than plain)"""
    a, many, full = good(A), good(MANY), good(FULL)
    yield "blank file, empty slice", BLANK, [], None
    yield "blank file, one number", BLANK, [5], (35, 0)
    yield "blank file, a partial row", BLANK, [1, 2], (35, 0)
    yield "blank file, a row", BLANK, [1, 2, 3], (35, 0)
    yield "A", A, a, None
    yield "A, empty slice", A, [], (35, 0)
    yield "A, a partial row", A, a[:2], (35, 0)
    yield "A, a number more", A, a + [0], (35, 1)
    yield "A, two numbers more", A, a + [0, 0], (35, 1)
    yield "A, a row more", A, a + a, (35, 1)
    yield "A, another number", A, with_at(a, 1, 8), (35, 0)
    yield "A, another start", A, with_at(a, 2, a[2] + 2), (35, 0)
    yield "B", B, good(B), None
    yield "B with the table of A", B, a, (35, 0)
    yield "A with the table of B", A, good(B), (35, 0)
    yield "many", MANY, many, None
    yield "many, room to spare", MANY, many + [7] * 100, (35, 8)
    yield "many, one number short", MANY, many[:-1], (35, 7)
    yield "many, one row short", MANY, many[:-3], (35, 7)
    yield "many, the last start", MANY, with_at(many, 23, many[23] + 12), (35, 7)
    yield "many, a middle number", MANY, with_at(many, 13, many[13] ^ 1), (35, 4)
    yield "many, the first usage", MANY, with_at(many, 0, 0), (35, 0)
    yield "many, first and second swapped", MANY, swapped(many, 0, 1), (35, 0)
    yield "many, the last two swapped", MANY, swapped(many, 6, 7), (35, 6)
    yield "many, a row left out", MANY, without_row(many, 3), (35, 3)
    yield "many, a row twice", MANY, many[:9] + many[6:], (35, 3)
    yield "many, a row twice for another", MANY, many[:9] + many[6:9] + many[12:], (35, 3)
    yield "many, the table of another game", MANY, good(OTHER), (35, 6)
    yield "4096 rows", FULL, full, None
    yield "4096 rows, the last start", FULL, with_at(full, 12287, 0), (35, 4095)
    yield "refused file, right slice", put32(A, 4, 41), a, (5, 4)
    yield "refused file, empty slice", DOUBLE, [], (14, 36)
    yield "no file", b"", [], (2, 0)
    pictures = good(GIFS, 1)
    yield "a GIF, plain", GIFS, pictures, (14, 24)
    yield "a GIF, ADRIFT", GIFS, pictures, None, 1
    yield "a GIF, ADRIFT, one number short", GIFS, pictures[:-1], (35, 2), 1
    yield "a GIF, ADRIFT, the wrong start", GIFS, with_at(pictures, 5, 0), (35, 1), 1
    yield "many, ADRIFT", MANY, many, None, 1
    yield "4096 rows, ADRIFT", FULL, full, None, 1
    yield "refused file, ADRIFT", put32(A, 4, 41), a, (5, 4), 1
    for profile in (2, 3, 255, 2 ** 32 - 1):
        yield f"A, profile {profile}", A, a, (52, 0), profile
        yield f"A, profile {profile}, a stale table", A, many, (52, 0), profile
        yield f"A, profile {profile}, an empty slice", A, [], (52, 0), profile
        yield f"a GIF, profile {profile}", GIFS, pictures, (52, 0), profile
        yield f"11 bytes, profile {profile}", A[:11], a, (52, 0), profile


def columns(s):
    """The numbers of the file's table in three columns."""
    return reference.in_columns(reference.rows_for(s))


def columns_by_hand():
    """(name, file, slice, numbers in the second slice, the check's answer for columns, what turning the slice into rows answers)"""
    b, many, full = columns(B), columns(MANY), columns(FULL)
    yield "columns, blank file, empty slice", BLANK, [], 0, None, 0
    yield "columns, blank file, a partial row", BLANK, [1, 2], 0, (35, 0), 0
    yield "columns of A", A, columns(A), 3, None, 1
    yield "columns of B", B, b, 6, None, 2
    yield "columns of B, one number too few in the second slice", B, b, 5, None, (34, 0)
    yield "columns of B, no second slice", B, b, 0, None, (34, 0)
    yield "columns of B, room to spare in the second slice", B, b, 11, None, 2
    yield "columns of B, a number more", B, b + [0], 6, (35, 2), 2
    yield "columns of B, two numbers more", B, b + [0, 0], 6, (35, 2), 2
    yield "columns of B, the rows of B", B, good(B), 6, (35, 0), 2
    yield "columns of B, a number short", B, b[:5], 6, (35, 0), 1
    yield "columns of B, the last start", B, with_at(b, 5, b[5] + 2), 6, (35, 1), 2
    yield "columns of B, the second number", B, with_at(b, 3, b[3] + 1), 6, (35, 1), 2
    yield "columns of B, the first usage", B, with_at(b, 0, 0), 6, (35, 0), 2
    yield "columns of three rows for a file of two", B, reference.in_columns(reference.rows_for(B) + [(2 ** 32 - 1, 0, 0)]), 9, (35, 2), 3
    yield "columns of one row for a file of two", B, reference.in_columns(reference.rows_for(B)[:1]), 3, (35, 1), 1
    yield "columns, many", MANY, many, 24, None, 8
    yield "columns, many, a start moved", MANY, with_at(many, 16 + 4, 0), 23, (35, 4), (34, 0)
    yield "columns, many, of another game", MANY, columns(OTHER), 24, (35, 6), 8
    yield "columns, 4096 rows", FULL, full, 12288, None, 4096
    yield "columns, 4096 rows, one number too few", FULL, with_at(full, 12287, 0), 12287, (35, 4095), (34, 0)
    yield "columns, refused file", put32(A, 4, 41), columns(A), 3, (5, 4), 1
    yield "columns, no file", b"", [1, 2, 3], 2, (2, 0), (34, 0)
    pictures = reference.in_columns(reference.rows_for(GIFS, 1))
    yield "columns, a GIF, plain", GIFS, pictures, len(pictures), (14, 24), len(pictures) // 3
    yield "columns, a GIF, ADRIFT", GIFS, pictures, len(pictures), None, len(pictures) // 3, 1
    yield "columns of B, ADRIFT", B, b, 6, None, 2, 1
    for profile in (2, 2 ** 32 - 1):
        yield f"columns of B, profile {profile}", B, b, 6, (52, 0), 2, profile
        yield f"columns, 11 bytes, profile {profile}", A[:11], [], 0, (52, 0), 0, profile


def questions(table):
    """Pairs to seek: those of some rows, and pairs that lie before, between and behind."""
    rows = reference.rows_of(table)
    picked = range(len(rows)) if len(rows) <= 9 else [0, 1, len(rows) // 2, len(rows) - 2, len(rows) - 1]
    pairs = [(rows[i][0].to_bytes(4, "big"), rows[i][1]) for i in picked]
    pairs += [(u, (n + k) % 2 ** 32) for u, n in pairs[:3] for k in (1, 2 ** 32 - 1)]
    pairs += [(PICT, 1), (SND, 2 ** 32 - 1), (b"\0\0\0\0", 0), (b"\x7f~~~", 0)]
    return list(dict.fromkeys(pairs))


def generated(count, seed):
    """Files with their entries in chunk order, and slices that are right, stale, cut or changed."""
    dice = Dice(seed)
    before = good(A)
    for i in range(count):
        pairs = []
        for _ in range(dice.below(14)):
            u = dice.one_of((PICT, PICT, SND, DATA, EXEC))
            pairs.append((u, 0 if u == EXEC else dice.one_of((dice.below(6), dice.below(2 ** 32)))))
        house = dice.below(4)    # one file in four has the types of the ADRIFT profile
        s = game(list(dict.fromkeys(pairs)), KIND if house else ADRIFT_KIND)
        table = good(s, 1)
        way = dice.below(8)
        if way == 0 and table:
            table = with_at(table, dice.below(len(table)), dice.below(2 ** 32))
        elif way == 1 and table:
            at = dice.below(len(table))
            table = with_at(table, at, table[at] ^ 1 << dice.below(32))
        elif way == 2:
            table = table[:dice.below(len(table) + 1)]
        elif way == 3:
            table = table + [dice.below(2 ** 32) for _ in range(dice.below(5))]
        elif way == 4:
            table, before = before, table
        elif way == 5 and len(table) > 3:
            table = swapped(table, dice.below(len(table) // 3), dice.below(len(table) // 3))
        elif way == 6 and table:
            table = without_row(table, dice.below(len(table) // 3))
        if dice.below(3) == 0:
            table = reference.in_columns(reference.rows_of(table)) + table[len(table) // 3 * 3:]
        if dice.below(20) == 0:
            s = put32(s, 4, dice.below(100))
        profile = dice.one_of((0, 1, 2)) if house == 0 else dice.one_of((0, 0, 0, 1))
        yield f"generated {i}, profile {profile}", s, table, second_room(table, dice.below(6)), profile


def second_room(table, way):
    """Numbers in the second slice: as many as the whole rows take, one too few, or more."""
    whole = len(table) // 3 * 3
    return max(0, whole - 1) if way == 0 else whole + (0, 0, 1, 2, 9)[way - 1]


def words(answer):
    what, *values = answer
    return {"accepted": "accepted", "refused": "refused {} at {}", "rows": "rows {}", "at": "at {}"}[what].format(*values)


def lines(name, s, table, room, profile, pairs):
    built = reference.build(s, table, profile)
    yield (f"{name}: {words(reference.check(s, table, profile))}; {words(built)} sum {checksum(built[-1], NUMBERS)}; "
           f"then {words(reference.check(s, built[-1], profile))}")
    turned = reference.to_columns(table, [FILLER] * room)
    back = reference.to_rows(table, turned[-1])
    yield (f" columns: {words(reference.columns_check(s, table, profile))}; to columns {words(turned)} sum {checksum(turned[-1], NUMBERS)}; "
           f"then {words(reference.columns_check(s, turned[-1], profile))}; to rows {words(back)} sum {checksum(back[-1], NUMBERS)}; "
           f"then {words(reference.check(s, back[-1], profile))}")
    for usage, number in pairs:
        found, other = reference.search(table, usage, number), reference.columns_search(table, usage, number)
        yield (f" {int.from_bytes(usage, 'big')} {number}: {words(found)} probes {found[-1]}; "
               f"in columns {words(other)} probes {other[-1]}")


def packed(name, s, table, room, profile, pairs):
    parts = [be(len(name)), be(len(s)), be(len(table)), be(room), be(len(pairs)), be(profile), name.encode(), s]
    return b"".join(parts + [be(x) for x in table] + [u + be(n) for u, n in pairs])


def stated(what, name, answer, said):
    """Stops where the answer is not what stands beside the sample: nothing, a count of rows, or a number and place."""
    expected = ("accepted",) if said is None else ("rows", said) if isinstance(said, int) else ("refused", *said)
    if answer[:len(expected)] != expected:
        sys.exit(f"{name}: {what} by hand {expected}, the reference {answer}")


def main():
    only_check()
    samples = []
    for k, (name, s, table, said, *other) in enumerate(by_hand()):
        profile = other[0] if other else 0
        stated("check", name, reference.check(s, table, profile), said)
        samples.append((name, s, table, second_room(table, k % 6), profile, questions(table)))
    for name, s, table, room, said, rows, *other in columns_by_hand():
        profile = other[0] if other else 0
        stated("check of columns", name, reference.columns_check(s, table, profile), said)
        stated("to rows", name, reference.to_rows(table, [FILLER] * room), rows)
        samples.append((name, s, table, room, profile, questions(reference.in_rows(reference.columns_of(table)))))
    hand = len(samples)
    samples += [(name, s, table, room, profile, questions(table)) for name, s, table, room, profile in generated(GENERATED, SEED)]
    stdin = b"".join(packed(*x) for x in samples)
    stdout = "".join(line + "\n" for x in samples for line in lines(*x)).encode()
    if max(max(len(x[2]), x[3]) for x in samples) > SLICE:
        sys.exit("a slice has too many numbers for the program's")
    save("table_samples", stdin, stdout, ROOM)
    asked = (("check", lambda s, t, r, p: reference.check(s, t, p)), ("build", lambda s, t, r, p: reference.build(s, t, p)),
             ("check of columns", lambda s, t, r, p: reference.columns_check(s, t, p)),
             ("to columns", lambda s, t, r, p: reference.to_columns(t, [FILLER] * r)),
             ("to rows", lambda s, t, r, p: reference.to_rows(t, [FILLER] * r)))
    for what, ask in asked:
        told = Counter(a[1] if a[0] == "refused" else 0 for a in (ask(*x[1:5]) for x in samples))
        print(f"{what} by refusal (0: none):", *(f"{k}: {told[k]}" for k in sorted(told)))
    print(f"{len(samples)} samples ({hand} by hand, {GENERATED} generated), {len(stdin)} bytes, {sum(len(x[5]) for x in samples)} searches in each form")


if __name__ == "__main__":
    main()
