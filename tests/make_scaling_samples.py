#!/usr/bin/env python3
"""Makes the run samples of scaled pictures: crates/scaling_samples/stdin and crates/scaling_samples/stdout.

usage: make_scaling_samples.py            writes both files and says how many samples of each answer there are
       make_scaling_samples.py --check    writes nothing; fails where a file is not as it would be written

The program of that crate reads the packed samples and prints what the library answers; `rt ci` holds what it prints
to the file stdout. The expectations come from scaling_reference.py, written from 02 and 001 alone; the answer of every
sample by hand is stated here as well, and this script stops where the reference says another.

A packed sample: twelve numbers of four bytes (the length of its name, the length of its file, the profile, the picture's number, and
window width, window height, width and height in two numbers each, the higher one first), the name, the file.
"""
import sys
from collections import Counter

import scaling_reference as reference
from building import Dice, be, blorb, put, put32
from reference import DATA, PICT
from samples import only_check, save

ROOM = 1_048_576          # the program's buffer; the input has to be shorter
GENERATED, SEED = 600, 4
MOST = 65_535
NONE = (0, 1)             # no limit
WINDOW = (600, 400)       # the standard window of most samples
SIZE = (120, 90)


def row(picture, standard=(1, 1), least=NONE, greatest=NONE):
    return [picture, *standard, *least, *greatest]


def reso(*rows, window=WINDOW, least=(0, 0), greatest=(0, 0)):
    """The data of a 'Reso' chunk."""
    return b"".join(be(n) for n in [*window, *least, *greatest] + [n for r in rows for n in r])


def game(*bodies, kind=b"Rect"):
    """A file with one picture, a text behind it, and these 'Reso' chunks."""
    chunks = [(kind, bytes(8)), (b"TEXT", b"eel")] + [(b"Reso", b) for b in bodies]
    return blorb([(PICT, 1, 0), (DATA, 7, 1)], chunks)


RESO_AT = 24 + 24 + 16 + 12      # where the first 'Reso' of a game begins
ONE = reso(row(1))


def many(pictures):
    return reso(*(row(p) for p in pictures))


def scattered(count):
    return [i * 2654435761 % 2 ** 32 for i in range(count)]


def by_hand():
    """(name, file, window, picture, size, the answer: width and height, or number and place as a refusal, and a profile other than plain)"""
    def refused(number, place=0):
        return ("refused", number, place)

    plain, one = game(), game(ONE)
    yield "no Reso", plain, (1, 1), 1, SIZE, SIZE
    yield "no Reso, window side 0", plain, (0, 0), 1, SIZE, SIZE
    yield "no Reso, sides 0", plain, (1, 1), 1, (0, 0), (0, 0)
    yield "no Reso, 65535 everywhere", plain, (MOST, MOST), MOST, (MOST, MOST), (MOST, MOST)
    yield "a Reso of no rows", game(reso()), (1200, 800), 1, SIZE, SIZE
    yield "another picture's row", one, (1200, 800), 2, SIZE, SIZE
    yield "the standard window", one, WINDOW, 1, SIZE, SIZE
    yield "twice the window", one, (1200, 800), 1, SIZE, (240, 180)
    yield "half the window", one, (300, 200), 1, SIZE, (60, 45)
    yield "three times the width, four times the height", one, (1800, 1600), 1, SIZE, (360, 270)
    yield "only the width grows", one, (1200, 400), 1, SIZE, SIZE
    yield "only the height grows", one, (600, 4000), 1, SIZE, SIZE
    yield "the width decides", one, (300, 400), 1, SIZE, (60, 45)
    yield "the height decides", one, (600, 100), 1, SIZE, (30, 22)
    yield "rounded down", one, (599, 400), 1, (3, 600), (2, 599)
    yield "rounded down once", game(reso(row(1, (3, 7)))), (601, 401), 1, (7, 2331), (3, 1000)
    yield "the window's third of three thirds", game(reso(row(1, (3, 1)))), (200, 200), 1, (5, 10), (5, 10)
    yield "sides of another picture that is in no index", game(reso(row(9, (2, 1)))), WINDOW, 9, (5, 6), (10, 12)
    yield "the window's limits are hints", game(reso(row(1), least=(600, 400), greatest=(600, 400))), (1, 1), 1, (600, 400), (1, 0)
    yield "a standard window over its greatest", game(reso(row(1), greatest=(1, 1))), WINDOW, 1, SIZE, SIZE
    yield "several rows", game(reso(row(3, (1, 3)), row(1, (1, 2)), row(2, (5, 1)))), WINDOW, 2, SIZE, (600, 450)
    # the limits
    low, high, both = (game(reso(row(1, (1, 1), *x))) for x in (((1, 2), NONE), (NONE, (3, 2)), ((1, 2), (3, 2))))
    yield "least alone, below it", low, (60, 40), 1, SIZE, (60, 45)
    yield "least alone, above it", low, (6000, 4000), 1, SIZE, (1200, 900)
    yield "least alone, just it", low, (300, 200), 1, SIZE, (60, 45)
    yield "greatest alone, above it", high, (6000, 4000), 1, SIZE, (180, 135)
    yield "greatest alone, below it", high, (60, 40), 1, SIZE, (12, 9)
    yield "greatest alone, just it", high, (900, 600), 1, SIZE, (180, 135)
    yield "both, below", both, (60, 40), 1, SIZE, (60, 45)
    yield "both, between", both, WINDOW, 1, SIZE, SIZE
    yield "both, above", both, (6000, 4000), 1, SIZE, (180, 135)
    yield "a fixed ratio", game(reso(row(1, (1, 1), (2, 3), (4, 6)))), (6000, 4000), 1, SIZE, (80, 60)
    yield "a fixed ratio, small window", game(reso(row(1, (1, 1), (4, 6), (2, 3)))), (6, 4), 1, SIZE, (80, 60)
    yield "least over greatest", game(reso(row(1, (1, 1), (2, 3), (3, 5)))), WINDOW, 1, SIZE, refused(33)
    yield "least over greatest by 1 in 65535", game(reso(row(1, (1, 1), (MOST, MOST - 1), (MOST, MOST)))), WINDOW, 1, SIZE, refused(33)
    yield "least under greatest by 1 in 65535", game(reso(row(1, (1, 1), (MOST - 1, MOST), (MOST, MOST)))), (1, 1), 1, (MOST, MOST), (MOST - 1, MOST - 1)
    for bottom in (0, 1, MOST):
        yield f"no least, denominator {bottom}", game(reso(row(1, (1, 1), (0, bottom)))), (60, 40), 1, SIZE, (12, 9)
        yield f"no greatest, denominator {bottom}", game(reso(row(1, (1, 1), NONE, (0, bottom)))), (1200, 800), 1, SIZE, (240, 180)
    yield "no least over a greatest", game(reso(row(1, (1, 1), (0, 0), (1, 4)))), WINDOW, 1, SIZE, (30, 22)
    yield "a least over no greatest", game(reso(row(1, (1, 1), (4, 1), (0, 0)))), WINDOW, 1, SIZE, (480, 360)
    yield "least with denominator 0", game(reso(row(1, (1, 1), (1, 0)))), WINDOW, 1, SIZE, refused(33)
    yield "greatest with denominator 0", game(reso(row(1, (1, 1), NONE, (1, 0)))), WINDOW, 1, SIZE, refused(33)
    yield "standard ratio with denominator 0", game(reso(row(1, (1, 0)))), WINDOW, 1, SIZE, refused(33)
    yield "standard ratio 0 over 0", game(reso(row(1, (0, 0)))), WINDOW, 1, SIZE, refused(33)
    # zero
    yield "window width 0", one, (0, 400), 1, SIZE, (0, 0)
    yield "window height 0", one, (600, 0), 1, SIZE, (0, 0)
    yield "window side 0, raised", low, (0, 0), 1, SIZE, (60, 45)
    yield "standard ratio 0", game(reso(row(1, (0, 5)))), WINDOW, 1, SIZE, (0, 0)
    yield "standard ratio 0, raised", game(reso(row(1, (0, 5), (1, 3)))), WINDOW, 1, SIZE, (40, 30)
    yield "picture of no width", one, (1200, 800), 1, (0, 7), (0, 14)
    yield "standard width 0", game(reso(row(1), window=(0, 400))), WINDOW, 1, SIZE, refused(33)
    yield "standard height 0", game(reso(row(1), window=(600, 0))), WINDOW, 1, SIZE, refused(33)
    # the largest numbers
    top = game(reso(row(1, (MOST, 1)), window=(1, 1), least=(MOST, MOST), greatest=(MOST, MOST)))
    yield "65535 everywhere", top, (MOST, MOST), 1, (MOST, MOST), (MOST ** 3, MOST ** 3)
    yield "past 32 bits", top, (MOST, MOST), 1, (2, 1), (2 * MOST ** 2, MOST ** 2)
    exact = game(reso(row(1, (MOST, MOST)), window=(MOST, MOST)))
    yield "65535 over 65535", exact, (MOST, MOST), 1, (MOST, 1), (MOST, 1)
    yield "65534 over 65535", exact, (MOST - 1, MOST), 1, (MOST, 1), (MOST - 1, 0)
    close = game(reso(row(1, (MOST - 1, MOST), (MOST - 2, MOST - 1), (MOST, MOST - 1)), window=(MOST - 1, MOST)))
    yield "close fractions", close, (MOST - 1, MOST - 1), 1, (MOST, MOST - 1), (MOST - 2, MOST - 2)
    for field in range(12):
        body = put32(reso(row(1, (1, 2), (1, 4), (5, 2)), least=(300, 200), greatest=(900, 800)), 4 * field + 4 * (field >= 6), MOST + 1)
        yield f"65536 in field {field}", game(body), WINDOW, 1, SIZE, refused(33)
        yield f"65536 in field {field}, another picture", game(body), WINDOW, 5, SIZE, refused(33)
    yield "65536 under no least", game(reso(row(1, (1, 1), (0, MOST + 1)))), WINDOW, 1, SIZE, refused(33)
    yield "65536 under no greatest", game(reso(row(1, (1, 1), NONE, (0, MOST + 1)))), WINDOW, 1, SIZE, refused(33)
    for number in (MOST + 1, 2 ** 31, 2 ** 32 - 1):
        yield f"picture {number}", game(reso(row(1), row(number, (2, 1)))), WINDOW, number, SIZE, (240, 180)
    yield "picture 0", game(reso(row(0, (2, 1)))), WINDOW, 0, SIZE, (240, 180)
    # what the caller gives
    for where, s in (("no Reso", plain), ("listed", one), ("not listed", game(reso(row(2))))):
        for big in (MOST + 1, 2 ** 32, 2 ** 64 - 1):
            for k in range(4):
                sides = [600, 400, *SIZE]
                sides[k] = big
                yield f"{where}, side {k} is {big}", s, sides[:2], 1, sides[2:], refused(33)
    # other rows
    yield "another row is wrong", game(reso(row(2, (1, 0)), row(1))), WINDOW, 1, SIZE, refused(33)
    yield "a row behind is wrong", game(reso(row(1), row(2, (1, 1), (3, 1), (2, 1)))), WINDOW, 1, SIZE, refused(33)
    yield "a row is wrong, the picture not listed", game(reso(row(1, (1, 1), (1, 0)))), WINDOW, 4, SIZE, refused(33)
    yield "a picture twice", game(reso(row(1), row(1))), WINDOW, 1, SIZE, refused(33)
    yield "a picture twice, another asked for", game(reso(row(3), row(1), row(2), row(3))), WINDOW, 1, SIZE, refused(33)
    yield "a picture twice, none asked for", game(reso(row(0), row(0, (2, 1)))), WINDOW, 1, SIZE, refused(33)
    yield "rows that fall", game(reso(row(5), row(4), row(1, (1, 2)))), WINDOW, 1, SIZE, (60, 45)
    rows = scattered(2300)
    yield "2300 rows, rising", game(many(range(2300))), (1200, 800), 2299, SIZE, (240, 180)
    yield "2300 rows in no order", game(many(rows)), (1200, 800), rows[2299], SIZE, (240, 180)
    yield "2300 rows, the last is the first", game(many(rows[:-1] + rows[:1])), WINDOW, rows[5], SIZE, refused(33)
    yield "2300 rows, two at the end are one", game(many(rows[:-1] + rows[-2:-1])), WINDOW, 1, SIZE, refused(33)
    # 32 and 31
    for size in (0, 23, 25, 27, 28, 51, 53, 79):
        yield f"a Reso of {size} bytes", game(bytes(size)), WINDOW, 1, SIZE, refused(32, RESO_AT)
    yield "a Reso of 24 bytes, all 0", game(bytes(24)), WINDOW, 1, SIZE, refused(33)
    yield "a Reso of 51 bytes, sides too large", game(ONE[:51]), WINDOW, 1, (MOST + 1, 1), refused(32, RESO_AT)
    yield "two of them", game(ONE, ONE), WINDOW, 1, SIZE, refused(31, RESO_AT + 8 + 52)
    yield "two, the first of no bytes", game(b"", ONE), WINDOW, 1, SIZE, refused(31, RESO_AT + 8)
    yield "two, the first of odd length", game(ONE[:51], ONE), WINDOW, 1, SIZE, refused(31, RESO_AT + 60)
    yield "two, the second of no bytes", game(ONE, b""), WINDOW, 1, SIZE, refused(31, RESO_AT + 60)
    yield "two, the first with a wrong row", game(reso(row(1, (1, 0))), ONE), WINDOW, 1, SIZE, refused(31, RESO_AT + 60)
    yield "two, sides too large", game(ONE, ONE), (MOST + 1, 1), 1, SIZE, refused(31, RESO_AT + 60)
    yield "three of them", game(ONE, b"", ONE), WINDOW, 1, SIZE, refused(31, RESO_AT + 60)
    # the reader's own, and profiles
    yield "no file", b"", WINDOW, 1, SIZE, refused(2)
    yield "11 bytes", one[:11], WINDOW, 1, SIZE, refused(2)
    yield "wrong FORM length", put32(one, 4, 8), WINDOW, 1, SIZE, refused(5, 4)
    yield "a chunk past the end", put32(one, RESO_AT + 4, 53), WINDOW, 1, SIZE, refused(28, RESO_AT + 4)
    yield "padding of an odd Reso", put(game(ONE[:51], ONE), RESO_AT + 59, b"\1"), WINDOW, 1, SIZE, refused(7, RESO_AT + 59)
    yield "wrong usage, two Reso", put(game(ONE, ONE), 24, b"Pics"), WINDOW, 1, SIZE, refused(12, 24)
    gifs = game(ONE, kind=b"GIF ")
    yield "a GIF, plain", gifs, WINDOW, 1, SIZE, refused(14, 24)
    yield "a GIF, ADRIFT", gifs, (1200, 800), 1, SIZE, (240, 180), 1
    yield "ADRIFT", one, (1200, 800), 1, SIZE, (240, 180), 1
    yield "ADRIFT, a wrong row", game(reso(row(1, (1, 0)))), WINDOW, 1, SIZE, refused(33), 1
    yield "ADRIFT, two of them", game(b"", ONE), WINDOW, 1, SIZE, refused(31, RESO_AT + 8), 1
    for profile in (2, 2 ** 32 - 1):
        yield f"profile {profile}", one, WINDOW, 1, SIZE, refused(52), profile
        yield f"profile {profile}, two of them", game(ONE, ONE), WINDOW, 1, SIZE, refused(52), profile
        yield f"profile {profile}, no file", b"", (2 ** 64 - 1, 0), 1, SIZE, refused(52), profile


def generated(count, seed):
    """Files with a few rows, most of them good, and windows and sizes of every magnitude."""
    dice = Dice(seed)

    def number():
        way = dice.below(12)
        if way == 0:
            return dice.one_of((0, 1, MOST, MOST - 1, MOST - 2))
        return dice.below((8, 100, 1000, MOST + 1)[way % 4])

    def some():
        return max(1, number())

    def limits():
        low, high = (some(), some()), (some(), some())
        if low[0] * high[1] > high[0] * low[1]:
            low, high = high, low
        return low if dice.below(2) else (0, number()), high if dice.below(2) else (0, number())

    for i in range(count):
        pictures = list(dict.fromkeys(dice.one_of((dice.below(6), dice.below(2 ** 32))) for _ in range(dice.below(6))))
        rows = [row(p, (number(), some()), *limits()) for p in pictures]
        body = reso(*rows, window=(some(), some()), least=(number(), number()), greatest=(number(), number()))
        way = dice.below(14)
        if way == 0:
            at = 4 * dice.below(len(body) // 4)
            body = put32(body, at, dice.one_of((0, MOST + 1, 2 ** 32 - 1)))
        elif way == 1:
            body = body[:dice.below(len(body))]
        elif way == 2 and len(rows) > 1:
            body = body + body[24:52]
        elif way == 3 and rows:
            body = put32(body, 24 + 4 + 8 * dice.below(3) + 4, 0)
        bodies = [[body]] * 8 + [[], [body, ONE], [b"", body]]
        s = game(*dice.one_of(bodies))
        if dice.below(25) == 0:
            s = put(s, dice.below(len(s)), dice.bytes(1))
        sides = [number() for _ in range(4)]
        if dice.below(25) == 0:
            sides[dice.below(4)] = MOST + 1 + dice.below(2 ** 31)
        picture = dice.one_of(pictures) if pictures and dice.below(6) else dice.below(6)
        profile = dice.one_of((0, 0, 0, 0, 0, 0, 1, 1, 1, 2))
        yield f"generated {i}", s, tuple(sides[:2]), picture, tuple(sides[2:]), profile


def line(name, s, window, picture, size, profile):
    what, *values = reference.scaled(s, window, picture, size, profile)
    return f"{name}: " + {"sides": "{} by {}", "refused": "refused {} at {}"}[what].format(*values)


def packed(name, s, window, picture, size, profile):
    sides = b"".join(x.to_bytes(8, "big") for x in (*window, *size))
    return be(len(name)) + be(len(s)) + be(profile) + be(picture) + sides + name.encode() + s


def main():
    only_check()
    samples = []
    for name, s, window, picture, size, said, *other in by_hand():
        profile = other[0] if other else 0
        expected = said if said[0] == "refused" else ("sides", *said)
        told = reference.scaled(s, window, picture, size, profile)
        if told != expected:
            sys.exit(f"{name}: by hand {expected}, the reference {told}")
        samples.append((name, s, window, picture, size, profile))
    hand = len(samples)
    samples += generated(GENERATED, SEED)
    stdin = b"".join(packed(*x) for x in samples)
    stdout = "".join(line(*x) + "\n" for x in samples).encode()
    save("scaling_samples", stdin, stdout, ROOM)
    told = Counter(a[1] if a[0] == "refused" else 0 for a in (reference.scaled(*x[1:]) for x in samples))
    print("by refusal (0: none):", *(f"{k}: {told[k]}" for k in sorted(told)))
    print(f"{len(samples)} samples ({hand} by hand, {GENERATED} generated), {len(stdin)} bytes")


if __name__ == "__main__":
    main()
