"""Scaled pictures, 02's request P4 (001, section 11.2), in Python with exact fractions.

Written from the papers alone, like reference.py, on which it stands: it shares no code and no order of working with the library.

    scaled(s, window, picture, size, profile)      ("sides", width, height)  or  ("refused", number, place)

s is the whole file as bytes; window and size are pairs of width and height; the profile (02, P12) is plain where none is given.
"""
from collections import namedtuple
from fractions import Fraction
from math import floor

import reference
from reference import Refusal, be32, refuse_if

MOST = 65_535              # "all at most 65,535"
HEAD, ROW = 24, 28         # bytes before the rows, bytes of a row

Row = namedtuple("Row", "picture standard least greatest")      # each ratio as numerator and denominator


def numbers(body, at, count):
    return [be32(body, at + 4 * i) for i in range(count)]


def rows_of(body):
    """The rows behind the six numbers of the windows."""
    rows = []
    for at in range(HEAD, len(body), ROW):
        picture, *ratios = numbers(body, at, 7)
        rows.append(Row(picture, tuple(ratios[0:2]), tuple(ratios[2:4]), tuple(ratios[4:6])))
    return rows


def limit(ratio):
    """A limit as a fraction; "a limit with numerator zero is none"."""
    top, bottom = ratio
    if top == 0:
        return None
    refuse_if(bottom == 0, 33, 0)
    return Fraction(top, bottom)


def judge(body, sides):
    """Refusal 33, of the whole chunk and the caller's sides."""
    windows, rows = numbers(body, 0, 6), rows_of(body)
    others = [n for r in rows for ratio in r[1:] for n in ratio]     # every number but the picture numbers
    refuse_if(max(windows + others + sides) > MOST, 33, 0)
    refuse_if(0 in windows[:2], 33, 0)
    refuse_if(len({r.picture for r in rows}) < len(rows), 33, 0)
    for r in rows:
        refuse_if(r.standard[1] == 0, 33, 0)
        low, high = limit(r.least), limit(r.greatest)
        refuse_if(low is not None and high is not None and low > high, 33, 0)


def ratio_in(window, standard, row):
    """The smaller of window over standard window, times the standard ratio, raised to the least, lowered to the greatest."""
    ratio = min(Fraction(w, s) for w, s in zip(window, standard)) * Fraction(*row.standard)
    low, high = limit(row.least), limit(row.greatest)
    if low is not None:
        ratio = max(ratio, low)
    if high is not None:
        ratio = min(ratio, high)
    return ratio


def answer(s, window, picture, size, profile):
    found = [c for c in reference.parse(s, profile)[0] if c.kind == b"Reso"]
    if len(found) > 1:
        raise Refusal(31, found[1].start)
    sides = list(window) + list(size)
    if not found:
        refuse_if(max(sides) > MOST, 33, 0)
        return ("sides", *size)
    chunk = found[0]
    refuse_if(len(chunk.body) < HEAD or (len(chunk.body) - HEAD) % ROW != 0, 32, chunk.start)
    judge(chunk.body, sides)
    for row in rows_of(chunk.body):
        if row.picture == picture:
            ratio = ratio_in(window, numbers(chunk.body, 0, 2), row)
            return ("sides", *(floor(side * ratio) for side in size))
    return ("sides", *size)


def scaled(s, window, picture, size, profile=reference.PLAIN):
    """The reader's refusals, then 31, 32, 33; each of them over the whole file."""
    try:
        return answer(s, window, picture, size, profile)
    except Refusal as r:
        return ("refused", r.number, r.place)
