"""The artists' group files of 02's request P9, in Python.

Written from the paper alone: it shares no code and no order of working with the library. It gathers every fault that a file shows and takes the one
at the lowest place, and of those at one place the lowest number.

    read(s)              (rows, None)    or (None, (number, place))
    listing(s, slice)    ("rows", count, slice afterwards)    or ("refused", number, place, slice)
    pick(s, i)           ("at", start, length)                or ("refused", number, place)
    picked(s, i)         the FORM's bytes, none where it is refused

A row is (form type, start, length field, depth); s is the whole file as bytes, a slice a list of numbers of 32 bits.
"""
LIMIT, LEVELS, LEAST = 16_777_216, 16, 4
FORM, LIST, CAT, PROP = b"FORM", b"LIST", b"CAT ", b"PROP"
GROUPS = (LIST, CAT)
HOLDERS = (FORM, LIST, CAT, PROP)       # what has four bytes of its own and then members


def be32(s, at):
    return int.from_bytes(s[at:at + 4], "big")


def may_stand(kind, parent, others):
    """Whether a member of this kind may stand in that parent (None: the file itself); others: a member that is no PROP stands before it."""
    if parent is None or parent == CAT:
        return kind in (FORM, *GROUPS)
    if parent == FORM:
        return kind != PROP
    if parent == LIST:
        return kind in (FORM, *GROUPS) or (kind == PROP and not others)
    return kind not in HOLDERS          # a PROP


class File:
    def __init__(self, s):
        self.s, self.faults, self.rows = s, [], []

    def chunk(self, at, end, parent, depth, others):
        """Judges the chunk at `at` in a parent that ends at `end`. Answers its kind and where the next one begins, or None where it has a fault."""
        s, before = self.s, len(self.faults)
        if end - at < 8:
            self.faults.append((at, 41))
            return None
        kind, size = s[at:at + 4], be32(s, at + 4)
        close = at + 8 + size
        if close > end or (kind in HOLDERS and size < LEAST):
            self.faults.append((at, 41))
        if kind in (FORM, *GROUPS) and depth > LEVELS:
            self.faults.append((at, 42))
        if not may_stand(kind, parent, others):
            self.faults.append((at, 43))
        if size % 2 and s[close:min(end, close + 1)] != b"\0":
            self.faults.append((at, 44))
        if len(self.faults) > before:
            return None
        if kind == FORM:
            self.rows.append((be32(s, at + 8), at, size, depth))
        if kind in HOLDERS:
            self.members(at + 12, close, kind, depth + 1)
        return kind, close + size % 2

    def members(self, at, end, parent, depth):
        others = False
        while at < end:
            told = self.chunk(at, end, parent, depth, others)
            if told is None:
                return
            kind, at = told
            others = others or kind != PROP


def read(s):
    if len(s) > LIMIT:
        return None, (1, 0)
    f = File(s)
    top = f.chunk(0, len(s), None, 1, False)
    if top is not None and top[1] != len(s):
        f.faults.append((top[1], 43))
    if f.faults:
        place, number = min(f.faults)
        return None, (number, place)
    return f.rows, None


def listing(s, room):
    rows, fault = read(s)
    if fault:
        return ("refused", *fault, room)
    numbers = [x for row in rows for x in row]
    if len(room) < len(numbers):
        return ("refused", 45, 0, room)
    return ("rows", len(rows), numbers + room[len(numbers):])


def pick(s, i):
    rows, fault = read(s)
    if fault:
        return ("refused", *fault)
    if i >= len(rows):
        return ("refused", 22, 0)
    return ("at", rows[i][1], 8 + rows[i][2])


def picked(s, i):
    what, *values = pick(s, i)
    return s[values[0]:sum(values)] if what == "at" else b""
