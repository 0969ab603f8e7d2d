"""The finding table of 02's requests P2 and P10, in Python.

Written from the paper alone, like reference.py, on which it stands: it shares no code and no order of working with the library.

    build(s, table, profile)         ("rows", count, table afterwards)    or ("refused", number, place, table)
    check(s, table, profile)         ("accepted",)                        or ("refused", number, place)
    search(table, usage, number)     ("at", start, probes)                or ("refused", 22, 0, probes)
    to_columns(table, target)        ("rows", count, target afterwards)   or ("refused", 34, 0, target)
    to_rows(columns, target)         the same
    columns_check, columns_search    as check and search, of a table in three columns

A table is a list of numbers of 32 bits; s is the whole file as bytes, a usage four bytes, the profile (02, P12) plain where none
is given.
"""
import reference


def rows_of(table):
    """The whole rows: three numbers each."""
    return [tuple(table[3 * i:3 * i + 3]) for i in range(len(table) // 3)]


def rows_for(s, profile=reference.PLAIN):
    """The rows of a file's table: usage (its four bytes as a number), number, start, by usage, then number."""
    entries = reference.parse(s, profile)[1]
    return sorted((int.from_bytes(e.usage, "big"), e.number, e.start) for e in entries)


def build(s, table, profile=reference.PLAIN):
    """The reader's refusals, then 34 at 0 where the slice is too small. The slice behind the last row stays as it was."""
    try:
        rows = rows_for(s, profile)
    except reference.Refusal as r:
        return ("refused", r.number, r.place, table)
    numbers = in_rows(rows)
    if len(table) < len(numbers):
        return ("refused", 34, 0, table)
    return ("rows", len(rows), numbers + table[len(numbers):])


def columns_of(table):
    """The whole rows of a table in three columns, each as long as there are whole rows: all usages, all numbers, all starts."""
    count = len(table) // 3
    return list(zip(table[:count], table[count:2 * count], table[2 * count:3 * count]))


def in_rows(rows):
    return [x for row in rows for x in row]


def in_columns(rows):
    return [row[k] for k in range(3) for row in rows]


def compare(s, table, there, numbers, profile):
    """The reader's refusals, then 35: the first differing row, or, if none differs, the smaller of the two whole-row counts."""
    try:
        right = rows_for(s, profile)
    except reference.Refusal as r:
        return ("refused", r.number, r.place)
    if table == numbers(right):
        return ("accepted",)
    differing = [i for i, (a, b) in enumerate(zip(there, right)) if a != b]
    return ("refused", 35, differing[0] if differing else min(len(there), len(right)))


def check(s, table, profile=reference.PLAIN):
    return compare(s, table, rows_of(table), in_rows, profile)


def columns_check(s, table, profile=reference.PLAIN):
    return compare(s, table, columns_of(table), in_columns, profile)


def halve(rows, usage, number):
    """Low the first row, high one past the last whole one; each look is at half of low plus high, rounded down."""
    sought = (int.from_bytes(usage, "big"), number)
    low, high, probes = 0, len(rows), 0
    while low < high:
        middle = (low + high) // 2
        probes += 1
        if rows[middle][:2] == sought:
            return ("at", rows[middle][2], probes)
        if rows[middle][:2] < sought:
            low = middle + 1
        else:
            high = middle
    return ("refused", 22, 0, probes)


def search(table, usage, number):
    return halve(rows_of(table), usage, number)


def columns_search(table, usage, number):
    return halve(columns_of(table), usage, number)


def turn(rows, numbers, target):
    """At the front of the target, three numbers for each whole row, 34 if that is too short, its rest untouched."""
    if len(target) < 3 * len(rows):
        return ("refused", 34, 0, target)
    return ("rows", len(rows), numbers(rows) + target[3 * len(rows):])


def to_columns(table, target):
    return turn(rows_of(table), in_columns, target)


def to_rows(columns, target):
    return turn(columns_of(columns), in_rows, target)
