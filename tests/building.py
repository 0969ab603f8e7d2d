"""Pieces of Blorb files for the tests: right ones by blorb(), wrong ones by changing or joining bytes."""
from reference import be32


def be(n):
    """A number as four bytes."""
    return n.to_bytes(4, "big")


def chunk(kind, body=b"", length=None, pad=0):
    """A chunk of rule 2; length and padding byte can be given wrong."""
    return kind + be(len(body) if length is None else length) + body + bytes([pad] * (len(body) % 2))


def whole_form(body=b"AIFF", length=None):
    """A 'FORM' file of this data, as a lookup gives it and an add takes it: no padding. Its length can be given wrong."""
    return b"FORM" + be(len(body) if length is None else length) + body


def form(*parts):
    """A file of these bytes behind the first twelve, its FORM length right."""
    body = b"".join(parts)
    return b"FORM" + be(4 + len(body)) + b"IFRS" + body


def index(rows, count=None, more=b""):
    """The index of these rows (usage, number, start)."""
    body = be(len(rows) if count is None else count) + b"".join(u + be(n) + be(at) for u, n, at in rows) + more
    return chunk(b"RIdx", body)


def starts(count, chunks):
    """Where these chunks (kind, body) stand behind an index of that many entries; last of all the file's end."""
    at, places = 24 + 12 * count, []
    for _, body in chunks:
        places.append(at)
        at += 8 + len(body) + len(body) % 2
    return places + [at]


def blorb(entries, chunks):
    """A file of these chunks (kind, body), with entries (usage, number, place of the chunk among them)."""
    at = starts(len(entries), chunks)
    return form(index([(u, n, at[k]) for u, n, k in entries]), *(chunk(*c) for c in chunks))


def put(s, at, new):
    """s with these bytes at that place."""
    assert at + len(new) <= len(s)
    return s[:at] + new + s[at + len(new):]


def put32(s, at, n):
    return put(s, at, be(n))


def grow(s, at, by):
    """s with the number at that place grown, in 32 bits."""
    return put32(s, at, (be32(s, at) + by) % 2 ** 32)


def right_length(s):
    """s with its FORM length made right."""
    return put32(s, 4, len(s) - 8)


class Dice:
    """Numbers that look random and are the same with every Python."""

    def __init__(self, seed):
        self.state = seed

    def below(self, n):
        self.state = (self.state * 6364136223846793005 + 1442695040888963407) % 2 ** 64
        return (self.state >> 33) % n

    def one_of(self, things):
        return things[self.below(len(things))]

    def bytes(self, n):
        return bytes(self.below(256) for _ in range(n))
