"""The reading half of 01 (description of the build and its rules), with 28 and 29 of 02 (P1), its whole
'FORM' chunks (P3) and its profiles (P12), in Python.

Written from the papers alone, to be held against the proved library: it shares no code, no definition and no order of
working with it. Where they leave a choice, the reading taken is named in a comment.

    read(s, profile)                    ("accepted", length, count)            or ("refused", number, place)
    entry(s, i, profile)                ("given", usage, number, start)        or ("refused", number, place)
    lookup(s, usage, number, profile)   ("found", kind, start, length)         or ("refused", number, place)
    part(s, usage, number, profile)     the bytes that the lookup gives; none where it refuses

s is the whole file as bytes; usages and kinds (types of chunks) are four bytes; the profile is a number, plain where none is
given. For what builds on this: parse(s, profile) gives the chunks and the entries of an accepted file and raises Refusal otherwise.
"""
from collections import namedtuple

MOST_BYTES = 16_777_216    # Sizes
MOST_ENTRIES = 4_096

PICT, SND, DATA, EXEC = USAGES = (b"Pict", b"Snd ", b"Data", b"Exec")    # rule 4
KINDS = {                  # rule 5, the types that stand with no further condition
    PICT: (b"JPEG", bytes([80, 78, 71, 32])),
    SND: (b"OGGV", b"MOD ", b"SONG"),
    DATA: (b"TEXT", b"BINA"),
    EXEC: (b"ZCOD", b"GLUL", b"TAD2", b"TAD3", b"HUGO", b"ALAN", b"ADRI", b"LEVE", b"AGT ", b"MAGS", b"ADVS", b"EXEC"),
}
PLAIN, ADRIFT = 0, 1       # 02, P12: the profiles that there are
ADRIFT_KINDS = {PICT: (b"GIF ",), SND: (b"WAV ", b"MIDI", b"MP3 ")}    # what ADRIFT allows besides (001, section 14.5)
AT_MOST_ONE = {b"RelN": 2, b"Fspc": 4}    # rule 7, with the length of each

Chunk = namedtuple("Chunk", "start kind body")      # body: the data, without header and padding
Entry = namedtuple("Entry", "usage number start")


class Refusal(Exception):
    """A refusal's number and place."""

    def __init__(self, number, place):
        super().__init__(number, place)
        self.number, self.place = number, place


def refuse_if(broken, number, place):
    if broken:
        raise Refusal(number, place)


def be32(s, at):
    """Four bytes as a number: big-endian and unsigned."""
    return int.from_bytes(s[at:at + 4], "big")


# ---- rules 1 and 2: refusals 1 to 7, 28 and 29

def head(s):
    """Refusals 1 to 5, by their numbers: 4 comes before 5 though its place stands behind."""
    refuse_if(len(s) > MOST_BYTES, 1, 0)
    refuse_if(len(s) < 12, 2, 0)
    refuse_if(s[0:4] != b"FORM", 3, 0)
    refuse_if(s[8:12] != b"IFRS", 4, 8)
    refuse_if(be32(s, 4) != len(s) - 8, 5, 4)


def chunks_of(s):
    """Rule 2, refusals 6, 28, 29 and 7: the chunks from offset 12 on, walking forward; the first faulty chunk decides."""
    chunks, at = [], 12
    while at < len(s):
        refuse_if(at + 8 > len(s), 6, at)                       # header
        end = at + 8 + be32(s, at + 4)
        refuse_if(end > len(s), 28, at + 4)                     # data
        odd = (end - at) % 2                                    # the header is even, so the data's length decides
        refuse_if(end + odd > len(s), 29, len(s))               # padding
        refuse_if(odd and s[end] != 0, 7, end)
        chunks.append(Chunk(at, s[at:at + 4], s[at + 8:end]))
        at = end + odd
    return chunks


# ---- rules 3 to 6: refusals 8 to 16 and 27

def index_of(chunks):
    """Rule 3, refusals 8 to 11: the data of the index. The count is not read where it isn't there (10)."""
    refuse_if(not chunks or chunks[0].kind != b"RIdx", 8, 12)
    for c in chunks[1:]:
        refuse_if(c.kind == b"RIdx", 9, c.start)
    body = chunks[0].body
    refuse_if(len(body) < 4 or len(body) != 4 + 12 * be32(body, 0), 10, 16)
    refuse_if(be32(body, 0) > MOST_ENTRIES, 11, 20)
    return body


def entries_of(body, chunks, profile):
    """Rules 4 to 6, refusals 12 to 16 and 27 (02, P5): entry by entry, all six of an entry before the next one."""
    behind = {c.start: c for c in chunks[1:]}                   # rule 4: chunks other than the index, by their first byte
    entries, seen = [], set()
    for i in range(be32(body, 0)):
        place = 24 + 12 * i                                     # in the file
        row = body[4 + 12 * i:16 + 12 * i]
        usage, number, start = row[0:4], be32(row, 4), be32(row, 8)
        refuse_if(usage not in USAGES, 12, place)
        refuse_if(start not in behind, 13, place + 8)
        refuse_if(not kind_fits(usage, behind[start], profile), 14, place)
        refuse_if(usage == EXEC and number != 0, 15, place + 4)
        refuse_if((usage, number) in seen, 16, place)
        refuse_if(entries and start < entries[-1].start, 27, place + 8)
        seen.add((usage, number))
        entries.append(Entry(usage, number, start))
    return entries


def kind_fits(usage, chunk, profile):
    """Rule 5, with the types that the profile adds."""
    if profile == ADRIFT and chunk.kind in ADRIFT_KINDS.get(usage, ()):
        return True
    if usage == PICT and chunk.kind == b"Rect":
        return len(chunk.body) == 8
    if usage == SND and chunk.kind == b"FORM":
        return chunk.body[0:4] == b"AIFF"                       # so at least 4 data bytes
    return chunk.kind in KINDS[usage]


# ---- rule 7: refusals 17 to 19

def optional(chunks, entries):
    """By file position, 17 to 19 of one chunk before the next chunk. 'RelN' and 'Fspc' are counted each by itself."""
    kind_at = {c.start: c.kind for c in chunks}
    pictures = {e.number: kind_at[e.start] for e in entries if e.usage == PICT}
    met = set()
    for c in chunks:
        if c.kind in AT_MOST_ONE:
            refuse_if(c.kind in met, 17, c.start)
            met.add(c.kind)
            refuse_if(len(c.body) != AT_MOST_ONE[c.kind], 18, c.start + 4)
        if c.kind == b"Fspc":
            refuse_if(pictures.get(be32(c.body, 0), b"Rect") == b"Rect", 19, c.start + 8)


# ---- the whole file, and what is asked of it

def known(profile):
    """52 for an unknown profile, which comes before all others."""
    refuse_if(profile not in (PLAIN, ADRIFT), 52, 0)


def parse(s, profile=PLAIN):
    """The chunks and the entries of an accepted file, in file order; raises Refusal for any other."""
    known(profile)
    head(s)
    chunks = chunks_of(s)
    entries = entries_of(index_of(chunks), chunks, profile)
    optional(chunks, entries)
    return chunks, entries


def answer(ask):
    """What ask gives, or its refusal as a tuple."""
    try:
        return ask()
    except Refusal as r:
        return ("refused", r.number, r.place)


def read(s, profile=PLAIN):
    """For an accepted file its length and entry count."""
    return answer(lambda: ("accepted", len(s), len(parse(s, profile)[1])))


def entry(s, i, profile=PLAIN):
    """Entry i, from 0: the reader's refusals, then 22 if i isn't below the count."""
    def ask():
        entries = parse(s, profile)[1]
        refuse_if(i >= len(entries), 22, 0)
        return ("given", *entries[i])
    return answer(ask)


def find(s, usage, number, profile=PLAIN):
    """The chunk of a pair: the reader's refusals, then 22. An unknown usage is in no accepted index."""
    chunks, entries = parse(s, profile)
    starts = [e.start for e in entries if (e.usage, e.number) == (usage, number)]    # one at most, by rule 6
    refuse_if(not starts, 22, 0)
    return next(c for c in chunks if c.start == starts[0])


def lookup(s, usage, number, profile=PLAIN):
    """The chunk's type, and start and length of the part: its data, or of type 'FORM' the whole chunk, header included and
    padding not (02, P3)."""
    def ask():
        c = find(s, usage, number, profile)
        if c.kind == b"FORM":
            return ("found", c.kind, c.start, 8 + len(c.body))
        return ("found", c.kind, c.start + 8, len(c.body))
    return answer(ask)


def part(s, usage, number, profile=PLAIN):
    """The bytes that the lookup names; none where it refuses."""
    a = lookup(s, usage, number, profile)
    return s[a[2]:a[2] + a[3]] if a[0] == "found" else b""
