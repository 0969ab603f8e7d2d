"""Generated files for comparing two readers: right ones, most of them spoiled in a place or two.

generated(count, seed, resources) gives the same files with every Python. ADRIFT_RESOURCES are for files that are right under the ADRIFT
profile, and refused as plain ones where a type of that profile is met.
"""
from building import Dice, be, blorb, chunk, grow, put, put32, right_length, starts

PICT, SND, DATA, EXEC = USAGES = b"Pict", b"Snd ", b"Data", b"Exec"
RESOURCES = [(PICT, b"JPEG"), (PICT, b"PNG "), (PICT, b"Rect"), (PICT, b"Rect"), (SND, b"OGGV"), (SND, b"MOD "),
             (SND, b"FORM"), (SND, b"FORM"), (DATA, b"TEXT"), (DATA, b"BINA"), (EXEC, b"ZCOD"), (EXEC, b"GLUL")]
ADRIFT_RESOURCES = RESOURCES + [(PICT, b"GIF "), (PICT, b"GIF "), (SND, b"WAV "), (SND, b"MIDI"), (SND, b"MP3 ")]
OTHERS = [b"RIdx", b"RelN", b"Fspc", b"Rect", b"FORM", b"TEXT", b"ANNO", b"IFmd", b"ZCOD", b"\0\0\0\0"]
NUMBERS = [0, 1, 2, 3, 4, 7, 8, 12, 16, 255, 256, 65536, 2 ** 31 - 1, 2 ** 31, 2 ** 32 - 8, 2 ** 32 - 1]


def body_for(d, kind):
    """Data that rules 5 and 7 allow."""
    if kind == b"Rect":
        return d.bytes(8)
    if kind == b"FORM":
        return b"AIFF" + d.bytes(d.below(4))
    return d.bytes(d.below(7))


def right_file(d, resources=RESOURCES):
    """The entries (usage, number, chunk) and chunks of a file that is to be accepted."""
    chunks, usages = [], []
    for _ in range(d.below(7)):
        usage, kind = d.one_of(resources)
        if d.below(4) == 0:
            usage, kind = None, b"ANNO"
        chunks.append((kind, body_for(d, kind)))
        usages.append(usage)
    entries = []
    for _ in range(d.below(7)):
        k = d.below(len(chunks)) if chunks else 0
        if chunks and usages[k]:
            row = (usages[k], 0 if usages[k] == EXEC else d.below(5), k)
            if row[:2] not in [e[:2] for e in entries]:
                entries.append(row)
    entries.sort(key=lambda e: e[2])    # in the order of the chunks; spoil() breaks it
    if d.below(3) == 0:
        chunks.append((b"RelN", d.bytes(2)))
    pictures = [n for u, n, k in entries if u == PICT and chunks[k][0] != b"Rect"]
    if pictures and d.below(2) == 0:
        chunks.append((b"Fspc", be(d.one_of(pictures))))
    return entries, chunks


def spoil(d, s, count, at):
    """s with one thing changed; at: the starts of its chunks and its end, as they were at first."""
    places = [12, *at[:-1]]
    entry = 24 + 12 * d.below(count) if count else 24
    fields = [4, 16, 20, entry + 4, entry + 8, *(x + 4 for x in places)]
    fields = [f for f in fields if f + 4 <= len(s)]
    what = d.below(16)
    if what == 0:
        return put(s, d.below(len(s)), d.bytes(1))
    if what == 1:
        return put(s, d.below(len(s)), b"\1")
    if what == 2:
        return grow(s, d.one_of(fields), d.one_of([1, -1, 2, -2, 12, -12, 256]))
    if what == 3:
        return put32(s, d.one_of(fields), d.one_of(NUMBERS))
    if what in (4, 5):
        x = d.one_of(places)
        return put(s, x, d.one_of(OTHERS)) if x + 4 <= len(s) else s
    if what == 6:
        return s[:max(12, len(s) - 1 - d.below(9))]
    if what == 7:
        return s + d.bytes(d.below(9))
    if what == 8:
        return s + chunk(d.one_of(OTHERS), d.bytes(d.below(6)))
    if what == 9:
        return s + d.one_of([chunk(b"RelN", d.bytes(2)), chunk(b"Fspc", be(d.below(5))), chunk(b"ANNO", d.bytes(1))])
    if count == 0:
        return s
    other = 24 + 12 * d.below(count)
    if what in (10, 11):    # two entries, or only their starts, change places
        n = 0 if what == 10 else 8
        return put(put(s, entry + n, s[other + n:other + 12]), other + n, s[entry + n:entry + 12])
    return put(s, *d.one_of([
        (entry, d.one_of([*USAGES, b"pict", b"\0\0\0\0"])),
        (entry + 4, be(d.below(5))),
        (entry + 8, be(d.one_of([12, len(s), d.below(len(s)), *at, *at]))),
        (entry, s[other:other + 8]),
        (entry, s[other:other + 12]),
    ]))


def generated(count, seed, resources=RESOURCES):
    d = Dice(seed)
    for _ in range(count):
        entries, chunks = right_file(d, resources)
        s, at = blorb(entries, chunks), starts(len(entries), chunks)
        for _ in range(d.one_of([0, 1, 1, 1, 2, 2])):
            size = len(s)
            s = spoil(d, s, len(entries), at)
            if len(s) != size and d.below(4):
                s = right_length(s)
            if len(s) < at[-1]:
                break    # the places are no longer in it
        yield s
