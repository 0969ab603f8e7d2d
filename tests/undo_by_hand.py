"""Scenarios of undo, each step with the answer that 01 gives it, stated by hand, behind those of editing_by_hand.py.

Most are one undo of one record: of each kind one that fits, and around it records with one thing changed.
"""
from itertools import product

from building import be, blorb, chunk, form, index, put, starts
from editing_by_hand import (BACK, BETWEEN, DATA_7, LAST, MIXED, ONCE, PICT_1, SCENARIOS, SHARED, UNDO, done, given, no,
                             record, remove, replace, scenario, size)
from editing_run import fill
from reading_by_hand import (A, ANNO, B, B_BINA, B_LESS, B_TURNED, BLANK, DATA, EXEC, JPEG, PICT, RECT, RELN, SND, TEXT,
                             WHOLE, ZCOD, behind, fspc)

__all__ = ["HELD", "SCENARIOS"]

# ---- a last record that isn't well formed

ADDED = record(1, PICT, 1, 1)
for jrn, name in ((ADDED, "added"), (record(2, DATA, 7, 0, 48, b"BINA"), "replaced")):
    steps = [step for U in range(1, 29) for step in (given(76, U), (UNDO, no(21)._replace(len=76, used=U)))]
    scenario(f"U from 1 to 28, {name}", B, steps + [given(76, 29), (UNDO, done())], jrn=jrn)
scenario("U from 30 on", B, [
    step for U in range(30, 87) if U != 58 for step in (given(76, U), (UNDO, no(21)))], jrn=ADDED * 3)


def undoing(name, file, jrn, stated, room=None, before=9):
    """One undo of this record, that stands behind some bytes."""
    scenario(name, file, [(UNDO, stated)], room=room, jrn=fill(0, before) + jrn, journal=before + len(jrn) + 6,
             shown=False)


undoing("added", B, ADDED, done(48, 9, A))
undoing("added, nothing before", B, ADDED, done(48, 0, A), before=0)
for t in (0, 1, 24, 26, 33, 34, 35, 37, 38, 2 ** 31 + 25, 2 ** 32 - 4, 2 ** 32 - 1):
    undoing(f"trailer {t}", B, record(1, PICT, 1, 1, trailer=t), no(21))
for m in (1, 2, 12, 2 ** 31, 2 ** 32 - 1):
    undoing(f"added with m {m}", B, record(1, PICT, 1, 1, m=m), no(21))
for t in (25, 26, 2 ** 32 - 1):
    undoing(f"trailer {t} at U 29", B, record(1, PICT, 1, 1, trailer=t), done(48, 0, A) if t == 25 else no(21), before=0)
for start, word in ((48, "one"), (49, "other")):
    whole = record(2, DATA, 7, 0, start, b"BINA", ADDED)    # its data look like a record
    undoing(f"trailer U - 4, {word} start", B, whole, done(102, 0) if start == 48 else no(21), before=0)
    undoing(f"trailer U - 3, {word} start", B, put(whole, 54, be(55)), no(21), before=0)
    undoing(f"trailer U - 3 with m, {word} start", B, put(put(whole, 54, be(55)), 21, be(30)), no(21), before=0)
    undoing(f"trailer U - 5, {word} start", B, put(whole, 54, be(53)), no(21), before=0)
    undoing(f"only the last record, {word} start", B, whole[:25] + ADDED, done(48, 25, A), before=0)
for kind in (0, 6, 7, 127, 129, 255):
    undoing(f"kind {kind}", B, bytes([kind]) + ADDED[1:], no(21))
    undoing(f"kind {kind} of a replacement", B, record(kind, DATA, 7, 0, 48, *TEXT), no(21))
for at in range(13, 21):
    for x in (1, 128):
        undoing(f"added with {x} at {at}", B, put(ADDED, at, bytes([x])), no(21))
undoing("added with the chunk's start and type", B, record(1, PICT, 1, 1, 60, b"Rect"), no(21))
undoing("added with data", B, record(1, PICT, 1, 1, body=RECT[1]), no(21))
NAMED = record(4, DATA, 8, 1, 60)           # a second name of B's TEXT, at 48
undoing("named", B, NAMED, done(88, 9, blorb([(DATA, 7, 0), (DATA, 8, 0), (PICT, 1, 1)], [TEXT, RECT])))
for at in range(17, 25):
    for x in (1, 128):
        undoing(f"named with {x} at {at}", B, put(NAMED, at, bytes([x])), no(21))
undoing("named with data", B, record(4, DATA, 8, 1, 60, body=b"eel"), no(21))
undoing("named with type and data", B, record(4, DATA, 8, 1, 60, *TEXT), no(21))

# ---- a record that doesn't fit

for place in (0, 2, 3, 256, 2 ** 32 - 1):
    undoing(f"added at {place}", B, record(1, PICT, 1, place), no(21))
for usage, number in ((PICT, 0), (PICT, 2), (PICT, 2 ** 24 + 1), (DATA, 7), (DATA, 1), (SND, 1), (b"pict", 1),
                      (bytes(4), 1)):
    undoing(f"added as {usage.hex()} {number}", B, record(1, usage, number, 1), no(21))
undoing("added, the first of two", B, record(1, DATA, 7, 0), no(21))
undoing("added, none is there", BLANK, record(1, DATA, 7, 0), no(21))
undoing("added, none is there, place -1", BLANK, record(1, DATA, 7, 2 ** 32 - 1), no(21))
undoing("added, the entries turned", B_TURNED, record(1, DATA, 7, 1), no(27, 44))
undoing("added, another chunk behind", behind(B, chunk(*ANNO)), ADDED, no(21))
undoing("added, the chunk is shared", blorb([(PICT, 1, 0), (PICT, 2, 0)], [JPEG]), record(1, PICT, 2, 1), no(21))
undoing("added, the entry is alone", A, record(1, DATA, 7, 0), done(24, 9, BLANK), room=48)
undoing("added, chunks before", behind(BLANK, chunk(*ANNO)), record(1, DATA, 7, 0), no(21))
HELD = blorb([(DATA, 7, 1), (PICT, 1, 2)], [fspc(1), TEXT, JPEG])
undoing("added, the frontispiece's picture", HELD, record(1, PICT, 1, 1), no(21))

SHRUNK = record(2, DATA, 7, 0, 48, b"BINA")
undoing("replaced", B, SHRUNK, done(72, 9, B_BINA))
undoing("replaced by what it was", B, record(2, DATA, 7, 0, 48, *TEXT), done(76, 9, B))
for n in (0, 1, 2, 3, 4, 5, 6):
    old = b"before"[:n]
    undoing(f"replaced, {n} bytes before", B, record(2, DATA, 7, 0, 48, b"TEXT", old), done(64 + size(old), 9))
    undoing(f"replaced at the end, {n} bytes before", B, record(2, PICT, 1, 1, 60, b"JPEG", old), done(60 + size(old), 9))
for place in (1, 2, 3, 2 ** 32 - 1):
    undoing(f"replaced at {place}", B, record(2, DATA, 7, place, 48, b"BINA"), no(21))
for start in (0, 12, 36, 47, 49, 60, 76, 2 ** 32 - 1):
    undoing(f"replaced, start {start}", B, record(2, DATA, 7, 0, start, b"BINA"), no(21))
for usage, number in ((DATA, 6), (DATA, 8), (DATA, 0), (PICT, 7), (PICT, 1), (b"data", 7)):
    undoing(f"replaced as {usage.hex()} {number}", B, record(2, usage, number, 0, 48, b"BINA"), no(21))
for m in (2, 4, 0, 2 ** 32 - 1):
    undoing(f"replaced with m {m}", B, record(2, DATA, 7, 0, 48, *TEXT, m=m), no(21))
undoing("replaced, m and the trailer one less", B, record(2, DATA, 7, 0, 48, b"TEXT", b"eel", m=2, trailer=27), no(21))
undoing("replaced, m and the trailer one more", B, record(2, DATA, 7, 0, 48, b"TEXT", b"eel", m=4, trailer=29), no(21))
undoing("replaced, none is there", BLANK, record(2, DATA, 7, 0, 24, b"BINA"), no(21))
undoing("replaced, the chunk is shared", SHARED, record(2, PICT, 1, 1, starts(4, [TEXT])[-1], *JPEG), no(21))
undoing("replaced, beside a shared chunk", SHARED, record(2, DATA, 7, 0, 72, *TEXT), done(len(SHARED), 9, SHARED))
for was in (b"JPEG", b"RIdx", b"RelN", b"Fspc", b"text", bytes(4)):
    undoing(f"replaced, type {was.hex()} before", B, record(2, DATA, 7, 0, 48, was, b"ab"), no(21))
undoing("replaced, a Rect of 7 before", B, record(2, PICT, 1, 1, 60, b"Rect", b"1234567"), no(21))
undoing("replaced, a Rect before", LAST, record(2, PICT, 2, 0, 48, *RECT), done(86, 9))
undoing("replaced, the frontispiece's picture a Rect before", LAST, record(2, PICT, 1, 1, 58, *RECT), no(21))
undoing("replaced, the frontispiece's picture", LAST, record(2, PICT, 1, 1, 58, b"PNG ", b"p"), done(80, 9))

EEL = (b"TEXT", b"eel")
undoing("removed from 0 at 48", A, record(3, DATA, 8, 0, 48, *EEL), done(72, 9, blorb([(DATA, 8, 0), (DATA, 7, 1)], [EEL, EEL])))
undoing("removed from 1 at 60", A, record(3, DATA, 8, 1, 60, *EEL), done(72, 9, blorb([(DATA, 7, 0), (DATA, 8, 1)], [EEL, EEL])))
undoing("removed from 0 at 60, behind the entry it goes before", A, record(3, DATA, 8, 0, 60, *EEL), no(21))
undoing("removed from 1 at 48, before the entry in front of it", A, record(3, DATA, 8, 1, 48, *EEL), no(21))
for place in (2, 3, 2 ** 32 - 1):
    undoing(f"removed from {place}", A, record(3, DATA, 8, place, 60, *EEL), no(21))
for start in (*range(14), 24, 36, 44, 47, 49, 56, 59, 61, 62, 72, 2 ** 31 + 48, 2 ** 32 - 12, 2 ** 32 - 1):
    undoing(f"removed, start {start}", A, record(3, DATA, 8, 0, start, *EEL), no(21))
    undoing(f"removed, start {start}, at the end", A, record(3, DATA, 8, 1, start, *EEL), no(21))
undoing("removed from a blank", BLANK, record(3, DATA, 7, 0, 36, *TEXT), done(48, 9, A), room=48)
undoing("removed from a blank, start 24", BLANK, record(3, DATA, 7, 0, 24, *TEXT), no(21))
undoing("removed from a blank, place 1", BLANK, record(3, DATA, 7, 1, 36, *TEXT), no(21))
for k, at in enumerate(starts(2, BETWEEN)):    # between the entries of chunks 1 and 3
    undoing(f"removed between chunks, {at}", MIXED, record(3, SND, 5, 1, at + 12, b"SONG", b"s"),
            done(len(MIXED) + 22, 9) if k in (2, 3) else no(21))
for usage, number, was, body in ((b"data", 8, b"TEXT", b""), (bytes(4), 8, b"TEXT", b""), (DATA, 7, b"TEXT", b"eel"),
                                 (DATA, 8, b"JPEG", b""), (DATA, 8, b"RIdx", b""), (DATA, 8, b"RelN", b"ab"),
                                 (PICT, 8, *fspc(8)), (PICT, 8, b"Rect", b"1234567"), (SND, 8, b"FORM", b"AIF"),
                                 (EXEC, 1, b"ZCOD", b"")):
    for place, start in ((0, 48), (1, 60)):
        undoing(f"removed {usage.hex()} {number} {was.hex()} at {start}", A,
                record(3, usage, number, place, start, was, body), no(21))
undoing("removed, an Exec", A, record(3, EXEC, 0, 0, 48, *ZCOD), done(72, 9))
undoing("removed, a second Exec", form(index([(EXEC, 0, 36)]), chunk(*ZCOD)), record(3, EXEC, 0, 0, 48, *ZCOD), no(21))
for m in (2, 4, 2 ** 32 - 1):
    undoing(f"removed with m {m}", A, record(3, DATA, 8, 0, 48, *EEL, m=m), no(21))
undoing("removed, m and the trailer one less", A, record(3, DATA, 8, 0, 48, *EEL, m=2, trailer=27), no(21))
undoing("removed, m and the trailer one more", A, record(3, DATA, 8, 0, 48, *EEL, m=4, trailer=29), no(21))

for place in (0, 1):
    names = [(DATA, 7, 0), (PICT, 1, 1)]
    names.insert(place, (DATA, 8, 0))
    undoing(f"named at {place}", B, record(4, DATA, 8, place, 60), done(88, 9, blorb(names, [TEXT, RECT])))
for place in (2, 3, 2 ** 32 - 1):
    undoing(f"named at {place}", B, record(4, DATA, 8, place, 60), no(21))
for start in (*range(14), 24, 48, 59, 61, 68, 72, 88, 100, 2 ** 32 - 1):
    undoing(f"named, start {start}", B, record(4, DATA, 8, 0, start), no(21))
undoing("named, the last chunk", B, record(4, PICT, 2, 2, 72), done(88, 9))
undoing("named, the file's end", A, record(4, DATA, 8, 0, 60), no(21))
undoing("named in a blank", BLANK, record(4, DATA, 8, 0, 36), no(21))
undoing("named, the index", BLANK, record(4, DATA, 8, 0, 24), no(21))
for usage, number in ((DATA, 7), (PICT, 8), (SND, 8), (EXEC, 0), (b"data", 8), (bytes(4), 8)):
    undoing(f"named {usage.hex()} {number}", B, record(4, usage, number, 0, 60), no(21))
undoing("named, an Exec 1", form(index([]), chunk(*ZCOD)), record(4, EXEC, 1, 0, 36), no(21))
undoing("named, an Exec", form(index([]), chunk(*ZCOD)), record(4, EXEC, 0, 0, 36), done(48, 9))
for at, stated in zip(starts(1, [JPEG, RELN, fspc(1)]), (done(len(ONCE) + 12, 9), no(21), no(21), no(21))):
    undoing(f"named beside a frontispiece, {at}", ONCE, record(4, PICT, 2, 0, at + 12), stated)

# ---- the order of the chunks (02, P5), kinds 3 and 4: an entry at each place, with a chunk before or at each of four chunks, or
# at the file's end. The entries' chunks are 0, 1, 1 and 3: chunk 1 has two entries, chunk 2 none.

ON = (0, 1, 1, 3)
HOLES = blorb([(DATA, n, k) for n, k in enumerate(ON)], [TEXT] * 4)
for place, (k, at) in product(range(5), enumerate(starts(4, [TEXT] * 4))):
    up = [(DATA, n, c + (c >= k)) for n, c in enumerate(ON)]
    kept = all(c < k for c in ON[:place]) and all(c >= k for c in ON[place:])
    undoing(f"order: removed from {place} before chunk {k}", HOLES, record(3, DATA, 9, place, at + 12, b"BINA", b"new"),
            done(file=blorb(up[:place] + [(DATA, 9, k)] + up[place:], [TEXT] * k + [(b"BINA", b"new")] + [TEXT] * (4 - k)))
            if kept else no(21), room=len(HOLES) + 24)
for place, (k, at) in product(range(5), enumerate(starts(4, [TEXT] * 4)[:-1])):
    names = [(DATA, n, c) for n, c in enumerate(ON)]
    kept = all(c <= k for c in ON[:place]) and all(c >= k for c in ON[place:])
    undoing(f"order: named at {place} on chunk {k}", HOLES, record(4, DATA, 9, place, at + 12),
            done(file=blorb(names[:place] + [(DATA, 9, k)] + names[place:], [TEXT] * 4)) if kept else no(21))
undoing("order: removed, wrong and no room", HOLES, record(3, DATA, 9, 0, len(HOLES) + 12, *TEXT), no(21), room=len(HOLES))
undoing("order: named, wrong and no room", HOLES, record(4, DATA, 9, 0, starts(4, [TEXT] * 3)[-1] + 12), no(21), room=len(HOLES))

# ---- room

for n in (99, 100, 101):
    stated = done(100, 9) if n >= 100 else no(24)
    undoing(f"removed, {n} bytes", B, BACK, stated, room=n)
    undoing(f"removed from the middle, {n} bytes", B, record(3, DATA, 8, 0, 60, *TEXT), stated, room=n)
    undoing(f"replaced, {n} bytes", B, record(2, DATA, 7, 0, 48, b"TEXT", bytes(27)), stated, room=n)
    undoing(f"replaced, wrong, {n} bytes", B, record(2, DATA, 7, 0, 48, b"JPEG", bytes(27)), no(21), room=n)
for n in (76, 87, 88):
    undoing(f"named, {n} bytes", B, NAMED, done(88, 9) if n == 88 else no(24), room=n)
    undoing(f"named, wrong, {n} bytes", B, record(4, DATA, 7, 1, 60), no(21), room=n)
    undoing(f"added, {n} bytes", B, ADDED, done(48, 9, A), room=n)
scenario("shrunk twice", WHOLE, [
    (remove(DATA, 7), done(len(WHOLE) - 24)), (replace(PICT, 2, b"JPEG", b""), done(len(WHOLE) - 30)),
    (remove(SND, 9), done(len(WHOLE) - 52)), (UNDO, done(len(WHOLE) - 30)), (UNDO, done(len(WHOLE) - 24)),
    (UNDO, done(file=WHOLE)), (UNDO, no(26))], room=len(WHOLE), journal=128)

# ---- a journal that is not this file's, or not the call's own U

scenario("an older record", BLANK, [
    (DATA_7, done(48, 29)), (PICT_1, done(76, 58)), given(76, 29), (UNDO, no(21)), given(76, 58), (UNDO, done(48, 29)),
    given(48, 58), (UNDO, no(21)), given(48, 29), (UNDO, done(24, 0, BLANK)), given(24, 58), (UNDO, no(21))])
scenario("U forgotten", B, [
    (remove(DATA, 7), done(52, 32)), given(52, 0), (UNDO, no(26)), (DATA_7, done(76, 29)), given(76, 32), (UNDO, no(21)),
    given(76, 29), (UNDO, done(52, 0, B_LESS)), (remove(PICT, 1), done(24, 37, BLANK)), (UNDO, done(52, 0, B_LESS))])
scenario("another file's record that fits", A, [
    (UNDO, done(72, 31)), (UNDO, done(48, 2)), (UNDO, no(21)), given(48, 0), (UNDO, no(26))],
    jrn=b"ab" + record(1, DATA, 8, 1) + record(3, DATA, 8, 1, 60, *EEL))
