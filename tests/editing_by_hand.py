"""Scenarios of editing, each step with the answer that 01 gives it, stated by hand.

SCENARIOS holds (scenario, stated): a scenario of editing_run.py, and for each of its steps what is stated of it: done or
a refusal's number and place and, where it is stated, L, U and the file after the step. undo_by_hand.py has more of undo.

Not here: 101, a file that would pass 16,777,216 bytes. A program has no storage but its stack, of which 8 MiB are usual,
so it can hold neither a file near that limit nor data of that size. Undo's 21 for a file past that limit is left out for
the same reason. A host that lends the library a large buffer has to run them.
"""
from collections import namedtuple
from itertools import permutations, product

from building import be, blorb, chunk, form, put, starts, whole_form
from editing_run import Scenario, fill, lent
from reading_by_hand import (A, ANNO, B, B_BINA, B_LESS, B_TURNED, BLANK, BROKEN, BROKEN_OFF, DATA, EXEC, JPEG, KINDS, PICT,
                             RECT, RELN, SND, TEXT, WHOLE, ZCOD, behind, fspc, large)

Stated = namedtuple("Stated", "number place len used file")
SCENARIOS = []
UNDO, NEW = ("undo",), ("blank",)


def add(usage, number, kind, body):
    return ("add", usage, number, kind, body)


def replace(usage, number, kind, body):
    return ("replace", usage, number, kind, body)


def remove(usage, number):
    return ("remove", usage, number)


def given(L, U):
    """The next call is given these; nothing is stated of this step."""
    return ("given", L, U), None


def done(L=None, U=None, file=None):
    return Stated(0, 0, len(file) if file and L is None else L, U, file)


def no(number, place=0):
    return Stated(number, place, None, None, None)


def scenario(name, file, steps, room=None, jrn=b"", journal=64, L=None, used=None, shown=True, profile=0):
    """The file in a buffer of that room, the bytes jrn in a journal of that length; all else is filled."""
    buf = lent(file, len(file) + 64 if room is None else room)
    x = Scenario(name, buf, lent(jrn, max(journal, len(jrn))), len(file) if L is None else L,
                 len(jrn) if used is None else used, shown, tuple(step for step, _ in steps), profile)
    SCENARIOS.append((x, [stated for _, stated in steps]))


def size(body):
    return 8 + len(body) + len(body) % 2


def record(kind, usage, number, place, start=0, was=bytes(4), body=b"", m=None, trailer=None):
    """The bytes of a record; m and trailer can be given wrong."""
    m, trailer = len(body) if m is None else m, 25 + len(body) if trailer is None else trailer
    return bytes([kind]) + usage + be(number) + be(place) + be(start) + was + be(m) + body + be(trailer)


# ---- blank

for n in (0, 1, 23):
    scenario(f"blank in {n} bytes", b"", [(NEW, no(24)._replace(len=0, used=0))], room=n)
for n in (24, 25, 30, 60):
    scenario(f"blank in {n} bytes", b"", [(NEW, done(24, 0, BLANK))], room=n)
scenario("blank over a file, no journal", B, [(NEW, done(24, 0, BLANK)), (UNDO, no(26))], journal=0)
scenario("blank given L and U beyond", B, [given(1000, 1000), (NEW, done(24, 0, BLANK))])
scenario("blank refused, then L and U are 0", B[:20], [(NEW, no(24)), (UNDO, no(2))], room=20)

# ---- 01's own samples

DATA_7, PICT_1 = add(DATA, 7, *TEXT), add(PICT, 1, *RECT)
scenario("A, B and back", b"", [
    (NEW, done(24, 0, BLANK)), (DATA_7, done(48, 29, A)), (PICT_1, done(76, 58, B)), (UNDO, done(48, 29, A)),
    (UNDO, done(24, 0, BLANK)), (UNDO, no(26))], room=90)
scenario("B without Data 7 and back", B, [
    (remove(DATA, 7), done(52, 32, B_LESS)), (UNDO, done(76, 0, B)), (UNDO, no(26))])
scenario("B with an empty BINA and back", B, [
    (replace(DATA, 7, b"BINA", b""), done(72, 32, B_BINA)), (UNDO, done(76, 0, B)), (UNDO, no(26))])
scenario("from blank to B and back", BLANK, [
    (DATA_7, done(48, 29, A)), (PICT_1, done(76, 58, B)), (remove(DATA, 7), done(52, 90, B_LESS)),
    (DATA_7, done(76, 119)), (UNDO, done(52, 90, B_LESS)), (UNDO, done(76, 58, B)),
    (replace(DATA, 7, b"BINA", b""), done(72, 90, B_BINA)), (UNDO, done(76, 58, B)), (UNDO, done(48, 29, A)),
    (UNDO, done(24, 0, BLANK)), (UNDO, no(26))], journal=119)
scenario("B's record stands in the journal", B, [(UNDO, done(48, 0, A))], jrn=record(1, PICT, 1, 1))
assert len(record(1, PICT, 1, 1)) == 29 and record(1, PICT, 1, 1)[-4:] == be(25)

# ---- sizes: the first, the middle and the last chunk replaced, between chunks without an entry

for at, (old, new) in product(range(3), product(range(4), range(4))):
    mid = [(b"BINA", b"bina"[:old]) if k == at else TEXT for k in range(3)]
    file = blorb([(DATA, 2 - k, 2 * k) for k in range(3)], [mid[0], ANNO, mid[1], (b"ANNO", b"x"), mid[2]])
    mid[at] = (b"TEXT", b"text"[:new])
    after = blorb([(DATA, 2 - k, 2 * k) for k in range(3)], [mid[0], ANNO, mid[1], (b"ANNO", b"x"), mid[2]])
    L = len(file) - size(bytes(old)) + size(bytes(new))
    scenario(f"chunk {at} from {old} to {new}", file, [
        (replace(DATA, 2 - at, *mid[at]), done(L, 29 + old, after)), (UNDO, done(len(file), 0, file))],
        room=max(L, len(file)) + 3, shown=at == 1)
for n in range(6):
    scenario(f"add of {n} bytes", B, [
        (add(SND, 9, b"MOD ", b"tunes"[:n]), done(88 + size(bytes(n)), 29)), (remove(SND, 9), done(76, 58 + n, B)),
        (UNDO, done(88 + size(bytes(n)), 29)), (UNDO, done(76, 0, B))], room=88 + size(bytes(n)))
scenario("replaced by the same", B, [(replace(DATA, 7, *TEXT), done(76, 32, B)), (UNDO, done(76, 0, B))])
scenario("only the type", B, [(replace(DATA, 7, b"BINA", b"eel"), done(76, 32)), (UNDO, done(76, 0, B))])

# ---- chunks without an entry before, between and behind

BETWEEN = [ANNO, TEXT, (b"ANNO", b"odd"), JPEG, RELN, (b"TEXT", b"no entry")]
PAIRS = [(DATA, 7, 1), (PICT, 1, 3)]
MIXED = blorb(PAIRS, BETWEEN)
scenario("between: add", MIXED, [
    (add(SND, 2, b"SONG", b"s"), done(file=blorb(PAIRS + [(SND, 2, 6)], BETWEEN + [(b"SONG", b"s")]))),
    (UNDO, done(file=MIXED))])
scenario("between: replace", MIXED, [
    (replace(DATA, 7, b"BINA", b"12345678"), done(file=blorb(PAIRS, BETWEEN[:1] + [(b"BINA", b"12345678")] + BETWEEN[2:]))),
    (replace(PICT, 1, *RECT), done(len(MIXED) + 10)), (UNDO, done(len(MIXED) + 4)), (UNDO, done(file=MIXED))], journal=80)
scenario("between: remove", MIXED, [
    (remove(DATA, 7), done(file=blorb([(PICT, 1, 2)], BETWEEN[:1] + BETWEEN[2:]))),
    (remove(PICT, 1), done(file=blorb([], BETWEEN[:1] + BETWEEN[2:3] + BETWEEN[4:]))),
    (UNDO, done(file=blorb([(PICT, 1, 2)], BETWEEN[:1] + BETWEEN[2:]))), (UNDO, done(file=MIXED))])
scenario("between: remove the other first", MIXED, [
    (remove(PICT, 1), done(file=blorb([(DATA, 7, 1)], BETWEEN[:3] + BETWEEN[4:]))),
    (remove(DATA, 7), done(file=blorb([], BETWEEN[:1] + BETWEEN[2:3] + BETWEEN[4:]))),
    (UNDO, done()), (UNDO, done(file=MIXED)), (UNDO, no(26))])
scenario("blank with chunks behind", behind(BLANK, chunk(*ANNO)), [
    (DATA_7, done(60, 29)), (remove(DATA, 7), done(36, 61)), (UNDO, done(60)), (UNDO, done(36, 0))])
scenario("removed to nothing", A, [(remove(DATA, 7), done(24, 32, BLANK)), (UNDO, done(48, 0, A))], room=48)

# ---- shared chunks, and each of four entries

SHARED = blorb([(DATA, 7, 0), (PICT, 1, 1), (PICT, 2, 1), (EXEC, 0, 2)], [TEXT, JPEG, ZCOD])
ONE_LESS = blorb([(DATA, 7, 0), (PICT, 2, 1), (EXEC, 0, 2)], [TEXT, JPEG, ZCOD])
TWO_LESS = blorb([(DATA, 7, 0), (EXEC, 0, 1)], [TEXT, ZCOD])
scenario("shared: replace", SHARED, [
    (replace(PICT, 1, *JPEG), no(23)), (replace(PICT, 2, *RECT), no(23)), (replace(PICT, 3, *RECT), no(22)),
    (remove(PICT, 1), done(len(SHARED) - 12, 29, ONE_LESS)), (replace(PICT, 2, *RECT), done(len(ONE_LESS) + 6, 60)),
    (UNDO, done(file=ONE_LESS)), (UNDO, done(file=SHARED)), (replace(PICT, 2, *RECT), no(23))])
scenario("shared: remove both", SHARED, [
    (remove(PICT, 1), done(U=29, file=ONE_LESS)), (remove(PICT, 2), done(len(ONE_LESS) - 22, 60, TWO_LESS)),
    (remove(PICT, 1), no(22)), (UNDO, done(file=ONE_LESS)), (UNDO, done(file=SHARED))])
scenario("shared: remove the other first", SHARED, [
    (remove(PICT, 2), done(U=29)), (remove(PICT, 1), done(U=60, file=TWO_LESS)), (UNDO, done()), (UNDO, done(file=SHARED))])
scenario("shared: other edits move both", SHARED, [
    (replace(DATA, 7, b"TEXT", b"a longer one"), done(len(SHARED) + 8)), (remove(DATA, 7), done(len(SHARED) - 24)),
    (add(DATA, 7, *TEXT), done(len(SHARED))), (UNDO, done()), (UNDO, done()), (UNDO, done(file=SHARED))], journal=160)
THREE = blorb([(PICT, n, 0) for n in (9, 5, 7)], [JPEG])
scenario("three names of one chunk", THREE, [
    (remove(PICT, 5), done(58, 29)), (remove(PICT, 9), done(46, 58)), (remove(PICT, 7), done(24, 89, BLANK)),
    (UNDO, done(46)), (UNDO, done(58)), (UNDO, done(70, 0, THREE))], journal=89)
FOUR = blorb([(DATA, 7, 0), (PICT, 1, 1), (SND, 3, 2), (EXEC, 0, 3)], [TEXT, JPEG, (b"OGGV", b"o"), ZCOD])
for usage, number in ((DATA, 7), (PICT, 1), (SND, 3), (EXEC, 0)):
    kind = KINDS[usage][0]
    scenario(f"one of four: {usage.decode()}", FOUR, [
        (replace(usage, number, kind, b"1"), done()), (remove(usage, number), done()),
        (add(usage, number, kind, b"12"), done()), (UNDO, done()), (UNDO, done()), (UNDO, done(file=FOUR))], journal=128)

# ---- the frontispiece's picture: 119 with its place in the resulting file

PIECES = {"F": fspc(1), "P": JPEG, "T": TEXT}
for order in permutations("FPT"):
    word = "".join(order)
    names = sorted([(PICT, 1, word.index("P")), (DATA, 7, word.index("T"))], key=lambda e: e[2])
    chunks = [PIECES[c] for c in order]
    entry = 24 + 12 * (names[0][0] == DATA)    # of the picture
    file, F = blorb(names, chunks), word.index("F")
    wide = [RECT if c == "P" else PIECES[c] for c in order]
    less = [PIECES[c] for c in order if c != "P"]
    scenario(f"frontispiece {word}", file, [
        (replace(PICT, 1, *RECT), no(119, starts(2, wide)[F] + 8)),
        (remove(PICT, 1), no(119, starts(1, less)[word.replace("P", "").index("F")] + 8)),
        (replace(PICT, 1, b"Rect", b"1234567"), no(114, entry)), (replace(PICT, 1, b"PNG ", b"123"), done()),
        (remove(DATA, 7), done()), (add(PICT, 2, *RECT), done()), (UNDO, done()), (UNDO, done()), (UNDO, done(file=file))],
        journal=128)
    shared = blorb(sorted([(PICT, 4, word.index("P"))] + names, key=lambda e: e[2]), chunks)
    scenario(f"frontispiece shared {word}", shared, [
        (replace(PICT, 1, *RECT), no(23)), (replace(PICT, 4, *RECT), no(23)),
        (remove(PICT, 1), no(119, starts(2, chunks)[F] + 8)),
        (remove(PICT, 4), done(U=29, file=blorb(names, chunks))), (UNDO, done(file=shared))], journal=40)
FIRST = blorb([(PICT, 1, 1), (PICT, 2, 2)], [fspc(1), JPEG, JPEG])
assert starts(2, [fspc(1)]) == [48, 60]
scenario("frontispiece before its picture", FIRST, [
    (replace(PICT, 1, *RECT), no(119, 56)), (remove(PICT, 1), no(119, 44)), (remove(PICT, 2), done(58)),
    (replace(PICT, 1, *RECT), no(119, 44)), (remove(PICT, 1), no(119, 32)), (UNDO, done(file=FIRST))])
LAST = blorb([(PICT, 2, 0), (PICT, 1, 1)], [JPEG, JPEG, fspc(1)])
assert starts(2, [JPEG, JPEG]) == [48, 58, 68]
scenario("frontispiece behind its picture", LAST, [
    (replace(PICT, 1, *RECT), no(119, 82)), (remove(PICT, 1), no(119, 54)), (remove(PICT, 2), done(58)),
    (replace(PICT, 1, *RECT), no(119, 60)), (remove(PICT, 1), no(119, 32)), (UNDO, done(file=LAST))])
SAME = blorb([(DATA, 1, 0), (PICT, 1, 1), (SND, 1, 3)], [TEXT, JPEG, fspc(1), (b"SONG", b"")])
scenario("frontispiece and its number under other usages", SAME, [
    (remove(DATA, 1), done()), (remove(SND, 1), done()), (remove(PICT, 1), no(119, 32)),
    (replace(PICT, 1, *RECT), no(119, 60)), (UNDO, done()), (UNDO, done(file=SAME))], journal=80)

# ---- 4,096 entries and one more

FULL = blorb([(PICT, n, 0) for n in range(1, 4097)], [JPEG])    # all of one chunk
scenario("4096 entries", FULL, [
    (UNDO, no(21)), given(len(FULL), 100), (UNDO, no(21)), given(len(FULL), 131), (UNDO, no(21)),
    given(len(FULL), 0), (UNDO, no(26)),
    (add(PICT, 0, *JPEG), no(111, 20)), (add(b"pict", 0, *JPEG), no(111, 20)), (add(PICT, 1, *JPEG), no(111, 20)),
    (add(PICT, 0, b"RIdx", b""), no(109, len(FULL) + 12)), (add(PICT, 0, b"Fspc", be(1)), no(111, 20)),
    (replace(PICT, 1, *JPEG), no(23)), (replace(PICT, 0, *JPEG), no(22)), (remove(PICT, 0), no(22)),
    (remove(PICT, 1), done(len(FULL) - 12, 29)), (add(PICT, 4096, *JPEG), no(116, 24 + 12 * 4095)),
    (add(PICT, 1, *RECT), done(len(FULL) + 16, 58)), (replace(PICT, 1, *JPEG), done(len(FULL) + 10, 95)),
    (add(PICT, 0, *JPEG), no(111, 20)), (UNDO, done(len(FULL) + 16, 58)), (UNDO, done(len(FULL) - 12, 29)),
    (remove(PICT, 4096), done(len(FULL) - 24, 58)), (UNDO, done(len(FULL) - 12)), (UNDO, done(file=FULL)), (UNDO, no(26))],
    jrn=record(4, PICT, 0, 7, len(FULL) + 2) + bytes(42) + record(4, PICT, 0, 4096, len(FULL) + 2)
    + record(3, PICT, 0, 0, len(FULL) + 12, *JPEG), journal=140, used=29, shown=False)

# ---- 100 + k for the new entry of an add

for usage in KINDS:
    steps = []
    for kinds in KINDS.values():
        for kind in kinds:
            body = {b"Rect": bytes(8), b"FORM": whole_form()}.get(kind, b"abc")
            m = 4 if kind == b"FORM" else len(body)    # as the chunk holds it
            fits = kind in KINDS[usage]
            steps += [(add(usage, 0, kind, body), done(48 + 12 + size(bytes(m)), 29) if fits else no(114, 36))]
            steps += [(UNDO, done(48, 0, A))] * fits
    if usage == DATA:
        steps += [(replace(DATA, 7, k, whole_form(bytes(4))), no(114, 24)) for u in KINDS for k in KINDS[u] if u != DATA]
    scenario(f"types for {usage.decode()}", A, steps, shown=False)
for word in (b"data", b"DATA", b"Snd\0", b"RIdx", b"TEXT", bytes(4), b"\xff\xff\xff\xff"):
    scenario(f"usage {word.hex()}", B, [
        (add(word, 8, *TEXT), no(112, 48)), (replace(word, 7, *TEXT), no(22)), (remove(word, 7), no(22))])
scenario("wrong for a new entry", B, [
    (add(PICT, 2, *TEXT), no(114, 48)), (add(PICT, 2, b"Rect", b"1234567"), no(114, 48)),
    (add(PICT, 2, b"Rect", b"123456789"), no(114, 48)), (add(PICT, 2, b"Rect", b""), no(114, 48)),
    (add(SND, 2, b"FORM", whole_form(b"")), no(114, 48)), (add(SND, 2, b"FORM", whole_form(b"AIF")), no(114, 48)),
    (add(SND, 2, b"FORM", whole_form(b"AIFC")), no(114, 48)), (add(EXEC, 1, *ZCOD), no(115, 52)),
    (add(EXEC, 2 ** 32 - 1, *ZCOD), no(115, 52)), (add(DATA, 7, *TEXT), no(116, 48)), (add(PICT, 1, *JPEG), no(116, 48)),
    (add(DATA, 8, b"RIdx", b""), no(109, 88)), (add(DATA, 8, b"RIdx", be(0)), no(109, 88)),
    (add(DATA, 8, b"RelN", b"\0\1"), no(114, 48)), (add(PICT, 2, b"Fspc", be(2)), no(114, 48)),
    (add(PICT, 2, bytes(4), b""), no(114, 48)), (add(PICT, 7, *JPEG), done(98)),
    (add(SND, 1, b"FORM", whole_form(b"AIFFx")), done(124))])
scenario("wrong for a replacement", B, [
    (replace(PICT, 1, b"Rect", b"1234567"), no(114, 36)), (replace(DATA, 7, *JPEG), no(114, 24)),
    (replace(DATA, 7, b"RIdx", b""), no(109, 48)), (replace(PICT, 1, b"RIdx", be(0)), no(109, 60)),
    (replace(DATA, 7, b"RelN", b"\0\1"), no(114, 24)), (replace(PICT, 1, b"Fspc", be(1)), no(114, 36)),
    (replace(PICT, 1, b"FORM", whole_form()), no(114, 36)), (replace(DATA, 8, *TEXT), no(22)), (replace(PICT, 7, *JPEG), no(22)),
    (remove(DATA, 1), no(22)), (remove(SND, 7), no(22)), (remove(DATA, 7 + 2 ** 24), no(22))])
scenario("to an empty index", BLANK, [
    (add(EXEC, 1, *ZCOD), no(115, 28)), (add(b"Pic ", 1, *JPEG), no(112, 24)), (add(DATA, 1, b"RIdx", b""), no(109, 36)),
    (replace(EXEC, 0, *ZCOD), no(22)), (remove(EXEC, 0), no(22)), (add(EXEC, 0, *ZCOD), done(48)),
    (add(EXEC, 0, *ZCOD), no(116, 36)), (add(EXEC, 1, *ZCOD), no(115, 40)), (remove(EXEC, 0), done(24, 62, BLANK))])
ONCE = blorb([(PICT, 1, 0)], [JPEG, RELN, fspc(1)])
scenario("never 117, 118", ONCE, [
    (add(PICT, 2, *RELN), no(114, 36)), (add(PICT, 2, *fspc(1)), no(114, 36)), (add(DATA, 2, b"RelN", b""), no(114, 36)),
    (replace(PICT, 1, *fspc(1)), no(114, 24)), (replace(PICT, 1, *RELN), no(114, 24))])
scenario("two faults of a new entry", ONCE, [
    (add(b"pict", 1, b"RIdx", b""), no(109, len(ONCE) + 12)), (add(b"exec", 1, *TEXT), no(112, 36)),
    (add(EXEC, 1, *TEXT), no(114, 36)), (add(PICT, 1, *TEXT), no(114, 36)), (add(PICT, 1, *RECT), no(116, 36)),
    (replace(PICT, 1, *TEXT), no(114, 24)), (replace(PICT, 1, b"RIdx", b""), no(109, 36))])

# ---- room, to the byte

for n in (99, 100, 101):
    scenario(f"add in {n} bytes", B, [(add(DATA, 8, *TEXT), done(100) if n >= 100 else no(24))], room=n)
    scenario(f"replace in {n} bytes", B, [
        (replace(DATA, 7, b"TEXT", bytes(27)), done(100) if n >= 100 else no(24)),
        (replace(PICT, 1, b"JPEG", bytes(31)), no(24)), (remove(PICT, 1), done())], room=n, journal=100)
scenario("in a full buffer", B, [
    (add(DATA, 8, b"TEXT", b""), no(24)), (replace(DATA, 7, b"TEXT", b"eels!"), no(24)),
    (replace(DATA, 7, b"TEXT", b"eels"), done(76)), (remove(DATA, 7), done(52)), (UNDO, done(76)), (UNDO, done(76, 0, B))],
    room=76, journal=80)
for n in (0, 28, 29, 30):
    scenario(f"add with a journal of {n}", B, [(add(DATA, 8, *TEXT), done(100, 29) if n >= 29 else no(25))], journal=n)
for n in (0, 29, 31, 32, 33):
    call = replace(DATA, 7, b"TEXT", b"")
    scenario(f"replace with a journal of {n}", B, [(call, done(72, 32) if n >= 32 else no(25))], journal=n)
    scenario(f"remove with a journal of {n}", B, [(remove(DATA, 7), done(52, 32) if n >= 32 else no(25))], journal=n)
for n in (28, 29):
    scenario(f"remove of an entry with a journal of {n}", THREE, [
        (remove(PICT, 5), done(58, 29) if n >= 29 else no(25))], journal=n)
for used in (1, 7, 35, 36, 64):
    fits = used + 29 <= 64
    scenario(f"add at {used} of a journal of 64", B, [(add(DATA, 8, *TEXT), done(100, used + 29) if fits else no(25))],
             jrn=fill(0, used))
    fits = used + 32 <= 64
    scenario(f"remove at {used} of a journal of 64", B, [(remove(DATA, 7), done(52, used + 32) if fits else no(25))],
             jrn=fill(0, used))

# ---- each reason with every other: the first in the order decides. L or U beyond its buffer (20), a spoiled file (3), no
# such entry (22), a shared chunk (23), a wrong type or a lost frontispiece (114, 119), no room in the file buffer (24), in
# the journal (25). 22 and 23 cannot hold together: what isn't there isn't shared.

BEYOND = ("", "L", "U", "LU")


def matrix(name, file, call, stated, room, journal, beyond, spoiled, used=10):
    """One scenario of one call on a file that may be spoiled, given L and U that may be beyond."""
    L = room + 1 if "L" in beyond else len(file)
    U = journal + 1 if "U" in beyond else used
    if spoiled:
        file, stated = put(file, 0, b"f"), no(3)
    if beyond:
        stated = no(20)
    scenario(name + " 20" * bool(beyond) + beyond + " 3" * spoiled, file, [(call, stated)], room=room,
             jrn=fill(0, min(used, journal)), journal=journal, L=L, used=U, shown=False)


def first(*reasons):
    """The first reason that holds, of (holds, number, place)."""
    return next((no(number, place) for holds, number, place in reasons if holds), done())


for beyond, spoiled, wrong, full, short in product(BEYOND, *[(False, True)] * 4):
    matrix("add" + " 114" * wrong + " 24" * full + " 25" * short, B, add(DATA, 8, b"JPEG" if wrong else b"TEXT", b"abc"),
           first((wrong, 114, 48), (full, 24, 0), (short, 25, 0)), 99 if full else 100, 38 if short else 39, beyond, spoiled)
TARGETS = {"": (DATA, 7), "22": (DATA, 8), "23": (PICT, 1)}
for beyond, spoiled, target, wrong, full, short in product(BEYOND, (False, True), TARGETS, *[(False, True)] * 3):
    L = len(SHARED)
    matrix(f"replace {target}" + " 114" * wrong + " 24" * full + " 25" * short, SHARED,
           replace(*TARGETS[target], b"EXEC" if wrong else b"BINA" if target != "23" else b"JPEG", b"12345"),
           first((target == "22", 22, 0), (target == "23", 23, 0), (wrong, 114, 24), (full, 24, 0), (short, 25, 0)),
           L + 1 if full else L + 4, 41 if short else 42, beyond, spoiled)
FRONT = blorb([(PICT, 1, 0), (PICT, 2, 1), (PICT, 3, 1), (DATA, 7, 2)], [JPEG, JPEG, TEXT, fspc(1)])
TARGETS = {"": (DATA, 7), "entry": (PICT, 2), "22": (DATA, 8), "119": (PICT, 1)}
LOST = starts(3, [JPEG, TEXT])[-1] + 8
for beyond, spoiled, target, short in product(BEYOND, (False, True), TARGETS, (False, True)):
    matrix(f"remove {target}" + " 25" * short, FRONT, remove(*TARGETS[target]),
           first((target == "22", 22, 0), (target == "119", 119, LOST), (short, 25, 0)),
           len(FRONT), 38 if short else 42, beyond, spoiled)
BACK = record(3, DATA, 8, 2, 88, *TEXT)     # goes in at the end of B, which then has 100 bytes
JOURNALS = {"": BACK, "26": b"", "21": b"\5" + BACK[1:], "21 by acceptance": put(BACK, 1, b"data")}
for beyond, spoiled, what, full in product(BEYOND, (False, True), JOURNALS, (False, True)):
    jrn, room = JOURNALS[what], 99 if full else 100
    stated = first((beyond, 20, 0), (spoiled, 3, 0), (what == "26", 26, 0), (what, 21, 0), (full, 24, 0))
    scenario(f"undo {what}" + " 24" * full + " 20" * bool(beyond) + beyond + " 3" * spoiled,
             put(B, 0, b"f") if spoiled else B, [(UNDO, stated)], room=room, jrn=jrn, journal=40, shown=False,
             L=room + 1 if "L" in beyond else 76, used=41 if "U" in beyond else len(jrn))
CALLS = [add(DATA, 8, *TEXT), replace(DATA, 7, *TEXT), remove(DATA, 7), UNDO]
scenario("far beyond", B, [
    step for L, U in ((141, 0), (76, 65), (2 ** 32 + 76, 0), (76, 2 ** 32), (2 ** 63, 2 ** 63), (2 ** 64 - 1, 2 ** 64 - 1))
    for call in CALLS for step in (given(L, U), (call, no(20)._replace(len=L, used=U)))])
scenario("all of both buffers", B, [(add(DATA, 8, *TEXT), no(24)), (remove(DATA, 7), no(25)), (UNDO, done(48, 35, A))],
         room=76, jrn=fill(0, 35) + record(1, PICT, 1, 1), journal=64)

# ---- the reader's numbers for the present file, each before all else that is wrong with the call

for k, place, spoil in BROKEN:
    scenario(f"eleven chunks with {k}", spoil(WHOLE), [
        (add(DATA, 7, *JPEG), no(k, place)), (replace(DATA, 99, *TEXT), no(k, place)), (remove(DATA, 99), no(k, place)),
        (UNDO, no(k, place)), given(len(WHOLE), 29), (UNDO, no(k, place)),
        (replace(PICT, 2, *JPEG), no(k, place)), (remove(DATA, 7), no(k, place))], room=len(WHOLE), shown=False)
for name, file, k, place in BROKEN_OFF:
    scenario(f"broken off: {name}", file, [(call, no(k, place)) for call in CALLS], shown=False)
scenario("L is not the file's", B, [
    step for L, number, place in ((0, 2, 0), (11, 2, 0), (12, 5, 4), (75, 5, 4), (77, 5, 4), (140, 5, 4))
    for call in CALLS for step in (given(L, 0), (call, no(number, place)))])
scenario("B with its two entries turned", B_TURNED, [(call, no(27, 44)) for call in CALLS])
scenario("no index", form(chunk(*ANNO)), [(call, no(8, 12)) for call in CALLS])
scenario("only the head", form(), [(call, no(8, 12)) for call in CALLS])
scenario("4097 entries", large(4097), [(call, no(11, 20)) for call in CALLS], shown=False)
