"""Scenarios of links (02, P8), each step with the answer that it gives, stated by hand, behind those of whole_by_hand.py.

A link puts a new entry on the chunk of the original, after the last entry whose start isn't greater; its record is of kind 5. Refusals: 22 for a missing
original, then 100 + k, 24, 25. An undo of kind 5 drops the entry, if it has that place, usage, number and start and shares its chunk.
"""
from itertools import product

from building import blorb, put, starts
from editing_by_hand import BEYOND, SHARED, UNDO, add, done, first, given, matrix, no, record, remove, replace, scenario
from reading_by_hand import A, B, BLANK, BROKEN, DATA, EXEC, JPEG, PICT, RECT, SND, TEXT, UNKNOWN, WHOLE, ZCOD, fspc
from undo_by_hand import HELD, undoing
from whole_by_hand import SCENARIOS

__all__ = ["SCENARIOS"]


def link(usage, number, new_usage, new_number):
    return ("link", usage, number, new_usage, new_number)


# ---- 02's own: Pict 2 on B's picture

LINKED = blorb([(DATA, 7, 0), (PICT, 1, 1), (PICT, 2, 1)], [TEXT, RECT])
RECORD = record(5, PICT, 2, 2, 72)
assert len(LINKED) == 88 and len(RECORD) == 29
TWO = link(PICT, 1, PICT, 2)
scenario("B with Pict 2 and back", B, [(TWO, done(88, 29, LINKED)), (UNDO, done(76, 0, B)), (UNDO, no(26))])
scenario("B's link stands in the journal", LINKED, [(UNDO, done(76, 0, B))], jrn=RECORD)
scenario("linked, then replaced", B, [
    (TWO, done(88, 29, LINKED)), (replace(PICT, 1, *JPEG), no(23)), (replace(PICT, 2, *JPEG), no(23)), (replace(DATA, 7, *TEXT), done(88)),
    (UNDO, done(88, 29, LINKED)), (UNDO, done(76, 0, B)), (replace(PICT, 1, *JPEG), done(70))])
OTHER = blorb([(DATA, 7, 0), (PICT, 2, 1)], [TEXT, RECT])
scenario("linked, the original removed: the chunk stays", B, [
    (TWO, done(88, 29, LINKED)), (remove(PICT, 1), done(76, 58, OTHER)), (remove(PICT, 2), done(48, 95, A)), (UNDO, done(76, 58, OTHER)),
    (UNDO, done(88, 29, LINKED)), (UNDO, done(76, 0, B))], journal=100)
scenario("the original's removal stands in the journal", OTHER, [(UNDO, done(88, 0, LINKED))], jrn=record(4, PICT, 1, 1, 72))
scenario("a link of a link", B, [
    (TWO, done(88, 29, LINKED)), (link(PICT, 2, PICT, 3), done(100, 58, blorb([(DATA, 7, 0), (PICT, 1, 1), (PICT, 2, 1), (PICT, 3, 1)], [TEXT, RECT]))),
    (remove(PICT, 2), done(88, 87)), (link(DATA, 7, DATA, 0), done(100, 116)), (UNDO, done(88, 87)), (UNDO, done(100, 58)), (UNDO, done(88, 29, LINKED)),
    (UNDO, done(76, 0, B))], journal=120)
scenario("linked before an add", A, [
    (link(DATA, 7, DATA, 8), done(60, 29, blorb([(DATA, 7, 0), (DATA, 8, 0)], [TEXT]))),
    (add(PICT, 1, *RECT), done(88, 58, blorb([(DATA, 7, 0), (DATA, 8, 0), (PICT, 1, 1)], [TEXT, RECT]))), (UNDO, done(60, 29)), (UNDO, done(48, 0, A))])

# ---- the place: behind the run of entries on the chunk, whichever of them is the original. The entries' chunks are 0, 1, 1 and 3.

ON = (0, 1, 1, 3)
HOLES = blorb([(DATA, n, k) for n, k in enumerate(ON)], [TEXT] * 4)
for n, place in enumerate((1, 3, 3, 4)):
    names = [(DATA, m, k) for m, k in enumerate(ON)]
    names.insert(place, (DATA, 9, ON[n]))
    after = blorb(names, [TEXT] * 4)
    scenario(f"link on entry {n}", HOLES, [(link(DATA, n, DATA, 9), done(132, 29, after)), (UNDO, done(file=HOLES))], room=len(HOLES) + 12)
    undoing(f"linked on entry {n}", after, record(5, DATA, 9, place, starts(5, [TEXT] * 4)[ON[n]]), done(len(HOLES), 9, HOLES))

# ---- 100 + k, with the places of the resulting file

scenario("wrong links", B, [
    (link(PICT, 1, PICT, 1), no(116, 48)), (link(DATA, 7, DATA, 7), no(116, 36)), (link(DATA, 7, PICT, 2), no(114, 36)), (link(PICT, 1, DATA, 8), no(114, 48)),
    (link(PICT, 1, SND, 1), no(114, 48)), (link(PICT, 1, EXEC, 0), no(114, 48)), (link(DATA, 7, b"data", 8), no(112, 36)),
    (link(PICT, 1, bytes(4), 1), no(112, 48)),
    (link(PICT, 1, b"Pic ", 1), no(112, 48)), (link(PICT, 2, PICT, 3), no(22)), (link(DATA, 1, DATA, 7), no(22)), (link(SND, 7, b"data", 7), no(22)),
    (link(b"data", 7, DATA, 8), no(22)), (TWO, done(88, 29, LINKED)), (TWO, no(116, 60))])
GAME = blorb([(EXEC, 0, 0), (DATA, 7, 1)], [ZCOD, TEXT])
scenario("another name for a game", GAME, [
    (link(EXEC, 0, EXEC, 1), no(115, 40)), (link(EXEC, 0, EXEC, 2 ** 32 - 1), no(115, 40)), (link(EXEC, 0, EXEC, 0), no(116, 36)),
    (link(EXEC, 0, DATA, 0), no(114, 36)), (link(DATA, 7, DATA, 2 ** 32 - 1), done(len(GAME) + 12))])
LATER = blorb([(DATA, n, n) for n in range(3)], [TEXT] * 3)
for old, new in product(range(3), range(3)):    # the new entry goes in behind entry `old`; the other one may then be the later of the two
    scenario(f"the pair {new} again, on chunk {old}", LATER, [(link(DATA, old, DATA, new), no(116, 24 + 12 * max(old + 1, new + (new > old))))])
for n in (4095, 4096):
    MANY = blorb([(PICT, 10 + i, 0) for i in range(n)], [JPEG])
    scenario(f"{n} entries and a link", MANY, [
        (link(PICT, 10, b"pict", 9), no(112, 24 + 12 * n) if n < 4096 else no(111, 20)),
        (link(PICT, 10, PICT, 9), done(len(MANY) + 12, 29) if n < 4096 else no(111, 20)), (link(PICT, 9, PICT, 8), no(22) if n == 4096 else no(111, 20)),
        (UNDO, done(len(MANY), 0, MANY) if n < 4096 else no(26))], shown=False)
scenario("both wrong: type and pair", B, [(link(DATA, 7, PICT, 1), no(114, 36))])
scenario("both wrong: usage and type", B, [(link(DATA, 7, b"pict", 1), no(112, 36))])
scenario("both wrong: number and pair", blorb([(EXEC, 0, 0)], [ZCOD]), [(link(EXEC, 0, EXEC, 0), no(116, 36)), (link(EXEC, 0, EXEC, 1), no(115, 40))])
scenario("a frontispiece's picture linked", HELD, [
    (link(PICT, 1, PICT, 2), done(len(HELD) + 12, 29)), (remove(PICT, 1), no(119, 56)), (remove(PICT, 2), done(len(HELD), 58, HELD)),
    (UNDO, done(len(HELD) + 12, 29)),
    (UNDO, done(len(HELD), 0, HELD))])

# ---- 20, the present file, 52, room

scenario("L beyond", B, [given(141, 0), (TWO, no(20)._replace(len=141, used=0)), given(76, 65), (TWO, no(20)._replace(len=76, used=65))])
for k, place, spoil in BROKEN:
    scenario(f"a link among eleven chunks with {k}", spoil(WHOLE), [(link(DATA, 7, DATA, 7), no(k, place)), (link(DATA, 99, b"data", 7), no(k, place))],
             room=len(WHOLE), journal=0, shown=False)
# the order of the refusals
for beyond, spoiled, missing, wrong, full, short in product(BEYOND, *[(False, True)] * 5):
    matrix("link" + " 22" * missing + " 114" * wrong + " 24" * full + " 25" * short, B, link(PICT, 9 if missing else 1, DATA if wrong else PICT, 2),
           first((missing, 22, 0), (wrong, 114, 48), (full, 24, 0), (short, 25, 0)), 87 if full else 88, 38 if short else 39, beyond, spoiled)
for profile in UNKNOWN:
    scenario(f"a link under profile {profile}", B, [(TWO, no(52)), given(1000, 1000), (TWO, no(52)._replace(len=1000, used=1000))], profile=profile)
for n in (76, 87, 88, 89):
    scenario(f"a link in {n} bytes", B, [(TWO, done(88, 29, LINKED) if n >= 88 else no(24)), (link(PICT, 1, PICT, 1), no(116, 60 if n >= 88 else 48)),
                                         (link(PICT, 9, PICT, 2), no(22))], room=n)
for n in (0, 28, 29, 30):
    scenario(f"a link with {n} bytes of journal", B, [(TWO, done(88, 29, LINKED) if n >= 29 else no(25))], journal=n)
scenario("a link without room and journal", B, [(TWO, no(24))], room=87, journal=0)
scenario("links under ADRIFT", blorb([(PICT, 1, 0)], [(b"GIF ", b"g")]), [
    (link(PICT, 1, PICT, 2), done(58, 29)), (link(PICT, 1, SND, 2), no(114, 48)), (UNDO, done(46, 0))], profile=1)
scenario("a shared chunk's third name", SHARED, [(link(PICT, 1, PICT, 77), done(len(SHARED) + 12, 29)), (UNDO, done(len(SHARED), 0, SHARED))])

# ---- undo of kind 5

undoing("linked", LINKED, RECORD, done(76, 9, B))
undoing("linked, nothing before", LINKED, RECORD, done(76, 0, B), before=0)
undoing("linked: either of the two goes", LINKED, record(5, PICT, 1, 1, 72), done(76, 9, OTHER))
for place in (0, 1, 3, 256, 2 ** 32 - 1):
    undoing(f"linked at {place}", LINKED, record(5, PICT, 2, place, 72), no(21))
for start in (0, 12, 60, 71, 73, 84, 88, 2 ** 32 - 1):
    undoing(f"linked, start {start}", LINKED, record(5, PICT, 2, 2, start), no(21))
for usage, number in ((PICT, 1), (PICT, 0), (PICT, 2 ** 24 + 2), (DATA, 7), (DATA, 2), (SND, 2), (b"pict", 2), (bytes(4), 2)):
    undoing(f"linked as {usage.hex()} {number}", LINKED, record(5, usage, number, 2, 72), no(21))
undoing("linked, the chunk is unshared", B, record(5, PICT, 1, 1, 60), no(21))
undoing("linked, the first chunk is unshared", LINKED, record(5, DATA, 7, 0, 60), no(21))
undoing("linked, none is there", BLANK, record(5, PICT, 2, 0, 24), no(21))
for at in range(17, 25):
    for x in (1, 128):
        undoing(f"linked with {x} at {at}", LINKED, put(RECORD, at, bytes([x])), no(21))
for m in (1, 2, 12, 2 ** 32 - 1):
    undoing(f"linked with m {m}", LINKED, record(5, PICT, 2, 2, 72, m=m), no(21))
undoing("linked with data", LINKED, record(5, PICT, 2, 2, 72, body=b"x"), no(21))
undoing("linked with type and data", LINKED, record(5, PICT, 2, 2, 72, *RECT), no(21))
FRONTED = blorb([(PICT, 1, 1), (PICT, 2, 1)], [fspc(1), JPEG])
undoing("linked, the frontispiece's picture", FRONTED, record(5, PICT, 1, 0, starts(2, [fspc(1)])[-1]), no(21))
undoing("linked, beside the frontispiece's picture", FRONTED, record(5, PICT, 2, 1, starts(2, [fspc(1)])[-1]), done(len(FRONTED) - 12, 9))
undoing("linked, no room is needed", LINKED, RECORD, done(76, 9, B), room=88)
for kind in (1, 2, 3, 4):
    undoing(f"linked, but kind {kind}", LINKED, put(RECORD, 0, bytes([kind])), no(21))
