"""Scenarios of editing under a profile (02, P12), each step with the answer that it gives, stated by hand, behind those of undo_by_hand.py.

52 comes before all else and changes nothing. The file after an edit or undo is judged under the call's own profile: so what was
done under the ADRIFT profile is not always undone under the plain one.
"""
from itertools import product

from building import blorb, chunk, put
from editing_by_hand import CALLS, SHARED, UNDO, add, done, given, no, record, remove, replace, scenario, size
from reading_by_hand import A, ADRIFT_KINDS, B, BLANK, BROKEN, DATA, EXEC, GIF, JPEG, KINDS, PICT, RECT, SND, TEXT, UNKNOWN, WAV, WHOLE
from reading_by_hand import behind, fspc
from undo_by_hand import SCENARIOS

__all__ = ["SCENARIOS"]

PLAIN, ADRIFT = 0, 1
OGG = (b"OGGV", b"OggS")

# ---- 52: an unknown profile, before 20, the reader's numbers, 22 to 26, 100 + k and 21

for profile in UNKNOWN:
    scenario(f"B under profile {profile}", B, [(call, no(52)._replace(len=76, used=29)) for call in CALLS],
             jrn=record(1, PICT, 1, 1), profile=profile)
for profile, (L, U) in product((2, 2 ** 32 - 1), ((141, 0), (76, 65), (2 ** 32 + 76, 0), (2 ** 63, 2 ** 63), (2 ** 64 - 1, 2 ** 64 - 1))):
    scenario(f"L {L} and U {U} under profile {profile}", B, [
        step for call in CALLS for step in (given(L, U), (call, no(52)._replace(len=L, used=U)))], profile=profile)
scenario("11 bytes under profile 2", A[:11], [(call, no(52)) for call in CALLS], profile=2)
scenario("no bytes under profile 2", b"", [(call, no(52)._replace(len=0, used=0)) for call in CALLS], room=0, journal=0, profile=2)
for k, _, spoil in BROKEN:
    scenario(f"eleven chunks with {k}, profile 2", spoil(WHOLE), [(call, no(52)) for call in CALLS], shown=False, profile=2)
scenario("wrong in every way under profile 2", SHARED, [
    (add(b"data", 8, *JPEG), no(52)), (add(DATA, 7, *TEXT), no(52)), (replace(DATA, 8, *TEXT), no(52)), (replace(PICT, 1, *JPEG), no(52)),
    (replace(DATA, 7, *JPEG), no(52)), (remove(DATA, 8), no(52)), (UNDO, no(52)), (add(DATA, 8, b"BINA", bytes(40)), no(52))],
    room=len(SHARED), journal=0, profile=2)
scenario("a record that is none, under profile 2", B, [(UNDO, no(52))], jrn=bytes(29), profile=2)
scenario("blank knows no profile", B, [(("blank",), done(24, 0, BLANK)), (add(DATA, 7, *TEXT), no(52)), (("blank",), done(24, 0, BLANK))],
         profile=2)

# ---- the ADRIFT profile: each of its types added and put in another's place, under each usage; plain refuses all with 114

for usage, kinds in ADRIFT_KINDS.items():
    first = (KINDS[usage][0], bytes(8))
    file = blorb([(usage, 0, 0)], [first])
    for kind in [k for ks in ADRIFT_KINDS.values() for k in ks]:
        into = replace(usage, 0, kind, b"abc")
        if kind in kinds:
            after = blorb([(usage, 0, 0)], [(kind, b"abc")])
            stated = [(into, done(48, 37, after)), (UNDO, done(52, 0, file))]
        else:
            stated = [(into, no(114, 24)), (UNDO, no(26))]
        scenario(f"{usage.decode()} becomes {kind.decode()}, ADRIFT", file, stated, profile=ADRIFT)
        scenario(f"{usage.decode()} becomes {kind.decode()}, plain", file, [(into, no(114, 24)), (UNDO, no(26))])
        call = add(usage, 0, kind, b"abc")
        stated = [(call, done(48, 29)), (UNDO, done(24, 0, BLANK))] if kind in kinds else [(call, no(114, 24)), (UNDO, no(26))]
        scenario(f"add of {usage.decode()} {kind.decode()}, ADRIFT", BLANK, stated, profile=ADRIFT)
        scenario(f"add of {usage.decode()} {kind.decode()}, plain", BLANK, [(call, no(114, 24)), (UNDO, no(26))])
PLAIN_STEPS = [(add(DATA, 8, *TEXT), done(100, 29)), (replace(PICT, 1, *JPEG), done(94, 66)), (remove(DATA, 7), done(70, 98)),
               (UNDO, done(94, 66)), (UNDO, done(100, 29)), (UNDO, done(76, 0, B)), (UNDO, no(26))]
for profile in (PLAIN, ADRIFT):
    scenario(f"B's edits under profile {profile}", B, PLAIN_STEPS, journal=100, profile=profile)
GIF_A = blorb([(PICT, 1, 0)], [GIF])
GIF_WAV = blorb([(PICT, 1, 0), (SND, 2, 1)], [GIF, WAV])
scenario("a house from nothing and back", BLANK, [
    (add(PICT, 1, *GIF), done(50, 29, GIF_A)), (add(SND, 2, *WAV), done(74, 58, GIF_WAV)), (replace(SND, 2, b"MIDI", b"MThd"), done(74, 91)),
    (replace(SND, 2, b"MP3 ", b"ID3"), done(74, 124)), (replace(SND, 2, *GIF), no(114, 36)), (add(PICT, 2, *WAV), no(114, 48)),
    (remove(PICT, 1), done(48, 159)), (UNDO, done(74, 124)), (UNDO, done(74, 91)), (UNDO, done(74, 58, GIF_WAV)),
    (UNDO, done(50, 29, GIF_A)), (UNDO, done(24, 0, BLANK)), (UNDO, no(26))], room=90, journal=160, profile=ADRIFT)
scenario("the same under the plain profile", BLANK, [
    (add(PICT, 1, *GIF), no(114, 24)), (add(SND, 2, *WAV), no(114, 24)), (add(PICT, 1, *JPEG), done(46, 29)),
    (replace(PICT, 1, *GIF), no(114, 24)), (UNDO, done(24, 0, BLANK))])
scenario("a house's file is refused as a plain one", GIF_A, [(call, no(14, 24)) for call in (add(DATA, 8, *TEXT), replace(PICT, 1, *JPEG),
                                                                                           remove(PICT, 1), UNDO)])

# ---- a 'GIF ' as the frontispiece's picture

FRONT = behind(GIF_A, chunk(*fspc(1)))
scenario("a GIF frontispiece", FRONT, [
    (remove(PICT, 1), no(119, 32)), (replace(PICT, 1, *RECT), no(119, 60)), (replace(PICT, 1, b"GIF ", b""), done(56, 35)),
    (replace(PICT, 1, *JPEG), done(58, 64)), (UNDO, done(56, 35)), (UNDO, done(62, 0, FRONT))], journal=100, profile=ADRIFT)

# ---- undos under another profile than the edit's

WAS_OGG, WAS_WAV = record(2, SND, 1, 0, 36, *OGG), record(2, SND, 1, 0, 36, *WAV)
NOW_WAV, NOW_OGG = blorb([(SND, 1, 0)], [WAV]), blorb([(SND, 1, 0)], [OGG])
scenario("a sound replaced by a WAV, undone under ADRIFT", NOW_WAV, [(UNDO, done(48, 0, NOW_OGG))], jrn=WAS_OGG, profile=ADRIFT)
scenario("a sound replaced by a WAV, undone as plain", NOW_WAV, [(UNDO, no(14, 24)._replace(len=48, used=33))], jrn=WAS_OGG)
scenario("a WAV replaced, undone under ADRIFT", NOW_OGG, [(UNDO, done(48, 0, NOW_WAV))], jrn=WAS_WAV, profile=ADRIFT)
scenario("a WAV replaced, undone as plain", NOW_OGG, [(UNDO, no(21)._replace(len=48, used=33))], jrn=WAS_WAV)
scenario("a WAV replaced, undone as plain without room", NOW_OGG, [(UNDO, no(21))], jrn=record(2, SND, 1, 0, 36, b"WAV ", bytes(90)))
GONE = record(3, PICT, 1, 0, 36, *GIF)
scenario("a GIF removed, undone under ADRIFT", BLANK, [(UNDO, done(50, 0, GIF_A))], jrn=GONE, profile=ADRIFT)
scenario("a GIF removed, undone as plain", BLANK, [(UNDO, no(21))], jrn=GONE)
scenario("a GIF removed, undone under profile 2", BLANK, [(UNDO, no(52))], jrn=GONE, profile=2)
scenario("a GIF added, undone under ADRIFT", GIF_A, [(UNDO, done(24, 0, BLANK))], jrn=record(1, PICT, 1, 0), profile=ADRIFT)
scenario("a GIF added, undone as plain", GIF_A, [(UNDO, no(14, 24))], jrn=record(1, PICT, 1, 0))
BESIDE = behind(BLANK, chunk(*GIF))
NAMED = record(4, PICT, 1, 0, 36)
scenario("a name of a GIF removed, undone under ADRIFT", BESIDE, [(UNDO, done(50, 0, GIF_A))], jrn=NAMED, profile=ADRIFT)
scenario("a name of a GIF removed, undone as plain", BESIDE, [(UNDO, no(21))], jrn=NAMED)
for kind, body in (GIF, (b"WAV ", b"w"), (b"MIDI", b""), (b"MP3 ", b"m")):
    for usage in (PICT, SND, DATA, EXEC):
        old = record(2, usage, 0, 0, 36, kind, body)
        file = blorb([(usage, 0, 0)], [(KINDS[usage][0], bytes(8))])
        fits = kind in ADRIFT_KINDS[usage]
        scenario(f"{usage.decode()} was {kind.decode()}, ADRIFT", file, [(UNDO, done(36 + size(body)) if fits else no(21))], jrn=old,
                 shown=False, profile=ADRIFT)
        scenario(f"{usage.decode()} was {kind.decode()}, plain", file, [(UNDO, no(21))], jrn=old, shown=False)
scenario("a damaged house", put(GIF_WAV, 0, b"f"), [(call, no(3)) for call in CALLS], profile=ADRIFT)
