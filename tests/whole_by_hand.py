"""Scenarios of editing with whole 'FORM' files (02, P3), each step with the answer that it gives, stated by hand, behind those of profile_by_hand.py.

The data given with type 'FORM' starts with 'FORM' and its size less 8: otherwise 30, after 23 and before 100 + k. The chunk and the
record hold what stands behind these eight bytes, and 24 and 25 go by that. An undo knows no 30: its record has the data only.
"""
from itertools import product

from building import be, blorb, put, put32, whole_form
from editing_by_hand import BEYOND, FULL, SHARED, UNDO, add, done, first, matrix, no, record, remove, replace, scenario
from profile_by_hand import SCENARIOS
from reading_by_hand import A, B, BROKEN, DATA, EXEC, JPEG, PICT, RECT, SND, TEXT, UNKNOWN, WHOLE

__all__ = ["SCENARIOS"]

FORM = b"FORM"
ODD, EVEN = whole_form(b"AIFFx"), whole_form(b"AIFFxy")
assert (len(ODD), len(EVEN)) == (13, 14) and ODD == b"FORM\0\0\0\5AIFFx"
SOUND = blorb([(DATA, 7, 0), (PICT, 1, 1), (SND, 3, 2)], [TEXT, RECT, (FORM, b"AIFFx")])
SOUND_EVEN = blorb([(DATA, 7, 0), (PICT, 1, 1), (SND, 3, 2)], [TEXT, RECT, (FORM, b"AIFFxy")])
assert len(SOUND) == len(SOUND_EVEN) == 102 and SOUND[88:] == ODD + b"\0" and SOUND_EVEN[88:] == EVEN

# ---- in and out again: the chunk has the file's own head, once, and a padding byte behind an odd one

scenario("an AIFF of 13 bytes", B, [
    (add(SND, 3, FORM, ODD), done(102, 29, SOUND)), (remove(SND, 3), done(76, 63, B)), (UNDO, done(102, 29, SOUND)), (UNDO, done(76, 0, B))])
scenario("an AIFF of 14 bytes", B, [
    (add(SND, 3, FORM, EVEN), done(102, 29, SOUND_EVEN)), (remove(SND, 3), done(76, 64, B)), (UNDO, done(102, 29, SOUND_EVEN)),
    (UNDO, done(76, 0, B))])
scenario("an AIFF in another's place", SOUND, [
    (replace(SND, 3, FORM, EVEN), done(102, 34, SOUND_EVEN)), (replace(SND, 3, b"MOD ", b"tune"), done(100, 69)),
    (replace(SND, 3, FORM, ODD), done(102, 102, SOUND)), (UNDO, done(100, 69)), (UNDO, done(102, 34, SOUND_EVEN)), (UNDO, done(102, 0, SOUND))],
    journal=110)
scenario("the record of a replaced AIFF has the data only", SOUND_EVEN, [(UNDO, done(102, 0, SOUND))], jrn=record(2, SND, 3, 2, 88, FORM, b"AIFFx"))
scenario("the record of a removed AIFF has the data only", B, [(UNDO, done(102, 0, SOUND))], jrn=record(3, SND, 3, 2, 88, FORM, b"AIFFx"))
for name, body in (("a whole AIFF", ODD), ("an AIFF's head", ODD[:8]), ("nothing", b""), ("AIF", b"AIF")):
    scenario(f"undo of a FORM that was {name}", SOUND, [(UNDO, no(21))], jrn=record(2, SND, 3, 2, 88, FORM, body), journal=80)
scenario("an AIFF of 4 data bytes", B, [(add(SND, 3, FORM, whole_form()), done(100, 29)), (UNDO, done(76, 0, B))])
scenario("an AIFF in an AIFF", B, [(add(SND, 3, FORM, whole_form(b"AIFF" + ODD + b"\0")), done(114, 29)), (UNDO, done(76, 0, B))])
scenario("a FORM as another type's data", B, [
    (add(DATA, 8, b"BINA", ODD), done(110)), (add(SND, 8, b"OGGV", ODD[:7]), done(138)), (UNDO, done(110)), (UNDO, done(76, 0, B))])

# ---- 30: under 8 bytes, or a head that disagrees; the head is judged by the type alone

for n in range(8):
    scenario(f"{n} bytes of a FORM", SOUND, [(add(SND, 4, FORM, ODD[:n]), no(30)), (replace(SND, 3, FORM, ODD[:n]), no(30))])
HEADS = {
    "fORM": put(ODD, 0, b"f"), "FORm": put(ODD, 3, b"m"), "RIFF": put(ODD, 0, b"RIFF"), "no head": b"AIFFx", "no head, 8 bytes": b"AIFFxyzw",
    "LIST": put(ODD, 0, b"LIST"), "zeros": bytes(8), "its padding on": ODD + b"\0", "a byte less": ODD[:-1], "size for length": put32(ODD, 4, 13),
    "length 4": put32(ODD, 4, 4), "length 6": put32(ODD, 4, 6), "length 0": put32(ODD, 4, 0), "little-endian": put32(ODD, 4, 0x05000000),
    "wrapping": put32(ODD, 4, 2 ** 32 - 8), "all ones": put32(ODD, 4, 2 ** 32 - 1), "2 ** 31 more": put32(ODD, 4, 2 ** 31 + 5),
    "FORM alone, length 8": put32(ODD, 4, 8)[:8], "padded twice": EVEN + b"\0", "two files": ODD + b"\0" + ODD,
}
for name, body in HEADS.items():
    scenario(f"head: {name}", SOUND, [
        (add(SND, 4, FORM, body), no(30)), (add(PICT, 2, FORM, body), no(30)), (add(b"data", 2, FORM, body), no(30)),
        (replace(SND, 3, FORM, body), no(30)), (replace(DATA, 7, FORM, body), no(30)), (UNDO, no(26))])
scenario("good heads", SOUND, [
    (add(SND, 4, FORM, ODD[:4] + be(0)), no(114, 60)), (add(SND, 4, FORM, whole_form(b"A")), no(114, 60)),
    (add(SND, 4, FORM, whole_form(b"AIFC")), no(114, 60)),
    (add(PICT, 2, FORM, ODD), no(114, 60)), (add(DATA, 2, FORM, ODD), no(114, 60)), (add(EXEC, 1, FORM, ODD), no(114, 60)),
    (add(b"data", 2, FORM, ODD), no(112, 60)), (add(SND, 3, FORM, ODD), no(116, 60)), (replace(SND, 3, FORM, ODD[:4] + be(0)), no(114, 48)),
    (replace(SND, 3, FORM, whole_form(b"AIFC")), no(114, 48)), (replace(DATA, 7, FORM, ODD), no(114, 24)), (replace(PICT, 1, FORM, ODD), no(114, 36))])
scenario("types nearly FORM", SOUND, [
    (add(SND, 4, b"form", b""), no(114, 60)), (add(SND, 4, b"FORm", ODD), no(114, 60)), (replace(SND, 3, b"AIFF", ODD), no(114, 48)),
    (replace(SND, 3, b"FOR ", b"x"), no(114, 48))])
scenario("22 and 23 before 30", SHARED, [
    (replace(SND, 9, FORM, b""), no(22)), (replace(SND, 9, FORM, ODD), no(22)), (replace(b"pict", 1, FORM, b""), no(22)),
    (replace(PICT, 1, FORM, b""), no(23)), (replace(PICT, 1, FORM, ODD), no(23)), (replace(DATA, 7, FORM, b""), no(30))])
scenario("30 before 111", FULL, [(add(SND, 1, FORM, ODD[:12]), no(30)), (add(SND, 1, FORM, ODD), no(111, 20))], shown=False)
for k, place, spoil in BROKEN:
    scenario(f"eleven chunks with {k}, no whole FORM", spoil(WHOLE), [
        (add(SND, 1, FORM, b""), no(k, place)), (replace(DATA, 99, FORM, b""), no(k, place))], shown=False)
for profile in UNKNOWN:
    scenario(f"no whole FORM under profile {profile}", SOUND, [(add(SND, 4, FORM, b""), no(52)), (replace(SND, 3, FORM, b""), no(52))], profile=profile)
scenario("whole FORMs under ADRIFT", SOUND, [
    (add(SND, 4, FORM, b"AIFF"), no(30)), (replace(SND, 3, FORM, b"AIFF"), no(30)), (replace(SND, 3, b"WAV ", b"RIFF"), done(100, 34)),
    (replace(SND, 3, FORM, EVEN), done(102, 67, SOUND_EVEN)), (UNDO, done(100, 34)), (UNDO, done(102, 0, SOUND))], journal=80, profile=1)

# ---- room, to the byte, by the data as the chunk holds it

for n in (101, 102, 103):
    scenario(f"an AIFF in {n} bytes", B, [(add(SND, 3, FORM, ODD), done(102, 29, SOUND) if n >= 102 else no(24))], room=n)
    scenario(f"an AIFF in a sound's place, in {n} bytes", blorb([(DATA, 7, 0), (PICT, 1, 1), (SND, 3, 2)], [TEXT, RECT, (b"MOD ", b"")]), [
        (replace(SND, 3, FORM, ODD), done(102, 29, SOUND) if n >= 102 else no(24))], room=n)
for n in (33, 34):
    scenario(f"an AIFF replaced with a journal of {n}", SOUND, [(replace(SND, 3, FORM, EVEN), done(102, 34) if n >= 34 else no(25))], journal=n)
    scenario(f"an AIFF removed with a journal of {n}", SOUND, [(remove(SND, 3), done(76, 34, B) if n >= 34 else no(25))], journal=n)

# ---- 30 with every other reason: the first in the order decides

for beyond, spoiled, bad, full, short in product(BEYOND, *[(False, True)] * 4):
    matrix("add of a FORM" + " 30" * bad + " 24" * full + " 25" * short, B, add(SND, 3, FORM, ODD[:12] if bad else ODD),
           first((bad, 30, 0), (full, 24, 0), (short, 25, 0)), 101 if full else 102, 38 if short else 39, beyond, spoiled)
TARGETS = {"": (SND, 3), "22": (SND, 4), "23": (PICT, 1), "114": (DATA, 7)}
FILE = blorb([(DATA, 7, 0), (PICT, 1, 1), (PICT, 2, 1), (SND, 3, 2)], [TEXT, JPEG, (b"MOD ", b"")])
for beyond, spoiled, target, bad, full, short in product(BEYOND, (False, True), TARGETS, *[(False, True)] * 3):
    L = len(FILE)
    matrix(f"replace by a FORM {target}" + " 30" * bad + " 24" * full + " 25" * short, FILE,
           replace(*TARGETS[target], FORM, put(ODD, 0, b"f") if bad else ODD),
           first((target == "22", 22, 0), (target == "23", 23, 0), (bad, 30, 0), (target == "114", 114, 24), (full, 24, 0), (short, 25, 0)),
           L + 5 if full else L + 6, 38 if short else 39, beyond, spoiled)
scenario("a Blorb file is a whole FORM, but no AIFF", B, [(add(SND, 3, FORM, A), no(114, 48)), (replace(DATA, 7, FORM, A[:-1]), no(30))])
