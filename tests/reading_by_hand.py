"""Sample files of reading, each with the verdict that 01 and 02 (P1, P5, P12) give it, stated by hand, and some lookups.

SAMPLES holds (name, file, verdict, profile): the verdict is the count of an accepted file, or (number, place) of a refusal.
LOOKED holds (file, usage, number, kind, start, part) of lookups that find something: of type 'FORM' the whole chunk (02, P3).
The places are those of the table in 01: the index stands at 12, its length at 16, its count at 20, entry i at 24 + 12i,
and the chunks behind an index of n entries from 24 + 12n on.

Not here: refusal 1, and the acceptance of exactly 16,777,216 bytes. A program has no storage but its stack, of which
8 MiB are usual, so a proved program with a file that large ends at once (it was tried). A host that lends the
library a large buffer has to run them.
"""
from building import be, blorb, chunk, form, grow, index, put, put32, right_length, starts, whole_form

PICT, SND, DATA, EXEC = b"Pict", b"Snd ", b"Data", b"Exec"
KINDS = {
    PICT: [b"JPEG", b"Rect", b"PNG "],
    SND: [b"OGGV", b"MOD ", b"SONG", b"FORM"],
    DATA: [b"TEXT", b"BINA"],
    EXEC: [b"ZCOD", b"GLUL", b"TAD2", b"TAD3", b"HUGO", b"ALAN", b"ADRI", b"LEVE", b"AGT ", b"MAGS", b"ADVS", b"EXEC"],
}
TEXT, ZCOD = (b"TEXT", b"eel"), (b"ZCOD", b"code")
JPEG, RECT = (b"JPEG", b"jp"), (b"Rect", be(320) + be(0))
RELN, ANNO = (b"RelN", b"\0\1"), (b"ANNO", b"note")

SAMPLES, LOOKED = [], []


def sample(name, file, verdict, profile=0):
    SAMPLES.append((name, file, verdict, profile))


def behind(s, *parts):
    """s with these bytes behind it, its FORM length right."""
    return right_length(s + b"".join(parts))


def fspc(n):
    return (b"Fspc", be(n))


# ---- 01's own samples

A = blorb([(DATA, 7, 0)], [TEXT])
B = blorb([(DATA, 7, 0), (PICT, 1, 1)], [TEXT, RECT])
BLANK = form(index([]))
B_LESS = blorb([(PICT, 1, 0)], [RECT])
B_BINA = blorb([(DATA, 7, 0), (PICT, 1, 1)], [(b"BINA", b""), RECT])

assert A == b"FORM\0\0\0\x28IFRSRIdx\0\0\0\x10\0\0\0\1Data\0\0\0\7\0\0\0\x24TEXT\0\0\0\3eel\0"
assert B == (b"FORM\0\0\0\x44IFRSRIdx\0\0\0\x1c\0\0\0\2Data\0\0\0\7\0\0\0\x30Pict\0\0\0\1\0\0\0\x3c"
             b"TEXT\0\0\0\3eel\0Rect\0\0\0\x08\0\0\1\x40\0\0\0\0")
assert BLANK == b"FORM\0\0\0\x10IFRSRIdx\0\0\0\4\0\0\0\0"
assert [len(s) for s in (A, B, B_LESS, B_BINA, BLANK)] == [48, 76, 52, 72, 24]

sample("A", A, 1)
sample("B", B, 2)
sample("B without Data 7", B_LESS, 1)
sample("B with an empty BINA", B_BINA, 2)
sample("A to 11 bytes", A[:11], (2, 0))
sample("FORM 4 IFRS", form(), (8, 12))
sample("blank", BLANK, 0)
sample("A with padding 1", put(A, 47, b"\1"), (7, 47))
sample("A less its last byte", right_length(A[:-1]), (29, 47))
sample("A with start 37", put32(A, 32, 37), (13, 32))
sample("A with start 12", put32(A, 32, 12), (13, 32))
sample("A with count 1073741825", put32(A, 20, 1073741825), (10, 16))
sample("A plus Fspc 1", behind(A, chunk(*fspc(1))), (19, 56))
sample("B plus Fspc 1", behind(B, chunk(*fspc(1))), (19, 84))


LOOKED += [(A, DATA, 7, b"TEXT", 44, b"eel"), (B, DATA, 7, b"TEXT", 56, b"eel"), (B, PICT, 1, b"Rect", 68, be(320) + be(0)),
           (B_BINA, DATA, 7, b"BINA", 56, b"")]


def large(count):
    """Entries that all have one start, their numbers falling."""
    return blorb([(PICT, count - i, 0) for i in range(count)], [JPEG])


sample("4096 entries", large(4096), 4096)
sample("4096, the last repeats the first", put32(large(4096), 24 + 12 * 4095 + 4, 4096), (16, 24 + 12 * 4095))
sample("4097 entries", large(4097), (11, 20))


# ---- 2 to 5: the first twelve bytes

for n in (0, 1, 4, 8, 10):
    sample(f"{n} bytes", BLANK[:n], (2, 0))
for word in (b"fORM", b"FORm", b"RIFX", b"LIST", b"\0\0\0\0", b"MROF"):
    sample(f"no FORM {word.hex()}", put(A, 0, word), (3, 0))
sample("12 zeros", bytes(12), (3, 0))
for word in (b"iFRS", b"IFRs", b"AIFF", b"IFZS", b"\0\0\0\0"):
    sample(f"no IFRS {word.hex()}", put(A, 8, word), (4, 8))
for n in (0, 38, 39, 41, 42, 48, 0x28000000, 0x80000028, 0xFFFFFFFF):
    sample(f"FORM length {n}", put32(A, 4, n), (5, 4))
sample("A and one byte, FORM length 40", A + b"\0", (5, 4))
sample("A to 47 bytes, FORM length 40", A[:47], (5, 4))
sample("FORM 3 IFRS", put32(form(), 4, 3), (5, 4))

# ---- 6, 28, 29 and 7: chunks fill the file exactly

for n in range(1, 8):
    sample(f"A and {n} bytes", behind(A, bytes(n)), (6, 48))
sample("A and an empty chunk of type zero", behind(A, bytes(8)), 1)
for n in range(1, 8):
    sample(f"blank to {12 + n} bytes", right_length(BLANK[:12 + n]), (6, 12))
sample("TEXT of 4, the padding is data", put32(A, 40, 4), 1)
for n in (5, 6, 7, 8, 65536):
    sample(f"TEXT of {n} at the end", put32(A, 40, n), (28, 40))
sample("index of 27 and padding", put32(A, 16, 27), (10, 16))
sample("index of 28", put32(A, 16, 28), (10, 16))
for n in (29, 30):
    sample(f"index of {n}", put32(A, 16, n), (28, 16))
for n in (4294967295, 4294967294, 4294967292, 4294967288, 4294967287, 4294967284, 4294967252, 2147483648, 2147483647):
    sample(f"TEXT of {n}", put32(A, 40, n), (28, 40))
    sample(f"index of {n}", put32(A, 16, n), (28, 16))
    sample(f"first of two of {n}", put32(B, 52, n), (28, 52))
    sample(f"last of two of {n}", put32(B, 64, n), (28, 64))
for pad in (2, 32, 128, 255):
    sample(f"padding {pad}", put(A, 47, bytes([pad])), (7, 47))
sample("padding of a first chunk", put(B, 59, b"\1"), (7, 59))
sample("padding of an odd index", form(chunk(b"RIdx", bytes(5), pad=1)), (7, 25))
sample("padding of a chunk passed over", behind(A, chunk(b"ANNO", b"x", pad=9)), (7, 57))
sample("two paddings", behind(put(A, 47, b"\1"), chunk(b"ANNO", b"x", pad=9)), (7, 47))
sample("second padding of two", behind(A, chunk(b"ANNO", b"x"), chunk(b"ANNO", b"xyz", pad=9)), (7, 69))

# ---- 6, 28 and 29 (02, P1), of the first, a middle and the last chunk: where it broke off. 6 has the chunk's start, 28 its
# length field, 29 the file's end. BROKEN_OFF holds (name, file, number, place): the edits are tried on these too.

BROKEN_OFF = []


def broken_off(name, file, number, place):
    sample(name, file, (number, place))
    BROKEN_OFF.append((name, file, number, place))


for n in range(1, 8):
    broken_off(f"A to {n} bytes of TEXT's header", right_length(A[:36 + n]), 6, 36)
for n in (0, 1, 2):
    broken_off(f"A to {n} bytes of TEXT's data", right_length(A[:44 + n]), 28, 40)
for n in (1, 3, 255, 4095):                                       # behind a blank: chunk at 24, length at 28, data from 32 on
    whole = behind(BLANK, chunk(b"ANNO", bytes(n)))
    unpadded = right_length(whole[:-1])
    sample(f"ANNO of {n}", whole, 0)
    sample(f"ANNO of {n} without padding", unpadded, (29, 32 + n))
    sample(f"ANNO of {n} without padding, its length one more", put32(unpadded, 28, n + 1), (28, 28))
    sample(f"ANNO of {n} without padding, its length two more", put32(unpadded, 28, n + 2), (28, 28))
    sample(f"ANNO of {n} without padding, its length one less", put32(unpadded, 28, n - 1), (6, 32 + n - 1))
    sample(f"ANNO of {n} less two bytes", right_length(whole[:-2]), (28, 28))
    sample(f"ANNO of {n} and a byte behind", behind(whole, b"\0"), (6, 32 + n + 1))
for n in (0, 2, 256):                                             # an even length ends without padding
    whole = behind(BLANK, chunk(b"ANNO", bytes(n)))
    sample(f"ANNO of {n}", whole, 0)
    sample(f"ANNO of {n}, its length one more", put32(whole, 28, n + 1), (28, 28))
broken_off("index of 5 without padding", form(chunk(b"RIdx", bytes(5))[:-1]), 29, 25)
broken_off("index of 6 in 5 bytes", form(chunk(b"RIdx", bytes(5), length=6)[:-1]), 28, 16)
broken_off("index to the end, odd", right_length(put32(A, 16, 29) + b"\0"), 29, 49)
broken_off("index past the end by one", right_length(put32(A, 16, 30) + b"\0"), 28, 16)
broken_off("first of two to the end, odd", right_length(put32(B, 52, 21) + b"\0"), 29, 77)
broken_off("first of two past the end by one", right_length(put32(B, 52, 22) + b"\0"), 28, 52)
broken_off("last of two to the end, odd", right_length(put32(B, 64, 9) + b"\0"), 29, 77)
broken_off("last of two past the end by one", right_length(put32(B, 64, 10) + b"\0"), 28, 64)
broken_off("last of two of 4294967295, a byte more", right_length(put32(B, 64, 4294967295) + b"\0"), 28, 64)
sample("first of two to the end, even: its entry's start", put32(B, 52, 20), (13, 44))

# ---- 8 to 11: the index

sample("first chunk TEXT", put(A, 12, b"TEXT"), (8, 12))
sample("first chunk ridx", put(A, 12, b"ridx"), (8, 12))
sample("index second", form(chunk(*ANNO), index([])), (8, 12))
sample("no index", form(chunk(*ANNO), chunk(*TEXT)), (8, 12))
sample("second index at the end", behind(A, index([])), (9, 48))
sample("second index, empty chunk", behind(A, chunk(b"RIdx")), (9, 48))
sample("second index in the middle", form(index([(DATA, 7, 44)]), chunk(b"RIdx"), chunk(*TEXT)), (9, 36))
sample("two indexes more", form(index([]), chunk(*ANNO), chunk(b"RIdx"), chunk(b"RIdx")), (9, 36))
sample("RIdx as data only", blorb([(DATA, 7, 0)], [(b"TEXT", b"RIdx\0\0\0\4\0\0\0\0")]), 1)
for n in range(4):
    sample(f"index of {n} bytes", form(chunk(b"RIdx", bytes(n))), (10, 16))
    sample(f"index of {n} bytes, TEXT behind", form(chunk(b"RIdx", bytes(n)), chunk(*TEXT)), (10, 16))
for n in (0, 2, 13, 256, 65536, 16777216):
    sample(f"count {n} for 1 entry", put32(A, 20, n), (10, 16))
for more in (1, 2, 8, 11, 12):
    sample(f"index with {more} bytes more", form(index([], more=bytes(more))), (10, 16))
for n, size in ((0x40000000, 4), (0x80000000, 4), (0xC0000000, 4), (0xAAAAAAAB, 8), (0x55555556, 12), (0x15555556, 12),
                (0x40000001, 16), (0xC0000001, 16)):
    assert (4 + 12 * n) % 2 ** 32 == size
    sample(f"count {n} in an index of {size}", form(chunk(b"RIdx", be(n) + bytes(size - 4)), chunk(*TEXT)), (10, 16))
sample("count 4294967295", put32(A, 20, 4294967295), (10, 16))

# ---- 12 to 16: single entries, first and later ones


def rows(given, *chunks):
    """A file with these entries (usage, number, start), the starts as they are."""
    return form(index(given), *(chunk(*c) for c in chunks))


for word in (b"data", b"DATA", b"Dat ", b"\0\0\0\0", b"RIdx", b"TEXT", b"ataD"):
    sample(f"usage {word.hex()}", put(A, 24, word), (12, 24))
for word in (b"Snd\0", b"snd ", b"Sound"[:4], b"Pic ", b"exec"):
    sample(f"second usage {word.hex()}", put(B, 36, word), (12, 36))
for n in (0, 4, 8, 16, 20, 24, 35, 38, 40, 44, 47, 48, 49, 60, 0x24000000, 0x80000024, 0xFFFFFFFF):
    sample(f"start {n}", put32(A, 32, n), (13, 32))
for n in (0, 12, 24, 47, 49, 56, 59, 61, 76, 84, 3840):
    sample(f"second start {n}", put32(B, 44, n), (13, 44))
sample("start at a header inside data", rows([(DATA, 7, 44)], (b"TEXT", b"TEXT\0\0\0\0")), (13, 32))
sample("start at the second of two", rows([(DATA, 7, 44)], (b"ANNO", b""), TEXT), 1)
sample("start behind an odd chunk, no padding counted", rows([(DATA, 7, 45)], (b"ANNO", b"x"), TEXT), (13, 32))
sample("start behind an odd chunk", rows([(DATA, 7, 46)], (b"ANNO", b"x"), TEXT), 1)
for usage in KINDS:
    for kind in (RELN, fspc(1), ANNO, (b"IFmd", b"<x/>"), (b"\0\0\0\0", b"")):
        sample(f"{usage.decode()} of a {kind[0].hex()} chunk", rows([(usage, 0, 36)], kind), (14, 24))
for usage in KINDS:
    for kinds in KINDS.values():
        for kind in kinds:
            body = {b"Rect": bytes(8), b"FORM": b"AIFF"}.get(kind, b"abc")
            verdict = 1 if kind in KINDS[usage] else (14, 24)
            sample(f"{usage.decode()} of type {kind.decode()}", rows([(usage, 0, 36)], (kind, body)), verdict)
NEARLY = {
    PICT: [b"jpeg", b"JPEg", b"PNG\0", b"\0PNG", b"GIF ", b"RECT", b"rect"],
    SND: [b"MOD\0", b"mod ", b"OGGv", b"OGG ", b"song", b"AIFF", b"form", b"FORm"],
    DATA: [b"Text", b"text", b"BIN ", b"bina"],
    EXEC: [b"TAD1", b"TAD4", b"AGT\0", b"Glul", b"exec", b"Exec", b"ZCOd"],
}
for usage, kinds in NEARLY.items():
    for kind in kinds:
        sample(f"{usage.decode()} of nearly {kind.hex()}", rows([(usage, 0, 36)], (kind, bytes(8))), (14, 24))
for n in (0, 4, 7, 9, 12, 16):
    sample(f"Rect of {n}", rows([(DATA, 7, 48), (PICT, 1, 60)], TEXT, (b"Rect", bytes(n))), (14, 36))
for body in (b"AIFF", b"AIFFx", b"AIFFCOMM"):
    sample(f"FORM of {body.hex()}", rows([(SND, 3, 36)], (b"FORM", body)), 1)
    LOOKED.append((rows([(SND, 3, 36)], (b"FORM", body)), SND, 3, b"FORM", 36, whole_form(body)))
SOUNDS = [(b"FORM", b"AIFFx"), (b"MOD ", b"tunes"), (b"FORM", b"AIFFform"), (b"FORM", b"no entry"), (b"OGGV", whole_form(b"AIFFx"))]
sample("sounds, whole and not", blorb([(SND, 9, 0), (SND, 8, 0), (SND, 3, 1), (SND, 4, 2), (SND, 5, 4)], SOUNDS), 5)
for number, kind, start, part in ((9, b"FORM", 84, b"FORM\0\0\0\5AIFFx"), (8, b"FORM", 84, b"FORM\0\0\0\5AIFFx"), (3, b"MOD ", 106, b"tunes"),
                                  (4, b"FORM", 112, b"FORM\0\0\0\10AIFFform"), (5, b"OGGV", 152, b"FORM\0\0\0\5AIFFx")):
    LOOKED.append((SAMPLES[-1][1], SND, number, kind, start, part))
for body in (b"", b"A", b"AIF", b"AIFC", b"AIFf", b"aiff", b"IFRS", b"\0AIFF", b"AIFCAIFF"):
    sample(f"FORM of {body.hex() or 'nothing'}", rows([(SND, 3, 36)], (b"FORM", body)), (14, 24))
for n in (1, 256, 2147483648, 4294967295):
    sample(f"Exec {n}", rows([(EXEC, n, 36)], ZCOD), (15, 28))
sample("second Exec 1", rows([(EXEC, 0, 48), (EXEC, 1, 48)], ZCOD), (15, 40))
sample("Exec twice", rows([(EXEC, 0, 48), (EXEC, 0, 48)], ZCOD), (16, 36))
sample("pair twice, one chunk", rows([(DATA, 7, 48), (DATA, 7, 48)], TEXT), (16, 36))
sample("pair twice, two chunks", rows([(DATA, 7, 48), (DATA, 7, 60)], TEXT, TEXT), (16, 36))
sample("first again in the fourth", blorb([(DATA, 9, 0), (DATA, 8, 0), (DATA, 7, 0), (DATA, 9, 0)], [TEXT]), (16, 60))
sample("third again in the fourth",
       blorb([(DATA, 1, 0), (PICT, 2, 1), (PICT, 3, 1), (PICT, 3, 1)], [TEXT, JPEG]), (16, 60))
sample("two repeats, the later pair first",
       blorb([(DATA, 1, 0), (DATA, 2, 0), (DATA, 2, 0), (DATA, 1, 0)], [TEXT]), (16, 48))
sample("two repeats, the earlier pair first",
       blorb([(DATA, 1, 0), (DATA, 2, 0), (DATA, 1, 0), (DATA, 2, 0)], [TEXT]), (16, 48))
sample("three times", blorb([(SND, 4, 0), (SND, 4, 0), (SND, 4, 0)], [(b"SONG", b"")]), (16, 36))
sample("number again under another usage",
       blorb([(DATA, 7, 0), (PICT, 7, 1), (SND, 7, 2)], [TEXT, JPEG, (b"MOD ", b"m")]), 3)
sample("numbers that differ in the first byte", blorb([(DATA, 7, 0), (DATA, 0x01000007, 0)], [TEXT]), 2)

# ---- 27: a start lower than that of the entry before it (02, P5)

B_TURNED = blorb([(PICT, 1, 1), (DATA, 7, 0)], [TEXT, RECT])
sample("B with its two entries turned", B_TURNED, (27, 44))
sample("entries against the chunks' order",
       blorb([(EXEC, 0, 3), (SND, 3, 2), (PICT, 1, 1), (DATA, 7, 0)], [TEXT, JPEG, (b"OGGV", b"o"), ZCOD]), (27, 44))
sample("two entries on one start", rows([(DATA, 7, 48), (DATA, 8, 48)], TEXT), 2)
sample("two entries on one start, the last chunk", blorb([(PICT, 1, 1), (PICT, 2, 1)], [TEXT, JPEG]), 2)
sample("an entry back on the start before the last", blorb([(DATA, 1, 0), (DATA, 2, 1), (DATA, 3, 0)], [TEXT, TEXT]), (27, 56))
sample("numbers falling and starts rising", blorb([(DATA, 3, 0), (DATA, 2, 1), (DATA, 1, 2)], [TEXT] * 3), 3)
sample("numbers falling and starts falling", blorb([(DATA, 3, 2), (DATA, 2, 1), (DATA, 1, 0)], [TEXT] * 3), (27, 44))
sample("numbers rising and starts falling", blorb([(DATA, 1, 2), (DATA, 2, 1), (DATA, 3, 0)], [TEXT] * 3), (27, 44))
for last in range(4):
    verdict = 4 if last >= 2 else (27, 68)
    sample(f"the last of four on chunk {last}", blorb([(DATA, n, c) for n, c in enumerate((0, 1, 2, last))], [TEXT] * 4), verdict)
for first in range(4):
    verdict = 4 if first <= 1 else (27, 44)
    sample(f"the first of four on chunk {first}", blorb([(DATA, n, c) for n, c in enumerate((first, 1, 2, 3))], [TEXT] * 4), verdict)
sample("empty chunks, eight bytes lower", blorb([(DATA, 1, 1), (DATA, 2, 0)], [(b"TEXT", b"")] * 2), (27, 44))
sample("lower than the entry before, not than the first",
       blorb([(DATA, 1, 0), (DATA, 2, 2), (DATA, 3, 1)], [TEXT] * 3), (27, 56))
sample("two that are lower", blorb([(DATA, 1, 2), (DATA, 2, 1), (DATA, 3, 0), (DATA, 4, 2)], [TEXT] * 3), (27, 44))
ORDERLY = blorb([(PICT, i, i // 1024) for i in range(4096)], [JPEG] * 4)
sample("4096 entries of four chunks", ORDERLY, 4096)
sample("4096, the last on the first chunk", put32(ORDERLY, 24 + 12 * 4095 + 8, 24 + 12 * 4096), (27, 24 + 12 * 4095 + 8))

# ---- good files

sample("three names of one chunk", blorb([(PICT, 1, 0), (PICT, 2, 0), (PICT, 3, 0)], [JPEG]), 3)
sample("shared and single", blorb([(DATA, 7, 0), (PICT, 1, 1), (PICT, 2, 1)], [TEXT, JPEG]), 3)
sample("single and shared", blorb([(DATA, 7, 0), (DATA, 8, 0), (PICT, 1, 1), (DATA, 9, 2)], [TEXT, JPEG, TEXT]), 4)
sample("numbers falling",
       blorb([(PICT, 9, 0), (PICT, 5, 0), (PICT, 1, 0), (DATA, 3, 1), (DATA, 2, 1)], [JPEG, TEXT]), 5)
sample("numbers up and down",
       blorb([(PICT, 5, 0), (PICT, 9, 0), (PICT, 7, 0), (PICT, 6, 0), (PICT, 8, 0)], [JPEG]), 5)
sample("usages mixed",
       blorb([(SND, 1, 0), (PICT, 1, 1), (EXEC, 0, 2), (PICT, 0, 3), (SND, 0, 4)],
             [(b"SONG", b""), JPEG, ZCOD, JPEG, (b"SONG", b"")]), 5)
sample("least and greatest number", blorb([(DATA, 0, 0), (DATA, 4294967295, 0), (DATA, 2147483648, 0)], [TEXT]), 3)
for n in range(6):
    sample(f"data of {n}", blorb([(SND, 1, 0), (DATA, 7, 1)], [(b"MOD ", b"abcde"[:n]), (b"BINA", b"vwxyz"[:n])]), 2)
sample("empty data at the end", blorb([(DATA, 1, 0), (DATA, 2, 1)], [TEXT, (b"TEXT", b"")]), 2)
sample("empty data in a row", blorb([(DATA, 1, 0), (DATA, 2, 1), (DATA, 3, 2)], [(b"TEXT", b"")] * 3), 3)
sample("a long chunk",
       blorb([(DATA, 1, 0), (EXEC, 0, 1)], [(b"BINA", bytes(i * i % 251 for i in range(1001))), ZCOD]), 2)
sample("blank and chunks", behind(BLANK, chunk(*ANNO), chunk(*TEXT)), 0)
sample("Rect of 3 passed over", behind(A, chunk(b"Rect", b"abc")), 1)
sample("FORM without AIFF passed over", behind(A, chunk(b"FORM", b"x")), 1)
sample("types of resources passed over", behind(A, *(chunk(k, b"") for kinds in KINDS.values() for k in kinds)), 1)
sample("IFhd, Plte and Reso twice", behind(A, *(chunk(k, b"ab") for k in (b"IFhd", b"Plte", b"Reso") * 2)), 1)
sample("types one letter off", behind(A, *(chunk(k) for k in (b"reln", b"RelM", b"FSPC", b"Fspb", b"Ridx", b"RIdw") * 2)), 1)

# ---- 17 to 19: the chunks at most once

P = [(PICT, 1, 0), (PICT, 2, 1)]    # a rectangle and a picture; the chunks behind them stand from 72 on


def pictures(*more):
    return blorb(P, [RECT, (b"JPEG", b""), *more])


assert starts(2, [RECT, (b"JPEG", b"")])[-1] == 72
sample("RelN and Fspc", pictures(RELN, fspc(2)), 2)
sample("Fspc and RelN", pictures(fspc(2), RELN), 2)
sample("RelN alone in a blank", behind(BLANK, chunk(*RELN)), 0)
sample("Fspc before its picture", blorb([(PICT, 2, 1)], [fspc(2), JPEG]), 1)
sample("Fspc between", blorb([(PICT, 2, 1), (DATA, 2, 2)], [fspc(2), JPEG, TEXT]), 2)
sample("Fspc of a PNG", blorb([(PICT, 2, 0)], [(b"PNG ", b"p"), fspc(2)]), 1)
sample("Fspc of picture 0", blorb([(PICT, 0, 0)], [JPEG, fspc(0)]), 1)
sample("Fspc of the greatest number", blorb([(PICT, 4294967295, 0)], [JPEG, fspc(4294967295)]), 1)
sample("Fspc of a shared picture", blorb([(PICT, 1, 0), (PICT, 2, 0)], [JPEG, fspc(2)]), 2)
for n in (0, 1, 3, 4):
    sample(f"RelN of {n}", pictures((b"RelN", bytes(n))), (18, 76))
for n in (0, 1, 2, 3, 5, 6, 8):
    sample(f"Fspc of {n} bytes", pictures((b"Fspc", bytes(n))), (18, 76))
    sample(f"RelN, Fspc of {n} bytes", pictures(RELN, (b"Fspc", bytes(n))), (18, 86))
sample("RelN twice", pictures(RELN, RELN), (17, 82))
sample("Fspc twice", pictures(fspc(2), fspc(2)), (17, 84))
sample("RelN, Fspc, RelN", pictures(RELN, fspc(2), RELN), (17, 94))
sample("RelN three times", pictures(RELN, RELN, RELN), (17, 82))
sample("RelN twice around", blorb([(DATA, 7, 1)], [RELN, TEXT, RELN]), (17, 58))
for n in (0, 3, 0x02000000, 4294967295):
    sample(f"Fspc {n}", pictures(fspc(n)), (19, 80))
sample("Fspc of the rectangle", pictures(fspc(1)), (19, 80))
sample("RelN, Fspc of the rectangle", pictures(RELN, fspc(1)), (19, 90))
sample("Fspc 7, a Data of that number", behind(A, chunk(*fspc(7))), (19, 56))
sample("Fspc 3, a Snd of that number", blorb([(SND, 3, 1)], [fspc(3), (b"MOD ", b"")]), (19, 44))
sample("Fspc in a blank", behind(BLANK, chunk(*fspc(0))), (19, 32))

# ---- Two rules broken: each neighbouring pair in the order of checking.
# Pairs that cannot be together:
#   1 and 2    a file of over 16,777,216 bytes has not under 12;
#   6 and 28   in one chunk: a header cut short has no length; what is there of it is sampled;
#   28 and 29  in one chunk: where the data runs past the end its padding would too: 28, which is sampled;
#   29 and 7   in one chunk: the padding byte that is missing is not there to be other than zero. And what stands behind a
#              chunk that runs past the end is no chunk: the bytes that would be one are sampled;
#   10 and 11  where the index isn't 4 + 12 x count there is no number of entries: a count field over 4,096 is sampled;
#   13 and 14  a start that is no chunk's has no type, but for the index itself, which is sampled;
#   15 and 16  in one entry: the earlier one of the same pair is an Exec with that number and is refused with 15.

sample("2/3 short and no FORM", b"RIFX\0\0\0\3IFR", (2, 0))
sample("2/3 11 zeros", bytes(11), (2, 0))
sample("3/4", put(put(A, 0, b"f"), 8, b"i"), (3, 0))
sample("4/5", put(grow(A, 4, 1), 8, b"ifrs"), (4, 8))
sample("5/6", grow(put32(A, 40, 5), 4, 2), (5, 4))
sample("5/6 cut", A[:-1], (5, 4))
sample("5/28 and 5/29", put32(A, 40, 4294967295)[:-1], (5, 4))
broken_off("6/28 a header cut in its length", behind(A, b"ANNO\xff\xff\xff"), 6, 48)
broken_off("6/28 a header cut behind a huge type", behind(A, b"\xff\xff\xff\xff\xff"), 6, 48)
broken_off("28/29 an odd length past the end", put32(A, 40, 5), 28, 40)
broken_off("28/6 then a header cut", put32(behind(B, b"ANN"), 52, 30), 28, 52)
broken_off("28/29 then no padding", put32(behind(B, chunk(b"ANNO", b"odd")[:-1]), 52, 60), 28, 52)
broken_off("28/7 then a padding", put32(behind(B, chunk(b"ANNO", b"odd", pad=1)), 52, 60), 28, 52)
broken_off("28/7 over its own padding", put32(put(B, 59, b"\1"), 52, 21), 28, 52)
broken_off("29/7 odd to the end, then nothing", right_length(put32(A, 40, 5) + b"x"), 29, 49)
broken_off("7/6 padding, then a header cut", behind(put(A, 47, b"\1"), b"ANN"), 7, 47)
broken_off("7/28 padding, then a length past the end", behind(put(A, 47, b"\1"), chunk(b"ANNO", b"", length=9)), 7, 47)
broken_off("7/29 padding, then none", behind(put(A, 47, b"\1"), chunk(b"ANNO", b"odd")[:-1]), 7, 47)
sample("7/8", put(put(A, 47, b"\1"), 12, b"ANNO"), (7, 47))
sample("7/8 padding of the first chunk", form(chunk(b"ANNO", b"x", pad=1), index([])), (7, 21))
sample("6/8 the second chunk's header cut (A1)", form(chunk(*ANNO), chunk(*TEXT)[:7]), (6, 24))
sample("28/8 the second chunk cut (A1)", form(chunk(*ANNO), chunk(*TEXT)[:-2]), (28, 28))
sample("29/8 the second chunk's padding cut (A1)", form(chunk(*ANNO), chunk(*TEXT)[:-1]), (29, 35))
sample("29/9 a second index without padding", form(index([]), chunk(b"RIdx", bytes(5))[:-1]), (29, 37))
sample("8/9", form(chunk(*ANNO), index([]), index([])), (8, 12))
sample("9/10", behind(put32(A, 20, 2), index([])), (9, 48))
sample("9/10 short index", form(chunk(b"RIdx", b"\0\0"), chunk(b"RIdx")), (9, 22))
sample("10/11 count 4097, one entry", put32(A, 20, 4097), (10, 16))
sample("11/12", put(large(4097), 24, b"pict"), (11, 20))
sample("9/12 second index at the end (A5)", behind(put(A, 24, b"data"), chunk(b"RIdx")), (9, 48))
sample("10/12", put32(put(A, 24, b"data"), 20, 2), (10, 16))
sample("12/13", rows([(b"data", 7, 37)], TEXT), (12, 24))
sample("13/14 start 12, as a picture", rows([(PICT, 7, 12)], TEXT), (13, 32))
sample("13/15", rows([(EXEC, 1, 37)], ZCOD), (13, 32))
sample("13/16", rows([(DATA, 7, 48), (DATA, 7, 49)], TEXT), (13, 44))
sample("14/15", rows([(EXEC, 1, 36)], TEXT), (14, 24))
sample("14/16", blorb([(DATA, 7, 0), (DATA, 7, 1)], [TEXT, ZCOD]), (14, 36))
sample("15/16 Exec 1 twice", rows([(EXEC, 1, 48), (EXEC, 1, 48)], ZCOD), (15, 28))
sample("12/27", rows([(DATA, 7, 60), (b"data", 8, 48)], TEXT, TEXT), (12, 36))
sample("13/27", rows([(DATA, 7, 60), (DATA, 8, 49)], TEXT, TEXT), (13, 44))
sample("13/27 start 12", rows([(DATA, 7, 60), (DATA, 8, 12)], TEXT, TEXT), (13, 44))
sample("14/27", blorb([(PICT, 1, 1), (PICT, 2, 0)], [TEXT, RECT]), (14, 36))
sample("15/27", blorb([(PICT, 1, 1), (EXEC, 1, 0)], [ZCOD, RECT]), (15, 40))
sample("16/27 in one entry", rows([(DATA, 7, 60), (DATA, 7, 48)], TEXT, TEXT), (16, 36))
sample("16/27 in one entry, the pair of the first", blorb([(DATA, 7, 1), (DATA, 9, 2), (DATA, 7, 0)], [TEXT] * 3), (16, 48))
sample("27/12 entry 1 with 27, entry 2 with 12", blorb([(DATA, 7, 1), (DATA, 8, 0), (b"data", 9, 1)], [TEXT, TEXT]), (27, 44))
sample("27/16 entry 1 with 27, entry 2 with 16", blorb([(DATA, 7, 1), (DATA, 8, 0), (DATA, 7, 1)], [TEXT, TEXT]), (27, 44))
sample("27/17", blorb([(DATA, 7, 3), (DATA, 8, 2)], [RELN, RELN, TEXT, TEXT]), (27, 44))
sample("27/19", blorb([(DATA, 7, 2), (DATA, 8, 1)], [fspc(1), TEXT, TEXT]), (27, 44))
sample("11/27", put32(large(4097), 32, 24 + 12 * 4097 + 8), (11, 20))
sample("16/17", blorb([(DATA, 7, 2), (DATA, 7, 2)], [RELN, RELN, TEXT]), (16, 36))
sample("16/19", blorb([(DATA, 7, 1), (DATA, 7, 1)], [fspc(1), TEXT]), (16, 36))
sample("17/18 in one chunk", pictures(RELN, (b"RelN", b"abc")), (17, 82))
sample("17/18 the first one's length", pictures((b"RelN", b"abc"), RELN), (18, 76))
sample("17/18 a second, then a length", pictures(RELN, RELN, (b"Fspc", b"")), (17, 82))
sample("17/18 a length, then a second", pictures((b"Fspc", b""), RELN, RELN), (18, 76))
sample("17/19 in one chunk", pictures(fspc(2), fspc(3)), (17, 84))
sample("17/19 the first one's picture (A11)", pictures(fspc(3), fspc(2)), (19, 80))
sample("17/19 a second, then a picture", pictures(RELN, RELN, fspc(3)), (17, 82))
sample("17/19 a picture, then a second", pictures(fspc(3), RELN, RELN), (19, 80))
sample("18/19 in one chunk", pictures((b"Fspc", be(3) + b"x")), (18, 76))
sample("18/19 a length, then a picture", pictures((b"RelN", b""), fspc(3)), (18, 76))
sample("18/19 a picture, then a length", pictures(fspc(3), (b"RelN", b"")), (19, 80))
sample("an unknown usage twice (A9)", rows([(b"data", 7, 48), (b"data", 7, 48)], TEXT), (12, 24))
sample("A8: 16, then 12", blorb([(DATA, 7, 0), (DATA, 7, 0), (b"data", 1, 0)], [TEXT]), (16, 36))

# ---- 12 to 16 and 27: two faults in two entries, in both orders (and twice the same)

WORDS = [(b"BINA", b"low"), TEXT, JPEG, ZCOD]
AT = starts(4, WORDS)
FAULTY = {
    12: ((b"pict", 1, AT[2]), 0),
    13: ((PICT, 2, AT[2] + 2), 8),
    14: ((PICT, 3, AT[1]), 0),
    15: ((EXEC, 5, AT[3]), 4),
    16: ((DATA, 7, AT[1]), 0),
    27: ((DATA, 8, AT[0]), 8),
}
for k, (row, inside) in FAULTY.items():
    for other, (later, _) in FAULTY.items():
        file = rows([(DATA, 7, AT[1]), row, (PICT, 9, AT[2]), later], *WORDS)
        sample(f"entry with {k}, then with {other}", file, (k, 36 + inside))

# ---- Every two faults in one file of eleven chunks and seven entries. The faults change bytes and no length, and stand
# here in the order in which they decide: 7 is in the first chunk, 28 in the last but one, 6 in the last; the entries' faults
# are in entries 1 to 6; 18, 19 and 17 are in the order of their chunks. 29 is only at an odd file's end: it comes behind.

ELEVEN = [TEXT, RECT, (b"JPEG", b"12345"), (b"BINA", b"ab"), ZCOD, (b"OGGV", b"og"), (b"TEXT", b"end"),
          (b"RelN", b"\1\0"), fspc(2), (b"ANNO", b"ab"), ANNO]
SEVEN = [(DATA, 7, 0), (PICT, 1, 1), (PICT, 2, 2), (DATA, 8, 3), (EXEC, 0, 4), (SND, 9, 5), (DATA, 9, 6)]
WHOLE = blorb(SEVEN, ELEVEN)
AT = starts(7, ELEVEN)
BROKEN = [
    (3, 0, lambda s: put(s, 0, b"f")),
    (4, 8, lambda s: put(s, 8, b"i")),
    (5, 4, lambda s: grow(s, 4, 2)),
    (7, AT[0] + 11, lambda s: put(s, AT[0] + 11, b"\1")),
    (28, AT[9] + 4, lambda s: put32(s, AT[9] + 4, 2 ** 31 + 2)),
    (6, AT[10] + 10, lambda s: grow(s, AT[10] + 4, -2)),
    (8, 12, lambda s: put(s, 15, b"y")),
    (9, AT[9], lambda s: put(s, AT[9], b"RIdx")),
    (10, 16, lambda s: grow(s, 20, 1)),
    (12, 36, lambda s: put(s, 36, b"p")),
    (13, 48 + 8, lambda s: grow(s, 56, 1)),
    (14, 60, lambda s: put(s, AT[3], b"Bina")),
    (15, 72 + 4, lambda s: grow(s, 76, 1)),
    (16, 84, lambda s: put(s, 84, DATA + be(7) + be(AT[0]))),
    (27, 96 + 8, lambda s: put32(s, 104, AT[0])),
    (18, AT[7] + 4, lambda s: grow(s, AT[7] + 4, -1)),
    (19, AT[8] + 8, lambda s: put32(s, AT[8] + 8, 1)),
    (17, AT[10], lambda s: put(s, AT[10], b"Fspc")),
]
sample("eleven chunks", WHOLE, 7)
for i, (k, place, spoil) in enumerate(BROKEN):
    sample(f"eleven chunks, {k}", spoil(WHOLE), (k, place))
    for other, _, spoil_more in BROKEN[i + 1:]:
        sample(f"eleven chunks, {k} and {other}", spoil_more(spoil(WHOLE)), (k, place))
UNPADDED = right_length(WHOLE + chunk(b"ANNO", b"odd")[:-1])
broken_off("eleven chunks, 29", UNPADDED, 29, len(UNPADDED))
for k, place, spoil in BROKEN:
    if k != 6:                                                    # there is no cut header with a chunk behind it
        earlier = k in (3, 4, 5, 7, 28)
        sample(f"eleven chunks, {k} and 29", spoil(UNPADDED), (k, place) if earlier else (29, len(UNPADDED)))

# ---- 52 and the ADRIFT profile (02, P12): 'GIF ' pictures, 'WAV ', 'MIDI' and 'MP3 ' sounds, and 52 before all else. Files of one
# entry have their chunk at 36.

GIF, WAV = (b"GIF ", b"GIF89a"), (b"WAV ", b"RIFF")
ADRIFT_KINDS = {PICT: [b"GIF "], SND: [b"WAV ", b"MIDI", b"MP3 "], DATA: [], EXEC: []}
UNKNOWN = (2, 3, 255, 256, 65536, 2 ** 31, 2 ** 32 - 1)


def adrift(name, file, plain, verdict):
    """The verdicts under the plain and the ADRIFT profile, and 52 under another one."""
    sample(f"{name}, plain", file, plain)
    sample(f"{name}, ADRIFT", file, verdict, 1)
    sample(f"{name}, profile 2", file, (52, 0), 2)


GIF_A = blorb([(PICT, 1, 0)], [GIF])
adrift("A", A, 1, 1)
adrift("B", B, 2, 2)
adrift("blank again", BLANK, 0, 0)
adrift("a GIF picture", GIF_A, (14, 24), 1)
adrift("11 bytes again", A[:11], (2, 0), (2, 0))
adrift("no bytes", b"", (2, 0), (2, 0))
for profile in UNKNOWN:
    sample(f"A under profile {profile}", A, (52, 0), profile)
    sample(f"a GIF picture under profile {profile}", GIF_A, (52, 0), profile)
    sample(f"11 bytes under profile {profile}", A[:11], (52, 0), profile)
for usage, kinds in ADRIFT_KINDS.items():
    for kind in [k for ks in ADRIFT_KINDS.values() for k in ks]:
        file = blorb([(usage, 0, 0)], [(kind, b"abc")])
        adrift(f"{usage.decode()} of {kind.decode()}", file, (14, 24), 1 if kind in kinds else (14, 24))
    for kind in KINDS[usage]:
        body = b"AIFF" if kind == b"FORM" else bytes(8)
        sample(f"{usage.decode()} of {kind.hex()}, ADRIFT", blorb([(usage, 0, 0)], [(kind, body)]), 1, 1)
for usage, kind in ((PICT, b"GIF\0"), (PICT, b"gif "), (PICT, b"GIFF"), (PICT, b"GIF8"), (PICT, b"BMP "), (SND, b"WAVE"), (SND, b"wav "),
                    (SND, b"WAV\0"), (SND, b"MID "), (SND, b"midi"), (SND, b"MP3\0"), (SND, b"MP3X"), (SND, b"MP2 "), (b"snd ", b"WAV ")):
    verdict = (14, 24) if usage in KINDS else (12, 24)
    adrift(f"{usage.hex()} of nearly {kind.hex()}", blorb([(usage, 0, 0)], [(kind, b"abc")]), verdict, verdict)
for name, body in (("no data", b""), ("one byte", b"x"), ("AIFF", b"AIFF")):
    adrift(f"GIF of {name}", blorb([(PICT, 1, 0)], [(b"GIF ", body)]), (14, 24), 1)
    adrift(f"WAV of {name}", blorb([(SND, 1, 0)], [(b"WAV ", body)]), (14, 24), 1)
adrift("a Rect of 7", blorb([(PICT, 1, 0)], [(b"Rect", bytes(7))]), (14, 24), (14, 24))
adrift("a FORM of AIFC", blorb([(SND, 1, 0)], [(b"FORM", b"AIFC")]), (14, 24), (14, 24))
adrift("GIF and WAV without an entry", behind(A, chunk(*GIF), chunk(*WAV)), 1, 1)
adrift("a GIF frontispiece", behind(GIF_A, chunk(*fspc(1))), (14, 24), 1)
adrift("a GIF frontispiece of another number", behind(GIF_A, chunk(*fspc(2))), (14, 24), (19, 58))
adrift("a Rect frontispiece beside a GIF", behind(blorb([(PICT, 1, 0), (PICT, 2, 1)], [RECT, GIF]), chunk(*fspc(1))), (14, 36), (19, 86))
adrift("two names of a GIF", blorb([(PICT, 1, 0), (PICT, 2, 0)], [GIF]), (14, 24), 2)
adrift("a GIF twice", blorb([(PICT, 1, 0), (PICT, 1, 0)], [GIF]), (14, 24), (16, 36))
adrift("a GIF out of order", put32(put32(blorb([(PICT, 1, 0), (DATA, 7, 1)], [GIF, TEXT]), 32, 62), 44, 48), (14, 24), (14, 24))
adrift("a GIF behind, out of order", put32(put32(blorb([(DATA, 7, 0), (PICT, 1, 1)], [TEXT, GIF]), 32, 60), 44, 48), (14, 24), (14, 24))
adrift("two sounds out of order", put32(put32(blorb([(SND, 1, 0), (SND, 2, 1)], [WAV, (b"MIDI", b"MThd")]), 32, 60), 44, 48), (14, 24), (27, 44))
adrift("a GIF under Snd and a WAV under Pict", blorb([(SND, 1, 0), (PICT, 1, 1)], [GIF, WAV]), (14, 24), (14, 24))
adrift("the second of two", blorb([(PICT, 1, 0), (PICT, 2, 1)], [JPEG, GIF]), (14, 36), 2)
for k, place, spoil in BROKEN:
    adrift(f"eleven chunks with {k}", spoil(WHOLE), (k, place), (k, place))
