"""mend: each fault that it mends alone and several at once, with the reference as the judge; what is not certain is left; FILE is never touched."""
import itertools
import random

import reference
from building import blorb, chunk, form, index, put32, starts
from command_crash import steps_of
from command_kit import EACH, be, contents, done, expect, failed, jpeg, png, run, same

# Two entries on two chunks of odd length, and a loose chunk behind them.
ENTRIES = [(b"Data", 7, 0), (b"Pict", 1, 1)]
CHUNKS = [(b"TEXT", b"eel"), (b"JPEG", jpeg() + b"\0" * (1 - len(jpeg()) % 2)), (b"AUTH", b"me!")]
GOOD = blorb(ENTRIES, CHUNKS)
AT = starts(2, CHUNKS)


def judged(held):
    """0, or number and place, by the reference."""
    try:
        reference.parse(held, reference.PLAIN)
    except reference.Refusal as r:
        return r.number, r.place
    return 0


def with_form_length(held, length=None):
    return put32(held, 4, len(held) - 8 if length is None else length)


def with_padding(held, byte):
    """Each chunk behind the index is odd: the byte behind its data."""
    for at in AT[1:]:
        held = held[:at - 1] + bytes([byte]) + held[at:]
    return held


def exchanged(held):
    """The entries the other way round."""
    return held[:24] + held[36:48] + held[24:36] + held[48:]


def mended(work, held, wanted, *said):
    """FILE stays, OUT is this, and these words are printed; the last line is check's."""
    file, out = work / "game.blb", work / "out.blb"
    file.write_bytes(held)
    out.unlink(missing_ok=True)
    expect(judged(held) != 0, "there is something to mend")
    lines = done("mend", file, "-o", out).decode().splitlines()
    same(out.read_bytes(), wanted, f"mended: {lines}")
    same(file.read_bytes(), held, "FILE is as it was")
    same(done("check", out).decode().strip(), lines[-1], "the last line is what check says of OUT")
    same(len(lines), len(said) + 1, f"a line for each step: {lines}")
    for words, line in zip(said, lines):
        expect(words in line, f"{words!r} in {line!r}")


def left(work, held, saying=""):
    """Nothing is written, and the library's refusal is told."""
    file, out = work / "game.blb", work / "out.blb"
    file.write_bytes(held)
    out.unlink(missing_ok=True)
    result = run("mend", file, "-o", out)
    expect(result.status == 1 and "Nothing was written." in result.err and saying in result.err and ": refused " in result.err, f"{saying}: {result}")
    same(contents(work), {"game.blb": held}, "nothing is written")


def single_faults(work):
    same(judged(GOOD), 0, "the file to begin with")
    mended(work, exchanged(GOOD), GOOD, "sorted the 2 entries")
    mended(work, with_padding(GOOD, 1), GOOD, f"set 3 padding bytes to zero, the first at {AT[1] - 1}")
    mended(work, with_form_length(GOOD[:-1]), GOOD, f"put the missing padding byte at {len(GOOD) - 1}")
    for stray in (b"x", b"\0\0\0\0", b"1234567"):
        mended(work, with_form_length(GOOD + stray), GOOD, f"cut off {len(stray)} byte")
    for length in (0, 4, 5, len(GOOD) - 10, len(GOOD) - 9, len(GOOD), 2 ** 32 - 1):
        mended(work, with_form_length(GOOD, length), GOOD, f"set the FORM length at 4 from {length} to {len(GOOD) - 8}")
    # Behind the end that the FORM length names: what is no whole chunk, or only zeros, is cut off.
    for behind in (b"x", b"stray bytes that are no chunk", bytes(8), bytes(100), b"\x1a" * 90):
        mended(work, GOOD + behind, GOOD, f"cut off {len(behind)} byte")
    # The padding byte is counted, but not there.
    mended(work, GOOD[:-1], GOOD, "put the missing padding byte", "set the FORM length")
    # No chunk has its padding: all starts behind move on.
    same(judged(unpadded()), (7, AT[1] - 1), "without any padding")
    mended(work, unpadded(), GOOD, "put 3 missing padding bytes")
    loose = [(b"AUTH", b"x"), (b"ANNO", b"even"), (b"AUTH", b"odd"), (b"Fspz", b"")]
    chunks = b"".join(kind + be(len(body)) + body for kind, body in loose)
    mended(work, form(index([]), chunks), blorb([], loose), "put 2 missing padding bytes")
    # A chunk behind the end that the FORM length names belongs to the file if an entry has it.
    mended(work, with_form_length(GOOD, AT[1] - 8), GOOD, "set the FORM length")


def unpadded():
    """The same file of a packer that never pads: the byte in the padding's place begins the next chunk."""
    chunks = b"".join(kind + be(len(body)) + body for kind, body in CHUNKS)
    at = [48, 48 + 8 + len(CHUNKS[0][1])]
    return form(index([(u, n, at[k]) for u, n, k in ENTRIES]), chunks)


def several_faults(work):
    """All of them at once, in every combination."""
    for order, padding, end in itertools.product((0, 1), (0, 1), ("", "pad", "stray", "length")):
        held = with_padding(GOOD, 5) if padding else GOOD
        held = held[:-1] if end == "pad" else held + b"end" if end == "stray" else held
        held = exchanged(held) if order else held
        held = with_form_length(held, 3 if end == "length" else None)
        if judged(held) == 0:
            continue
        file, out = work / "game.blb", work / "out.blb"
        file.write_bytes(held)
        out.unlink(missing_ok=True)
        done("mend", file, "-o", out)
        same(out.read_bytes(), GOOD, f"{order} {padding} {end}")
        same(file.read_bytes(), held, "FILE is as it was")
    # Entries on one chunk stay in their order.
    shared = [(b"Pict", 3, 0), (b"Pict", 1, 0), (b"Pict", 2, 1)]
    chunks = [(b"PNG ", png()), (b"JPEG", jpeg())]
    at = starts(3, chunks)
    held = form(index([(b"Pict", 2, at[1]), (b"Pict", 3, at[0]), (b"Pict", 1, at[0])]), *(chunk(*c) for c in chunks))
    mended(work, held, blorb(shared, chunks), "sorted the 3 entries")
    rows = [(b"Data", n, n) for n in range(4096)]
    chunks = [(b"TEXT", b"eel")] * 4096
    at = starts(4096, chunks)
    held = form(index([(u, n, at[k]) for u, n, k in reversed(rows)]), *(chunk(*c) for c in chunks))
    mended(work, held, blorb(rows, chunks), "sorted the 4096 entries")


def not_certain(work):
    """What is told and left."""
    left(work, GOOD[:-2] + b"\0\0" + chunk(b"ANNO", b"more"), "")
    left(work, GOOD + chunk(b"ANNO", b"more"), "whether they belong to it cannot be told")
    left(work, GOOD + GOOD, "whether they belong to it cannot be told")
    left(work, with_form_length(GOOD, len(GOOD) + 92), "something may be missing")
    left(work, GOOD[:AT[2]], "something may be missing")        # cut short between two chunks
    left(work, GOOD[:-5], "filled by whole chunks")             # and within one
    left(work, with_form_length(GOOD[:-2]), "what is missing is not in the file")
    left(work, b"", "does not mend this")
    left(work, b"FORM" + be(4) + b"ILBM", "does not mend this")
    left(work, put32(GOOD, 24 + 8, 13), "does not mend this")
    left(work, put32(exchanged(GOOD), 24 + 8, AT[1] + 1), "does not mend this")
    left(work, with_form_length(GOOD[:12]), "")
    # A packer that never pads, and an entry that means no chunk by either reckoning.
    left(work, put32(unpadded(), 24 + 8, 49), "does not mend this")
    left(work, with_form_length(unpadded() + b"more than a header"), "may be no padding")
    left(work, bytes(2 ** 24 + 1), "does not mend this")


def into_files(work):
    """OUT is a new file; a file without a fault makes none."""
    file, out = work / "game.blb", work / "out.blb"
    file.write_bytes(GOOD)
    same(done("mend", file, "-o", out), b"nothing to mend: the file keeps every rule, and nothing was written\n", "nothing to mend")
    file.write_bytes(exchanged(GOOD))
    out.write_bytes(b"mine")
    result = run("mend", file, "-o", out)
    expect(result.status == 2 and "this name is taken" in result.err, f"{result}")
    expect(run("mend", file, "-o", file).status == 2, "OUT is not FILE")
    same(contents(work), {"game.blb": exchanged(GOOD), "out.blb": b"mine"}, "nothing is overwritten")
    for name in ("x.undo", "x.table", "x.blorb-temp"):
        failed("mend", file, "-o", work / name, saying="this program's own")
    failed("mend", work / "none", "-o", work / "x", saying="No such file")
    expect(run("mend", file, "-o", work / "none" / "x").status == 2, "no such folder")
    held = blorb([(b"Pict", 1, 0)], [(b"GIF ", b"GIF89a!")])[:-1] + b"\1"
    file.write_bytes(held)
    result = run("mend", file, "-o", work / "house.blb")
    expect(result.status == 1 and "--adrift allows them" in result.err, f"a file of the ADRIFT house: {result}")
    done("mend", "--adrift", file, "-o", work / "house.blb")
    same((work / "house.blb").read_bytes(), held[:-1] + b"\0", "with --adrift")


def any_damage(work):
    """Bytes changed, cut and added at random: what is written is accepted by the reference, and each of its chunks stood in FILE, which stays."""
    rng, counts = random.Random(1985), {0: 0, 1: 0}
    file, out = work / "game.blb", work / "out.blb"
    for _ in range(800 // EACH):
        held = bytearray(rng.choice((GOOD, exchanged(GOOD), with_padding(GOOD, 9))))
        for _ in range(rng.randrange(1, 3)):
            at = rng.choice((rng.randrange(len(held) + 1), rng.randrange(48), len(held)))
            held[at:at + rng.choice((0, 1, 1, 4))] = rng.randbytes(rng.choice((0, 1, 4)))
        held = bytes(held) if rng.random() < .5 else with_form_length(bytes(held.ljust(12, b"\0")))
        file.write_bytes(held)
        out.unlink(missing_ok=True)
        result = run("mend", file, "-o", out)
        same(file.read_bytes(), held, "FILE is as it was")
        same(result.status, 0 if out.exists() or judged(held) == 0 else 1, f"status and OUT agree: {result}")
        counts[result.status] += 1
        if out.exists():
            expect(judged(held) != 0 and judged(out.read_bytes()) == 0, f"what is written is accepted: {result}")
            expect(len(out.read_bytes()) >= len(held) or b"cut off" in result.out, f"nothing is lost without a word: {result}")
            for c in reference.parse(out.read_bytes(), reference.PLAIN)[0][1:]:
                expect(c.kind in held and c.body in held, f"each chunk has the bytes that it had: {result}")
    expect(min(counts.values()) > 20 // EACH, f"both were met: {counts}")


def ended(work):
    """mend ended and failing at every step: no OUT, or the whole one."""
    file, out = work / "game.blb", work / "out.blb"
    file.write_bytes(exchanged(GOOD))
    steps = steps_of(work, "mend", file, "-o", out)
    for n, shim in itertools.product(range(1, len(steps) + 1), ({}, {"CRASH_FAIL": "28"})):
        for path in work.glob("out.blb*"):
            path.unlink()
        result = run("mend", file, "-o", out, shim={"CRASH_AT": str(n), **shim})
        held = out.read_bytes() if out.exists() else None
        expect(held in (None, GOOD) and (result.status != 0 or held == GOOD), f"step {n}, {steps[n - 1]}, {shim}: {result}")


PARTS = (single_faults, several_faults, not_certain, into_files, any_damage, ended)
