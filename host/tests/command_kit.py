"""For the tests of the command line program: running it, counting checks, folders to work in, and data of each kind."""
import hashlib
import os
import re
import subprocess
import sys
import zlib
from collections import namedtuple
from pathlib import Path

ROOT = Path(__file__).resolve().parents[2]
sys.path.insert(0, str(ROOT / "tests"))    # the independent reference, written from 01

import editing_reference    # noqa: E402
import reference            # noqa: E402
from building import be     # noqa: E402

PROGRAM = Path(sys.argv[1]).resolve()
SHIM = Path(sys.argv[2]).resolve()
SOUND_LENGTH = Path(sys.argv[3]).resolve()
BATCH = Path(sys.argv[4]).resolve()
ARCHIVE = Path(os.environ["BLORB_ARCHIVE"]).resolve()
ENDED_BY_SHIM = 77
# Of long lists of ends and damages only each so many is tried: for builds that are slow.
EACH = int(os.environ.get("BLORB_TEST_EACH", "1"))
# That of every run: no language but the program's own, and the sanitizers end it with a status of their own.
ENVIRONMENT = dict(os.environ, LC_ALL="C", ASAN_OPTIONS="exitcode=99:verify_asan_link_order=0", UBSAN_OPTIONS="halt_on_error=1:exitcode=99")
Result = namedtuple("Result", "status out err")
checks = 0


def expect(right, what):
    """One check: ends the test where it fails."""
    global checks
    checks += 1
    if not right:
        print(f"command: FAILED: {what}")
        sys.exit(1)


def same(got, wanted, what):
    expect(got == wanted, f"{what}\n  wanted {shortened(wanted)}\n  got    {shortened(got)}")


def shortened(value):
    text = repr(value)
    return text if len(text) < 600 else f"{text[:300]} .. {text[-100:]}"


def tried(things):
    """All of them, or each so many, not always the same ones."""
    return [thing for n, thing in enumerate(things) if (n + checks) % EACH == 0]


def run(*words, stdin=b"", shim=None, program=PROGRAM, **more):
    """Runs the program. It must end by itself, with 0, 1 or 2, or where the shim ends it."""
    env = ENVIRONMENT if shim is None else dict(ENVIRONMENT, **shim, LD_PRELOAD=str(SHIM))
    more.setdefault("stdout", subprocess.PIPE)
    done = subprocess.run([program, *words], input=stdin, stderr=subprocess.PIPE, env=env, timeout=120, **more)
    result = Result(done.returncode, done.stdout, done.stderr.decode(errors="replace"))
    allowed = (0, 1, 2) if shim is None else (0, 1, 2, ENDED_BY_SHIM)
    expect(result.status in allowed, f"{words} ended with {result}")
    return result


def done(*words, may_warn=False, **more):
    """Runs it where it must succeed and say nothing on standard error, or nothing but warnings; gives standard output."""
    result = run(*words, **more)
    said = "".join(line for line in result.err.splitlines(True) if not (may_warn and (": warning: " in line or line.startswith("  "))))
    same((result.status, said), (0, ""), f"{words} must succeed")
    return result.out


def warned(*words, saying, **more):
    """Runs it where it must succeed and warn, in one line each, of just these, each by a part of the line. Advice follows some of them."""
    result = run(*words, **more)
    lines = [line for line in result.err.splitlines() if not line.startswith("  ")]
    expect(result.status == 0 and len(lines) == len(saying), f"{words} must succeed and warn of {saying}: {result}")
    for line, part in zip(lines, saying):
        expect(": warning: " in line and part in line, f"{words}: wanted a warning of {part}: {line}")
    return result.out


# By 01's number: what the sentence speaks of, and what the advice does.
SAID = {
    1: ("longer than 16,777,216 bytes", "fewer or smaller"), 2: ("fewer than 12 bytes", "cut short"),
    3: ("begin with 'FORM'", "name"), 4: ("form type is not 'IFRS'", "name"), 5: ("FORM length", "put behind it"),
    6: ("ends within the header", "get it again"), 28: ("length of a chunk runs past the end", "length of the chunk's data"),
    29: ("without the padding byte", "put a zero byte there"), 7: ("is not zero", "Set it to zero"), 8: ("first chunk", "Pack"), 9: ("second index", "Pack"),
    10: ("length of the index", "Pack"), 11: ("4,096 entries", "fewer resources"), 12: ("usage of an entry", "Pack"),
    13: ("begins where", "Pack"), 14: ("does not suit the usage of its entry", " takes "),
    15: ("number other than 0", "Pack"), 16: ("same usage and number", "Pack"),
    27: ("not in the order of the chunks", "by their starts"), 17: ("second 'RelN' or 'Fspc'", "Pack"),
    18: ("not 2 bytes long", "Pack"), 19: ("not in the index or is a Rect", "Pack"), 21: ("cannot be undone", "journal"),
    22: ("no such resource", "blorb list"), 23: ("shares the chunk", "add it again"), 26: ("nothing to undo", "FILE.undo"),
    30: ("must be a whole file", "whole AIFF file"), 41: ("runs past what holds it", "have it saved again"),
    42: ("deeper than 16 levels", "fewer groups"), 43: ("stands where it may not", "as one FORM, LIST or CAT"),
    44: ("is missing or not zero", "zero byte behind each chunk"), 35: ("not this file's: that row is the first that is wrong or missing;", "blorb table FILE"),
    31: ("second 'Reso'", "one of them"), 32: ("length of the 'Reso' chunk", "28 for each picture"),
    33: ("number that may not be in it", "a limit with numerator 0 is none"),
    36: ("second 'RDes'", "all texts"), 37: ("do not fill it exactly", "for each text"), 38: ("same usage and number", "one text"),
    39: ("not UTF-8", "Save the text as UTF-8"), 40: ("no room for the 'RDes'", "shorter texts"),
    101: ("would be longer", "smaller data"), 109: ("index's type 'RIdx'", " takes "), 111: ("would have more", "Remove"),
    112: ("no such usage", "Pict, Snd, Data or Exec"), 114: ("does not suit the usage", " takes "),
    115: ("number 0 and no other", "number 0"), 116: ("has a resource with this", "blorb replace"),
    119: ("names this picture", "PNG or JPEG"),
}


def refused(number, place, *words, advice=None, saying=None, **more):
    """Runs it where the library must refuse: standard error says in one line which rule is broken and where, then what to do."""
    result = run(*words, **more)
    return refused_saying(number, rf"blorb: .*: refused {number} at {place}: [a-z'].+\.", advice, words, result, saying)


def refused_list(number, place, *words, advice=None, **more):
    """The same of list: number and place are on standard output, as 01's lister prints them, and the reason on standard error."""
    result = run("list", *words, **more)
    same(result.out, b"refused %d at %d\n" % (number, place), f"list {words}: the lister's line")
    expect(": refused " not in result.err, f"list {words}: said once: {result.err}")
    return refused_saying(number, r"blorb: .*: [a-z].+\.", advice, words, result)


def refused_saying(number, pattern, advice, words, result, saying=None):
    same(result.status, 1, f"{words} must be refused with {number}: {result}")
    line, _, rest = result.err.partition("\n")
    expect(re.fullmatch(pattern, line), f"{words}: wanted {pattern}, got {result.err}")
    about, what_to_do = SAID[number]
    expect((saying or about) in line and rest.startswith("  ") and (advice or what_to_do) in rest, f"{words}: what is said of {number}: {result.err}")
    return result


def failed(*words, saying="", **more):
    """Runs it where it must end with 2; nothing on standard output, and a reason on standard error."""
    result = run(*words, **more)
    expect(result.status == 2 and not result.out and result.err.startswith("blorb") and saying in result.err,
           f"{words} must fail saying {saying!r}: {result}")
    return result


def contents(folder):
    """Every file in a folder, by name."""
    return {p.name: p.read_bytes() for p in Path(folder).iterdir()}


def restore(folder, files):
    """Makes a folder hold exactly these files."""
    for p in Path(folder).iterdir():
        p.unlink()
    for name, held in files.items():
        (Path(folder) / name).write_bytes(held)


def edited(change, file, *arguments, profile=reference.PLAIN):
    """What the reference makes of a file: change is added, replaced or removed of editing_reference."""
    entries, chunks, _ = change(file, profile, *arguments)
    return editing_reference.judged(entries, chunks, profile)


def listing(file, profile=reference.PLAIN):
    """What 01's lister prints of a file, by the reference, without the lister's own limit, and under any profile."""
    try:
        chunks, entries = reference.parse(file, profile)
    except reference.Refusal as r:
        return b"refused %d at %d\n" % (r.number, r.place)
    by_start = {c.start: c for c in chunks}
    lines = [b"blorb %d bytes %d resources\n" % (len(file), len(entries))]
    for e in entries:
        c = by_start[e.start]
        length = len(c.body) + (8 if c.kind == b"FORM" else 0)      # of what a lookup gives (02, P3)
        lines.append(b"%s %d at %d %s %d\n" % (e.usage, e.number, e.start, c.kind, length))
    return b"".join(lines)


# ---- FILE.undo, by its description in docs/COMMAND.md

JOURNAL_HEAD = b"BLORBUN2" + bytes(8)
State = namedtuple("State", "at before below edits record_at record_length record_hash length hash")


def number8(held, at):
    return int.from_bytes(held[at:at + 8], "big")


def state_at(journal, at):
    """The state that stands there; its seal is right."""
    held = journal[at:at + 160]
    same((held[:8], number8(held, 8)), (b"STATE\0\0\0", at), "a state's name and place")
    same(held[128:], hashlib.sha256(journal[:16] + held[:128]).digest(), f"the seal of the state at {at}")
    return State(*(number8(held, n) for n in range(8, 56, 8)), held[56:88], number8(held, 88), held[96:128])


def live_records(journal):
    """The records that undo can take back from the last state, the oldest first."""
    state, records = state_at(journal, len(journal) - 160), []
    while state.edits > 0:
        record = journal[state.record_at:state.record_at + state.record_length]
        same(hashlib.sha256(record).digest(), state.record_hash, f"the hash of the record at {state.record_at}")
        records.insert(0, record)
        state = state_at(journal, state.below)
    return records


def version_1(records, file, before=None):
    """A journal of version 1 for this file, the last call having added the last record to the file before."""
    def state(used, held):
        return used.to_bytes(8, "big") + len(held).to_bytes(8, "big") + hashlib.sha256(held).digest()
    body, last = b"".join(records), len(records[-1]) if records else 0
    held = b"BLORBUN1" + state(len(body) - last, b"?" if before is None else before) + state(len(body), file) + body
    return held + hashlib.sha256(held).digest()


# ---- data of each kind

def png():
    """Two by two pixels of true colour."""
    def part(kind, body):
        return be(len(body)) + kind + body + be(zlib.crc32(kind + body))
    rows = b"\0" + bytes([255, 0, 0, 0, 255, 0]) + b"\0" + bytes([0, 0, 255, 255, 255, 255])
    head = be(2) + be(2) + bytes([8, 2, 0, 0, 0])
    return b"\x89PNG\r\n\x1a\n" + part(b"IHDR", head) + part(b"IDAT", zlib.compress(rows)) + part(b"IEND", b"")


def jpeg():
    """One grey pixel, arithmetic coding."""
    return bytes.fromhex(
        "ffd8ffdb004300030202020202030202020303030304060404040404080606050609080a0a090809090a0c0f0c0a0b0e0b09090d110d0e0f10"
        "1011100a0c12131210130f101010ffc9000b080001000101011100ffcc000600101005ffda0008010100003f00d2cf20ffd9")


def ogg():
    """A whole Ogg Vorbis file: a tone of 440 Hz for a tenth of a second, one channel, 8000 Hz; oggenc made it (-q -1 -s 1)."""
    return (ROOT / "host/tests/data/tone.ogg").read_bytes()


def mod():
    """A whole module of four channels: a title, 31 empty samples, one position, one pattern without notes."""
    return b"quiet".ljust(20, b"\0") + bytes(31 * 30) + b"\x01\x7f" + bytes(128) + b"M.K." + bytes(64 * 4 * 4)


def aiff(samples=b"\0\x40\0\xc0"):
    """One channel of 8-bit samples at 8000 Hz; a whole file, with its FORM header."""
    def part(kind, body):
        return kind + be(len(body)) + body + bytes(len(body) % 2)
    rate = (16383 + 12).to_bytes(2, "big") + (8000 << 51).to_bytes(8, "big")
    comm = b"\0\1" + be(len(samples)) + b"\0\x08" + rate
    body = b"AIFF" + part(b"COMM", comm) + part(b"SSND", bytes(8) + samples)
    return b"FORM" + be(len(body)) + body


def story(version=5, length=1024):
    """The head of a story file of the Z-machine whose addresses lie in the file, and zeros."""
    return bytes([version, 0, 0, 1]) + (64).to_bytes(2, "big") * 6 + bytes(2) + b"261116" + bytes(length - 24)


def glulx():
    return b"Glul\0\3\1\2" + bytes(248)
