"""The artists' group files: forms lists their FORMs and takes them out, on trees whose rows follow from how they were made."""
from building import Dice, blorb, chunk, put
from command_kit import ROOT, aiff, be, contents, done, expect, failed, jpeg, refused, run, same, tried

LIMIT = 16_777_216
NAMES = (b"FORM", b"LIST", b"CAT ")


def holder(name, kind, *parts):
    """A FORM, group or PROP of this type."""
    return chunk(name, kind + b"".join(parts))


def nested(name, levels):
    """So many of them, each in the one before; all of type ILBM."""
    return b"".join(name + be(12 * (levels - i) - 8) + b"ILBM" for i in range(levels))


def tree(dice, name, depth, below):
    """A FORM or group at this depth with up to so many levels below: its bytes, and rows (type, place in it, length, depth)."""
    kind = (b"ILBM", b"8SVX", b"AIFF", b"\x1b[2J", b"CAT ")[dice.below(5)]
    parts, rows, at = [], [], 12
    if name == b"LIST":
        parts = [holder(b"PROP", b"ILBM", chunk(b"CMAP", bytes(dice.below(4)))) for _ in range(dice.below(3))]
        at += sum(len(p) for p in parts)
    for _ in range(1 + dice.below(3)):
        if name == b"FORM" and dice.below(2) == 0:
            part, inside = chunk(b"BODY", bytes([7] * dice.below(9))), []
        elif below > 0:
            part, inside = tree(dice, NAMES[dice.below(3)], depth + 1, below - 1)
        else:
            continue
        rows += [(k, at + start, length, level) for k, start, length, level in inside]
        parts.append(part)
        at += len(part)
    held = holder(name, kind, *parts)
    return held, ([(kind, 0, len(held) - 8, depth)] if name == b"FORM" else []) + rows


def printed(held, rows):
    """What forms prints of a file with these rows."""
    lines = [f"group {len(held)} bytes {len(rows)} form{'' if len(rows) == 1 else 's'}\n"]
    for i, (kind, start, length, depth) in enumerate(rows):
        shown = "".join(chr(c) if 32 <= c < 127 else f"\\x{c:02x}" for c in kind)
        lines.append(f"{'  ' * (depth - 1)}{i}: '{shown}' at {start} length {length} depth {depth}\n")
    return "".join(lines).encode()


def trees(work):
    """Lists of trees, and every FORM taken out: to standard output, to a file, and from there again."""
    file, out = work / "group.iff", work / "out.iff"
    dice = Dice(85)
    for n in range(60):
        held, rows = tree(dice, NAMES[n % 3], 1, n % 6)
        file.write_bytes(held)
        same(done("forms", file), printed(held, rows), f"the list of tree {n}")
        for i, (_, start, length, depth) in tried(enumerate(rows)):
            wanted = held[start:start + 8 + length]
            same(done("forms", file, str(i)), wanted, f"FORM {i} of tree {n}")
            done("forms", file, str(i), "-o", out)
            same(out.read_bytes(), wanted, f"FORM {i} of tree {n} in a file")
            inside = [(k, s - start, m, d + 1 - depth) for k, s, m, d in rows if start <= s < start + 8 + length]
            same(done("forms", out), printed(wanted, inside), f"FORM {i} of tree {n} as a group file")
        refused(22, 0, "forms", file, str(len(rows)), saying=f"has no FORM {len(rows)}.", advice="from 0")
        refused(22, 0, "forms", file, "4294967295", "-o", work / "none", saying="has no FORM 4294967295.", advice="from 0")
    same(sorted(contents(work)), ["group.iff", "out.iff"], "nothing else is written")


def levels(work):
    """16 and 17 levels, two million nested headers, and as many FORMs as there can be."""
    file = work / "group.iff"
    for name in NAMES:
        file.write_bytes(nested(name, 16))
        rows = [(b"ILBM", 12 * i, 12 * (16 - i) - 8, i + 1) for i in range(16)] if name == b"FORM" else []
        same(done("forms", file), printed(nested(name, 16), rows), "16 levels")
        for count in (17, 18, 1000, LIMIT // 12):
            file.write_bytes(nested(name, count))
            refused(42, 192, "forms", file)
            refused(42, 192, "forms", file, "0")
        file.write_bytes(nested(name, 2_000_000))
        refused(1, 0, "forms", file, advice="several files")
        file.write_bytes(b"".join(name + be(8 * (2_000_000 - i) - 8) for i in range(2_000_000)))
        refused(41, 12, "forms", file)
    many = holder(b"CAT ", b"ILBM", holder(b"FORM", b"ILBM") * (LIMIT // 12 - 1))
    file.write_bytes(many)
    lines = done("forms", file).splitlines()
    same((len(lines), lines[-1]), (LIMIT // 12, b"  %d: 'ILBM' at %d length 4 depth 2" % (LIMIT // 12 - 2, len(many) - 12)), "1,398,100 FORMs")
    same(done("forms", file, str(LIMIT // 12 - 2)), holder(b"FORM", b"ILBM"), "the last of them")


def faults(work):
    """Each refusal, by the rules of the request."""
    file = work / "group.iff"
    form, body, prop = holder(b"FORM", b"ILBM"), chunk(b"BODY", b"eel"), holder(b"PROP", b"ILBM")
    for number, place, held in (
            (41, 0, b""), (41, 0, b"FORM\0\0\0"), (41, 0, be(0)), (41, 0, put(form, 7, b"\3")), (41, 0, put(form, 7, b"\5")),
            (41, 12, holder(b"FORM", b"ILBM", b"BODY" + be(9) + b"eel!")), (41, 12, holder(b"LIST", b"ILBM", chunk(b"PROP", b"ab"))),
            (43, 0, body), (43, 0, prop), (43, 12, form + b"\0"), (43, 12, holder(b"FORM", b"ILBM", prop)), (43, 12, holder(b"CAT ", b"ILBM", prop)),
            (43, 12, holder(b"LIST", b"ILBM", body)), (43, 24, holder(b"LIST", b"ILBM", form, prop)),
            (44, 0, b"FORM" + be(5) + b"ILBM!\1"), (44, 12, put(holder(b"FORM", b"ILBM", body), 23, b"\1"))):
        file.write_bytes(held)
        refused(number, place, "forms", file)
        refused(number, place, "forms", file, "0", "-o", work / "out")
    same(sorted(contents(work)), ["group.iff"], "a refused file leaves nothing")
    failed("forms", work / "missing", saying="cannot be opened")
    failed("forms", file, "-o", work / "out", saying="N is missing")
    for n in ("", "-1", "x", "1.0", "4294967296"):
        failed("forms", file, n, saying="from 0, in digits")
    failed("forms", file, "0", "1", saying="too much")


def other_files(work):
    """Blorb files and AIFF sounds are FORMs too; FILE itself is not overwritten, and names of the program's own are refused."""
    file, sound = work / "game.blb", aiff(b"even")
    sample = (ROOT / "samples/eel.blb").read_bytes()
    file.write_bytes(sample)
    same(done("forms", file), printed(sample, [(b"IFRS", 0, 40, 1)]), "sample A")
    same(done("forms", file, "0"), sample, "sample A whole")
    held = blorb([(b"Pict", 1, 0), (b"Snd ", 3, 1)], [(b"JPEG", jpeg()), (b"FORM", sound[8:])])
    file.write_bytes(held)
    at = held.index(sound)
    same(done("forms", file), printed(held, [(b"IFRS", 0, len(held) - 8, 1), (b"AIFF", at, len(sound) - 8, 2)]), "a Blorb file with a sound")
    same(done("forms", file, "1"), sound, "its sound")
    same(done("forms", "--adrift", file), done("forms", file), "no profile is asked for")
    file.write_bytes(held[:at + 16] + be(1000) + held[at + 20:])
    expect(run("check", file).out.startswith(b"accepted "), "a sound that is damaged inside")
    refused(41, at + 12, "forms", file)
    file.write_bytes(held)
    failed("forms", file, "-o", work / "none", saying="usage: blorb forms FILE [N [-o OUT]]\n")
    even = ROOT / "host/tests/data/even.aiff"
    same(done("forms", even), printed(even.read_bytes(), [(b"AIFF", 0, 246, 1)]), "a sound by itself")
    failed("forms", file, "0", "-o", file, saying="FILE itself")
    failed("forms", file, "0", "-o", work / "x.undo", saying="own")
    failed("forms", work / "x.table", saying="own")
    same(run("forms", "/dev/stdin", stdin=sound).out, printed(sound, [(b"AIFF", 0, len(sound) - 8, 1)]), "a file without a name")
    same(contents(work), {"game.blb": held}, "nothing changes")
    refused(22, 0, "forms", file, "2", saying="the file has no FORM 2.", advice="from 0")


PARTS = (trees, levels, faults, other_files)
