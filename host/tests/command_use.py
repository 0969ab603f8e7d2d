"""Every command and exit status, on good files, damaged files, files at the limit, and where the system fails."""
import fcntl
import importlib
import importlib.util
import io
import os
import resource
import shutil
import stat
import subprocess
import time
import warnings

from building import Dice, blorb, chunk, form, grow, index, put, put32, right_length
from command_kit import (PROGRAM, ROOT, aiff, be, contents, done, edited, editing_reference, expect, failed, jpeg, listing,
                         live_records, mod, ogg, png, reference, refused, refused_list, run, same, tried, warned)

BLANK = bytes.fromhex("464f524d000000104946525352496478 0000000400000000")
SAMPLE_A = bytes.fromhex("464f524d00000028 49465253 5249647800000010 00000001 446174610000000700000024 5445585400000003 65656c00")
LIMIT = 16_777_216
NAMES = ("list", "info", "check", "get", "sheet", "unpack", "mend", "forms", "scale", "describe", "new", "add", "replace", "remove", "link", "undo", "history", "forget")
NOBODY = 65534
SOUNDS = ROOT / "host/tests/data"


def help_and_misuse(work):
    for words in (["--help"], ["-h"], ["help"]):
        text = done(*words).decode()
        expect(all(f"blorb {name} FILE" in text for name in NAMES), "help names every command")
    for name in NAMES:
        for words in ([name, "--help"], [name, "-h"], ["help", name], ["--help", name], [name, "--help", "more"]):
            expect(done(*words).startswith(b"usage: blorb %s FILE" % name.encode()), f"{words}")
        expect("missing: FILE" in failed(name, saying=f"usage: blorb {name} FILE").err, f"{name}: what is missing is named")
        if name != "check":      # which takes any number of files
            failed(name, *["x"] * 9, saying="usage: blorb")
        failed(name, "--unknown", saying="put -- in front")
    expect(done("--version").startswith(b"blorb "), "the version")
    failed(saying="--help")
    failed("lists", "x", saying="--help")
    failed("help", "lists", saying="no command lists")
    for words, missing in ((["add", "x"], "USAGE, NUMBER, DATAFILE"), (["add", "x", "Pict", "1"], "DATAFILE"),
                           (["get", "x", "Pict"], "NUMBER"), (["remove", "x"], "USAGE, NUMBER"),
                           (["link", "x", "Pict", "1"], "NEWUSAGE, NEWNUMBER"), (["link", "x", "Pict", "1", "Pict"], "NEWNUMBER")):
        failed(*words, saying=f"missing: {missing}\n")
    failed("add", work / "x", "Pict", "1", "PNG", saying="DATAFILE is missing")
    for number in ("0", "-1", "x", "4294967296"):
        failed("undo", work / "x", number, saying="from 1")
    failed("list", "x", "--long", "--json", saying="either")
    failed("get", "x", "--all", "y", "-o", "z", saying="either")
    failed("get", "x", "Pict", "1", "--all", "y", saying="too much")
    failed("get", "x", "Pict", "1", "--force", saying="--force is for --all")
    failed("mend", "x", saying="missing: -o OUT")
    expect(done("pack", "--help").startswith(b"usage: blorb pack LIST OUT"), "help of pack, which takes a list")
    failed("pack", saying="missing: LIST, OUT")
    failed("pack", "x", saying="missing: OUT")
    failed("unpack", "x", saying="missing: FOLDER")
    expect("\x1b" not in failed("\x1b[2J").err + failed("list", "x", "\x1b[2J").err, "words are shown safely")
    file = work / "misuse.blb"
    done("new", file)
    for number in ("", "-1", "+1", " 1", "1 ", "0x1", "1e3", "1.0", "4294967296", "18446744073709551616", "9" * 40, "\u0661"):
        failed("get", file, "Data", number, saying="usage: blorb get")
        failed("add", file, "Data", number, "TEXT", "-", saying="usage: blorb add")
    for tag in ("", "Datas", "\u20ac\u20ac"):
        failed("remove", file, tag, "1", saying="usage: blorb remove")
        failed("replace", file, "Data", "1", tag, "-", saying="usage: blorb replace")
    failed("get", file, "Data", "1", "-o", saying="takes one name, once: -o")
    failed("get", file, "Data", "1", "-o", "a", "-o", "b", saying="takes one name, once: -o")
    failed("get", file, "--all", saying="takes one name, once: --all")
    same(contents(work), {"misuse.blb": BLANK}, "misuse changes nothing")


def names_with_dashes(work):
    """--help is a data file's name where it does not stand right behind the command; -- ends the options."""
    done("new", "--", "--json", cwd=work)
    (work / "--help").write_bytes(b"help")
    done("add", "--", "--json", "Data", "1", "TEXT", "--help", cwd=work)
    done("new", "plain", cwd=work)
    done("add", "plain", "Data", "1", "TEXT", "--help", cwd=work)
    same(done("get", "plain", "Data", "1", cwd=work), b"help", "the data of a file called --help")
    same(done("list", "--", "--json", cwd=work), listing((work / "--json").read_bytes()), "a file called --json")
    done("get", "plain", "Data", "1", "-o", "--help-too", cwd=work)
    same((work / "--help-too").read_bytes(), b"help", "OUT may begin with dashes")


def samples_of_01(work):
    file = work / "eel.blb"
    same(done("new", file), b"", "new is silent")
    same(file.read_bytes(), BLANK, "a blank file")
    same(done("list", file), b"blorb 24 bytes 0 resources\n", "list of a blank file")
    (work / "eel").write_bytes(b"eel")
    same(done("add", file, "Data", "7", "TEXT", work / "eel"), b"", "add is silent")
    same(file.read_bytes(), SAMPLE_A, "sample A")
    same(done("list", file), b"blorb 48 bytes 1 resources\nData 7 at 36 TEXT 3\n", "the lister's text of A")
    same(done("check", file), b"accepted 48 bytes 1 resource\n", "check of A")
    same(done("get", file, "Data", "7"), b"eel", "the data of A")
    done("add", file, "Pict", "1", "Rect", "-", stdin=be(320) + be(0))
    sample_b = file.read_bytes()
    same(sample_b, edited(editing_reference.added, SAMPLE_A, b"Pict", 1, b"Rect", be(320) + be(0)), "sample B")
    same(done("list", file), b"blorb 76 bytes 2 resources\nData 7 at 48 TEXT 3\nPict 1 at 60 Rect 8\n", "the text of B")
    done("remove", file, "Data", "7")
    same(done("list", file), b"blorb 52 bytes 1 resources\nPict 1 at 36 Rect 8\n", "B without Data 7")
    done("undo", file)
    same(file.read_bytes(), sample_b, "undo gives B")
    done("replace", file, "Data", "7", "BINA", "/dev/null", may_warn=True)
    same(done("list", file), b"blorb 72 bytes 2 resources\nData 7 at 48 BINA 0\nPict 1 at 56 Rect 8\n", "B with an empty 'BINA'")
    for before in (sample_b, SAMPLE_A, BLANK):
        done("undo", file)
        same(file.read_bytes(), before, "undo, one edit after the other")
    refused(26, 0, "undo", file)
    same(sorted(contents(work)), ["eel", "eel.blb"], "with nothing to undo there is no journal, and nothing else is left")
    file.write_bytes(put(SAMPLE_A, 47, b"\1"))
    refused_list(7, 47, file)
    same(refused(7, 47, "check", file).out, b"", "check refuses on standard error")


def media(work):
    """Whole pictures and sounds of each kind, and other data, go in and come out byte for byte; tags without their spaces."""
    file, out = work / "game.blb", work / "out"
    parts = [("Pict", "1", "PNG", png()), ("Pict", "2", "JPEG", jpeg()), ("Snd", "3", "OGGV", ogg()),
             ("Snd", "4", "FORM", aiff()), ("Snd", "5", "FORM", aiff(b"odd")),
             ("Snd ", "6", "MOD ", mod()), ("Exec", "0", "AGT", b"\1\2\3"),
             ("Data", "4294967295", "TEXT", "Wie geht's?\n".encode()), ("Data", "0", "BINA", b"")]
    done("new", file)
    wanted = BLANK
    for usage, number, kind, data in parts:
        (work / "data").write_bytes(data)
        done("add", file, usage, number, kind, work / "data", may_warn=True)
        wanted = edited(editing_reference.added, wanted, usage.ljust(4).encode(), int(number), kind.ljust(4).encode(), data)
        same(file.read_bytes(), wanted, f"the file with {usage} {number}")
    same(done("list", file), listing(wanted), "list of the whole game")
    for usage, number, _, data in parts:
        same(done("get", file, usage, number), data, f"get {usage} {number}")
        done("get", file, usage, number, "-o", out)
        same(out.read_bytes(), data, f"get {usage} {number} -o")
    done("get", "-o", out, file, "Pict", "1")
    same(out.read_bytes(), png(), "-o in front")
    # An AIFF sound stands in the file as its own file does. Only the whole file is taken.
    expect(aiff() in wanted and aiff(b"odd") in wanted, "a whole AIFF file stands in the Blorb file")
    for wrong, advice in ((aiff()[:-1], "has 58 bytes, but there are only 57"), (aiff() + b"\0", "ends after 58 bytes, but the file has 59"),
                          (aiff()[8:], "without its first eight bytes"), (b"FORM" + be(5) + b"AIFC", "AIFF-C"), (b"FORM", None), (b"", None),
                          (b"form" + aiff()[4:], None)):
        refused(30, 0, "replace", file, "Snd", "4", "FORM", "-", stdin=wrong, advice=advice)
        refused(30, 0, "add", file, "Snd", "9", "FORM", "-", stdin=wrong, advice=advice)
    for wrong, advice in ((b"FORM" + be(4) + b"AIFC", "AIFF-C"), (b"FORM" + be(0), None), (b"FORM" + be(4) + b"IFRS", None)):
        refused(114, 24 + 12 * 3, "replace", file, "Snd", "4", "FORM", "-", stdin=wrong, advice=advice)
    # By the type alone; a resource that is not there comes first.
    refused(30, 0, "add", file, "Pict", "9", "FORM", "-", stdin=aiff() + b"\0")
    refused(114, 24 + 12 * 9, "add", file, "Pict", "9", "FORM", "-", stdin=aiff())
    refused(22, 0, "replace", file, "Snd", "9", "FORM", "-", stdin=aiff() + b"\0")
    same(file.read_bytes(), wanted, "a refused edit changes nothing")
    # Eight bytes belong to the chunk's header only where the type is FORM.
    done("add", file, "Data", "9", "BINA", "-", stdin=aiff())
    same(done("get", file, "Data", "9"), aiff(), "an AIFF file as plain data")


def by_sox(sound):
    return subprocess.run(["sox", "-t", "aiff", "-", "-t", "raw", "-"], input=sound, capture_output=True, check=True).stdout


def by_aifc(sound):
    with warnings.catch_warnings():
        warnings.simplefilter("ignore", DeprecationWarning)
        aifc = importlib.import_module("aifc")
    with aifc.open(io.BytesIO(sound)) as file:
        return file.readframes(file.getnframes())


def players():
    """What gives the samples of an AIFF file and is nothing of this project: SoX, and Python's own reader, which it had up to 3.12."""
    return {name: heard for name, heard, there in (("SoX", by_sox, shutil.which("sox")), ("aifc", by_aifc, importlib.util.find_spec("aifc"))) if there}


def played_back(work):
    """AIFF files that SoX made (sox -D -r 8000 -n -b 8 -c 1 --comment "" odd.aiff synth 101s sine 440; even.aiff has -b 16 and 100s): what get
    writes are the same bytes, and others play them."""
    file, even, odd = work / "game.blb", SOUNDS / "even.aiff", SOUNDS / "odd.aiff"
    whole = odd.read_bytes()[:-1]
    done("new", file)
    done("add", file, "Snd", "1", "FORM", even)
    # Behind a FORM of odd length SoX writes the padding of that chunk, which its length does not count.
    refused(30, 0, "add", file, "Snd", "2", "FORM", odd, advice="The AIFF form ends after 155 bytes, without the padding byte of its last chunk")
    (work / "odd.aiff").write_bytes(whole)
    warned("add", file, "Snd", "2", work / "odd.aiff", saying=["'Snd ' 2: refused 49"])
    sounds = {"1": even.read_bytes(), "2": whole}
    same(done("list", file), b"blorb 458 bytes 2 resources\nSnd  1 at 48 FORM 254\nSnd  2 at 302 FORM 155\n", "the lengths of the whole files")
    for number, sound in sounds.items():
        same(done("get", file, "Snd", number), sound, f"the AIFF file {number} comes out as it went in")
    warned("replace", file, "Snd", "1", "FORM", work / "odd.aiff", saying=["'Snd ' 1: refused 49"])
    same((done("get", file, "Snd", "1"), done("get", file, "Snd", "2")), (whole, whole), "the other sound in its place")
    done("undo", file)
    done("get", file, "--all", work / "all")
    same(contents(work / "all"), {f"Snd-{number}.aiff": sound for number, sound in sounds.items()}, "get --all")
    found = players()
    if not found:
        print("  played_back: there is neither sox nor Python's aifc here, so nothing was played back")
    for name, heard in found.items():
        for number, (sound, length) in {"1": (even, 200), "2": (odd, 101)}.items():
            samples = heard(done("get", file, "Snd", number))
            same((samples, len(samples)), (heard(sound.read_bytes()), length), f"what {name} hears in {number}")


def links(work):
    """One chunk for two names: made, read, kept apart from replacements, removed on either side, and undone."""
    file = work / "game.blb"
    start = edited(editing_reference.added, SAMPLE_A, b"Pict", 1, b"Rect", be(320) + be(200))
    file.write_bytes(start)
    same(done("link", file, "Pict", "1", "Pict", "2"), b"", "link is silent")
    linked = file.read_bytes()
    same(linked, edited(editing_reference.linked, start, b"Pict", 1, b"Pict", 2), "the file with a link")
    same(done("list", file), b"blorb 88 bytes 3 resources\nData 7 at 60 TEXT 3\nPict 1 at 72 Rect 8\nPict 2 at 72 Rect 8\n", "list")
    same(done("list", file, "--long").count(b"one chunk for 2 resources"), 2, "list --long says so")
    same(done("get", file, "Pict", "2"), be(320) + be(200), "the new name's data")
    same(done("history", file), b"1 linked Pict 2\n", "history")
    same(live_records((work / "game.blb.undo").read_bytes()),
         [bytes([5]) + b"Pict" + be(2) + be(2) + be(72) + bytes(4) + be(0) + be(25)], "the record")
    for number in ("1", "2"):
        refused(23, 0, "replace", file, "Pict", number, "Rect", "-", stdin=bytes(8))
        done("remove", file, "Pict", number)
        same(file.read_bytes(), edited(editing_reference.removed, linked, b"Pict", int(number)), f"without Pict {number}")
        same(done("get", file, "Pict", str(3 - int(number))), be(320) + be(200), "the other one keeps the data")
        done("undo", file)
        same(file.read_bytes(), linked, "undo of the removal")
    expect("'Pict' 9." in refused(22, 0, "link", file, "Pict", "9", "Pict", "3").err, "the missing original is named")
    expect("'Pict' 1 as 'Pict' 2." in refused(116, 60, "link", file, "Pict", "1", "Pict", "2", advice="another NEWNUMBER").err, "both names")
    refused(114, 60, "link", file, "Pict", "1", "Data", "7", advice="must suit the new usage")
    same(file.read_bytes(), linked, "a refused link changes nothing")
    done("link", file, "Pict", "2", "Pict", "3")
    done("link", file, "Data", "7", "Data", "8")
    same(done("list", file).count(b" at 84 TEXT "), 2, "a link in front")
    done("undo", file, "3")
    same(contents(work), {"game.blb": start}, "all undone")
    done("link", file, "Pict", "1", "Pict", "2", "--no-undo")
    same(contents(work), {"game.blb": linked}, "--no-undo")
    done("new", work / "story.blb")
    done("add", work / "story.blb", "Exec", "0", "AGT", "-", stdin=b"story")
    refused(115, 40, "link", work / "story.blb", "Exec", "0", "Exec", "1", advice="one name Exec 0")
    for wrong in ("-1", "x", "4294967296", ""):
        failed("link", file, "Pict", "1", "Pict", wrong, saying="usage: blorb link")
    failed("link", file, "Pict", "1", "Picts", "3", saying="one to four letters")


def wrong_files():
    """One file at least for each refusal of the reader, and what it is."""
    text = [(b"TEXT", b"eel")]
    two = blorb([(b"Data", 7, 0), (b"Pict", 1, 1)], text + [(b"Rect", bytes(8))])
    row = (b"Data", 7, 36)
    return {
        2: BLANK[:11], 3: b"form" + BLANK[4:], 4: put(BLANK, 8, b"IFR!"), 5: put32(BLANK, 4, 17),
        6: right_length(SAMPLE_A[:43]), 28: put32(SAMPLE_A, 40, 5), 29: right_length(SAMPLE_A[:47]),
        7: put(SAMPLE_A, 47, b"\1"), 8: form(chunk(b"ANNO")), 9: form(index([]), index([])), 10: put32(SAMPLE_A, 20, 2),
        11: form(index([(b"Data", i, 49188) for i in range(4097)]), chunk(b"TEXT")), 12: put(SAMPLE_A, 24, b"D\x1b[m"),
        13: put32(SAMPLE_A, 32, 37), 14: put(SAMPLE_A, 36, b"\0\n\xffX"), 15: form(index([(b"Exec", 1, 36)]), chunk(b"ZCOD")),
        16: blorb([(b"Data", 7, 0), (b"Data", 7, 0)], text), 17: form(index([]), chunk(b"RelN", b"ab"), chunk(b"RelN", b"ab")),
        27: blorb([(b"Pict", 1, 1), (b"Data", 7, 0)], text + [(b"Rect", bytes(8))]),
        18: form(index([row]), chunk(*text[0]), chunk(b"RelN", b"a")), 19: form(two[12:], chunk(b"Fspc", be(1))),
    }


def refused_files(work):
    file = work / "wrong.blb"
    for number, wrong in wrong_files().items():
        verdict = reference.read(wrong)
        same(verdict[:2], ("refused", number), "the reference's refusal")
        file.write_bytes(wrong)
        refused_list(*verdict[1:], file)
        same(run("list", file, "--json").out, b'{"refused": %d, "place": %d}\n' % verdict[1:], "list --json of a refused file")
        text = refused(*verdict[1:], "check", file).err
        expect(all(c == "\n" or " " <= c <= "~" for c in text), f"only printable text: {text!r}")
        if 12 <= number <= 16 or number == 27:
            i, usage = (verdict[2] - 24) // 12, {12: "'D\\x1b[m' 7", 15: "'Exec' 1"}.get(number, "'Data' 7")
            expect(f": entry {i}, {usage}, start " in text, f"the entry is named: {text}")
        refused(*verdict[1:], "get", file, "Data", "7", "-o", work / "out")
        refused(*verdict[1:], "add", file, "Data", "8", "TEXT", "-", stdin=b"new")
        refused(*verdict[1:], "replace", file, "Data", "7", "TEXT", "-", stdin=b"new")
        refused(*verdict[1:], "remove", file, "Data", "7")
        refused(*verdict[1:], "undo", file)
        refused(*verdict[1:], "history", file)
        same(contents(work), {"wrong.blb": wrong}, "a refused file is left alone")


def broken_off(work):
    """6, 28 and 29 are mended in three ways. What the advice says of 28 and 29 makes the file good."""
    file, advice = work / "broken.blb", {}
    cases = [(6, 36, right_length(SAMPLE_A[:43]), None), (6, 48, right_length(SAMPLE_A + b"TEXT"), None)]
    for place, length, wrong in ((40, 3, 5), (40, 3, 2 ** 32 - 1), (16, 16, 29), (16, 16, 2 ** 31)):
        cases.append((28, place, put32(SAMPLE_A, place, wrong), lambda s, p=place, m=length: put32(s, p, m)))
    for whole in (SAMPLE_A, right_length(BLANK + chunk(b"ANNO", b"x"))):
        cases.append((29, len(whole) - 1, right_length(whole[:-1]), lambda s: grow(s, 4, 1) + b"\0"))
    for number, place, broken, mend in cases:
        file.write_bytes(broken)
        advice[number] = refused(number, place, "check", file).err.partition("\n")[2]
        refused(number, place, "add", file, "Data", "8", "TEXT", "-", stdin=b"new")
        same(contents(work), {"broken.blb": broken}, "a refused file is left alone")
        if mend:
            file.write_bytes(mend(broken))
            expect(done("check", file).startswith(b"accepted"), f"{number} at {place} mended as advised")
    same(len(set(advice.values())), 3, f"three pieces of advice: {advice}")


def out_of_order(work):
    """27: entries that are not in the order of their chunks. Sorted by their starts, as advised, they make the file good."""
    file, names = work / "turned.blb", [(b"Data", 7, 0), (b"Pict", 1, 1), (b"Pict", 2, 2)]
    chunks = [(b"TEXT", b"eel"), (b"Rect", bytes(8)), (b"JPEG", jpeg())]
    for place, order in ((44, (1, 0, 2)), (44, (2, 1, 0)), (56, (0, 2, 1)), (44, (2, 0, 1)), (56, (1, 2, 0))):
        turned = blorb([names[k] for k in order], chunks)
        file.write_bytes(turned)
        refused(27, place, "check", file)
        refused(27, place, "get", file, "Data", "7")
        refused(27, place, "add", file, "Data", "8", "TEXT", "-", stdin=b"new")
        same(contents(work), {"turned.blb": turned}, "a refused file is left alone")
        rows = sorted((turned[i:i + 12] for i in range(24, 60, 12)), key=lambda row: row[8:])
        file.write_bytes(put(turned, 24, b"".join(rows)))
        expect(done("check", file).startswith(b"accepted"), "27 mended as advised")


def refused_edits(work):
    file = work / "game.blb"
    shared = blorb([(b"Pict", 1, 0), (b"Pict", 2, 0), (b"Data", 3, 1), (b"Pict", 4, 2)],
                   [(b"JPEG", jpeg()), (b"TEXT", b"odd"), (b"JPEG", jpeg()), (b"Fspc", be(4))])
    held = {"game.blb": shared}
    file.write_bytes(shared)
    last = 24 + 12 * 4
    for number, place, *words in (
            (22, 0, "get", "Data", "4"), (22, 0, "get", "Dat", "3"), (22, 0, "remove", "Data", "4"),
            (22, 0, "remove", "dat\n", "3"),
            (22, 0, "replace", "Snd", "3", "MOD", "-"), (23, 0, "replace", "Pict", "1", "PNG", "-"), (26, 0, "undo"),
            (109, len(shared) + 12, "add", "Data", "5", "RIdx", "-"), (112, last, "add", "\x1bPic", "5", "PNG", "-"),
            (114, last, "add", "Pict", "5", "\x1b[2J", "-"), (114, 48, "replace", "Data", "3", "JPEG", "-"),
            (115, last + 4, "add", "Exec", "1", "ZCOD", "-"), (116, last, "add", "Data", "3", "TEXT", "-"),
            (119, len(shared) - 12 - 8 - 108 + 8 - 12, "remove", "Pict", "4"),
            (22, 0, "link", "Pict", "5", "Pict", "1"), (22, 0, "link", "\x1bPic", "5", "Pict", "1"), (112, 48, "link", "Pict", "1", "\x1bPic", "5"),
            (114, 48, "link", "Pict", "1", "Snd", "5"), (116, 48, "link", "Pict", "1", "Pict", "1"), (116, 72, "link", "Pict", "1", "Pict", "4")):
        advice = {114: "one chunk", 116: "another NEWNUMBER"}.get(number) if words[0] == "link" else None
        text = refused(number, place, words[0], file, *words[1:], stdin=b"new", advice=advice).err
        expect(all(c == "\n" or " " <= c <= "~" for c in text), f"only printable text: {text!r}")
        same(contents(work), held, f"{words} refused, nothing changed")
    expect("'Data' 4." in refused(22, 0, "get", file, "Data", "4").err, "what is not there is named")
    full = blorb([(b"Data", i, 0) for i in range(4096)], [(b"TEXT", b"")])
    file.write_bytes(full)
    refused(111, 20, "add", file, "Data", "5000", "TEXT", "-")
    refused(111, 20, "link", file, "Data", "0", "Data", "5000")
    same(done("list", file), listing(full), "list of 4,096 entries")
    same(contents(work), {"game.blb": full}, "4,096 entries and no more")


def cut_and_damaged(work):
    """Every beginning of a file, every byte changed, and many changes at once: always the reference's answer."""
    dice, file = Dice(7), work / "bad.blb"
    whole = blorb([(b"Data", 7, 0), (b"Pict", 1, 1), (b"Snd ", 3, 2), (b"Pict", 2, 3)],
                  [(b"TEXT", b"eel"), (b"Rect", bytes(8)), (b"FORM", aiff()[8:]), (b"JPEG", b"\xff\xd8\xff"), (b"Fspc", be(2)),
                   (b"RelN", b"\0\1")])
    bad = [whole[:n] for n in range(len(whole))]
    bad += [put(whole, at, bytes([whole[at] ^ 1 << dice.below(8)])) for at in range(len(whole))]
    for _ in range(150):
        spoiled = whole
        for _ in range(1 + dice.below(3)):
            word = dice.one_of([be(dice.below(64)), b"RIdx", b"Fspc", dice.bytes(4)])
            spoiled = put(spoiled, 4 * dice.below(len(whole) // 4), word)
        bad.append(spoiled)
    for spoiled in tried(bad):
        file.write_bytes(spoiled)
        result = run("list", file)
        same(result.out, listing(spoiled), f"list of {spoiled.hex()}")
        bad_file = result.out.startswith(b"refused")
        same(result.status, 1 if bad_file else 0, f"status for {spoiled.hex()}")
        expect(bad_file == bool(result.err) and ": refused " not in result.err, f"{spoiled.hex()}: {result}")
        expect(all(c == "\n" or " " <= c <= "~" for c in result.err), f"only printable text: {result.err!r}")


KINDS = {"Data": ("TEXT", "BINA"), "Pict": ("PNG", "Rect"), "Snd": ("MOD", "OGGV"), "Exec": ("ZCOD", "AGT")}


def a_call(dice, file):
    """Words for the program and a change of the reference, which may be refused."""
    pairs = [("Data", 1 + dice.below(8)), ("Pict", 1 + dice.below(4)), ("Snd", 1 + dice.below(3)), ("Exec", dice.below(2))]
    usage, number = dice.one_of(pairs)
    kind = dice.one_of(KINDS[usage])
    data = dice.bytes(8 if kind == "Rect" else dice.below(40))
    what = dice.one_of(["added", "added", "added", "replaced", "removed", "linked", "linked"])
    tags = [usage.ljust(4).encode(), number]
    words = [{"added": "add", "replaced": "replace", "removed": "remove", "linked": "link"}[what], file, usage, str(number)]
    if what == "linked":
        tags += [usage.ljust(4).encode(), 10 + dice.below(30)]
        words += [usage, str(tags[-1])]
    elif what != "removed":
        tags += [kind.ljust(4).encode(), data]
        words += [kind, "-", "--as-is"]
    return words, data, lambda old: edited(getattr(editing_reference, what), old, *tags)


def chains(work):
    """Long mixed runs against the reference, then undo all the way back to the starting file."""
    dice, file = Dice(2004), work / "chain.blb"
    shared = blorb([(b"Pict", 1, 0), (b"Pict", 2, 0), (b"Data", 3, 1)], [(b"JPEG", jpeg()), (b"TEXT", b"odd"), (b"ANNO", b"x")])
    linked = 0
    for start in (BLANK, shared):
        file.write_bytes(start)
        states = [start]
        for _ in range(120):
            if dice.below(5) == 0:
                result = run("undo", file)
                same(result.status, 0 if len(states) > 1 else 1, f"undo: {result}")
                states = states[:-1] if len(states) > 1 else states
            else:
                words, data, change = a_call(dice, file)
                result = run(*words, stdin=data)
                try:
                    states.append(change(states[-1]))
                    same(result.status, 0, f"{words}: {result}")
                    linked += words[0] == "link"
                except reference.Refusal:
                    same(result.status, 1, f"{words}: {result}")
            same(file.read_bytes(), states[-1], "the file after a step")
        expect(len(states) > 10, "the run has edits left to undo")
        while len(states) > 1:
            done("undo", file)
            states.pop()
            same(file.read_bytes(), states[-1], "the file after an undo")
        refused(26, 0, "undo", file)
        same(contents(work), {"chain.blb": start}, "back at the starting file, byte for byte")
    expect(linked > 10, f"{linked} links in the runs")


def at_the_limit(work):
    file, data = work / "large.blb", work / "data"
    exact = blorb([(b"Data", 1, 0)], [(b"BINA", bytes(LIMIT - 44))])
    assert len(exact) == LIMIT
    file.write_bytes(exact)
    same(done("check", file), b"accepted 16777216 bytes 1 resource\n", "exactly the limit")
    same(done("get", file, "Data", "1"), bytes(LIMIT - 44), "its data")
    refused(101, 0, "add", file, "Data", "2", "BINA", "-")
    refused(101, 0, "link", file, "Data", "1", "Data", "2", advice="Remove another resource")
    data.write_bytes(b"\1" * (LIMIT - 44))
    done("replace", file, "Data", "1", "BINA", data)
    done("remove", file, "Data", "1")
    same(file.read_bytes(), BLANK, "all removed")
    done("add", file, "Data", "3", "BINA", data)
    same(done("get", file, "Data", "3"), data.read_bytes(), "the new data, up to exactly the limit")
    for _ in range(3):
        done("undo", file)
    expect(file.read_bytes() == exact, "undo of the largest edits")
    file.write_bytes(exact + b"\0")
    refused_list(1, 0, file)
    with open(file, "r+b") as f:
        f.truncate(40 << 30)    # a hole: reading it whole would take minutes
    refused(1, 0, "check", file)
    refused(1, 0, "remove", file, "Data", "1")
    with open(data, "r+b") as f:
        f.truncate(40 << 30)
    file.write_bytes(SAMPLE_A)
    refused(101, 0, "add", file, "Data", "8", "BINA", data)
    refused(22, 0, "replace", file, "Data", "8", "BINA", data)
    refused(101, 0, "replace", file, "Data", "7", "BINA", data)
    # Of a FORM only the beginning is read, too: its head decides whether it is too long or no whole file.
    for length, number in ((LIMIT + 7, 101), (LIMIT + 8, 101), (LIMIT + 9, 101), (LIMIT + 40000, 101), (LIMIT + 40001, 30), (1 << 31, 30)):
        sound = b"FORM" + be(min(length, LIMIT + 40000) - 8) + b"AIFF"
        with open(data, "wb") as f:
            f.write(sound)
            f.truncate(length)
        for words in (("add", file, "Snd", "8", "FORM"), ("add", file, "Snd", "8")):
            refused(number, 0, *words, data)
    with open(data, "wb") as f:
        f.write(b"FORM" + be(LIMIT - 44) + b"AIFF")
        f.truncate(LIMIT - 36)
    file.write_bytes(BLANK)
    warned("add", file, "Snd", "8", data, saying=["'Snd ' 8: refused 50"])
    same((len(file.read_bytes()), done("get", file, "Snd", "8")), (LIMIT, data.read_bytes()), "an AIFF file up to exactly the limit")
    done("undo", file)
    file.write_bytes(SAMPLE_A)
    same(file.read_bytes(), SAMPLE_A, "data over the limit")


def new_and_names(work):
    file = work / "game.blb"
    done("new", file)
    failed("new", file, saying="Move it away")
    failed("new", work, saying="taken")
    (work / "link").symlink_to(work / "nowhere")
    failed("new", work / "link")
    done("add", file, "Data", "7", "TEXT", "-", stdin=b"eel")
    journal = (work / "game.blb.undo").read_bytes()
    file.unlink()
    failed("new", file, saying="Move it away")
    expect(not file.exists() and (work / "game.blb.undo").read_bytes() == journal, "an older journal is neither used nor lost")
    expect(str(work.resolve() / "game.blb.undo") in failed("new", file).err, "a journal is named with its folder")
    failed("new", work / "no" / "game.blb")
    failed("add", work / "none.blb", "Data", "7", "TEXT", "-", saying="blorb new")
    failed("list", work / "none.blb", saying="Check the name")
    failed("add", work, "Data", "7", "TEXT", "-", saying="plain file")
    failed("list", work)
    os.mkfifo(work / "pipe")
    failed("add", work / "pipe", "Data", "7", "TEXT", "-", saying="plain file")
    failed("add", file, "Data", "7", "TEXT", work / "no data", saying="no data")
    text = failed("list", work / "\x1b[2J\n.blb").err
    expect("\x1b" not in text and text.count("\n") == 2, f"a name is shown safely: {text!r}")
    other = work / "other.blb"
    done("new", other)
    for name in ("other.blb.blorb-temp", "other.blb.undo.blorb-temp"):
        (work / name).mkdir()
        failed("add", other, "Data", "7", "TEXT", "-", saying="Move away")
        (work / name).rmdir()
    same(other.read_bytes(), BLANK, "a folder of a temporary file's name")
    long = work / ("n" * 240)
    failed("new", long, saying="shorter name")
    long.write_bytes(BLANK)
    failed("add", long, "Data", "7", "TEXT", "-", saying="shorter name")
    same(long.read_bytes(), BLANK, "a name too long for a journal's")
    done("new", work / ("n" * 239))
    done("add", work / ("n" * 239), "Data", "7", "TEXT", "-", stdin=b"eel")


def no_journal_covered(work):
    """What `get -o` writes never takes a journal's place: its file could neither be edited nor undone."""
    file, copy = work / "game.blb", work / "copy"
    done("new", file)
    done("add", file, "Data", "7", "TEXT", "-", stdin=b"eel")
    shutil.copy(work / "game.blb.undo", copy)
    (work / "link").symlink_to("game.blb.undo")
    held = contents(work)
    for name in ("game.blb.undo", "link", "copy"):
        intact(work, held, "get", file, "Data", "7", "-o", work / name, saying="another name")
    for name in ("game.blb.undo", "link", "copy"):
        (work / name).unlink()
    intact(work, {"game.blb": SAMPLE_A}, "get", file, "Data", "7", "-o", work / "game.blb.undo", saying="another name")


def links_and_permissions(work):
    (work / "real").mkdir()
    real, link = work / "real" / "game.blb", work / "link.blb"
    done("new", real)
    os.chmod(real, 0o750)
    if os.getuid() == 0:
        os.chown(real, NOBODY, NOBODY)
    link.symlink_to("real/game.blb")
    done("add", link, "Data", "7", "TEXT", "-", stdin=b"eel")
    expect(link.is_symlink() and real.read_bytes() == SAMPLE_A, "an edit goes through a link")
    same(sorted(contents(work / "real")), ["game.blb", "game.blb.undo"], "the journal lies beside the real file")
    for name in ("game.blb", "game.blb.undo"):
        status = (work / "real" / name).stat()
        same(stat.S_IMODE(status.st_mode), 0o750, f"permissions of {name}")
        expect(os.getuid() != 0 or (status.st_uid, status.st_gid) == (NOBODY, NOBODY), f"owner of {name}")
    done("undo", real)
    same(real.read_bytes(), BLANK, "undo by the other name")
    out = work / "out"
    out.write_bytes(b"old")
    os.chmod(out, 0o604)
    done("add", real, "Data", "7", "TEXT", "-", stdin=b"eel")
    done("get", link, "Data", "7", "-o", out)
    same((out.read_bytes(), stat.S_IMODE(out.stat().st_mode)), (b"eel", 0o604), "get -o keeps permissions")
    for name in (real, link):
        failed("get", link, "Data", "7", "-o", name, saying="itself")
    same(real.read_bytes(), SAMPLE_A, "get does not overwrite its own file")


def full_device(work, file):
    """A device of our own that is always full: a wrong program could replace the machine's by a plain file."""
    device = work / "full"
    try:
        os.mknod(device, 0o666 | stat.S_IFCHR, os.makedev(1, 7))
        os.close(os.open(device, os.O_WRONLY))
    except OSError:
        print("  not run: get -o into a full device (no right to make one); a pipe stands for it")
    else:
        failed("get", file, "Data", "7", "-o", device, saying="Make room")
        expect(stat.S_ISCHR(device.stat().st_mode), "a device is written to, not replaced")
    device.unlink(missing_ok=True)


def outputs(work):
    """Where standard output or OUT takes nothing."""
    file = work / "game.blb"
    file.write_bytes(SAMPLE_A)
    with open("/dev/full", "wb") as full:
        for words in (("list", file), ("check", file), ("get", file, "Data", "7"), ("--help",), ("list", "--help")):
            result = run(*words, stdout=full)
            expect(result.status == 2 and "Make room" in result.err, f"{words} on a full device: {result}")
    pipe = work / "pipe"
    os.mkfifo(pipe)
    reader = subprocess.Popen(["cat", pipe], stdout=subprocess.PIPE)
    done("get", file, "Data", "7", "-o", pipe)
    kept = stat.S_ISFIFO(pipe.stat().st_mode)
    if not kept:
        reader.kill()    # nobody would ever write to it
    same((reader.communicate()[0], kept), (b"eel", True), "a pipe is written to, not replaced")
    pipe.unlink()
    full_device(work, file)
    same(done("get", file, "Data", "7", "-o", "-", cwd=work), b"eel", "get -o - writes to standard output")
    failed("get", file, "Data", "7", "-o", work / "no" / "out")
    failed("get", file, "Data", "7", "-o", work)
    result = run("get", file, "Data", "7", preexec_fn=lambda: os.close(1))
    expect(result.status == 2 and "Send standard output" in result.err, f"standard output is closed: {result}")
    same(run("undo", file, preexec_fn=lambda: os.closerange(0, 3)).status, 1, "all three are closed")
    failed("add", file, "Data", "8", "TEXT", "-", preexec_fn=lambda: os.close(0), saying="standard input")
    same(contents(work), {"game.blb": SAMPLE_A}, "nothing is left behind")


def intact(work, held, *words, **more):
    """A call that fails leaves all files as they were."""
    failed(*words, **more)
    same(contents(work), held, f"{words} failed, nothing changed")


def size_limit(work):
    """Every limit on the size of a file up to where the edit succeeds, as `ulimit -f` sets it."""
    file = work / "game.blb"
    file.write_bytes(SAMPLE_A)
    done("add", file, "Data", "8", "TEXT", "-", stdin=b"x" * 50)
    held = contents(work)
    limit = 0
    while True:
        def lower(limit=limit):
            resource.setrlimit(resource.RLIMIT_FSIZE, (limit, limit))
        result = run("remove", file, "Data", "7", preexec_fn=lower)
        if result.status == 0:
            break
        expect(result.status == 2 and "Raise the limit" in result.err, f"under a limit of {limit} bytes: {result}")
        same(contents(work), held, f"under a limit of {limit} bytes nothing changes")
        limit += 7
    expect(limit > 150, "the limit was met")


def full_disk(work):
    """A file system of 24 KiB that cannot hold a second copy. Needs the right to mount one."""
    small = work / "small"
    small.mkdir()
    mounted = subprocess.run(["mount", "-t", "tmpfs", "-o", "size=24k", "none", small], capture_output=True)
    if mounted.returncode != 0:
        print("  not run: a full disk (no right to mount one); the limit on sizes stands for it")
        return
    try:
        file = small / "game.blb"
        done("new", file)
        done("add", file, "Data", "1", "BINA", "-", stdin=bytes(10000))
        held = contents(small)
        intact(small, held, "add", file, "Data", "2", "BINA", "-", stdin=bytes(9000), saying="blorb forget FILE")
        intact(small, held, "replace", file, "Data", "1", "BINA", "-", stdin=bytes(9000), saying="Make room")
        intact(small, held, "get", file, "Data", "1", "-o", small / "out", saying="Make room")
        done("undo", file)
        same(contents(small), {"game.blb": BLANK}, "undo needs little room")
    finally:
        subprocess.run(["umount", small], check=True)


def permissions(work):
    """What the user may not write is left alone. Run as another user where this one may write everything."""
    # A copy of the program: the other user may not reach the folder in which it was built.
    copy = shutil.copy(PROGRAM, work / "blorb")
    user = {"program": copy, "user": NOBODY, "group": NOBODY, "extra_groups": []} if os.getuid() == 0 else {}
    folder, file = work / "closed", work / "closed" / "game.blb"
    folder.mkdir()
    done("new", file)
    done("add", file, "Data", "7", "TEXT", "-", stdin=b"eel")
    held = contents(folder)
    for folder_mode, file_mode in ((0o555, 0o666), (0o777, 0o444)):
        os.chmod(file, file_mode)
        os.chmod(folder, folder_mode)
        for words in (("add", file, "Data", "8", "TEXT", "-"), ("remove", file, "Data", "7"), ("undo", file)):
            intact(folder, held, *words, saying="permissions", **user)
        same(done("get", file, "Data", "7", **user), b"eel", "reading is permitted")
    os.chmod(folder, 0o555)
    failed("new", folder / "new.blb", saying="permissions", **user)
    failed("get", file, "Data", "7", "-o", folder / "out", saying="permissions", **user)
    (work / "kept").write_bytes(b"kept")
    os.chmod(work / "kept", 0o444)
    failed("get", file, "Data", "7", "-o", work / "kept", saying="permissions", **user)
    same((work / "kept").read_bytes(), b"kept", "get -o leaves a file alone that may not be written")
    os.chmod(file, 0)
    failed("list", file, saying="permissions", **user)
    os.chmod(file, 0o644)
    os.chmod(folder, 0o755)
    same(contents(folder), held, "nothing changed in a closed folder")


def other_groups(work):
    """Without its group the group's permissions go to nobody; a failure at the last step leaves no journal behind."""
    if os.getuid() != 0:
        print("  not run: files of other groups and users (only root can make them)")
        return
    user = {"program": shutil.copy(PROGRAM, work / "blorb"), "user": NOBODY, "group": NOBODY, "extra_groups": []}
    folder, file = work / "open", work / "open" / "game.blb"
    folder.mkdir()
    os.chmod(folder, 0o777)
    file.write_bytes(BLANK)
    os.chown(file, NOBODY, 1)
    os.chmod(file, 0o664)
    done("add", file, "Data", "7", "TEXT", "-", stdin=b"eel", **user)
    for name in ("game.blb", "game.blb.undo"):
        status = (folder / name).stat()
        same((status.st_gid, stat.S_IMODE(status.st_mode)), (NOBODY, 0o604), f"group and permissions of {name}")
    done("undo", file, **user)
    # In a sticky folder only the owner may give a file's name away.
    os.chown(file, 0, 0)
    os.chmod(file, 0o666)
    os.chmod(folder, 0o1777)
    intact(folder, {"game.blb": BLANK}, "add", file, "Data", "7", "TEXT", "-", saying="permissions", **user)


def two_at_once(work):
    """Edits at the same time wait for each other: none is lost, and all can be undone."""
    file = work / "game.blb"
    done("new", file)
    count = 12
    (work / "data").write_bytes(b"data")
    running = [subprocess.Popen([PROGRAM, "add", file, "Data", str(i), "TEXT", work / "data"]) for i in range(count)]
    same([p.wait() for p in running], [0] * count, "edits at the same time")
    text = done("list", file).decode()
    same(sorted(int(line.split()[1]) for line in text.splitlines()[1:]), list(range(count)), "every edit is there")
    for _ in range(count):
        done("undo", file)
    same(contents(work), {"game.blb": BLANK, "data": b"data"}, "every edit is undone")
    # While another holds the folder's lock, an edit waits; reading does not.
    folder = os.open(work, os.O_RDONLY)
    fcntl.flock(folder, fcntl.LOCK_EX)
    waiting = subprocess.Popen([PROGRAM, "add", file, "Data", "1", "TEXT", work / "data"], stderr=subprocess.PIPE)
    time.sleep(0.3)
    same((waiting.poll(), done("check", file)), (None, b"accepted 24 bytes 0 resources\n"), "an edit waits")
    time.sleep(1.5)
    same(waiting.poll(), None, "an edit waits for more than a second")
    os.close(folder)
    said = waiting.communicate()[1].decode()
    same((waiting.returncode, done("get", file, "Data", "1")), (0, b"data"), "and goes on")
    expect("waiting for another blorb" in said and said.count("\n") == 1, f"after a second it says so, once: {said!r}")


PARTS = (help_and_misuse, names_with_dashes, samples_of_01, media, played_back, links, refused_files, broken_off, out_of_order, refused_edits,
         cut_and_damaged, chains, at_the_limit, new_and_names, no_journal_covered, links_and_permissions, outputs, size_limit, full_disk, permissions,
         other_groups, two_at_once)
