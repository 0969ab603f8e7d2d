"""At a terminal: no raw data without being asked, and a word after each edit, which scripts do not get."""
import os
import pty
import select
import subprocess

from building import blorb
from command_kit import ENVIRONMENT, PROGRAM, aiff, be, contents, done, expect, jpeg, png, same

GAME = blorb([(b"Pict", 1, 0), (b"Data", 7, 1)], [(b"JPEG", jpeg()), (b"TEXT", b"eel")])


def seen(*words, stdin=b""):
    """Runs it with a terminal as its standard output; gives its status, what stands on the terminal, and standard error."""
    master, slave = pty.openpty()
    with subprocess.Popen([PROGRAM, *words], stdin=subprocess.PIPE, stdout=slave, stderr=subprocess.PIPE, env=ENVIRONMENT) as process:
        os.close(slave)
        err = process.communicate(stdin, timeout=120)[1].decode(errors="replace")
    text = b""
    while select.select([master], [], [], 0)[0]:
        try:
            part = os.read(master, 65536)
        except OSError:
            break
        if not part:
            break
        text += part
    os.close(master)
    return process.returncode, text.replace(b"\r\n", b"\n"), err


def told(wanted, *words, stdin=b""):
    same(seen(*words, stdin=stdin), (0, wanted, ""), f"{words} at a terminal")


def no_data_unasked(work):
    """get, forms N and describe --write do not write to a terminal, unless -o - is given; texts for people do."""
    file = work / "game.blb"
    file.write_bytes(GAME)
    (work / "list").write_bytes(b"Pict 1 An eel.\n")
    for words, data in ((("get", file, "Data", "7"), b"eel"), (("get", file, "Pict", "1"), jpeg()), (("forms", file, "0"), GAME),
                        (("describe", file, "--write", work / "list"), None)):
        status, text, err = seen(*words)
        expect((status, text) == (2, b"") and "standard output: this is a terminal" in err and "-o - writes it to the terminal" in err,
               f"{words} at a terminal: {status} {text!r} {err}")
        if data == b"eel":
            same(seen(*words, "-o", "-"), (0, data, ""), f"{words} -o - at a terminal")
        expect(done(*words) == (data or done(*words, "-o", "-")), f"{words} elsewhere")
    told(b"accepted %d bytes 2 resources\n" % len(GAME), "check", file)
    told(b"# no texts\n", "describe", file)
    expect(b"static const uint32_t" in seen("table", file, "--c-array")[1], "C is text")


def words_after_edits(work):
    """What was done, in a line; -q and anything but a terminal silence it."""
    file = work / "game.blb"
    done("new", file)
    told(b"added Pict 1 PNG %d bytes\n" % len(png()), "add", file, "Pict", "1", "-", stdin=png())
    told(b"replaced Pict 1 JPEG %d bytes, was PNG %d bytes\n" % (len(jpeg()), len(png())), "replace", file, "Pict", "1", "-", stdin=jpeg())
    told(b"linked Pict 2 to Pict 1 JPEG %d bytes\n" % len(jpeg()), "link", file, "Pict", "1", "Pict", "2")
    told(b"added Snd 3 FORM %d bytes\n" % len(aiff()), "add", file, "snd", "3", "form", "-", stdin=aiff())
    told(b"added Data 9 BINA 1 byte\n", "add", file, "data", "9", "bina", "-", stdin=b"x")
    told(b"removed Snd 3 FORM %d bytes\n" % len(aiff()), "remove", file, "Snd", "3")
    told(b"removed Pict 1 JPEG %d bytes\n" % len(jpeg()), "remove", file, "Pict", "1")
    told(b"took back: removed Pict 1\ntook back: removed Snd 3, which is FORM %d bytes again\n" % len(aiff()), "undo", file, "2")
    told(b"took back: added Data 9\n", "undo", file)
    told(b"took back: added Snd 3\ntook back: linked Pict 2\ntook back: replaced Pict 1, which is PNG %d bytes again\n" % len(png()), "undo", file, "3")
    for words in (("add", file, "Pict", "5", "Rect", "-", "-q"), ("replace", file, "-q", "Pict", "5", "Rect", "-"),
                  ("link", file, "Pict", "5", "Pict", "6", "-q"), ("remove", file, "Pict", "6", "-q"), ("undo", file, "-q")):
        told(b"", *words, stdin=be(3) + be(2))
    for words in (("add", file, "Data", "1", "TEXT", "-"), ("remove", file, "Data", "1"), ("undo", file)):
        same(done(*words, stdin=b"eel"), b"", f"{words}: a script gets no word")
    done("new", work / "other.blb")
    told(b"added Data 2 TEXT 3 bytes\n", "--adrift", "add", work / "other.blb", "Data", "2", "TEXT", "-", "--no-undo", stdin=b"eel")
    same(done("history", file), b"1 added Data 1\n2 linked Pict 6\n3 replaced Pict 5 Rect 8\n4 added Pict 5\n5 added Pict 1\n", "history")


def nothing_said_where_nothing_is_done(work):
    """A refused edit and a failed one say nothing on the terminal but what went wrong."""
    file = work / "game.blb"
    file.write_bytes(GAME)
    for words in (("remove", file, "Pict", "9"), ("undo", file), ("add", file, "Data", "7", "TEXT", "-"), ("add", file, "Pict", "3", "PNG", "-")):
        status, text, err = seen(*words, stdin=b"eel")
        expect(status in (1, 2) and text == b"" and err, f"{words}: {status} {text!r} {err}")
    same(contents(work), {"game.blb": GAME}, "nothing changed")


PARTS = (no_data_unasked, words_after_edits, nothing_said_where_nothing_is_done)
