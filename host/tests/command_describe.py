"""Spoken descriptions: listed, printed and written from a list, with each refusal and what is said of it; nothing that is shown can harm a terminal."""
import unicodedata

from building import blorb, chunk
from command_kit import be, contents, done, editing_reference, expect, failed, png, refused, run, same

# Resources of every test here: two pictures and a sound.
ENTRIES = [(b"Pict", 1, 0), (b"Pict", 2, 1), (b"Snd ", 7, 2)]
CHUNKS = [(b"PNG ", png()), (b"Rect", be(3) + be(4)), (b"MOD ", b"odd")]
START = len(blorb(ENTRIES, CHUNKS))


def rdes(*texts, count=None):
    """The data of an 'RDes': usage, number and text of each."""
    return be(len(texts) if count is None else count) + b"".join(u + be(n) + be(len(t)) + t for u, n, t in texts)


def with_chunks(file, *bodies):
    file.write_bytes(blorb(ENTRIES, CHUNKS + [(b"RDes", body) for body in bodies]))


EEL, SEA, WIND = (b"Pict", 1, b"An eel."), (b"Pict", 2, "Das Meer, grün".encode()), (b"Snd ", 7, b"")


def texts_read(work):
    """All texts in the chunk's order, and one by its pair; -o writes it as it is."""
    file, out = work / "game.blb", work / "out"
    with_chunks(file)
    same(done("describe", file), b"# no texts\n", "no 'RDes'")
    with_chunks(file, rdes())
    same(done("describe", file), b"# no texts\n", "no texts")
    refused(22, 0, "describe", file, "Pict", "1", saying="'Pict' 1 has no text", advice="blorb describe FILE")
    with_chunks(file, rdes(SEA, EEL, WIND))
    same(done("describe", file).decode(), "Pict 2 Das Meer, grün\nPict 1 An eel.\nSnd 7 \n", "all texts")
    for usage, number, text in (SEA, EEL, WIND):
        words = ("describe", file, usage.decode().strip(), str(number))
        same(done(*words), text + b"\n", "one text")
        done(*words, "-o", out)
        same(out.read_bytes(), text, "one text in a file")
        same(done(*words, "-o", "-"), text, "one text as it is")
    refused(22, 0, "describe", file, "Pict", "3", advice="blorb list")
    refused(22, 0, "describe", file, "Data", "1", advice="blorb list")


def strangers(work):
    """Texts of resources that the index does not have are listed with a warning, and not found by their pair."""
    file = work / "game.blb"
    body = rdes(EEL, (b"Pict", 9, b"nine"), (b"# x ", 2 ** 32 - 1, b"?"), (b"\n\\\xff ", 1, b"!"), (b"    ", 0, b"."))
    with_chunks(file, body)
    result = run("describe", file)
    same((result.status, result.out), (0, b"Pict 1 An eel.\nPict 9 nine\n\\x23\\x20x 4294967295 ?\n\\x0a\\x5c\\xff 1 !\n\\x20 0 .\n"), "the texts")
    expect("4 of the texts, the first of them 'Pict' 9, are for resources that the file does not have" in result.err, result.err)
    refused(22, 0, "describe", file, "Pict", "9")
    (work / "list").write_bytes(result.out)
    result = run("describe", file, "--write", work / "list", "-o", work / "chunk")
    expect(result.status == 0 and "4 of the texts" in result.err, f"{result}")
    same((work / "chunk").read_bytes(), chunk(b"RDes", body), "what was listed is written again")


def texts_refused(work):
    file = work / "game.blb"
    for bodies, number, place, about in (
            ((rdes(EEL), b""), 36, START + 8 + len(rdes(EEL)) + len(rdes(EEL)) % 2, ""),
            ((b"",), 37, START, ""), ((rdes(EEL, count=2),), 37, START, ""), ((rdes(EEL) + b"\0",), 37, START, ""),
            ((rdes(EEL, SEA, EEL),), 38, START + 12 + len(rdes(EEL, SEA)) - 4, "'Pict' 1"),
            ((rdes(EEL, (b"Pict", 2, b"ab\xff")),), 39, START + 12 + len(rdes(EEL)) - 4 + 14, "'Pict' 2"),
            ((rdes((b"Pict", 1, b"\xe2\x82"), (b"Pict", 1, b"")),), 39, START + 24, "'Pict' 1"),
            ((rdes(EEL, (b"Pict", 1, b"\xff")), b""), 38, START + 12 + len(rdes(EEL)) - 4, "'Pict' 1")):
        with_chunks(file, *bodies)
        for words in ([], ["Pict", "1"], ["Data", "9"]):
            result = refused(number, place, "describe", file, *words)
            expect(about in result.err.splitlines()[0] and not result.out, f"{about}: {result}")
    file.write_bytes(b"FORM")
    refused(2, 0, "describe", file)


def texts_warned_of(work):
    """check warns of an 'RDes' of which no text can be read, and of texts for what the file does not have."""
    file = work / "game.blb"
    for bodies, about in (((), None), ((rdes(),), None), ((rdes(EEL, SEA, WIND),), None), ((b"",), f"(refusal 37 at {START}): the texts"),
                          ((rdes(EEL, EEL),), "(refusal 38 at "), ((rdes((b"Pict", 1, b"\xff")),), f"(refusal 39 at {START + 24}): a text"),
                          ((rdes(), b""), f"(refusal 36 at {START + 12}): there"),
                          ((rdes(EEL, (b"Data", 1, b"")),), "1 of the texts, the first of them 'Data' 1")):
        with_chunks(file, *bodies)
        result = run("check", file)
        same((result.status, result.out[:9]), (0, b"accepted "), "check")
        ours = [line for line in result.err.splitlines() if "no description can be read" in line or "of the texts" in line]
        expect(len(ours) == (about is not None) and (about is None or about in ours[0]), f"{about}: {result.err}")


# Characters that a terminal may act on, and texts about them; beside each what is shown.
SHOWN = {"\x00\x07\x1b[2J\x7f": r"\x00\x07\x1b[2J\x7f", "a\tb\nc\rd": r"a\tb\nc\x0dd", "back\\slash": r"back\\slash",
         "\x80\x9b\x9f\xa0": "\\xc2\\x80\\xc2\\x9b\\xc2\\x9f\xa0",
         "\u2027\u2028\u2029\u202a\u202e\u202f": "\u2027\\xe2\\x80\\xa8\\xe2\\x80\\xa9\\xe2\\x80\\xaa\\xe2\\x80\\xae\u202f",
         "\u2065\u2066\u2069\u206a": "\u2065\\xe2\\x81\\xa6\\xe2\\x81\\xa9\u206a", "  two spaces  ": "  two spaces  ", "#": "#", "\U0001f41f": "\U0001f41f"}


def shown_safely(work):
    """What is printed has no control character but the newline at each end of a line, and reads back as the same text."""
    file, listed, made = work / "game.blb", work / "list", work / "chunk"
    for text, shown in SHOWN.items():
        with_chunks(file, rdes((b"Pict", 1, text.encode())))
        same(done("describe", file, "Pict", "1").decode(), shown + "\n", f"{text!r} shown")
        same(done("describe", file).decode(), "Pict 1 " + shown + "\n", f"{text!r} listed")
    everything = "".join(map(chr, [*range(0x3000), *range(0xD7F0, 0xD800), *range(0xE000, 0xE010), *range(0xFFF0, 0x10010), 0x10FFFF]))
    with_chunks(file, rdes((b"Pict", 1, everything.encode()), (b"Snd ", 7, everything[::-1].encode())))
    out = done("describe", file)
    expect(not [c for c in out.decode() if c != "\n" and unicodedata.category(c) == "Cc"], "no control character is printed")
    listed.write_bytes(out)
    done("describe", file, "--write", listed, "-o", made)
    same(made.read_bytes(), file.read_bytes()[START:], "what is listed is written as it was")


def texts_written(work):
    """A list by its description in docs/COMMAND.md, from a file and from standard input; the chunk in a file is read as it was written."""
    file, listed, made = work / "game.blb", work / "list", work / "chunk"
    with_chunks(file)
    text = "# a comment\n\nPict 2 Das Meer, grün\nSnd 7\nPict 1 \\x41n\\x20eel.\\n\\t\\\\"
    wanted = chunk(b"RDes", rdes(SEA, WIND, (b"Pict", 1, b"An eel.\n\t\\")))
    for held in (text, text + "\n", "\ufeff" + text, text.replace("\n", "\r\n"), text.replace("Snd 7", "Snd 7 "), "\n\n" + text.replace("Snd 7", r"Snd\x20 7")):
        listed.write_bytes(held.encode())
        done("describe", file, "--write", listed, "-o", made)
        same(made.read_bytes(), wanted, f"the chunk of {held!r}")
        same(done("describe", file, "--write", listed), wanted, "the chunk on standard output")
        same(done("describe", file, "--write", "-", "-o", "-", stdin=held.encode()), wanted, "a list from standard input")
    whole = file.read_bytes() + wanted
    (work / "described.blb").write_bytes(whole[:4] + be(len(whole) - 8) + whole[8:])
    same(done("describe", work / "described.blb").decode(), "Pict 2 Das Meer, grün\nSnd 7 \nPict 1 An eel.\\n\\t\\\\\n", "read back")
    same(done("describe", file, "--write", "-", stdin=b""), chunk(b"RDes", rdes()), "no texts")
    same(done("describe", file, "--write", "-", stdin=b"Pict 1 odd"), chunk(b"RDes", rdes((b"Pict", 1, b"odd"))), "a padding byte")


def wrong_lists(work):
    """Lists that are wrong by themselves end with 2 and the line; those that the library refuses with 1, the row, and the line too."""
    file, listed, made = work / "game.blb", work / "list", work / "chunk"
    with_chunks(file)
    made.write_bytes(b"as it was")
    held = contents(work)

    def write(text):
        return ("describe", file, "--write", "-", "-o", made), {"stdin": text}
    for line, saying in ((b" Pict 1 x", "begin with a usage"), (b"Pictu 1 x", "begin with a usage"), (b"Pic\\ 1 x", "begin with a usage"),
                         (b"\\x41\\x42\\x43\\x44E 1 x", "begin with a usage"), (b"Pict", "no number"), (b"Pict x", "no number"), (b"Pict  1 x", "no number"),
                         (b"Pict 4294967296 x", "no number"), (b"Pict -1 x", "no number"), (b"Pict 1\tx", "no number"), (b"Pict 11111111111", "no number"),
                         (b"Pict 1 a\\qb", "hexadecimal"), (b"Pict 1 a\\", "hexadecimal"), (b"Pict 1 \\x4", "hexadecimal"), (b"Pict 1 \\x4g", "hexadecimal")):
        words, more = write(b"# first\nSnd 7 good\n" + line + b"\nPict 2 good")
        failed(*words, saying="line 3: ", **more)
        failed(*words, saying=saying, **more)
    for text, number, row, line in ((b"Pict 1 a\n\nPict 2 b\nPict 1 c", 38, 2, "line 4, 'Pict' 1"), (b"Pict 1 a\nSnd 7 \xff", 39, 1, "line 2, 'Snd ' 7"),
                                    (b"Pict 1 \\xe2\\x82\nPict 1 x", 39, 0, "line 1, 'Pict' 1")):
        words, more = write(text)
        expect(line in refused(number, row, *words, **more).err, line)
    limit = 16_777_216 - 8 - 4 - 12
    words, more = write(b"Pict 1 " + b"e" * (limit + 1))
    refused(40, 0, *words, **more)
    words, more = write(b"Pict 1 " + b"e" * 16_777_300)
    failed(*words, saying="longer than any file", **more)
    same(contents(work), held, "nothing is written")
    words, more = write(b"Pict 1 " + b"e" * limit)
    done(*words, **more)
    same(len(made.read_bytes()), 16_777_216, "the longest chunk")
    failed("describe", file, "--write", work / "none", "-o", made, saying="cannot be opened")
    listed.write_bytes(b"Pict 1 x")
    for out, saying in ((listed, "overwrite the list"), (file, "overwrite FILE itself"), (work / "x.undo", "program's own")):
        failed("describe", file, "--write", listed, "-o", out, saying=saying)
    same((listed.read_bytes(), len(file.read_bytes())), (b"Pict 1 x", START), "list and file are as they were")


def describe_misuse(work):
    file = work / "game.blb"
    file.write_bytes(editing_reference.BLANK)
    expect("missing: NUMBER" in failed("describe", file, "Pict").err, "NUMBER")
    failed("describe", file, "-o", "x", saying="one text, or for --write\n  usage: blorb describe FILE [USAGE NUMBER [-o OUT]], or ")
    failed("describe", file, "Pict", "1", "--write", "x", saying="too much")
    failed("describe", file, "--write", saying="takes one name, once")
    failed("describe", file, "--write", "a", "--write", "b", saying="takes one name, once")
    failed("describe", file, "Pict", "x", saying="a number is")
    failed("describe", file, "--write", work / "a.blorb-temp", saying="Rename it first")
    same(contents(work), {"game.blb": editing_reference.BLANK}, "misuse changes nothing")


PARTS = (texts_read, strangers, texts_refused, texts_warned_of, shown_safely, texts_written, wrong_lists, describe_misuse)
