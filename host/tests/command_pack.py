"""pack and unpack: whole games from a list and back, byte for byte; Blurb scripts; what is wrong with a list is told with its line."""
import itertools
import os
import pty
import random
import subprocess
import time

import reference
from building import blorb
from command_crash import steps_of
from command_kit import (EACH, PROGRAM, ROOT, aiff, be, contents, done, editing_reference, expect, failed, glulx, jpeg, mod, ogg, png, refused, run, same,
                         story)

METADATA = b"<ifindex><story/></ifindex>"


def rdes(*texts):
    return be(len(texts)) + b"".join(u + be(n) + be(len(t)) + t for u, n, t in texts)


def put(folder, **files):
    """Files by their names, with _ for the dot."""
    folder.mkdir(exist_ok=True)
    for name, held in files.items():
        (folder / name.replace("_", ".")).write_bytes(held if isinstance(held, bytes) else held.encode())


def quietly(*words, **more):
    """Warnings are allowed; gives standard output."""
    result = run(*words, **more)
    same(result.status, 0, f"{words}: {result}")
    return result.out


def packed(folder, text, *options, out="out.blb"):
    """What pack makes of this list in a folder."""
    (folder / "list.txt").write_bytes(text if isinstance(text, bytes) else text.encode())
    (folder / out).unlink(missing_ok=True)
    quietly("pack", folder / "list.txt", folder / out, *options)
    return (folder / out).read_bytes()


# ---- a list by its description

FILES = dict(cover_png=png(), map_jpg=jpeg(), wind_aiff=aiff(), bell_ogg=ogg(), song_mod=mod(), story_z5=story(), notes_txt=b"eel",
             meta_xml=METADATA, texts_txt="Pict 1 An eel.\nSnd 3 Wind.\n")


def lists(work):
    """Each kind of line, compared with the file that the reference builds of the same parts."""
    put(work, **FILES)
    (work / "a name with spaces.png").write_bytes(png())
    text = ("# a game\n\nrelease 7\ncover 1\nExec 0 story.z5\nPict 1 PNG cover.png\nlink Pict 1 Pict 2\npict 4 jpeg map.jpg\nPict 5 a name with spaces.png\n"
            "Pict 6 PNG \"a name with spaces.png\"\n  Snd  3\tFORM   wind.aiff  \nSnd 4 bell.ogg\nsnd 5 SONG song.mod\nchunk IFmd meta.xml\n"
            "Data 7 TEXT notes.txt\nchunk (c) notes.txt\nchunk \\x00a\\x20b notes.txt\ntexts texts.txt\n")
    chunks = [(b"RelN", b"\0\7"), (b"Fspc", be(1)), (b"ZCOD", story()), (b"PNG ", png()), (b"JPEG", jpeg()), (b"PNG ", png()), (b"PNG ", png()),
              (b"FORM", aiff()[8:]), (b"OGGV", ogg()), (b"SONG", mod()), (b"IFmd", METADATA), (b"TEXT", b"eel"), (b"(c) ", b"eel"), (b"\0a b", b"eel"),
              (b"RDes", rdes((b"Pict", 1, b"An eel."), (b"Snd ", 3, b"Wind.")))]
    entries = [(b"Exec", 0, 2), (b"Pict", 1, 3), (b"Pict", 2, 3), (b"Pict", 4, 4), (b"Pict", 5, 5), (b"Pict", 6, 6), (b"Snd ", 3, 7), (b"Snd ", 4, 8),
               (b"Snd ", 5, 9), (b"Data", 7, 11)]
    wanted = blorb(entries, chunks)
    for held in (text, text[:-1], "\ufeff" + text, text.replace("\n", "\r\n")):
        same(packed(work, held), wanted, "a list of every kind of line")
    (work / "out.blb").unlink()
    result = run("pack", work / "list.txt", work / "out.blb")
    same(result.out, b"packed 10 resources and 6 other chunks, %d bytes\n" % len(wanted), "what pack says")
    expect("'Data' 7: fizmo" in result.err, f"the warnings that check gives: {result.err}")
    # Names go from the list's folder, and from the present one where the list is standard input.
    (work / "short").write_text("Data 7 TEXT notes.txt\n")
    same(done("pack", "short", "there.blb", cwd=work), b"packed 1 resource and 0 other chunks, 48 bytes\n", "one resource")
    done("pack", "-", "piped.blb", cwd=work, stdin=b"Data 7 TEXT notes.txt\n")
    done("pack", "-", work / "absolute.blb", cwd="/", stdin=b"Data 7 TEXT %s\n" % os.fsencode(work / "notes.txt"))
    for name in ("there.blb", "piped.blb", "absolute.blb"):
        same((work / name).read_bytes(), blorb([(b"Data", 7, 0)], [(b"TEXT", b"eel")]), name)
    same(packed(work, ""), editing_reference.BLANK, "a list of nothing")
    same(packed(work, "Pict 1 GIF plain.gif\n".replace("plain.gif", str(editing_reference.__file__)), "--adrift", "--as-is")[36:40], b"GIF ", "--adrift and --as-is")


def there_and_back(work):
    """Packing what was unpacked gives the same bytes: chunks anywhere, links, odd lengths, texts, any four bytes as a type; and so does every sample."""
    rng = random.Random(39)
    tries = [blorb([], []), blorb([], [(b"Fspz", b"odd")]), blorb([(b"Pict", 1, 1)], [(b"Fspc", be(1)), (b"PNG ", png())]),
             blorb([(b"Pict", 1, 0)], [(b"PNG ", png()), (b"RDes", rdes((b"Pict", 1, "Grüße\n\t\\".encode()))), (b"Fspc", be(1)), (b"RelN", b"\xff\xff")]),
             blorb([], [(b"RDes", rdes())]), blorb([], [(b"RDes", b"broken")]), blorb([], [(b"RDes", rdes()), (b"RDes", rdes())]),
             blorb([(b"Data", i, 0) for i in range(300)], [(b"TEXT", b"shared")]),
             blorb([], [(bytes([k, 32, k, 92]), bytes([k])) for k in range(256)])]
    tries += [whole_file(rng) for _ in range(60 if EACH == 1 else 8)]
    for n, held in enumerate(tries):
        there_and_back_of(work / str(n), held)
    for sample in sorted((ROOT / "samples").glob("*.blb")):
        try:
            reference.parse(sample.read_bytes(), reference.PLAIN)
        except reference.Refusal:
            continue
        there_and_back_of(work / sample.name, sample.read_bytes())


def there_and_back_of(folder, held, *options):
    folder.mkdir()
    (folder / "a.blb").write_bytes(held)
    quietly("unpack", folder / "a.blb", folder / "parts", *options)
    quietly("pack", folder / "parts" / "list.txt", folder / "b.blb", "--as-is", *options)
    same((folder / "b.blb").read_bytes(), held, f"{folder.name}: packed again\n{(folder / 'parts' / 'list.txt').read_text()}")
    names = [line.rsplit(" ", 1)[1] for line in (folder / "parts" / "list.txt").read_text().splitlines()
             if line.split(" ")[0] in ("Pict", "Snd", "Data", "Exec", "chunk", "texts")]
    same(sorted(contents(folder / "parts")), sorted([*names, "list.txt"]), "the list names every file")


def whole_file(rng):
    """An accepted file of resources, links and other chunks in any order."""
    chunks, entries, taken = [], [], set()
    kinds = {b"Pict": [b"PNG ", b"JPEG"], b"Snd ": [b"OGGV", b"MOD ", b"SONG"], b"Data": [b"TEXT", b"BINA"]}
    for _ in range(rng.randrange(12)):
        if rng.random() < .4:
            chunks.append((rng.choice([b"IFmd", b"AUTH", b"(c) ", b"ANNO", b"Plte", b"#x!\"", b"    ", b"\0\1\2\3"]), rng.randbytes(rng.randrange(20))))
            continue
        usage = rng.choice(list(kinds))
        chunks.append((rng.choice(kinds[usage]), rng.randbytes(rng.randrange(40))))
        for _ in range(rng.choice((1, 1, 1, 2, 3))):
            pair = usage, rng.choice((rng.randrange(30), rng.randrange(2 ** 32)))
            if pair not in taken:
                taken.add(pair)
                entries.append((*pair, len(chunks) - 1))
    pictures = [n for u, n, _ in entries if u == b"Pict"]
    if pictures and rng.random() < .7:
        at = rng.randrange(len(chunks) + 1)
        chunks.insert(at, (b"Fspc", be(rng.choice(pictures))))
        entries = [(u, n, k + (k >= at)) for u, n, k in entries]
    return blorb(entries, chunks)


def house(work):
    """Files of the ADRIFT house with --adrift, and the list says so."""
    held = blorb([(b"Pict", 1, 0), (b"Snd ", 1, 1)], [(b"GIF ", b"GIF89a"), (b"MP3 ", b"ID3")])
    there_and_back_of(work / "house", held, "--adrift")
    expect("`blorb pack --adrift`" in (work / "house/parts/list.txt").read_text(), "the list says --adrift")
    (work / "house/b.blb").unlink()
    refused(114, 24, "pack", work / "house/parts/list.txt", work / "house/b.blb", "--as-is", advice="--adrift allows them")


def overwriting(work):
    """Nothing is overwritten without --force; never the list or a file of it, and no journal loses its file."""
    put(work, **FILES)
    (work / "list.txt").write_text("Data 7 TEXT notes.txt\n")
    file = work / "game.blb"
    done("pack", work / "list.txt", file)
    held = file.read_bytes()
    file.write_bytes(b"mine")
    failed("pack", work / "list.txt", file, saying="this name is taken")
    same(file.read_bytes(), b"mine", "an older file stays")
    file.chmod(0o640)
    done("pack", work / "list.txt", file, "--force")
    same((file.read_bytes(), file.stat().st_mode & 0o777), (held, 0o640), "with --force it is replaced, with its permissions")
    done("table", file)
    (work / "list.txt").write_text("Data 7 TEXT notes.txt\nData 8 TEXT notes.txt\n")
    done("pack", work / "list.txt", file, "--force")
    expect(b"table accepted 2 rows" in done("check", file), "the finding table beside it is the new file's")
    done("remove", file, "Data", "7")
    failed("pack", work / "list.txt", file, "--force", saying="blorb forget FILE")
    done("undo", file)
    for out in ("list.txt", "notes.txt"):
        before = (work / out).read_bytes()
        failed("pack", work / "list.txt", work / out, "--force", saying="the list itself, or one of its files")
        same((work / out).read_bytes(), before, f"{out} stays")
        failed("pack", work / "list.txt", work / out.upper(), saying="the list itself, or one of its files")     # on a card that is the same name
    for out in ("x.undo", "x.table", "x.blorb-temp"):
        failed("pack", work / "list.txt", work / out, saying="this program's own")
    failed("pack", work / "list.txt", work, "--force", saying="plain file")
    folder = work / "parts"
    same(done("unpack", file, folder), b"unpacked 2 resources and 0 other chunks\n", "what unpack says")
    wanted = contents(folder)
    (folder / "mine").write_bytes(b"mine")
    (folder / "Data-7.txt").unlink()
    failed("unpack", file, folder, saying="Data-8.txt: this file is there already")
    expect(not (folder / "Data-7.txt").exists(), "then nothing is written")
    (folder / "list.txt").write_bytes(b"old")
    done("unpack", file, folder, "--force")
    same(contents(folder), {**wanted, "mine": b"mine"}, "with --force all of it")
    failed("unpack", file, work / "x.undo", saying="own")
    failed("unpack", file, file, saying="Not a directory")
    file.write_bytes(b"FORM")
    refused(2, 0, "unpack", file, work / "refused")
    expect(not (work / "refused").exists(), "a refused file makes no folder")


def wrong_lists(work):
    """Wrong lines with their number, and every refusal of the library with the line that it is about; nothing is written then."""
    put(work, **FILES)
    (work / "x.blorb-temp").write_bytes(b"eel")
    (work / "long").write_bytes(bytes(2 ** 24))
    for text, saying in (("Pict", "line 1"), ("\n# x\nPict x PNG cover.png", "line 3"), ("Pict 4294967296 cover.png", "0 to 4294967295"),
                         ("Pict 1", "name of the file is missing"), ("Pict 1 PNG", "No such file"), ("Picture 1 cover.png", "line 1: the name of the file"),
                         ("Bild 1 PNG cover.png", "a line begins with Pict, Snd"), ("link Pict 1 Pict", "a link is"), ("link Pict 1 Pict 2 3", "a link is"),
                         ("link Bild 1 Pict 2", "a link is"), ("chunk", "a chunk is"), ("chunk IFmd", "name of the file"), ("chunk IFmds meta.xml", "a chunk is"),
                         ("chunk \\q meta.xml", "a chunk is"), ("cover", "a cover is"), ("cover x", "a cover is"), ("cover 1 2", "a cover is"),
                         ("release 65536", "0 to 65535"), ("texts", "name of the file"), ("Pict 1 none.png", "No such file"), ("chunk IFmd none.xml", "No such"),
                         ("Data 1 notes.txt", "TYPE is left out"), ("Pict 1 PNG map.jpg", "a JPEG picture"),
                         ("Data 1 TEXT x.blorb-temp", "this program's own"), ("Data 1 TEXT a\0b", "zero byte"), ("texts notes.txt", "line 1")):
        (work / "list.txt").write_text(text)
        failed("pack", work / "list.txt", work / "out.blb", saying=saying)
    for number, place, line, text in (
            (116, 36, 2, "Data 1 TEXT notes.txt\nData 1 TEXT notes.txt"), (114, 24, 1, "Data 1 PNG cover.png"), (114, 24, 1, "Pict 1 bell.ogg"), (115, 28, 1, "Exec 1 ZCOD story.z5"),
            (30, 0, 1, "Snd 1 FORM notes.txt"), (101, 0, 1, "Data 1 BINA long"), (101, 0, 1, "chunk IFmd long"), (22, 0, 1, "link Data 1 Data 2"),
            (9, 24, 1, "chunk RIdx notes.txt"), (17, 34, 2, "release 1\nrelease 2"), (18, 28, 1, "chunk RelN notes.txt"), (18, 28, 1, "chunk Fspc notes.txt"),
            (19, 32, 1, "cover 1"), (19, 56, 2, "Data 1 TEXT notes.txt\ncover 1")):
        (work / "list.txt").write_text(text + "\n")
        result = run("pack", work / "list.txt", work / "out.blb")
        first = result.err.splitlines()[0]
        expect(result.status == 1 and f": refused {number} at {place}: " in first and f"line {line}, " in first, f"{text!r}: {number} at {place}: {result}")
        expect("Pack the file again" not in result.err and "\n  " in result.err, f"the advice is for whoever packs: {result.err}")
    (work / "list.txt").write_text("texts bad.txt\n")
    (work / "bad.txt").write_bytes(b"Pict 1 \xff\n")
    refused(39, 0, "pack", work / "list.txt", work / "out.blb")
    failed("pack", work / "none.txt", work / "out.blb", saying="No such file")
    failed("pack", work / "long", work / "out.blb", saying="line 1")
    expect(not (work / "out.blb").exists(), "nothing was written")


# ---- Blurb scripts

SCRIPT = '''! A script as Inform writes it
storyfile leafname "Eel.zblorb"
storyfile "story.z5" include
ifiction "meta.xml" include
cover "cover.png"
picture 1 "cover.png" "An eel."
picture 3 "map.jpg" scale 3/2 min 1/2
picture "cover.png"
picture flag "map.jpg" scale 1/1
sound 4 "wind.aiff" "Wind."
sound "song.mod" music
sound creak "song.mod" song
sound 9 "bell.ogg" repeat forever
author "Angela M. Horns"
copyright "1998"
release 17
resolution 640x480 min 320x240
palette {
 ff0000 00Ff00
 0000ff }
release file "x.html" from "y"
website "Standard"
status alternative ||x||
placeholder [A] = "b"
'''


def blurb(work):
    """Every command of Blurb that makes a part of a Blorb file; the others are passed over."""
    put(work, **FILES)
    (work / "game.blurb").write_text(SCRIPT)
    result = run("pack", work / "game.blurb", work / "out.blb")
    expect(result.status == 0 and "passed over 5 lines" in result.err, f"{result}")
    constants = b"Constant flag = 5;\nConstant creak = 6;\n"
    same(result.out[:len(constants)], constants, "the names that were given to numbers")
    six = b"".join(map(be, (640, 480, 320, 240, 0, 0)))
    scales = b"".join(map(be, (3, 3, 2, 1, 2, 0, 0))) + b"".join(map(be, (5, 1, 1, 0, 0, 0, 0)))
    chunks = [(b"ZCOD", story()), (b"IFmd", METADATA), (b"PNG ", png()), (b"JPEG", jpeg()), (b"PNG ", png()), (b"JPEG", jpeg()), (b"FORM", aiff()[8:]),
              (b"MOD ", mod()), (b"SONG", mod()), (b"OGGV", ogg()), (b"AUTH", b"Angela M. Horns"), (b"(c) ", b"1998"), (b"RelN", b"\0\x11"),
              (b"Plte", bytes.fromhex("ff000000ff000000ff")), (b"Reso", six + scales), (b"Loop", be(9) + be(0)),
              (b"RDes", rdes((b"Pict", 1, b"An eel."), (b"Snd ", 4, b"Wind."))), (b"Fspc", be(1))]
    entries = [(b"Exec", 0, 0), (b"Pict", 1, 2), (b"Pict", 3, 3), (b"Pict", 4, 4), (b"Pict", 5, 5), (b"Snd ", 4, 6), (b"Snd ", 5, 7), (b"Snd ", 6, 8),
               (b"Snd ", 9, 9)]
    same((work / "out.blb").read_bytes(), blorb(entries, chunks), "the script's file")
    for text, wanted in (
            ('cover "cover.png"', blorb([(b"Pict", 1, 0)], [(b"PNG ", png()), (b"Fspc", be(1))])),
            ('picture 1 "map.jpg"\ncover "cover.png"', blorb([(b"Pict", 1, 0), (b"Pict", 2, 1)], [(b"JPEG", jpeg()), (b"PNG ", png()), (b"Fspc", be(2))])),
            ("palette 16 bit", blorb([], [(b"Plte", b"\x10")])), ("palette 32 bit", blorb([], [(b"Plte", b"\x20")])),
            ('sound "bell.ogg"', blorb([(b"Snd ", 3, 0)], [(b"OGGV", ogg())])), ('picture "cover.png"', blorb([(b"Pict", 1, 0)], [(b"PNG ", png())])),
            ('storyfile "story.z5"', blorb([], [(b"IFhd", b"\0\1" + b"261116" + b"\0\0" + bytes(3))])),
            ('storyfile "game.ulx"', blorb([], [(b"IFhd", glulx()[:128])])), ("ifiction public", editing_reference.BLANK),
            ('sound 4 "bell.ogg" repeat 1', blorb([(b"Snd ", 4, 0)], [(b"OGGV", ogg()), (b"Loop", be(4) + be(1))]))):
        (work / "game.ulx").write_bytes(glulx())
        same(packed(work, text + "\n"), wanted, text)
    for text, saying in (('picture 1 cover.png', "in quotes"), ('picture 1 "cover.png" scale', "ratio"), ('picture 1 "cover.png" scale 1/2', "resolution"),
                         ('picture 1 "cover.png" big', "only a text"), ('sound 3 "bell.ogg" loud', "only a text"), ('sound 3 "bell.ogg" repeat x', "forever"),
                         ("palette 8 bit", "16 bit"), ("palette { 12345", "six hexadecimal"), ("palette { 123456", "closing brace"),
                         ("palette { } x", "behind the palette"), ("palette 16 bit\npalette 16 bit", "already"), ("resolution 640", "640x480"),
                         ('cover "cover.png"\ncover "cover.png"', "already"), ("author me", "in quotes"), ('storyfile "notes.txt"', "no story"),
                         ("resolution 1x1\nresolution 1x1", "already"), ("release x", "a line begins with")):
        (work / "list.txt").write_text(text + "\n")
        failed("pack", work / "list.txt", work / "wrong.blb", saying=saying)


# ---- many, and how long it takes

def many(work):
    """300 resources of 50 KB in one process: a fraction of a second, where 300 edits take a minute; and 4,096 entries."""
    work.mkdir(exist_ok=True)
    rng = random.Random(300)
    for n in range(300):
        (work / f"{n}.bin").write_bytes(rng.randbytes(50_000))
    (work / "list.txt").write_text("".join(f"Data {n} BINA {n}.bin\n" for n in range(300)))
    began = time.monotonic()
    done("pack", work / "list.txt", work / "out.blb")
    took = time.monotonic() - began
    print(f"  300 resources of 50 KB packed in {took:.2f} s")
    expect(EACH > 1 or took < 30, f"packing 300 resources took {took} s")       # a machine may have much else to do
    same((work / "out.blb").read_bytes(), blorb([(b"Data", n, n) for n in range(300)], [(b"BINA", (work / f"{n}.bin").read_bytes()) for n in range(300)]),
         "300 resources")
    if EACH > 1:        # a sanitized program takes minutes for what follows
        return
    (work / "list.txt").write_text("".join(f"Data {n} TEXT 0.txt\n" for n in range(4097)))
    (work / "0.txt").write_bytes(b"eel")
    refused(111, 20, "pack", work / "list.txt", work / "full.blb")
    (work / "list.txt").write_text("".join(f"Data {n} TEXT 0.txt\n" for n in range(4096)))
    done("pack", work / "list.txt", work / "full.blb")
    same((work / "full.blb").read_bytes(), blorb([(b"Data", n, n) for n in range(4096)], [(b"TEXT", b"eel")] * 4096), "4,096 resources")


def on_a_terminal(work):
    """Progress is shown on a terminal where it takes longer than a second, and nothing of it is left; elsewhere there is none."""
    put(work, eel_txt=b"eel")
    os.mkfifo(work / "slow")
    (work / "list.txt").write_text("Data 1 TEXT slow\n" + "".join(f"Data {n} TEXT eel.txt\n" for n in range(2, 40)))
    said = [told(work, terminal) for terminal in (True, False)]
    expect("packing: " in said[0] and " of 39" in said[0] and said[0].endswith(" \r"), f"on a terminal: {said[0]!r}")
    same(said[1], "", "elsewhere")


def told(work, terminal):
    (work / "out.blb").unlink(missing_ok=True)
    ours, theirs = pty.openpty() if terminal else os.pipe()
    child = subprocess.Popen([PROGRAM, "pack", work / "list.txt", work / "out.blb"], stderr=theirs, stdout=subprocess.DEVNULL)
    with open(work / "slow", "wb") as slow:
        time.sleep(1.2)
        slow.write(b"eel")
    same(child.wait(), 0, "pack")
    os.close(theirs)
    found = b""
    try:
        while piece := os.read(ours, 4096):
            found += piece
    except OSError:      # the end of a terminal
        pass
    os.close(ours)
    return found.decode()


def ended(work):
    """pack ended and failing at every step: there is no file, or the whole one; with --force the old or the new one."""
    put(work / "in", notes_txt=b"eel")
    (work / "in/list.txt").write_text("Data 7 TEXT notes.txt\n")
    out, new = work / "out.blb", blorb([(b"Data", 7, 0)], [(b"TEXT", b"eel")])
    for force, old in itertools.product(([], ["--force"]), (None, b"old")):
        if old is not None and not force:
            continue
        words = ["pack", work / "in/list.txt", out, *force]
        fresh(out, old)
        steps = steps_of(work, *words)
        for n, shim in itertools.product(range(1, len(steps) + 1), ({}, {"CRASH_FAIL": "28"})):
            fresh(out, old)
            result = run(*words, shim={"CRASH_AT": str(n), **shim})
            held = out.read_bytes() if out.exists() else None
            expect(held in (old, new), f"{words} at step {n}, {steps[n - 1]}, {shim}: {result}: {held}")
            expect(result.status != 0 or held == new, f"{words} at step {n} says done: {result}")


def fresh(out, old):
    for left in out.parent.glob("out.blb*"):
        left.unlink()
    if old is not None:
        out.write_bytes(old)


PARTS = (lists, there_and_back, house, overwriting, wrong_lists, blurb, many, on_a_terminal, ended)
