"""What the program looks at beyond 01's rules: the first bytes of data, and what makes other readers stumble."""
from building import blorb
from command_kit import (aiff, be, contents, done, editing_reference, expect, failed, glulx, jpeg, mod, ogg, png, refused, run,
                         same, story)

RECT = be(320) + be(200)
GOOD = (("Pict", "PNG", png()), ("Pict", "JPEG", jpeg()), ("Snd", "OGGV", ogg()), ("Snd", "FORM", aiff()), ("Snd", "MOD", mod()),
        ("Exec", "GLUL", glulx()), ("Exec", "ZCOD", story()), ("Exec", "TAD2", b"TADS2 bin\n\r\x1a" + bytes(40)),
        ("Exec", "TAD3", b"T3-image\r\n\x1a" + bytes(40)), ("Exec", "MAGS", b"MaSc" + bytes(40)))
OTHERS = {"a GIF picture": b"GIF89a" + bytes(20), "a WAV sound": b"RIFF" + be(20) + b"WAVE" + bytes(20),
          "a MIDI file": b"MThd" + be(6) + bytes(20), "an MP3 sound": b"ID3" + bytes(20), "a ZIP archive": b"PK\3\4" + bytes(20),
          "an Ogg file, but not Vorbis": b"OggS" + bytes(24) + b"OpusHead", "an AIFF-C sound": b"FORM" + be(20) + b"AIFC" + bytes(20)}


def usage_of(kind):
    return {"PNG": "Pict", "JPEG": "Pict", "Rect": "Pict", "OGGV": "Snd", "MOD": "Snd", "SONG": "Snd", "FORM": "Snd", "TEXT": "Data",
            "BINA": "Data"}.get(kind, "Exec")


def put(file, kind, data, *options):
    file.unlink(missing_ok=True)
    done("new", file)
    return run("add", file, usage_of(kind), "0", kind, "-", "--no-undo", *options, stdin=data)


def contradictions(work):
    """Data that is another type's, or no type's, is only put in with --as-is; nothing happens without."""
    file = work / "game.blb"
    for usage, kind, data in GOOD:
        same(put(file, kind, data).status, 0, f"{kind} data as {kind}")
        for _, other, _ in GOOD:
            if other in (kind, "FORM") or {other, kind} == {"MOD", "ZCOD"}:
                continue
            result = put(file, other, data)
            expect(result.status == 2 and "--as-is" in result.err and f"'{other.ljust(4)}'" in result.err, f"{kind} as {other}: {result}")
            same(contents(work), {"game.blb": editing_reference.BLANK}, f"{kind} as {other}: nothing changes")
            same(put(file, other, data, "--as-is").status, 0, f"{kind} as {other} with --as-is")
            same(done("get", file, usage_of(other), "0"), data, f"{kind} as {other} with --as-is")
        same(put(file, "BINA", data).status, 0, f"{kind} as BINA")
        same(put(file, "TEXT", data).status, 0 if kind == "ZCOD" else 2, f"{kind} as TEXT")
    for what, data in OTHERS.items():
        for kind in ("PNG", "OGGV", "GLUL", "HUGO", "TEXT"):
            result = put(file, kind, data)
            expect(result.status == 2 and f"the data is {what}" in result.err, f"{what} as {kind}: {result}")
    for kind in ("PNG", "JPEG", "OGGV", "MOD", "SONG", "ZCOD", "GLUL", "AGT", "LEVE"):
        expect("there is no data" in put(file, kind, b"").err, f"no data as {kind}")
        expect(put(file, kind, b"", "--as-is").status == 0, f"no data as {kind} with --as-is")


def nothing_contradicts(work):
    """Where the first bytes tell nothing, and the type has no mark of its own, data is taken."""
    file = work / "game.blb"
    for kind, data in (("TEXT", b""), ("TEXT", b"FORM follows function"), ("TEXT", b"Glulx is a virtual machine"), ("TEXT", b"GIF89a"),
                       ("BINA", b""), ("Rect", RECT), ("AGT", b"\1\2\3"), ("EXEC", b"PK\3\4"), ("SONG", mod()), ("MOD", bytes(600)),
                       ("ZCOD", bytes([8]) + bytes(63)), ("HUGO", b"?"), ("ADVS", b"?")):
        same(put(file, kind, data).status, 0, f"{data[:20]} as {kind}")
    for kind, data in (("MOD", bytes(599)), ("ZCOD", bytes([8]) + bytes(62)), ("ZCOD", bytes([9]) + bytes(63)), ("ZCOD", bytes(64)),
                       ("PNG", b"a text"), ("JPEG", b"\xff\xd8"), ("OGGV", b"Ogg"), ("GLUL", b"glul")):
        expect("does not begin as" in put(file, kind, data).err, f"{data[:20]} as {kind}")
    # The library's own refusals come first.
    refused(114, 24, "add", file, "Data", "1", "PNG", "-", stdin=b"a text")
    refused(22, 0, "replace", file, "Pict", "1", "PNG", "-", stdin=b"a text")


def type_left_out(work):
    file, data = work / "game.blb", work / "data"
    done("new", file)
    for number, (usage, kind, held) in enumerate(GOOD):
        data.write_bytes(held)
        number = "0" if usage == "Exec" else str(number)
        done("add", file, usage, number, data)
        expect(f"{usage:4} {number} at ".encode() in done("list", file), f"{kind} told by its data")
        expect(f" {kind.ljust(4)} ".encode() in done("list", file), f"{kind} told by its data")
        same(done("get", file, usage, number), held, f"{kind} told by its data")
        done("replace", file, usage, number, data)
        done("remove", file, usage, number)
    refused(114, 24, "add", file, "Snd", "1", "-", stdin=png())
    held = contents(work)
    for usage, unclear in (("Pict", b"a text"), ("Pict", RECT), ("Data", b"a text"), ("Data", png()), ("Exec", bytes(64)),
                           ("Exec", bytes([5]) + bytes(200)), ("Snd", b"")):
        result = failed("add", file, usage, "0", "-", stdin=unclear, saying="TYPE is left out")
        expect("Give TYPE" in result.err, f"what to do: {result.err}")
    for what, unclear in OTHERS.items():
        failed("add", file, "Snd", "1", "-", stdin=unclear, saying=f" is {what}")
    same(contents(work), held, "nothing changes where the data does not tell")
    # This is said before FILE is looked at.
    failed("add", work / "missing.blb", "Data", "1", "-", stdin=b"a text", saying="TYPE is left out")
    file.write_bytes(file.read_bytes()[:-1])
    failed("add", file, "Data", "1", "-", stdin=b"a text", saying="TYPE is left out")
    refused(5, 4, "add", file, "Data", "1", "TEXT", "-", stdin=b"a text")


def warned(file, *wanted):
    """check accepts the file, and warns of exactly these, each by a part of the sentence."""
    result = run("check", file)
    lines = result.err.splitlines()
    expect(result.status == 0 and result.out.startswith(b"accepted ") and len(lines) == len(wanted), f"check: {result}")
    for line, part in zip(lines, wanted):
        expect(line.startswith(f"blorb: {file}: warning: ") and part in line, f"wanted {part}: {line}")


def warnings(work):
    file = work / "game.blb"
    file.write_bytes(blorb([(b"Pict", 1, 0), (b"Snd ", 3, 1), (b"Data", 7, 2)], [(b"PNG ", png()), (b"FORM", aiff()[8:]), (b"TEXT", b"eel")]))
    warned(file)
    file.write_bytes(blorb([(b"Pict", 1, 0), (b"Pict", 2, 1), (b"Data", 3, 2), (b"Exec", 0, 3)],
                           [(b"PNG ", jpeg()), (b"JPEG", b"a text"), (b"TEXT", png()), (b"GLUL", glulx())]))
    warned(file, "'Pict' 1: the data is a JPEG picture", "'Pict' 2: the data does not begin as", "'Data' 3: the data is a PNG picture")
    file.write_bytes(blorb([(b"Data", 1, 0)], [(b"BINA", b"")]))
    warned(file, "'Data' 1: it has no data, and ScummVM")
    file.write_bytes(blorb([(b"Exec", 0, 0), (b"Data", 5, 1)], [(b"ZCOD", story()), (b"TEXT", b"eel")]))
    warned(file, "'Data' 5: fizmo")
    far = [(b"Pict", 1, 0), (b"Pict", 2 ** 31, 0), (b"Snd ", 2 ** 32 - 1, 1)]
    file.write_bytes(blorb(far, [(b"PNG ", png()), (b"MOD ", mod())]))
    warned(file)
    file.write_bytes(blorb(far + [(b"Pict", 2 ** 31 + 1, 2)], [(b"PNG ", png()), (b"MOD ", mod()), (b"PNG ", png())]))
    warned(file, "'Pict' 2147483649: its number")


def own_names(work):
    """The program's own names are no author's files: every command refuses them as FILE, and get and add as OUT and DATAFILE."""
    file = work / "a"
    done("new", file)
    done("add", file, "Data", "7", "TEXT", "-", stdin=b"eel")
    blank = editing_reference.BLANK
    (work / "b.blorb-temp").write_bytes(blank)
    (work / "b.undo").write_bytes(blank)
    (work / "link").symlink_to("b.undo")
    held = contents(work)
    for name in ("b.blorb-temp", "b.undo", "link", "a.undo", "a.blorb-temp", "a.undo.blorb-temp", ".undo", ".blorb-temp"):
        for words in (["list"], ["check"], ["get", "Data", "7"], ["new"], ["add", "Data", "1", "TEXT", "-"],
                      ["replace", "Data", "7", "TEXT", "-"], ["remove", "Data", "7"], ["undo"], ["history"], ["forget"],
                      ["get", "--all", work / "all"]):
            failed(words[0], work / name, *words[1:], saying="this program's own")
        failed("get", file, "Data", "7", "-o", work / name, saying="Give another name")
    failed("get", file, "--all", work / "all.undo", saying="own")
    failed("add", file, "Data", "8", "TEXT", work / "b.blorb-temp", saying="Rename it first")
    same(contents(work), held, "nothing changes")


PARTS = (contradictions, nothing_contradicts, type_left_out, warnings, own_names)
