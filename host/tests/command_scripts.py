"""What scripts use: list --json, list --long, get --all."""
import json
import os

from building import blorb
from command_kit import aiff, be, contents, done, expect, failed, jpeg, mod, ogg, png, refused, run, same, story

ENTRIES = [(b"Pict", 1, 0), (b"Pict", 2, 0), (b"Snd ", 3, 1), (b"Data", 7, 2), (b"Exec", 0, 3), (b"Pict", 4294967295, 4), (b"Pict", 5, 5),
           (b"Snd ", 6, 6), (b"Snd ", 7, 7), (b"Data", 8, 8)]
CHUNKS = [(b"PNG ", png()), (b"FORM", aiff(b"odd")[8:]), (b"TEXT", b"eel"), (b"ZCOD", story()), (b"JPEG", jpeg()),
          (b"Rect", be(320) + be(200)), (b"OGGV", ogg()), (b"MOD ", mod()), (b"BINA", b""), (b"Fspc", be(2)), (b"RelN", b"\1\2"),
          (b"\"\\\0\xff", b"odd"), (b"IFmd", b"<x/>")]
# Names, data and types of what `get --all` writes.
FILES = {"Pict-1.png": (png(), "PNG"), "Pict-2.png": (png(), "PNG"), "Snd-3.aiff": (aiff(b"odd"), "FORM"), "Data-7.txt": (b"eel", "TEXT"),
         "Exec-0.z5": (story(), "ZCOD"), "Pict-4294967295.jpg": (jpeg(), "JPEG"), "Pict-5.rect": (be(320) + be(200), "Rect"),
         "Snd-6.ogg": (ogg(), "OGGV"), "Snd-7.mod": (mod(), "MOD"), "Data-8.bin": (b"", "BINA")}
NAMES = {name: held for name, (held, _) in FILES.items()}
# What a file without a story, metadata, texts and scaling tells of itself.
NOTHING_TOLD = dict.fromkeys(("title", "headline", "author", "genre", "language", "first_published", "ifid", "metadata_fault", "story", "texts",
                              "scaled_pictures"))


def sound_of(kind):
    """What is told of a sound: aiff(b"odd") has three samples of one channel."""
    fields = ("rate", "channels", "sample_size", "frames", "seconds", "sound_refused")
    return dict(zip(fields, (8000, 1, 8, 3, 0, None) if kind == b"FORM" else (None,) * 6))


def json_listing(work):
    """Every field, compared with the file itself."""
    file, held = work / "game.blb", blorb(ENTRIES, CHUNKS)
    file.write_bytes(held)
    told = json.loads(done("list", file, "--json"))
    same((told["length"], told["count"], told["release"], told["frontispiece"]), (len(held), 10, 258, 2), "the file")
    same({key: told[key] for key in NOTHING_TOLD},
         {**NOTHING_TOLD, "story": {"type": "ZCOD", "version": "5", "release": 1, "serial": "261116", "checksum": 0}}, "what the game tells of itself")
    what = {b"PNG ": "a PNG picture", b"FORM": "an AIFF sound", b"JPEG": "a JPEG picture", b"OGGV": "an Ogg Vorbis sound", b"MOD ": "a module"}
    sizes = {b"PNG ": (2, 2), b"JPEG": (1, 1), b"Rect": (320, 200)}
    for (usage, number, k), got in zip(ENTRIES, told["resources"]):
        kind, body = CHUNKS[k]
        start = got["start"]
        same(held[start:start + 8], kind + be(len(body)), f"a chunk begins at the start of {usage} {number}")
        width, height = sizes.get(kind, (None, None))
        head = 8 if kind == b"FORM" else 0      # of a FORM the whole chunk is the data
        same(got, {"usage": usage.decode(), "number": number, "type": kind.decode(), "start": start, "data_start": start + 8 - head,
                   "length": len(body) + head, "file_length": len(body) + head, "sharers": 2 if k == 0 else 1,
                   "frontispiece": (usage, number) == (b"Pict", 2), "width": width, "height": height, "data": what.get(kind),
                   "suits": True, **sound_of(kind)}, f"{usage} {number}")
        same(done("get", file, usage, str(number)), held[got["data_start"]:got["data_start"] + got["length"]], f"what get writes of {usage} {number}")
    others = [(c["type"].encode("latin-1"), c["length"]) for c in told["other_chunks"]]
    same(others, [(kind, len(body)) for kind, body in CHUNKS[9:]], "chunks without an entry")
    expect(all(held[c["start"]:c["start"] + 4] == c["type"].encode("latin-1") for c in told["other_chunks"]), "and where they begin")
    for kind, shown in ((b"\"\\\0\xff", b"\\u0022\\u005c\\u0000\\u00ff"), (b"\x1f ~\x7f", b"\\u001f ~\\u007f")):
        file.write_bytes(blorb([], [(kind, b"")]))
        expect(b'"type": "%s"' % shown in done("list", file, "--json"), f"what is escaped of {kind}")
    done("new", work / "blank")
    same(json.loads(done("list", "--json", work / "blank")),
         {"length": 24, "count": 0, "release": None, "frontispiece": None, **NOTHING_TOLD, "resources": [], "other_chunks": []}, "a blank file")
    file.write_bytes(blorb([(b"Pict", 1, 0), (b"Pict", 2, 1), (b"Pict", 3, 2)], [(b"PNG ", jpeg()), (b"JPEG", b"\xff\xd8\xff"), (b"PNG ", png()[:12])]))
    got = [(r["suits"], r["data"], r["width"]) for r in json.loads(done("list", file, "--json"))["resources"]]
    same(got, [(False, "a JPEG picture", None), (True, "a JPEG picture", None), (True, "a PNG picture", None)], "doubtful pictures")
    full = blorb([(b"Data", i, 0) for i in range(4096)], [(b"TEXT", b"")])
    file.write_bytes(full)
    same([r["sharers"] for r in json.loads(done("list", file, "--json"))["resources"]], [4096] * 4096, "4,096 entries on one chunk")


def long_listing(work):
    file = work / "game.blb"
    file.write_bytes(blorb(ENTRIES, CHUNKS))
    lines = done("list", "--long", file).decode("latin-1").splitlines()
    told = json.loads(done("list", file, "--json"))
    same(lines[:2], [f"{told['length']} bytes, 10 resources", "release 258"], "the file")
    for line, r in zip(lines[2:], told["resources"]):
        expect(line.startswith(f"{r['usage']} {r['number']}: {r['type']}, {r['length']} bytes from {r['data_start']}"), f"{line} for {r}")
        expect((f", {r['width']} by {r['height']}" in line) == (r["width"] is not None), f"the size in {line}")
        expect((", 8000 Hz, 1 channel, 8 bits, 0:00" in line) == (r["type"] == "FORM"), f"the sound in {line}")
        expect((", one chunk for 2 resources" in line) == (r["sharers"] == 2), f"sharing in {line}")
        expect(line.endswith(", frontispiece") == r["frontispiece"], f"the frontispiece in {line}")
    same(len(lines), 2 + 10 + 4, "lines")
    expect(lines[-2].startswith("no entry: '\"\\\\x00\\xff', 3 bytes from "), f"a chunk of any type: {lines[-2]}")


def get_all(work):
    file, folder = work / "game.blb", work / "all"
    file.write_bytes(blorb(ENTRIES, CHUNKS))
    same(done("get", file, "--all", folder), b"", "get --all is silent")
    same(contents(folder), NAMES, "every resource under its usage, number and type")
    (folder / "Data-7.txt").write_bytes(b"older")
    os.chmod(folder / "Data-7.txt", 0o640)
    (folder / "mine").write_bytes(b"mine")
    for name in set(NAMES) - {"Data-7.txt"}:
        (folder / name).unlink()
    failed("get", "--all", folder, file, saying="Data-7.txt: this file is there already")
    same(contents(folder), {"Data-7.txt": b"older", "mine": b"mine"}, "nothing is overwritten, and nothing written then")
    done("get", "--all", folder, file, "--force")
    same(contents(folder), {**NAMES, "mine": b"mine"}, "into a folder that is there")
    same((folder / "Data-7.txt").stat().st_mode & 0o777, 0o640, "what is overwritten keeps its permissions")
    # What was got can be put in again.
    again = work / "again.blb"
    done("new", again)
    for name, (held, kind) in FILES.items():
        pair = name.split(".")[0].split("-")
        done("add", again, *pair, kind, folder / name, may_warn=True)
        same(done("get", again, *pair), held, f"{name} put in again")
    done("new", work / "blank")
    done("get", work / "blank", "--all", work / "none")
    same(contents(work / "none"), {}, "of a file without resources")
    failed("get", file, "--all", file, saying="Not a directory")
    failed("get", file, "--all", work / "no" / "all", saying="cannot be made")
    (folder / "Snd-3.aiff").unlink()
    (folder / "Snd-3.aiff").mkdir()
    failed("get", file, "--all", folder, "--force", saying="Snd-3.aiff")
    # The Blorb file itself is not overwritten.
    within = work / "within"
    within.mkdir()
    (within / "Data-7.txt").write_bytes(file.read_bytes())
    failed("get", within / "Data-7.txt", "--all", within, saying="there already")
    failed("get", within / "Data-7.txt", "--all", within, "--force", saying="itself")
    same((within / "Data-7.txt").read_bytes(), file.read_bytes(), "the Blorb file is as it was")
    file.write_bytes(b"FORM")
    refused(2, 0, "get", file, "--all", work / "refused")
    expect(not (work / "refused").exists(), "a refused file makes no folder")
    same(run("get", work / "missing", "--all", folder).status, 2, "no such file")


def endings(work):
    """A name's ending is the one that other programs know such data by."""
    file = work / "game.blb"
    for kind, ending in {"GLUL": "ulx", "TAD2": "gam", "TAD3": "t3", "HUGO": "hex", "ALAN": "a3c", "ADRI": "taf", "LEVE": "l9", "AGT ": "agx",
                         "MAGS": "mag", "ADVS": "dat", "EXEC": "exe"}.items():
        file.write_bytes(blorb([(b"Exec", 0, 0)], [(kind.encode(), b"story")]))
        done("get", file, "--all", work / ending)
        same(contents(work / ending), {f"Exec-0.{ending}": b"story"}, kind)
    for version in (1, 8, 9):
        file.write_bytes(blorb([(b"Exec", 0, 0)], [(b"ZCOD", bytes([version]))]))
        done("get", file, "--all", work / f"z{version}")
        same(list(contents(work / f"z{version}")), [f"Exec-0.{'z%d' % version if version < 9 else 'zcode'}"], f"a story of version {version}")


PARTS = (endings, json_listing, long_listing, get_all)
