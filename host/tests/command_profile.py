"""Files of the ADRIFT house: --adrift on every command, the journal that remembers it, and what is said where it is missing."""
import json

from building import blorb
from command_crash import ENDED_BY_SHIM, FILE, UNDO, steps_of
from command_kit import (JOURNAL_HEAD, be, contents, done, edited, editing_reference, expect, failed, jpeg, listing, live_records, png, reference,
                         refused, refused_list, restore, run, same, version_1)
import table_reference

ADRIFT = reference.ADRIFT
GIF = b"GIF89a" + (320).to_bytes(2, "little") + (200).to_bytes(2, "little") + bytes(20)
WAV = b"RIFF" + be(20)[::-1] + b"WAVEfmt " + bytes(12)
MIDI = b"MThd" + be(6) + b"\0\0\0\1\0\x60" + b"MTrk" + be(4) + b"\0\xff\x2f\0"
MP3 = b"ID3\4" + bytes(30)
MP3_FRAMES = b"\xff\xfb\x90\x64" + bytes(100)
RESOURCES = (("Pict", "1", "GIF", GIF), ("Snd", "2", "WAV", WAV), ("Snd", "3", "MIDI", MIDI), ("Snd", "4", "MP3", MP3))
ADRIFT_HEAD = JOURNAL_HEAD[:11] + b"\1" + JOURNAL_HEAD[12:]


def padded(tag):
    return tag.ljust(4).encode()


def placed(words, n):
    """The words of a command with --adrift in front of it, right behind it, or at its end, by turns."""
    at = (0, 1, len(words))[n % 3]
    return [*words[:at], "--adrift", *words[at:]]


def made(file):
    """The whole house, by the program and by the reference; each resource once with its type and once told by its data."""
    done("new", file)
    wanted = editing_reference.BLANK
    for n, (usage, number, kind, held) in enumerate(RESOURCES):
        done(*placed(["add", file, usage, number, kind, "-"], n), stdin=held)
        wanted = edited(editing_reference.added, wanted, padded(usage), int(number), padded(kind), held, profile=ADRIFT)
        same(file.read_bytes(), wanted, f"add of {kind}")
        done(*placed(["replace", file, usage, number, "-"], n + 1), stdin=held)
        same(file.read_bytes(), wanted, f"{kind} told by its data")
    return wanted


def house(work):
    """Every command with --adrift on a file that has all of its types."""
    file = work / FILE
    wanted = made(file)
    for n in range(3):
        same(done(*placed(["list", file], n)), listing(wanted, ADRIFT), "list")
        same(done(*placed(["check", file], n)), b"accepted %d bytes 4 resources\n" % len(wanted), "check")
    told = json.loads(done("list", file, "--json", "--adrift"))["resources"]
    same([(r["type"], r["suits"], r["data"] is not None) for r in told], [(k.ljust(4), True, True) for _, _, k, _ in RESOURCES], "list --json")
    same((told[0]["width"], told[0]["height"]), (320, 200), "the size of a GIF")
    expect(b"320 by 200, a GIF picture" in done("--adrift", "list", file, "--long"), "list --long")
    for n, (usage, number, kind, held) in enumerate(RESOURCES):
        same(done(*placed(["get", file, usage, number], n)), held, f"get of {kind}")
    done("get", "--adrift", file, "--all", work / "all")
    same(contents(work / "all"), {f"{u}-{n}.{'mid' if k == 'MIDI' else k.lower()}": held for u, n, k, held in RESOURCES}, "get --all")
    same(done("--adrift", "table", file), b"table 4 rows\n", "table")
    rows = b"".join(be(x) for row in table_reference.rows_for(wanted, ADRIFT) for x in row)
    same((work / (FILE + ".table")).read_bytes(), rows, "the table")
    expect(done("find", file, "Snd", "3", "--adrift").startswith(b"Snd  3 at "), "find")
    same(done("scale", file, "1", "640x480", "--adrift"), b"Pict 1 320x200 scaled 320x200\n", "scale")
    same(done("describe", file, "--adrift"), b"# no texts\n", "describe")
    same(len(done("history", file, "--adrift").splitlines()), 8, "history")
    done("remove", "--adrift", file, "Snd", "3")
    done("link", file, "--adrift", "Pict", "1", "Pict", "9")
    same(done("get", file, "Pict", "9", "--adrift"), done("get", file, "Pict", "1", "--adrift"), "link")
    done("--adrift", "undo", file, "10")
    same(file.read_bytes(), editing_reference.BLANK, "all undone")
    expect(not (work / UNDO).exists(), "nothing is left to undo")


def without(work):
    """Every command without --adrift refuses such a file with 14 and says what would help; nothing changes."""
    file = work / FILE
    made(file)
    done("--adrift", "table", file)
    held = contents(work)
    for words in (["check"], ["get", "Pict", "1"], ["get", "--all", work / "all"], ["table"], ["find", "Pict", "1"], ["scale", "1", "9x9"], ["describe"],
                  ["history"],
                  ["add", "Data", "9", "TEXT", "-"], ["replace", "Pict", "1", "GIF", "-"], ["remove", "Pict", "1"], ["undo"],
                  ["link", "Pict", "1", "Pict", "9"], ["remove", "Pict", "1", "--no-undo"]):
        refused(14, 24, words[0], file, *words[1:], advice="--adrift allows them")
    failed("add", file, "Data", "9", "-", stdin=b"a text", saying="TYPE is left out")
    refused_list(14, 24, file, advice="--adrift allows them")
    same(json.loads(run("list", file, "--json").out), {"refused": 14, "place": 24}, "list --json")
    same(contents(work), held, "nothing changes")
    plain = work / "plain.blb"
    done("new", plain)
    before = contents(work)
    for usage, number, kind, data in RESOURCES:
        refused(114, 24, "add", plain, usage, number, kind, "-", stdin=data, advice="--adrift allows them")
        expect("--adrift allows them" in failed("add", plain, usage, number, "-", stdin=data, saying="TYPE is left out").err, f"{kind} left out")
    refused(114, 24, "add", plain, "Snd", "1", "GIF", "-", stdin=GIF)
    refused(114, 24, "--adrift", "add", plain, "Snd", "1", "GIF", "-", stdin=GIF, advice="with --adrift WAV")
    refused(114, 24, "--adrift", "add", plain, "Snd", "1", "-", stdin=GIF)
    same(contents(work), before, "nothing changes")


def contradicting(work):
    """What the data is by its first bytes holds for these types too."""
    file = work / FILE
    done("new", file)
    for kind, data in (("GIF", png()), ("GIF", b"a text"), ("WAV", MIDI), ("MIDI", WAV), ("MP3", WAV), ("WAV", b""), ("MP3", b"")):
        usage = "Pict" if kind == "GIF" else "Snd"
        failed("add", file, usage, "1", kind, "-", "--adrift", stdin=data, saying="the data")
        put_in = run("add", file, usage, "1", kind, "-", "--adrift", "--as-is", stdin=data)
        result = run("check", file, "--adrift")
        expect(result.status == 0 and "warning" in result.err, f"check warns of {kind}: {result}")
        same((put_in.status, put_in.err), (0, result.err), "and add does, in the same words")
        done("undo", file, "--adrift")
    done("--adrift", "add", file, "Snd", "1", "MP3", "-", stdin=MP3_FRAMES)
    failed("add", file, "Pict", "1", "PNG", "-", "--adrift", stdin=GIF, saying="the data is a GIF picture")


def others(work, file, option, saying, advice):
    """Without the journal's own option (or with it, where it has none) every edit and undo is refused, and nothing changes; history is told.
    An edit is told so before anything is said of the edit itself, and with --no-undo it is told the same."""
    held = contents(work)
    result = refused(21, 0, "undo", file, *option, advice=advice)
    expect(saying in result.err, f"undo says which: {result.err}")
    for words in (["add", file, "Data", "9", "TEXT", "-"], ["replace", file, "Data", "3", "TEXT", "-"], ["remove", file, "Data", "3"],
                  ["link", file, "Data", "3", "Data", "9"], ["remove", file, "Data", "10"], ["add", file, "Data", "3", "TEXT", "-"]):
        result = failed(*words, *option, stdin=b"new", saying=saying)
        expect(advice in result.err, f"{words[0]}: advice")
        same(failed(*words, *option, "--no-undo", stdin=b"new"), result, f"{words[0]} --no-undo")
        same(contents(work), held, f"{words[0]}: file and journal are as they were, and nothing else is there")
    expect(b"added Data 8" in done("history", file, *option), "history")
    same(contents(work), held, "nothing changes")


def remembered(work):
    """A journal is gone on with and undone only under the profile that it was begun under."""
    file = work / FILE
    start = blorb([(b"Pict", 1, 0), (b"Data", 3, 1)], [(b"JPEG", jpeg()), (b"TEXT", b"odd")])
    for own, other, saying, advice, head in (([], ["--adrift"], "was written without --adrift", "Leave --adrift out", JOURNAL_HEAD),
                                             (["--adrift"], [], "was written with --adrift", "Give --adrift here too", ADRIFT_HEAD)):
        restore(work, {FILE: start})
        done("add", file, "Data", "8", "TEXT", "-", *own, stdin=b"eight")
        same((work / UNDO).read_bytes()[:16], head, "the head of the journal")
        others(work, file, other, saying, advice)
        failed("remove", file, "Data", "3", "--no-undo", *own, saying="Leave --no-undo out")
        done("remove", file, "Data", "3", *own)
        same(len(done("history", file, *own).splitlines()), 2, "it goes on under its own")
        done("undo", file, "2", *own)
        same(contents(work), {FILE: start}, "undone under its own")
        done("add", file, "Data", "8", "TEXT", "-", *own, stdin=b"eight")
        done("forget", file, *other)
        done("remove", file, "Data", "3", *other)
        done("undo", file, *other)
        same(sorted(contents(work)), [FILE], "after forget the other one begins anew")


def older_journals(work):
    """Journals from before there were profiles are plain: those of version 2 have zeros there, those of version 1 nothing."""
    file, undo = work / FILE, work / UNDO
    start = blorb([(b"Pict", 1, 0), (b"Data", 3, 1)], [(b"JPEG", jpeg()), (b"TEXT", b"odd")])
    file.write_bytes(start)
    done("add", file, "Data", "8", "TEXT", "-", stdin=b"eight")
    after, journal = file.read_bytes(), undo.read_bytes()
    for old in (journal, version_1(live_records(journal), after, start)):
        restore(work, {FILE: after, UNDO: old})
        others(work, file, ["--adrift"], "was written without --adrift", "Leave --adrift out")
        done("undo", file)
        same(contents(work), {FILE: start}, "it still undoes")


def nothing_to_undo(work):
    """A journal that an undo has left behind with nothing to undo keeps nobody from editing under the other profile."""
    file, undo = work / FILE, work / UNDO
    start = blorb([(b"Data", 3, 0)], [(b"TEXT", b"odd")])
    for own, other, head in (([], ["--adrift"], ADRIFT_HEAD), (["--adrift"], [], JOURNAL_HEAD)):
        restore(work, {FILE: start})
        done("add", file, "Data", "8", "TEXT", "-", *own, stdin=b"eight")
        held = contents(work)
        steps = steps_of(work, "undo", file, *own)
        restore(work, held)
        at = 1 + next(n for n, step in enumerate(steps) if step[:2] == ("unlink", UNDO) and n > 0)
        same(run("undo", file, *own, shim={"CRASH_AT": str(at)}).status, ENDED_BY_SHIM, "ended before the journal goes")
        same((file.read_bytes(), undo.exists()), (start, True), "the journal is left behind")
        done("remove", file, "Data", "3", *other)
        same(undo.read_bytes()[:16], head, "a journal of the other profile")
        done("undo", file, *other)
        same(contents(work), {FILE: start}, "and it undoes")


def words(work):
    """Where the option may stand, and what it does not change."""
    file = work / FILE
    done("new", file, "--adrift")
    same(file.read_bytes(), editing_reference.BLANK, "a blank file is the same under every profile")
    expect("no command given" in run("--adrift").err, "--adrift alone")
    same(done("--adrift", "--version"), done("--version"), "--adrift --version")
    same(done("--adrift", "--help"), done("--help"), "--adrift --help")
    same(done("--adrift", "--adrift", "check", "--adrift", file), b"accepted 24 bytes 0 resources\n", "more than once")
    failed("check", "--", "--adrift", saying="--adrift")
    failed("--adrif", "check", file, saying="no command")
    failed("check", file, "--adrif", saying="no such option")
    for command in ("list", "check", "table", "find", "get", "scale", "describe", "new", "add", "replace", "remove", "link", "undo", "history", "forget"):
        expect(b"--adrift" in done("help", command), f"help {command}")


PARTS = (house, without, contradicting, remembered, older_journals, nothing_to_undo, words)
