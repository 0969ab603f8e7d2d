"""info, and check of many files: what a game tells of itself, XML by expat's judgement, a line for each file, a summary, JSON and --strict."""
import json
import os
import random
import xml.parsers.expat

from building import blorb
from command_kit import EACH, be, contents, done, expect, failed, glulx, jpeg, png, refused, run, same, story

RECORD = """<?xml version="1.0" encoding="UTF-8"?>
<ifindex version="1.0" xmlns="http://babel.ifarchive.org/protocol/iFiction/">
 <story>
  <!-- a comment -->
  <identification><ifid>1974A053-7DB0-4103-93A1-767C1382C0B7</ifid><ifid>SECOND</ifid><format>zcode</format></identification>
  <bibliographic>
   <title>The Eel &amp; the
     Reeds &#x2014; <![CDATA[<II>]]></title>
   <author>Angela M. Horns</author><headline>An Interactive Example</headline><language>en</language><genre>Fantasy</genre>
   <firstpublished>2026</firstpublished><description>Not <br/> told</description>
  </bibliographic>
 </story>
 <story><bibliographic><title>Another</title><series>x</series></bibliographic></story>
</ifindex>
"""
TOLD = {"title": "The Eel & the Reeds \u2014 <II>", "author": "Angela M. Horns", "headline": "An Interactive Example", "language": "en", "genre": "Fantasy",
        "first_published": "2026", "ifid": "1974A053-7DB0-4103-93A1-767C1382C0B7"}


def game(record, *more, entries=(), chunks=()):
    return blorb(list(entries), [*chunks, (b"IFmd", record if isinstance(record, bytes) else record.encode()), *more])


def informed(file, held):
    """What info --json tells, and what it says besides."""
    file.write_bytes(held)
    result = run("info", file, "--json")
    same(result.status, 0, f"info: {result}")
    return json.loads(result.out), result.err


def told(file, held):
    """The same, and list --json tells it too."""
    found, err = informed(file, held)
    listed = json.loads(run("list", file, "--json").out)
    same({key: listed[key] for key in found}, found, "list --json tells the same")
    return found, err


def facts(work):
    """Title, author, IFID, story, cover, release, texts and scaling."""
    file = work / "game.blb"
    texts = be(2) + b"Pict" + be(1) + be(3) + b"eel" + b"Pict" + be(2) + be(0)
    reso = b"".join(map(be, (640, 480, 0, 0, 0, 0))) + b"".join(map(be, (1, 1, 1, 0, 0, 0, 0)))
    held = game(RECORD, (b"Fspc", be(1)), (b"RelN", b"\0\x11"), (b"RDes", texts), (b"Reso", reso), entries=[(b"Pict", 1, 0), (b"Exec", 0, 1), (b"Pict", 2, 0)][:2],
                chunks=[(b"PNG ", png()), (b"ZCOD", story())])
    found, _ = told(file, held)
    same({key: found[key] for key in TOLD}, TOLD, "the metadata")
    same((found["release"], found["frontispiece"], found["texts"], found["scaled_pictures"], found["metadata_fault"]), (17, 1, 2, 1, None), "the rest")
    same(found["story"], {"type": "ZCOD", "version": "5", "release": 1, "serial": "261116", "checksum": 0}, "the story")
    lines = run("info", file).out.decode().splitlines()
    same(lines, ["title      The Eel & the Reeds \u2014 <II>", "headline   An Interactive Example", "author     Angela M. Horns", "genre      Fantasy",
                 "language   en", "published  2026", "IFID       1974A053-7DB0-4103-93A1-767C1382C0B7",
                 "story      Z-code, version 5, release 1, serial number 261116", "release    17", f"cover      Pict 1, PNG, {len(png())} bytes, 2 by 2",
                 "texts      2", "scaling    1 picture, in a standard window of 640 by 480", f"file       {len(held)} bytes, 1 picture"], "for people")
    file.write_bytes(b"FORM")
    refused(2, 0, "info", file)
    failed("info", work / "none", saying="No such file")


def stories(work):
    """Each kind of story, the IFID in it, and a file that is for a story."""
    file = work / "game.blb"
    for version in range(1, 9):
        found, _ = told(file, blorb([(b"Exec", 0, 0)], [(b"ZCOD", story(version))]))
        same((found["story"]["version"], found["story"]["serial"]), (str(version), "261116"), "a version of the Z-machine")
    expect(b"Glulx, version 3.1.2" in story_line(file, [(b"GLUL", glulx())]), "Glulx")
    same(json.loads(done("info", file, "--json"))["story"], {"type": "GLUL", "version": "3.1.2", "release": None, "serial": None, "checksum": None}, "its JSON")
    expect(b"story      of type 'HUGO'\n" in story_line(file, [(b"HUGO", b"x")]), "another story")
    expect(b"story      of type 'ZCOD'\n" in story_line(file, [(b"ZCOD", b"\1")]), "a story that is too short")
    unprintable = story()[:18] + b"\x1b[2J\0\xff" + story()[24:]
    expect(b"serial number ?[2J??" in story_line(file, [(b"ZCOD", unprintable)]), "a serial number is shown safely")
    for inside, ifid in ((b"UUID://AB-12//", "AB-12"), (b"UUUID://UUID://AB-12//", "AB-12"), (b"UUID://ab//", None), (b"UUID://AB", None), (b"UUID:////", None),
                         (b"UUID://x//UUID://Y//", "Y"), (b"", None)):
        found, _ = told(file, blorb([(b"Exec", 0, 0)], [(b"ZCOD", story() + inside)]))
        same(found["ifid"], ifid, f"the IFID in {inside}")
    found, _ = told(file, game(RECORD, entries=[(b"Exec", 0, 0)], chunks=[(b"ZCOD", story() + b"UUID://AB-12//")]))
    same(found["ifid"], TOLD["ifid"], "the metadata's IFID comes first")
    file.write_bytes(blorb([], [(b"IFhd", b"\1\2" + b"987654" + bytes(5))]))
    expect(b"not in the file, which is for release 258, serial number 987654\n" in done("info", file), "a file of resources for a story")
    done("new", work / "blank")
    same(done("info", work / "blank"), b"story      none\nfile       24 bytes\n", "a blank file")


def story_line(file, chunks):
    file.write_bytes(blorb([(b"Exec", 0, 0)], chunks))
    return done("info", file)


# ---- XML, held to expat

def fields_by_expat(document):
    """What the record tells, by expat; None where that does not take it."""
    found, path, text, stories = {}, [], [], [0]
    places = {("bibliographic", name): name for name in ("title", "author", "headline", "language", "genre")}
    places |= {("bibliographic", "firstpublished"): "first_published", ("identification", "ifid"): "ifid"}

    def opened(name, _):
        path.append(name.rpartition(":")[2])
        stories[0] += len(path) == 2 and path[1] == "story"
        if len(path) <= 4:
            text.clear()

    def closed(_):
        if len(path) == 4 and path[:2] == ["ifindex", "story"] and stories[0] == 1 and (key := places.get(tuple(path[2:]))):
            value = " ".join("".join(text).replace("\t", " ").replace("\n", " ").split(" ")).strip(" ")
            value = " ".join(word for word in value.split(" ") if word)
            if value:
                found.setdefault(key, value)
        path.pop()

    parser = xml.parsers.expat.ParserCreate()
    parser.StartElementHandler, parser.EndElementHandler = opened, closed
    parser.CharacterDataHandler = lambda piece: text.append(piece) if len(path) >= 4 else None
    try:
        parser.Parse(document, True)
    except (xml.parsers.expat.ExpatError, UnicodeDecodeError):
        return None
    return found


RECORDS = (
    RECORD, RECORD.replace("UTF-8", "utf-8"), "\ufeff" + RECORD, "<x/>", "<x></x>", "<a><b/></a>", "<a b='1' c=\"2\"/>", "<a>&lt;&gt;&amp;&quot;&apos;</a>",
    "<a>&#65;&#x41;</a>", "<?xml version='1.0'?><a/>", "<?xml version=\"1.0\" standalone='yes' ?><a/>", "<a><?pi x?><!-- c --></a><!-- after --> ", "<?pi?><a/>",
    "<a>\r\n\r</a>", "<p:ifindex><p:story><p:bibliographic><p:title>x</p:title></p:bibliographic></p:story></p:ifindex>", "<a>]] ></a>", "<a><![CDATA[]]]]></a>",
    "<\u00e4\u00f6/>", "<a>\U0001f41f</a>", "<ifindex><story><bibliographic><title>a<b>c </b>d</title><title>e</title></bibliographic></story></ifindex>",
    "<a \t b = '&#10;' \n/>", "<a>\t</a>", "<ifindex><story><bibliographic><title> </title><title>second</title></bibliographic></story></ifindex>")
BROKEN = (
    "", " ", "x", "<a>", "<a", "<", "</a>", "<a></b>", "<a/><b/>", "<a/>x", "x<a/>", "<a b/>", "<a b=1/>", "<a b='<'/>", "<a b='1' b='2'/>", "<a b='1'c='2'/>",
    "<a>&</a>", "<a>&x;</a>", "<a>&#;</a>", "<a>&#x;</a>", "<a>&#0;</a>", "<a>&#xD800;</a>", "<a>&#x110000;</a>", "<a>&#99999999999999999999;</a>", "<a>&lt</a>",
    "<a>]]></a>", "<a><!-- -- --></a>", "<a><!-- --->", "<a><![CDATA[</a>", "<a><?xml version='1.0'?></a>", "<a><?XML x?></a>", " <?xml version='1.0'?><a/>",
    "<?xml?><a/>", "<?xml version='1.0'><a/>", "<a>\x00</a>", "<a>\x01</a>", "<a>\uffff</a>", "<1a/>", "<a><b></a></b>", "<a b='1/>", "<-a/>",
    "<a>&#xFFFE;</a>", "<a b='&x;'/>", "<a ?/>", "<?pi", "<!-- x", "<a><!x></a>", "<![CDATA[x]]><a/>", "<a/><![CDATA[x]]>", "<?1 x?><a/>", "<?pi!x?><a/>",
    "<?xml version='1.0' standalone='maybe'?><a/>", "<a / >")


def xml_judged(work):
    """Documents by hand, and thousands with bytes changed: well-formed exactly where expat says so, and the same fields."""
    file, rng = work / "game.blb", random.Random(2026)
    for record in RECORDS:
        expect(fields_by_expat(record.encode()) is not None, f"expat takes {record!r}")
        compare(file, record.encode())
    for record in BROKEN:
        same(fields_by_expat(record.encode()), None, f"expat refuses {record!r}")
        compare(file, record.encode())
    bases = [record.encode() for record in RECORDS]
    pieces = [b"<", b">", b"&", b";", b"/", b"'", b'"', b"]]>", b"<![CDATA[", b"<!--", b"-->", b"<?x ?>", b"&#x41;", b"&amp;", b"\xc3\xa4", b"\xff", b"\0", b"\xed\xa0\x80",
              b"\xef\xbf\xbe", b"<b>", b"</b>", b" a='b'", b"--", b"\r", b"x", b" "]
    for _ in range(1200 // EACH):
        held = bytearray(rng.choice(bases))
        for _ in range(rng.randrange(1, 4)):
            at = rng.randrange(len(held) + 1)
            held[at:at + rng.choice((0, 0, 1, 1, 3))] = rng.choice(pieces)
        if b"<!DOCTYPE" not in held:
            compare(file, bytes(held))
    # What expat takes and this reader does not.
    for record, saying in (("<!DOCTYPE a><a/>", "document type"), ("<?xml version='2.0'?><a/>", "no version that is known"), ("<?xml version='1.0' encoding='ISO-8859-1'?><a/>", "encoding is not UTF-8"),
                           ("<a>" * 201 + "</a>" * 201, "too deep"), ("<a " + " ".join(f"b{n}=''" for n in range(65)) + "/>", "too many attributes")):
        expect(saying in told(file, game(record))[0]["metadata_fault"], saying)


def compare(file, record):
    wanted, (found, err) = fields_by_expat(record), informed(file, game(record))
    same(found["metadata_fault"] is None, wanted is not None, f"well-formed or not: {record!r}: {found['metadata_fault']}")
    same({key: found[key] for key in TOLD if found[key] is not None}, wanted or {}, f"the fields of {record!r}")
    same("is no XML" in err, wanted is None, "info warns of what is no XML")


def shown_safely(work):
    """Nothing that the metadata says can do harm to a terminal, and check warns of metadata that is no XML."""
    file = work / "game.blb"
    file.write_bytes(game("<ifindex><story><bibliographic><title>a&#x9b;b\u202ec</title></bibliographic></story></ifindex>"))
    same(done("info", file).splitlines()[0], b"title      a\\xc2\\x9bb\\xe2\\x80\\xaec", "the title")
    file.write_bytes(game("<a>"))
    expect("the metadata ('IFmd') is no XML that can be read: at byte 3 of it it ends too early" in run("check", file).err, "check warns of it")
    same(done("check", save(work / "good.blb", game("<a/>"))), b"accepted %d bytes 0 resources\n" % len(game("<a/>")), "and of nothing else")


def save(file, held):
    file.write_bytes(held)
    return file


# ---- check

def many_files(work):
    """A line for each file, a summary, and the worst status of all."""
    good = save(work / "good.blb", blorb([(b"Data", 7, 0)], [(b"TEXT", b"eel")]))
    doubtful = save(work / "doubtful.blb", blorb([(b"Pict", 1, 0)], [(b"PNG ", jpeg())]))
    broken = save(work / "broken.blb", b"FORM")
    odd = save(work / "a\nb\x1b\u202e.blb", good.read_bytes())
    good_line = f"{good}: accepted 48 bytes 1 resource"
    for files, status, lines, summary in (
            ((good, good), 0, [good_line, good_line], "2 files: 2 accepted, 0 refused, 0 not read; 0 with warnings"),
            ((good, doubtful), 0, [good_line, f"{doubtful}: accepted {len(doubtful.read_bytes())} bytes 1 resource, 1 warning"],
             "2 files: 2 accepted, 0 refused, 0 not read; 1 with warnings"),
            ((broken, good), 1, [f"{broken}: refused 2 at 0", good_line], "2 files: 1 accepted, 1 refused, 0 not read; 0 with warnings"),
            ((work / "none", broken, good), 2, [f"{work}/none: not read", f"{broken}: refused 2 at 0", good_line],
             "3 files: 1 accepted, 1 refused, 1 not read; 0 with warnings")):
        result = run("check", *files)
        same((result.status, result.out.decode().splitlines()), (status, [*lines, summary]), f"check of {len(files)} files")
        expect((f"{broken}: refused 2 at 0: " in result.err) == (broken in files), f"the reason is on standard error: {result.err}")
    same(run("check", good, odd).out.splitlines()[1], os.fsencode(work) + b"/a\\nb\\x1b\\xe2\\x80\\xae.blb: accepted 48 bytes 1 resource", "a name is shown safely")
    done("table", good)
    expect(done("check", good, good).startswith(f"{good_line}, table accepted\n".encode()), "with a good table")
    (work / "good.blb.table").write_bytes(b"")
    result = run("check", good, doubtful)
    expect(result.status == 1 and result.out.startswith(f"{good_line}, table refused\n".encode()) and "refused 35" in result.err, f"with a bad table: {result}")
    (work / "good.blb.table").unlink()
    result = run("check", good, work / "x.undo", good)
    expect(result.status == 2 and result.out.count(b"accepted 48") == 2, f"names of the program's own are not read, and the others are: {result}")
    same(len(done("check", *[good] * 500).splitlines()), 501, "500 files")
    same(contents(work), {p.name: p.read_bytes() for p in (good, doubtful, broken, odd)}, "nothing is written")


def strict(work):
    """--strict: a warning is status 1; without one nothing changes."""
    good = save(work / "good.blb", blorb([(b"Data", 7, 0)], [(b"TEXT", b"eel")]))
    doubtful = save(work / "doubtful.blb", blorb([(b"Pict", 1, 0)], [(b"PNG ", jpeg())]))
    for files, status in (((good,), 0), ((doubtful,), 1), ((good, doubtful), 1), ((good, good), 0), ((doubtful, work / "none"), 2)):
        for more in ([], ["--json"]):
            same(run("check", "--strict", *files, *more).status, status, f"{len(files)} files {more}")
            same(run("check", *files, *more).status, 2 if status == 2 else 0, f"{len(files)} files {more} without --strict")


def json_checked(work):
    good = save(work / "good.blb", blorb([(b"Data", 7, 0)], [(b"TEXT", b"eel")]))
    doubtful = save(work / "doubtful.blb", blorb([(b"Pict", 1, 0), (b"Snd ", 1, 1)], [(b"PNG ", jpeg()), (b"FORM", b"AIFF")]))
    broken = save(work / "broken.blb", b"FORM")
    name = os.fsdecode(os.fsencode(work) + b"/\xff\xc3\xa4\"\\.blb")
    with open(name, "wb") as file:
        file.write(good.read_bytes())
    done("table", good)
    result = run("check", "--json", good, doubtful, broken, name, work / "none")
    found = json.loads(result.out)
    same((result.status, found["status"], found["accepted"], found["refused"], found["not_read"], found["with_warnings"]), (2, 2, 3, 1, 1, 1), "the counts")
    same(found["files"][0], {"file": str(good), "accepted": True, "length": 48, "count": 1, "refused": None, "place": None, "reason": None, "warnings": [],
                             "table": "accepted"}, "a good file")
    warnings = found["files"][1]["warnings"]
    same([w["about"] for w in warnings], ["'Pict' 1", "'Snd ' 1"], "the warnings")
    expect("a JPEG picture" in warnings[0]["sentence"] and warnings[0]["advice"] is None and "refused 50" in warnings[1]["sentence"]
           and "another program" in warnings[1]["advice"], f"{warnings}")
    same((found["files"][2]["accepted"], found["files"][2]["refused"], found["files"][2]["place"]), (False, 2, 0), "a broken file")
    expect("fewer than 12 bytes" in found["files"][2]["reason"], "with its reason")
    same(found["files"][3]["file"], name, "any name")
    same((found["files"][4]["accepted"], found["files"][4]["refused"]), (False, None), "a file that is not there")
    expect("warning" not in result.err and "refused" not in result.err and "No such file" in result.err, f"said once: {result.err}")
    same(len(json.loads(done("check", "--json", good))["files"]), 1, "of one file too")


PARTS = (facts, stories, xml_judged, shown_safely, many_files, strict, json_checked)
