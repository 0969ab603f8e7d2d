"""diff: what differs between two files, by resource and chunk; against a comparison of the reference's own reading."""
from building import Dice, blorb
from command_kit import aiff, be, done, expect, failed, jpeg, png, reference, run, same

TEXT, BINA = (b"TEXT", b"eel"), (b"BINA", b"eel")


def differing(work, a, b, status, *lines):
    one, other = work / "a.blb", work / "b.blb"
    one.write_bytes(a)
    other.write_bytes(b)
    result = run("diff", one, other)
    same((result.status, result.out.decode().splitlines(), result.err), (status, list(lines), ""), f"diff of {lines}")


def lines(work):
    """Each kind of difference has its line; where nothing differs there is none."""
    game = blorb([(b"Pict", 1, 0), (b"Data", 7, 1)], [(b"JPEG", jpeg()), TEXT])
    differing(work, game, game, 0)
    differing(work, game, blorb([(b"Pict", 1, 0)], [(b"JPEG", jpeg())]), 1, "- Data 7 TEXT 3 bytes")
    differing(work, blorb([], []), game, 1, "+ Data 7 TEXT 3 bytes", f"+ Pict 1 JPEG {len(jpeg())} bytes")
    differing(work, game, blorb([(b"Pict", 1, 0), (b"Data", 7, 1)], [(b"PNG ", png()), TEXT]), 1,
              f"! Pict 1 JPEG {len(jpeg())} bytes -> PNG {len(png())} bytes")
    differing(work, game, blorb([(b"Pict", 1, 0), (b"Data", 7, 1)], [(b"JPEG", jpeg()), BINA]), 1, "! Data 7 TEXT 3 bytes -> BINA 3 bytes")
    differing(work, game, blorb([(b"Pict", 1, 0), (b"Data", 7, 1)], [(b"JPEG", jpeg()), (b"TEXT", b"eeL")]), 1,
              "! Data 7 TEXT 3 bytes -> TEXT 3 bytes, from byte 2 on")
    differing(work, game, blorb([(b"Pict", 1, 0), (b"Data", 7, 1)], [(b"JPEG", jpeg()), (b"TEXT", b"e")]), 1, "! Data 7 TEXT 3 bytes -> TEXT 1 byte")
    sound, longer = aiff(b"four"), aiff(b"four more.")
    differing(work, blorb([(b"Snd ", 3, 0)], [(b"FORM", sound[8:])]), blorb([(b"Snd ", 3, 0)], [(b"FORM", longer[8:])]), 1,
              f"! Snd 3 FORM {len(sound)} bytes -> FORM {len(longer)} bytes")
    # In another order nothing differs by resource and chunk.
    differing(work, game, blorb([(b"Data", 7, 0), (b"Pict", 1, 1)], [TEXT, (b"JPEG", jpeg())]), 0, "# the same resources and chunks, in another order")


def chunks(work):
    """Chunks without an entry: by type, and of one type in their order."""
    def game(*more):
        return blorb([(b"Pict", 1, 0), (b"Pict", 2, 0)], [(b"PNG ", png()), *more])
    differing(work, game((b"RelN", b"\0\1"), (b"Fspc", be(1)), (b"IFmd", b"<x/>")), game((b"RelN", b"\0\2"), (b"Fspc", be(2)), (b"IFmd", b"<y/>")), 1,
              "! chunk 'Fspc' cover Pict 1 -> cover Pict 2", "! chunk 'IFmd' 4 bytes -> 4 bytes, from byte 1 on", "! chunk 'RelN' release 1 -> release 2")
    differing(work, game((b"ANNO", b"one"), (b"ANNO", b"two")), game((b"ANNO", b"one"), (b"ANNO", b"2"), (b"ANNO", b"three")), 1,
              "! chunk 'ANNO' 3 bytes -> 1 byte", "+ chunk 'ANNO' 5 bytes")
    differing(work, game((b"\0\x1b[2", b"")), game(), 1, "- chunk '\\x00\\x1b[2' 0 bytes")
    differing(work, game((b"RelN", b"\0\1")), game((b"IFmd", b"")), 1, "+ chunk 'IFmd' 0 bytes", "- chunk 'RelN' release 1")
    differing(work, game((b"ANNO", b"a"), (b"IFmd", b"b")), game((b"IFmd", b"b"), (b"ANNO", b"a")), 0,
              "# the same resources and chunks, in another order")


def links(work):
    """Two resources that have one chunk in one of the files only."""
    shared = blorb([(b"Pict", 1, 0), (b"Pict", 2, 0), (b"Pict", 3, 0)], [(b"PNG ", png())])
    apart = blorb([(b"Pict", 1, 0), (b"Pict", 2, 1), (b"Pict", 3, 1)], [(b"PNG ", png()), (b"PNG ", png())])
    differing(work, shared, apart, 1, "! Pict 2 has the chunk of Pict 1 -> a chunk of its own", "! Pict 3 has the chunk of Pict 1 -> the chunk of Pict 2")
    differing(work, apart, shared, 1, "! Pict 2 has a chunk of its own -> the chunk of Pict 1", "! Pict 3 has the chunk of Pict 2 -> the chunk of Pict 1")
    # A name that goes leaves the others' sharing as it was.
    differing(work, shared, blorb([(b"Pict", 2, 0), (b"Pict", 3, 0)], [(b"PNG ", png())]), 1, f"- Pict 1 PNG {len(png())} bytes")


def wrong(work):
    """A file that is refused, or is not there, is no difference: status 2."""
    good, bad = work / "good.blb", work / "bad.blb"
    good.write_bytes(blorb([(b"Data", 7, 0)], [TEXT]))
    bad.write_bytes(good.read_bytes()[:-1])
    failed("diff", good, bad, saying="bad.blb: refused 5 at 4")
    failed("diff", bad, good, saying="bad.blb: refused 5 at 4")
    failed("diff", good, work / "none.blb", saying="Check the name")
    failed("diff", good, saying="missing: B")
    failed("diff", saying="missing: A, B")
    failed("diff", good, good, good, saying="too much")
    house = work / "house.blb"
    house.write_bytes(blorb([(b"Pict", 1, 0)], [(b"GIF ", b"GIF89a" + bytes(20))]))
    failed("diff", good, house, saying="--adrift")
    same(run("diff", good, house, "--adrift").out, b"- Data 7 TEXT 3 bytes\n+ Pict 1 GIF 26 bytes\n", "files of the ADRIFT house")
    same(run("diff", "/dev/stdin", good, stdin=good.read_bytes()), (0, b"", ""), "a file without a name")


def random_game(dice):
    """A few resources from a small stock, so that two such files have much in common."""
    stock = [(b"TEXT", b"eel"), (b"TEXT", b"cod"), (b"BINA", b"eel"), (b"BINA", b"")]
    chunks = [stock[dice.below(len(stock))] for _ in range(1 + dice.below(4))]
    entries = sorted({n: (b"Data", n, dice.below(len(chunks))) for n in (dice.below(5) for _ in range(4))}.values(), key=lambda e: e[2])
    used = sorted({e[2] for e in entries})
    loose = [(b"ANNO", b"x" * dice.below(3)) for _ in range(dice.below(3))]
    return blorb([(u, n, used.index(c)) for u, n, c in entries], [chunks[c] for c in used] + loose)


def by_reference(file):
    """The resources and the loose chunks of a file, by the reference."""
    parsed, entries = reference.parse(file)
    by_start = {c.start: c for c in parsed}
    resources = {(e.usage, e.number): (by_start[e.start].kind, by_start[e.start].body) for e in entries}
    starts = {e.start for e in entries}
    return resources, [(c.kind, c.body) for c in parsed if c.start not in starts and c.kind != b"RIdx"], {(e.usage, e.number): e.start for e in entries}


def sharing(starts, names):
    """Which of these names have one chunk together."""
    return {frozenset(n for n in names if starts[n] == starts[name]) for name in names}


def many(work):
    """Files from dice: the names of each line are those that the reference's reading gives."""
    dice = Dice(39)
    seen = set()
    for _ in range(150):
        a, b = random_game(dice), random_game(dice)
        (work / "a.blb").write_bytes(a)
        (work / "b.blb").write_bytes(b)
        result = run("diff", work / "a.blb", work / "b.blb")
        (one, loose, starts), (other, others, new_starts) = by_reference(a), by_reference(b)
        both = set(one) & set(other)
        wanted = {("-", n) for _, n in set(one) - set(other)} | {("+", n) for _, n in set(other) - set(one)}
        wanted |= {("!", n) for u, n in both if one[u, n] != other[u, n]}
        found = [line.split() for line in result.out.decode().splitlines() if not line.startswith("#")]
        same({(w[0], int(w[2])) for w in found if w[1] == "Data" and w[3] != "has"}, wanted, "the resources that differ")
        same(any(w[3:4] == ["has"] for w in found), sharing(starts, both) != sharing(new_starts, both), "one chunk for two")
        same(len([w for w in found if w[1] == "chunk"]), sum(x != y for x, y in zip(loose, others)) + abs(len(loose) - len(others)), "loose chunks")
        same(result.status, 1 if found else 0, "the status")
        seen.add(result.status)
    same(seen, {0, 1}, "both answers were met")


PARTS = (lines, chunks, links, wrong, many)
