"""Scaled pictures: sizes read from real pictures, sides by a reference in fractions, and each refusal with what is said of it."""
import json
import shutil
import struct
import subprocess
import sys
import zlib
from fractions import Fraction

from building import Dice, blorb
from command_kit import ROOT, be, done, expect, failed, jpeg, png, refused, run, same

MOST = 65535
# Whole pictures in host/tests/data that programs of Debian 12 made, with the sizes that they were asked for: ImageMagick the plain ones, cjpeg the
# progressive one, netpbm the interlaced PNG and the GIF of version 87a. The last JPEG is cjpeg's, with a smaller one of 16 by 11 in front of its own
# header as a thumbnail, put in by libexif's `exif`.
REAL = (("plain.png", "PNG ", (37, 23)), ("interlaced.png", "PNG ", (41, 29)), ("baseline.jpg", "JPEG", (53, 31)), ("progressive.jpg", "JPEG", (61, 19)),
        ("thumbnail.jpg", "JPEG", (67, 45)), ("plain.gif", "GIF ", (43, 17)), ("version87a.gif", "GIF ", (27, 39)))
GIF = b"GIF89a" + struct.pack("<HH", 33, 21) + bytes(20)
SKIPPED = set()


def reso(windows, *rows):
    """A 'Reso' chunk: six numbers of windows and rows of seven."""
    return b"Reso", b"".join(be(n) for numbers in ((*windows, *(6 - len(windows)) * (0,)), *rows) for n in numbers)


def png_of(width, height):
    """A whole PNG of grey pixels of one bit."""
    def part(kind, body):
        return be(len(body)) + kind + body + be(zlib.crc32(kind + body))
    rows = (b"\0" + bytes((width + 7) // 8)) * height
    return b"\x89PNG\r\n\x1a\n" + part(b"IHDR", be(width) + be(height) + bytes([1, 0, 0, 0, 0])) + part(b"IDAT", zlib.compress(rows)) + part(b"IEND", b"")


def jpegs_of(width, height):
    """Whole JPEGs of these sides as cjpeg makes them: usual, progressive, grey, with restart markers; and one with fill bytes before its markers."""
    if shutil.which("cjpeg") is None:
        if "cjpeg" not in SKIPPED:
            print("  scale: cjpeg is not there; of JPEGs only those in host/tests/data and one of one pixel are tried", file=sys.stderr)
        SKIPPED.add("cjpeg")
        return []
    picture = b"P6 %d %d 255\n" % (width, height) + bytes(n * 7 % 256 for n in range(3 * width * height))
    made = [subprocess.run(["cjpeg", *options], input=picture, stdout=subprocess.PIPE, check=True).stdout
            for options in ([], ["-progressive"], ["-grayscale"], ["-restart", "1"], ["-quality", "40", "-optimize"])]
    first = made[0]
    made.append(first[:2] + b"\xff\xff\xff" + first[2:])                      # fill bytes before the first marker
    made.append(first[:2] + b"\xff\xfe\0\x0a\xff\xc0lorem!" + first[2:])      # a comment with a frame's marker in it
    made.append(first[:2] + b"\xff\x01\xff\xd3" + first[2:])                  # markers that stand alone
    return made


def scaled(file, number, window, size=None, *more):
    """What is printed: the picture's own size and the scaled one."""
    words = done("scale", file, str(number), "%dx%d" % window, *(["%dx%d" % size] if size else []), *more).decode().split(" ")
    same((words[:2], words[3]), (["Pict", str(number)], "scaled"), "scale prints the picture")
    return tuple(tuple(int(side) for side in word.split("x")) for word in (words[2], words[4]))


def told_sizes(work):
    """The size of a picture is read from its own data: PNG, JPEG, Rect, and under ADRIFT GIF."""
    file = work / "game.blb"
    pictures = [(b"PNG ", png(), (2, 2)), (b"JPEG", jpeg(), (1, 1)), (b"Rect", be(320) + be(0), (320, 0)), (b"GIF ", GIF, (33, 21))]
    pictures += [(b"PNG ", png_of(*size), size) for size in ((1, 1), (640, 3), (9, 70000))]
    pictures += [(b"JPEG", made, size) for size in ((17, 13), (300, 5), (1, 257)) for made in jpegs_of(*size)]
    entries = [(b"Pict", n, n) for n in range(len(pictures))]
    file.write_bytes(blorb(entries, [(kind, data) for kind, data, _ in pictures] + [reso((100, 50), *[(n, 3, 1, 0, 0, 0, 0) for n in range(3)])]))
    for n, (kind, data, size) in enumerate(pictures):
        if max(size) > MOST:
            err = refused(33, 0, "scale", file, str(n), "100x50", "--adrift", advice="at most 65535").err
            expect("a side of the picture is 70000" in err, err)
            continue
        grown = tuple(3 * side for side in size) if n < 3 else size
        same(scaled(file, n, (100, 50), None, "--adrift"), (size, grown), f"the size of a {kind}")
        same(scaled(file, n, (100, 50), (7, 8), "--adrift"), ((7, 8), (21, 24) if n < 3 else (7, 8)), "a size that is given counts")
    for kind, data in ((b"PNG ", b"a text"), (b"PNG ", png()[:20]), (b"JPEG", jpeg()[:-60]), (b"JPEG", b"\xff\xd8\xff"), (b"JPEG", b""),
                       (b"JPEG", b"\xff\xd8" + b"\xff" * 40), (b"JPEG", b"\xff\xd8\xff\xe0\0\0" + bytes(40))):
        file.write_bytes(blorb([(b"Pict", 1, 0)], [(kind, data)]))
        failed("scale", file, "1", "10x10", saying="does not tell its width and height")
        same(scaled(file, 1, (10, 10), (4, 5)), ((4, 5), (4, 5)), "a size that is given does")


def real_pictures(work):
    """Pictures that other programs made: the data tells the type and the size, and comes out as it went in. No tool is needed."""
    file = work / "game.blb"
    done("new", file)
    for n, (name, kind, size) in enumerate(REAL):
        done("add", file, "Pict", str(n), ROOT / "host/tests/data" / name, "--adrift")
        same(scaled(file, n, (100, 50), None, "--adrift"), (size, size), f"the size of {name}")
        same(done("get", file, "Pict", str(n), "--adrift"), (ROOT / "host/tests/data" / name).read_bytes(), f"{name} as it went in")
    told = json.loads(done("list", file, "--json", "--adrift"))["resources"]
    same([(r["type"], r["width"], r["height"], r["suits"]) for r in told], [(kind, *size, True) for _, kind, size in REAL], "list tells the same")
    for line, (name, _, (width, height)) in zip(done("list", file, "--long", "--adrift").decode().splitlines()[1:], REAL):
        expect(f", {width} by {height}, " in line, f"{name}: {line}")
    same(run("check", file, "--adrift").err, "", "check warns of none of them")


def expected(windows, row, window, size):
    """02, P4, in exact fractions."""
    ratio = min(Fraction(window[0], windows[0]), Fraction(window[1], windows[1])) * Fraction(row[1], row[2])
    if row[3]:
        ratio = max(ratio, Fraction(row[3], row[4]))
    if row[5]:
        ratio = min(ratio, Fraction(row[5], row[6]))
    return tuple(int(side * ratio) for side in size)


def sides_by_reference(work):
    dice, file = Dice(23), work / "game.blb"

    def number():
        return (dice.below(6) + 1, dice.below(MOST) + 1, MOST - dice.below(3))[dice.below(3)]
    for _ in range(60):
        windows, rows = (number(), number()), []
        for picture in range(4):
            least, greatest = sorted((Fraction(number(), number()), Fraction(number(), number())))
            limits = [*least.as_integer_ratio(), *greatest.as_integer_ratio()]
            for at in (0, 2):
                if dice.below(2):
                    limits[at] = 0
            rows.append((picture * 70001, number() - 1, number(), *limits))
        file.write_bytes(blorb([], [reso(windows, *rows)]))
        for row in rows:
            window, size = (number() - 1, number() - 1), (number() - 1, number() - 1)
            same(scaled(file, row[0], window, size)[1], expected(windows, row, window, size), f"{windows} {row} {window} {size}")
        same(scaled(file, 5, (1, 1), (6, 7))[1], (6, 7), "a picture that is not listed keeps its size")
    largest = (0, MOST, 1, 0, 0, 0, 0)
    file.write_bytes(blorb([], [reso((1, 1), largest)]))
    same(scaled(file, 0, (MOST, MOST), (MOST, 1))[1], (MOST ** 3, MOST ** 2), "sides beyond 32 bits")


def scale_refusals(work):
    file, good = work / "game.blb", (3, 1, 1, 1, 2, 2, 1)
    other = (7, 1, 1, 0, 0, 0, 0)
    entries, picture = [(b"Pict", 3, 0), (b"Data", 4, 1)], [(b"PNG ", png()), (b"TEXT", b"eel")]
    start = 24 + 24 + 8 + len(png()) + len(png()) % 2 + 12

    def with_chunks(*chunks):
        file.write_bytes(blorb(entries, picture + list(chunks)))
    with_chunks(reso((100, 50), good))
    for number in ("1", "4"):
        refused(22, 0, "scale", file, number, "100x50", advice="as a fourth word")
        done("scale", file, number, "100x50", "3x3")
    with_chunks((b"Reso", b""), reso((100, 50), good))
    refused(31, start + 8, "scale", file, "3", "100x50")
    for body in (b"", bytes(23), bytes(25), reso((100, 50), good)[1] + b"\0", reso((100, 50), good)[1][:-4]):
        with_chunks((b"Reso", body))
        refused(32, start, "scale", file, "3", "100x50")
    for windows, row, about in (((0, 50), good, "width or height of zero"), ((100, 0), good, "width or height of zero"),
                                ((100, 50, 0, 0, 0, 65536), good, "a window of the 'Reso' has a number over"),
                                ((100, 50), (3, 65536, 1, 0, 0, 0, 0), "row 1 of the 'Reso', picture 3, a number over 65,535"),
                                ((100, 50), (3, 1, 1, 0, 65536, 0, 0), "picture 3, a number over 65,535"),
                                ((100, 50), (3, 1, 0, 0, 0, 0, 0), "standard ratio has the denominator zero"),
                                ((100, 50), (3, 1, 1, 1, 0, 0, 0), "a limit has the denominator zero"),
                                ((100, 50), (3, 1, 1, 0, 0, 1, 0), "a limit has the denominator zero"),
                                ((100, 50), (3, 1, 1, 3, 2, 4, 3), "the least ratio is over the greatest"),
                                ((100, 50), (7, 1, 1, 0, 0, 0, 0), "lists picture 7 twice")):
        with_chunks(reso(windows, other, row))
        for number, size in (("3", []), ("9", ["4x4"])):
            err = refused(33, 0, "scale", file, number, "100x50", *size).err
            expect(about in err, f"wanted {about}: {err}")
    with_chunks(reso((100, 50), good))
    for window, size, about in (("65536x1", "1x1", "a side of the window is 65536"), ("1x4294967295", "1x1", "a side of the window is 4294967295"),
                                ("1x1", "65536x1", "a side of the picture is 65536"), ("1x1", "1x65536", "a side of the picture is 65536")):
        expect(about in refused(33, 0, "scale", file, "3", window, size).err, about)
    file.write_bytes(file.read_bytes()[:-2])
    refused(5, 4, "scale", file, "3", "100x50")


def scale_warnings(work):
    """check warns of a 'Reso' by which no picture can be scaled, and of no other."""
    file, good = work / "game.blb", reso((100, 50), (3, 1, 1, 0, 0, 0, 0))
    for chunks, about in (([], None), ([good], None), ([good, good], "(refusal 31 at 84): there is a second 'Reso'"),
                          ([(b"Reso", b"")], "(refusal 32 at 24): the length of the 'Reso'"),
                          ([reso((0, 50))], "(refusal 33 at 0): the standard window of the 'Reso' has a width or height of zero")):
        file.write_bytes(blorb([], chunks))
        result = run("check", file)
        same((result.status, result.out), (0, b"accepted %d bytes 0 resources\n" % len(file.read_bytes())), "check")
        expect(result.err == "" if about is None else f"blorb: {file}: warning: no picture can be scaled {about}" in result.err, result.err)


def scale_misuse(work):
    file = work / "game.blb"
    done("new", file)
    for size in ("", "x", "1x", "x1", "1", "1X2", "1x2x3", "-1x2", "1 x2", "+1x1", "1.5x2", "4294967296x1", "0x1f"):
        failed("scale", file, "1", size, saying="WIDTHxHEIGHT")
        failed("scale", file, "1", "1x1", size, saying="the picture's size is WIDTHxHEIGHT")
    expect("missing: NUMBER, WIDTHxHEIGHT\n" in failed("scale", file).err, "what is missing is named")
    failed("scale", file, "1", "1x1", "1x1", "1x1", saying="too much")
    same(scaled(file, 1, (0, 0), (3, 4)), ((3, 4), (3, 4)), "a file without a 'Reso'")


PARTS = (told_sizes, real_pictures, sides_by_reference, scale_refusals, scale_warnings, scale_misuse)
