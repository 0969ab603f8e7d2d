"""How long AIFF sounds play: list --long, list --json and check, on sounds written by hand and on files that other programs made."""
import glob
import hashlib
import json
import shutil
import subprocess
import sysconfig

from building import blorb
from command_kit import ROOT, SOUND_LENGTH, be, done, expect, listing, run, same

RATES = (8000, 11025, 16000, 22050, 32000, 44100, 48000, 88200, 96000, 176400, 192000)
FIELDS = ("rate", "channels", "sample_size", "frames", "seconds", "sound_refused")
DATA = ROOT / "host/tests/data"
# What soxi of SoX 14.4.2 tells of files: rate, channels, bits, frames, whole seconds. SoX made these two (command_use.py has the commands).
MADE = {"even.aiff": (8000, 1, 16, 100, 0), "odd.aiff": (8000, 1, 8, 101, 0)}
# The same of files in packages of Debian 12, by the file's SHA-256; None where the library has to refuse it with 49.
PACKAGES = "libpython3.11-testsuite, puredata-doc and supercollider-common"
PACKAGED = {
    # libpython3.11-testsuite; any CPython up to 3.12 has the same files
    "1933965d3f03aa674c8ada3b5d73a2287d71e35bd8e4fa6d732724ba951dd27a": ("Sine-1000Hz-300ms.aif", (48000, 2, 16, 14400, 0)),
    "93e79b29fca6d56488393712285db29e7e5a75c693f9be4008cde600b2b81700": ("pluck-pcm8.aiff", (11025, 2, 8, 3307, 0)),
    "4559920a8cb9ea62be33023d6dd183bea88bc20bad1b4caeb196decb9e5fb6e6": ("pluck-pcm16.aiff", (11025, 2, 16, 3307, 0)),
    "663c223c95e77edf64bf88b2fb3f9ab385866187630a4914c7c17ed7221c9f82": ("pluck-pcm24.aiff", (11025, 2, 24, 3307, 0)),
    "6b03ea1d93a88bf105909313e5661b5f35c281bece7485a9b997a621cd59f9ac": ("pluck-pcm32.aiff", (11025, 2, 32, 3307, 0)),
    "3636198f2e61362121c9f7adfbde802883c99e6b23977e4e0bbbbd042b307421": ("sndhdr.aiff", (44100, 2, 16, 5, 0)),
    "bd180a1145d18611e620bf7e5baa5b29f4afbaebc894befcb303251b5ccdbab8": ("pluck-alaw.aifc", None),      # AIFF-C, and the next two
    "64b1c3671c38f4657ff67b9508572bfc5aed3d0537d4428fa5607a5fda208e87": ("pluck-ulaw.aifc", None),
    "884528c663a2c5bc5977c54655699389e6d31420d0e79ac6fccac835ee0b167e": ("sndhdr.aifc", None),
    # puredata-doc: with markers and an instrument
    "088d6ec6eb57fa6183333c3a3da86a591b74dcb863a60a757860a28063385b23": ("bell.aiff", (44100, 1, 16, 155944, 3)),
    # supercollider-common: the form ends in front of the file's last chunk
    "95af46255905653ffd99c00067e344a5bdba808254012b5f4a126b96348ae252": ("a11wlk01-44_1.aiff", None),
}
# Where these packages have them, and where the running Python has those of its own tests.
FOLDERS = ("/usr/lib/python3*/test", "/usr/share/sounds", "/usr/share/puredata/doc/sound", "/usr/share/SuperCollider/sounds",
           sysconfig.get_paths()["stdlib"] + "/test")


def part(kind, body):
    return kind + be(len(body)) + body + bytes(len(body) % 2)


def form(kind, *parts):
    body = kind + b"".join(parts)
    return b"FORM" + be(len(body)) + body


def common(channels, frames, bits, exponent, significand):
    return part(b"COMM", channels.to_bytes(2, "big") + be(frames) + bits.to_bytes(2, "big")
                + exponent.to_bytes(2, "big") + significand.to_bytes(8, "big"))


def answered(*files):
    """The library's answer to each file: refusal, place, channels, frames, sample size, rate, seconds."""
    said = subprocess.run([SOUND_LENGTH, *files], check=True, capture_output=True, text=True).stdout
    return [tuple(int(n) for n in line.split()) for line in said.splitlines()]


def resources(file):
    """Of each resource its line of list --long, and what list --json tells of the sound."""
    told = json.loads(done("list", file, "--json"))["resources"]
    return list(zip(done("list", "--long", file).decode().splitlines()[1:], ([r[name] for name in FIELDS] for r in told)))


def sound_lines(work):
    """Minutes and seconds, the limits of each figure, and refused sounds, which say so in their line; list itself prints what it ever did."""
    file = work / "game.blb"
    rate_1, rate_44100 = (16383, 1 << 63), (0x400E, 0xAC44 << 48)
    good = [
        (common(2, 44100 * 125 + 44099, 16, *rate_44100), "44100 Hz, 2 channels, 16 bits, 2:05", (44100, 2, 16, 44100 * 125 + 44099, 125)),
        (common(1, 44100 * 60, 8, *rate_44100), "44100 Hz, 1 channel, 8 bits, 1:00", (44100, 1, 8, 44100 * 60, 60)),
        (common(1, 44100 * 60 - 1, 8, *rate_44100), "44100 Hz, 1 channel, 8 bits, 0:59", (44100, 1, 8, 44100 * 60 - 1, 59)),
        (common(0, 2 ** 32 - 1, 65535, *rate_1), "1 Hz, 0 channels, 65535 bits, 71582788:15", (1, 0, 65535, 2 ** 32 - 1, 2 ** 32 - 1)),
        (common(6, 0, 24, 16383 + 63, 44100), "44100 Hz, 6 channels, 24 bits, 0:00", (44100, 6, 24, 0, 0)),
    ]
    bad = [
        (49, b"NAM"), (49, part(b"NAME", b"odd")[:-1] + b"\1"), (49, b"SSND" + be(9) + bytes(8)),
        (50, b""), (50, common(1, 1, 8, *rate_1) * 2), (50, part(b"COMM", bytes(17))),
        (51, common(1, 1, 8, 0x400D, 0xADDD1745D1745D17)), (51, common(1, 1, 8, 0, 0)), (51, common(1, 1, 8, 0xBFFF, 1 << 63)),
    ]
    sounds = [form(b"AIFF", held, part(b"SSND", bytes(9))) for held, _, _ in good] + [form(b"AIFF", held) for _, held in bad]
    held = blorb([(b"Snd ", i, i) for i in range(len(sounds))], [(b"FORM", s[8:]) for s in sounds])
    file.write_bytes(held)
    same(done("list", file), listing(held), "list prints what it ever did")
    lines = resources(file)
    for (_, shown, figures), (line, told) in zip(good, lines):
        expect(line.endswith(f", an AIFF sound, {shown}"), f"{line}: {shown}")
        same(told, [*figures, None], f"the same for scripts: {line}")
    for (number, _), (line, told) in zip(bad, lines[len(good):]):
        expect(f", an AIFF sound, length not known, refused {number}: the " in line, f"a refused sound says so: {line}")
        same(told, [None] * 5 + [number], f"the same for scripts: {line}")
    warned = run("check", file)
    same((warned.status, warned.out), (0, b"accepted %d bytes %d resources\n" % (len(held), len(sounds))), "check accepts the file")
    warnings = warned.err.splitlines()
    same(len(warnings), sum(3 if number == 49 else 2 for number, _ in bad), "a warning and an advice for each refused sound")
    for n, (number, _) in enumerate(bad):
        expect(f": warning: 'Snd ' {len(good) + n}: refused {number}: the " in warned.err, f"check warns of {n}: {warned.err}")
    expect("as plain AIFF" in warned.err and "22050 or 44100" in warned.err, "what to do about it")
    path = work / "sound.aiff"
    for sound, (line, told) in zip(sounds, lines):
        path.write_bytes(sound)
        [(refusal, place, channels, frames, bits, rate, seconds)] = answered(path)
        same([refusal, place, rate, channels, bits, frames, seconds], [told[5] or 0, 0, *(n or 0 for n in told[:5])], f"the library says so of {line}")


def figures_of(path):
    """What soxi tells: rate, channels, bits, frames, seconds. Nothing of this project is used."""
    def asked(option):
        return subprocess.run(["soxi", option, path], check=True, capture_output=True, text=True).stdout.strip()
    return int(asked("-r")), int(asked("-c")), int(asked("-b")), int(asked("-s")), int(float(asked("-D")))


def has_soxi():
    return shutil.which("sox") is not None and shutil.which("soxi") is not None


def like_soxi(file, path, sound, figures=None):
    """The sound as a resource: list tells of it the figures that soxi tells of its file, or told."""
    path.write_bytes(sound)
    file.unlink(missing_ok=True)
    done("new", file)
    done("add", file, "Snd", "1", "FORM", path, "--no-undo")
    [(line, told)] = resources(file)
    rate, channels, bits, frames, seconds = figures_of(path) if figures is None else figures
    same(told, [rate, channels, bits, frames, seconds, None], f"soxi's figures: {line}")
    expect(f", {rate} Hz, {channels} channel" in line and line.endswith(f", {bits} bits, {seconds // 60}:{seconds % 60:02}"), f"soxi's figures: {line}")


def padded_inside(sound):
    """A file that SoX made of an odd number of bytes, with the padding byte of its last chunk in the form, where it belongs."""
    size = int.from_bytes(sound[4:8], "big") + 8
    return b"FORM" + be(size - 7) + sound[8:size] + b"\0"


def stated(work):
    """Files that SoX made, by the figures that its soxi told once: neither is needed here. Of odd.aiff SoX left the padding byte out of the form."""
    file, path = work / "game.blb", work / "sound.aiff"
    for name, figures in MADE.items():
        sound, right = (DATA / name).read_bytes(), (0, 0, figures[1], figures[3], figures[2], figures[0], figures[4])
        odd = name == "odd.aiff"
        same(answered(DATA / name), [(49, 0, 0, 0, 0, 0, 0) if odd else right], f"{name} as it is")
        like_soxi(file, path, padded_inside(sound) if odd else sound, figures)
        same(answered(path), [right], f"soxi's figures of {name}")
        if has_soxi():
            same(figures_of(DATA / name), figures, f"what soxi says of {name}")


def made_by_sox(path, rate, channels, bits, length, *more):
    subprocess.run(["sox", "-D", "-r", str(rate), "-n", "-b", str(bits), "-c", str(channels), *more, path, "synth", length, "sine", "440"],
                   check=True, capture_output=True)
    return path.read_bytes()


def with_sox(work):
    """Files that SoX made, with rates from 8,000 to 192,000 and odd numbers of bytes, and what its soxi says of them."""
    if not has_soxi():
        print("  with_sox: there is no sox here, so nothing was compared with soxi")
        return
    file, path = work / "game.blb", work / "sound.aiff"
    for n, rate in enumerate(RATES):
        for channels, bits, length in ((1, 16, "1.5"), (2, 8, f"{101 + n}s"), (1, 24, "62.99" if rate == 8000 else "100s"), (2, 32, f"{rate}s")):
            sound = made_by_sox(path, rate, channels, bits, length)
            like_soxi(file, path, sound)
    # Where the samples have an odd number of bytes, SoX's form ends without the padding byte of its last chunk; at 8 bits it stands behind the form.
    for bits, length in ((8, "101s"), (24, "7s"), (8, "1s")):
        sound = made_by_sox(path, 8000, 1, bits, length)
        size = int.from_bytes(sound[4:8], "big") + 8
        same((size % 2, sound[size:]), (1, b"\0" if bits == 8 else b""), "what SoX writes of odd samples")
        for wrong in (sound, sound[:size]):
            path.write_bytes(wrong)
            same(answered(path), [(49, 0, 0, 0, 0, 0, 0)], "the library refuses that")
        like_soxi(file, path, padded_inside(sound))
    made_by_sox(path, 22254.545, 1, 16, "100s")
    same(answered(path), [(51, 0, 0, 0, 0, 0, 0)], "a rate that is no whole number")
    for bits in (8, 16, 24):
        compressed = work / "sound.aifc"
        made_by_sox(compressed, 44100, 2, bits, "100s", "-t", "aifc")
        same(answered(compressed), [(49, 0, 0, 0, 0, 0, 0)], "AIFF-C")


def right_answer(path, held):
    """Of a packaged file its figures, or None for 49, and where they come from. Of a file that is not in the table only soxi knows them."""
    known = PACKAGED.get(hashlib.sha256(held).hexdigest())
    if known is not None:
        return known[1], "stated"
    if held[:4] != b"FORM" or int.from_bytes(held[4:8], "big") + 8 != len(held) or held[8:12] == b"AIFC":
        return None, "refused"
    return (figures_of(path), "soxi") if has_soxi() else (None, "unknown")


def packaged(work):
    """AIFF and AIFF-C files of Debian's packages and of Python's own tests: soxi's figures, or 49. Those in the table need no soxi."""
    paths = sorted({path for folder in FOLDERS for end in ("aif", "aiff", "aifc") for path in glob.glob(f"{folder}/**/*.{end}", recursive=True)})
    counts = {"stated": 0, "soxi": 0, "refused": 0, "unknown": 0}
    for path, (refusal, place, channels, frames, bits, rate, seconds) in zip(paths, answered(*paths) if paths else []):
        with open(path, "rb") as f:
            held = f.read()
        figures, source = right_answer(path, held)
        counts[source] += 1
        if source == "unknown":
            continue
        same((refusal, place, rate, channels, bits, frames, seconds), (49, 0, 0, 0, 0, 0, 0) if figures is None else (0, 0, *figures), f"{source}: {path}")
        if figures is not None:
            like_soxi(work / "game.blb", work / "sound.aiff", held, figures)
            expect(source == "soxi" or not has_soxi() or figures_of(path) == figures, f"what soxi says of {path}")
    if paths:
        print("  packaged: {stated} files by stated figures, {soxi} by soxi, {refused} that are no AIFF, {unknown} not compared".format(**counts))
    else:
        print(f"  packaged: no AIFF file was found, so none was compared; Debian's {PACKAGES} have some")


PARTS = (sound_lines, stated, with_sox, packaged)
