"""What is said of data that is not right: what to save it as, and what `check` would say of it."""
import re
import shutil
import subprocess

from building import blorb
from command_kit import ROOT, aiff, be, contents, done, expect, failed, jpeg, mod, ogg, png, refused, run, same, story, warned

PICTURE, SOUND = "Save the picture as PNG or JPEG.", "Save the sound as Ogg Vorbis, or as plain AIFF with 16 bits."
FOREIGN = (
    ("a WebP picture", b"RIFF" + be(40) + b"WEBPVP8 " + bytes(40), "Pict", PICTURE),
    ("a BMP picture", b"BM" + bytes([70, 0, 0, 0]) + bytes(60), "Pict", PICTURE),
    ("a TIFF picture", b"II*\0" + bytes(60), "Pict", PICTURE), ("a TIFF picture", b"MM\0*" + bytes(60), "Pict", PICTURE),
    ("an AVIF picture", be(28) + b"ftypavif" + bytes(60), "Pict", PICTURE), ("a HEIC picture", be(28) + b"ftypheic" + bytes(60), "Pict", PICTURE),
    ("a GIMP picture", b"gimp xcf v011\0" + bytes(60), "Pict", PICTURE), ("a Photoshop picture", b"8BPS\0\1" + bytes(60), "Pict", PICTURE),
    ("an ILBM picture", b"FORM" + be(20) + b"ILBM" + bytes(16), "Pict", PICTURE),
    ("a FLAC sound", b"fLaC" + bytes(60), "Snd", SOUND), ("an AIFF-C sound", b"FORM" + be(20) + b"AIFC" + bytes(16), "Snd", SOUND),
    ("an 8SVX sound", b"FORM" + be(20) + b"8SVX" + bytes(16), "Snd", SOUND), ("an MPEG-4 file", be(28) + b"ftypM4A " + bytes(60), "Snd", SOUND),
    ("an Ogg file, but not Vorbis", b"OggS" + bytes(24) + b"OpusHead" + bytes(20), "Snd", SOUND),
    ("a ZIP archive", b"PK\3\4" + bytes(60), "Exec", "Unpack it, and give the file that is in it."),
    ("a Blorb file", blorb([], []), "Data", "Take the resource out of it with `blorb get` first."),
)
TYPES = {"Pict": "Pict takes PNG, JPEG, or Rect", "Snd": "Snd takes OGGV (Ogg Vorbis), MOD, SONG, or FORM", "Data": "Data takes TEXT or BINA.",
         "Exec": "Exec takes ZCOD, GLUL, TAD2"}


def of_one_usage(text, usage):
    expect(TYPES[usage] in text and not any(TYPES[u] in text for u in TYPES if u != usage), f"the types of {usage} and of no other: {text}")


def no_type_takes_it(work):
    """What it is and what to save it as; never a list of types that would not take it either."""
    file = work / "game.blb"
    done("new", file)
    for what, data, usage, advice in FOREIGN:
        if usage != "Data":
            text = failed("add", file, usage, "0", "-", stdin=data, saying=f"the data is {what}, which no type of {usage} is for").err
            expect(advice in text and " takes " not in text and "Give TYPE" not in text, f"{what}: {text}")
        kind = {"Pict": "PNG", "Snd": "OGGV", "Exec": "GLUL", "Data": "TEXT"}[usage]
        text = failed("add", file, usage, "0", kind, "-", stdin=data, saying=f"the data is {what}, and not what the type").err
        expect(f"{advice} --as-is puts" in text and " takes " not in text, f"{what} as {kind}: {text}")
        # Data takes anything, once it is said how.
        of_one_usage(failed("add", file, "Data", "1", "-", stdin=data, saying="TYPE is left out").err, "Data")
        run("add", file, "Data", "1", "BINA", "-", "--no-undo", stdin=data)
        same(done("get", file, "Data", "1"), data, f"{what} as BINA")
        done("remove", file, "Data", "1", "--no-undo")


def types_of_the_usage(work):
    """Where types are named, they are those of the usage."""
    file = work / "game.blb"
    done("new", file)
    for usage in ("Pict", "Snd", "Exec", "Data"):
        of_one_usage(failed("add", file, usage, "0", "-", stdin=b"a text", saying="TYPE is left out").err, usage)
        wrong = "ZCOD" if usage != "Exec" else "PNG"
        text = refused(114, 24, "add", file, usage, "0", wrong, "-", stdin=b"a text").err
        of_one_usage(text, usage)
        expect(f"{wrong} is for the usage {'Exec' if wrong == 'ZCOD' else 'Pict'}." in text, f"which usage takes it: {text}")
        of_one_usage(refused(30, 0, "add", file, usage, "0", "FORM", "-", stdin=b"a text").err, usage)
    expect("PNG is for the usage Pict." in refused(114, 24, "add", file, "Snd", "1", "-", stdin=png()).err, "a picture as a sound")
    file.write_bytes(blorb([(b"Pict", 1, 0)], [(b"JPEG", jpeg())]))
    of_one_usage(refused(114, 36, "link", file, "Pict", "1", "Snd", "1").err, "Snd")
    file.write_bytes(blorb([(b"Snd ", 1, 0)], [(b"TEXT", b"eel")]))
    of_one_usage(refused(14, 24, "check", file).err, "Snd")


def odd_sounds(work):
    """The advice for an AIFF file with something behind its form never leads to a sound that `check` calls broken."""
    file, odd = work / "game.blb", (ROOT / "host/tests/data/odd.aiff").read_bytes()
    done("new", file)
    # SoX: neither the whole file nor its form is a sound whose chunks fill it.
    text = refused(30, 0, "add", file, "Snd", "1", "FORM", "-", stdin=odd, advice="Save it with 16 bits").err
    expect("head -c" not in text and "broken (49)" in text, f"SoX's file: {text}")
    warned("add", file, "Snd", "1", "-", stdin=odd[:-1], saying=["'Snd ' 1: refused 49"])
    warned("replace", file, "Snd", "1", "-", stdin=odd[:-1], saying=["'Snd ' 1: refused 49"])
    warned("check", file, saying=["'Snd ' 1: refused 49"])
    # A sound by itself with bytes behind it: what is left after the cut is told.
    good = aiff(b"four")
    for more, advice in ((b"\0", "cut off what stands"), (b"\0\0", "cut off what stands"), (b"rubbish!", "cut off what stands")):
        text = refused(30, 0, "replace", file, "Snd", "1", "FORM", "-", stdin=good + more, advice=advice).err
        length = int(text.split("head -c ")[1].split(")")[0])
        same(done("replace", file, "Snd", "1", "-", stdin=(good + more)[:length]), b"", "as advised")
        same(done("check", file).splitlines()[-1].split()[0], b"accepted", "and `check` has nothing to say")
    # A form of odd length that its chunks fill does not exist; one with a chunk that runs past it is broken in any case.
    broken = good[:-16] + be(60) + good[-12:]
    text = refused(30, 0, "replace", file, "Snd", "1", "FORM", "-", stdin=broken + b"xx", advice="Save it again, with 16 bits").err
    expect("head -c" not in text, f"a broken sound with bytes behind it: {text}")


def by_sox(work):
    """What SoX makes of one channel with 8 or 24 bits and an odd number of samples; and that the advice helps."""
    if shutil.which("sox") is None:
        print("  not run: sounds that SoX makes now (no sox); odd.aiff, which it made, stands for them")
        return
    file, sound = work / "game.blb", work / "sound.aiff"
    done("new", file)
    make = ["sox", "-D", "-r", "8000", "-n", "-c", "1", "--comment", ""]
    for number, bits in (("1", "8"), ("2", "24")):
        subprocess.run([*make, "-b", bits, sound, "synth", "101s", "sine", "440"], check=True)
        # With 8 bits a byte stands behind the form; with 24 it may not, and then the file is taken and warned of.
        result = run("add", file, "Snd", number, sound)
        expect(result.status in (0, 1) and re.search("(Save it with 16 bits|16 bits to a sample help)", result.err), f"SoX with {bits} bits: {result}")
        subprocess.run(["sox", sound, "-b", "16", work / "saved.aiff"], check=True, stderr=subprocess.DEVNULL)
        done("add" if result.status == 1 else "replace", file, "Snd", number, work / "saved.aiff")
        done("check", file)


def as_check_would(work):
    """add and replace warn of a resource as `check` does; nothing of other resources."""
    file = work / "game.blb"
    done("new", file)
    warned("add", file, "Data", "1", "BINA", "-", stdin=b"", saying=["'Data' 1: it has no data, and ScummVM"])
    done("add", file, "Pict", "1", "-", stdin=png())
    warned("replace", file, "Pict", "1", "PNG", "-", "--as-is", stdin=jpeg(), saying=["'Pict' 1: the data is a JPEG picture"])
    warned("add", file, "Pict", "2", "JPEG", "-", "--as-is", stdin=b"", saying=["'Pict' 2: there is no data", "'Pict' 2: it has no data"])
    done("add", file, "Snd", "1", "-", stdin=ogg())
    warned("add", file, "Snd", "2147483649", "-", stdin=mod(), saying=["'Snd ' 2147483649: its number and the least of its usage"])
    done("add", file, "Snd", "7", "-", stdin=mod())
    warned("add", file, "Snd", "0", "-", stdin=ogg(), saying=["'Snd ' 2147483649: its number and the least of its usage"])
    warned("add", file, "Exec", "0", "-", stdin=story(), saying=["'Data' 1: fizmo"])
    warned("add", file, "Data", "3", "TEXT", "-", stdin=b"eel", saying=["'Data' 3: fizmo"])
    warned("replace", file, "Data", "3", "TEXT", "-", stdin=b"conger", saying=["'Data' 3: fizmo"])
    for words in (("remove", file, "Data", "3"), ("link", file, "Data", "1", "Data", "4"), ("undo", file, "2")):
        same(done(*words), b"", f"{words} warns of nothing")
    refused(22, 0, "replace", file, "Data", "99", "BINA", "-", stdin=b"")
    # Nothing is said of an edit that was not made.
    held = contents(work)
    result = run("add", file, "Data", "1", "BINA", "-", stdin=b"")
    expect(result.status == 1 and "warning" not in result.err, f"a refused edit warns of nothing: {result}")
    same(contents(work), held, "and changes nothing")


PARTS = (no_type_takes_it, types_of_the_usage, odd_sounds, by_sox, as_check_would)
