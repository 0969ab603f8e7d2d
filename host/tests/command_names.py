"""Names: what a card takes for one file, the program's own names in any case, and names that would do something to a terminal."""
import errno
import os
import resource
import shutil
import subprocess

from building import blorb
from command_crash import steps_of
from command_kit import PROGRAM, contents, done, editing_reference, expect, failed, jpeg, run, same

GAME = blorb([(b"Pict", 1, 0), (b"Data", 7, 1)], [(b"JPEG", jpeg()), (b"TEXT", b"eel")])
# What docs/COMMAND.md says is covered.
BLOCKS = ((0x41, 0x17f), (0x370, 0x587), (0x1e00, 0x1eff), (0xff00, 0xffef))


def cased_pairs():
    """Each letter of these blocks that Unicode pairs with another one, with its other case, by Python's own tables."""
    letters = [chr(n) for first, last in BLOCKS for n in range(first, last + 1)]
    pairs = [(c, other) for c in letters for other in (c.upper(), c.lower()) if other != c and len(other) == 1]
    return [(c, other) for c, other in pairs if any(first <= ord(other) <= last for first, last in BLOCKS)]


def same_on_a_card(work):
    """OUT that is FILE but for the case of letters is refused: on a card the game would be gone."""
    file, texts = work / "game.blb", work / "list.txt"
    file.write_bytes(GAME)
    texts.write_bytes(b"Pict 1 An eel.\n")
    (work / "link.blb").symlink_to("game.blb")
    held = contents(work)
    for name in ("GAME.BLB", "Game.blb", "game.BLB"):
        for words in (("get", file, "Pict", "1"), ("get", work / "link.blb", "Pict", "1"), ("forms", file, "0"),
                      ("describe", file, "--write", texts), ("table", file, "--c-array")):
            failed(*words, "-o", work / name, saying="but for the case of letters")
    failed("get", "game.blb", "Pict", "1", "-o", "GAME.BLB", cwd=work, saying="overwrite FILE itself")
    failed("get", "game.blb", "Pict", "1", "-o", "./Game.Blb", cwd=work, saying="overwrite FILE itself")
    for name in ("LIST.TXT", "List.txt"):
        failed("describe", file, "--write", texts, "-o", work / name, saying="overwrite the list itself")
    same(contents(work), held, "nothing was written")
    # Another folder is told apart by its other letters, and get --all looks at each name.
    (work / "Other").mkdir()
    done("get", file, "Data", "7", "-o", work / "Other" / "GAME.BLB")
    same((work / "Other" / "GAME.BLB").read_bytes(), b"eel", "the same name in another folder")
    shutil.copy(file, work / "Other" / "DATA-7.TXT")
    failed("get", work / "Other" / "DATA-7.TXT", "--all", work / "Other", saying="but for the case of letters")
    same((work / "Other" / "DATA-7.TXT").read_bytes(), GAME, "get --all leaves FILE alone")


def letters_with_cases(work):
    """Every letter that has another case, by Python's tables; a name that differs in one more letter is another one."""
    pairs = cased_pairs()
    expect(len(pairs) > 900, f"{len(pairs)} letters with another case")
    for n in range(0, len(pairs), 40):
        some = pairs[n:n + 40]
        one, other = "".join(c for c, _ in some), "".join(o for _, o in some)
        file = work / f"{one}.blb"
        file.write_bytes(GAME)
        failed("get", file, "Data", "7", "-o", work / f"{other}.BLB", saying="but for the case of letters")
        same(contents(work), {file.name: GAME}, f"nothing was written over {one}")
        done("get", file, "Data", "7", "-o", work / f"{other}x.BLB")
        (work / f"{other}x.BLB").unlink()
        file.unlink()
    # No case, no UTF-8, or cut in a character: compared byte by byte.
    for one, other in ((b"\xff.blb", b"\xfe.blb"), (b"\xc3.blb", b"\xc3\xa4.blb"), ("\u4e00.blb".encode(), "\u4e01.blb".encode()), (b"7.blb", b"W.blb")):
        path = os.path.join(os.fsencode(work), one)
        with open(path, "wb") as f:
            f.write(GAME)
        done("get", path, "Data", "7", "-o", os.path.join(os.fsencode(work), other))
        for name in (one, other):
            os.unlink(os.path.join(os.fsencode(work), name))


def own_names_in_any_case(work):
    """`new A.TABLE` would be overwritten by the table of a, and B.BLORB-TEMP deleted by an edit of b."""
    file = work / "a"
    file.write_bytes(GAME)
    for name in ("a.TABLE", "A.Table", "a.UNDO", "A.Undo", "b.BLORB-TEMP", "b.Undo.Blorb-Temp"):
        failed("new", work / name, saying="this program's own")
        failed("get", file, "Data", "7", "-o", work / name, saying="Give another name")
        failed("diff", file, work / name, saying="this program's own")
    (work / "B.BLORB-TEMP").write_bytes(b"data")
    failed("add", file, "Data", "8", "TEXT", work / "B.BLORB-TEMP", saying="Rename it first")
    failed("get", file, "--all", work / "all.UNDO", saying="own")
    same(contents(work), {"a": GAME, "B.BLORB-TEMP": b"data"}, "nothing was written")
    done("new", work / "undo")
    done("new", work / "table.blb")


def shown_safely(work):
    """Names in messages: C1 control characters, what turns the direction of writing, and bytes that are no UTF-8 come out as '?'."""
    for name, shown in (("a\x9b2Jb", "a?2Jb"), ("a\u202egpj.b", "a?gpj.b"), ("a\u2066b\u2069", "a?b?"), ("a\u2028b\u2029c", "a?b?c"), ("a\x85b", "a?b"),
                        ("a\x07\x1b[2J\x7f", "a??[2J?"), ("\u00e4\u4e00\U0001f40d\u2027\u202f", "\u00e4\u4e00\U0001f40d\u2027\u202f")):
        text = failed("list", work / f"{name}.blb", saying="Check the name").err
        expect(f"/{shown}.blb: " in text, f"{name!r}: {text!r}")
        expect(f": {shown}\n" in failed("list", "x", name, saying="too much").err, f"{name!r} as a word too much")
    for name, shown in ((b"a\x9bb", "a?b"), (b"a\xe2\x80b", "a??b"), (b"\xc0\x80\xed\xa0\x80\xf4\x90\x80\x80", "?" * 9), (b"\xff\xfe", "??")):
        text = failed("list", os.path.join(os.fsencode(work), name), saying="Check the name").err
        expect(f"/{shown}: " in text, f"{name!r}: {text!r}")


def second_name(work):
    """Where `new` cannot remove its temporary name, it says that the file has two."""
    file = work / "n.blb"
    steps = steps_of(work, "new", file)
    file.unlink()
    at = max(n for n, step in enumerate(steps, 1) if step[:2] == ("unlink", "n.blb.blorb-temp"))
    result = failed("new", file, shim={"CRASH_AT": str(at), "CRASH_FAIL": str(errno.EIO)}, saying="the new file is in place, but")
    expect(".blorb-temp at its end, cannot be removed" in result.err and "delete it" in result.err, f"what is left and what to do: {result.err}")
    blank = editing_reference.BLANK
    same(contents(work), {"n.blb": blank, "n.blb.blorb-temp": blank}, "both names are there")
    done("add", file, "Data", "7", "TEXT", "-", stdin=b"eel")
    same(sorted(contents(work)), ["n.blb", "n.blb.undo"], "the next edit removes it, as it says")
    same(done("get", file, "Data", "7"), b"eel", "and the file is edited")


def little_memory(work):
    """Where memory is short, the advice is about memory."""
    file = work / "game.blb"
    file.write_bytes(GAME)

    def less():
        resource.setrlimit(resource.RLIMIT_AS, (12 << 20, 12 << 20))
    if subprocess.run([PROGRAM, "--version"], capture_output=True, preexec_fn=less).returncode != 0:
        print("  not run: little memory (this build takes more to begin with)")
        return
    for words in (("list", file), ("check", file), ("diff", file, file), ("add", file, "Data", "1", "TEXT", "-")):
        result = run(*words, preexec_fn=less)
        expect(result.status == 2 and "There is not enough memory" in result.err and "ulimit -v" in result.err, f"{words} with little memory: {result}")


PARTS = (same_on_a_card, letters_with_cases, own_names_in_any_case, shown_safely, second_name, little_memory)
