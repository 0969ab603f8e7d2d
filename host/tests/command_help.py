"""The help, slips on the command line, and usages and types in any case."""
import re

from building import blorb
from command_kit import be, contents, done, expect, failed, jpeg, png, refused, run, same

GAME = blorb([(b"Pict", 1, 0), (b"Data", 7, 1)], [(b"JPEG", jpeg()), (b"TEXT", b"eel")])
WIDTH = 80


def usages():
    """Each command and its forms, as the help has them."""
    found = {}
    for line in done("--help").decode().splitlines():
        if form := re.fullmatch(r"  blorb ([a-z-]+)( .*)?", line):
            found.setdefault(form[1], []).append((form[2] or "").strip())
    return found


def narrow(work):
    """Every line of the help fits a terminal of 80 columns, and every option of a command is explained where it is asked for."""
    commands = usages()
    expect(len(commands) >= 19 and "help" in commands, f"the commands: {sorted(commands)}")
    texts = {"--help": done("--help").decode()}
    for name, forms in commands.items():
        if name in ("help", "--version"):
            continue
        text = texts[name] = done("help", name).decode()
        same(done(name, "--help").decode(), text, f"{name} --help")
        lines = text.splitlines()
        shown = " ".join(text.removeprefix("usage: ").split())
        expect(shown.startswith(" ".join(f"blorb {name} {form}".strip() for form in forms) + " "), f"help {name}: its forms: {text}")
        options = set(re.findall(r"(?<![\w-])--?[a-z][a-z-]*", " ".join(forms))) | {"--adrift"}
        told = {line.split()[0]: line.split()[-1] for line in lines if re.match(r"  --?[a-z]", line)}
        same(set(told), options, f"help {name} explains its options, and no others")
        expect(all(len(line.split()) > 2 for line in lines if re.match(r"  --?[a-z]", line)), f"help {name}: in words")
        for operand in ("USAGE", "NUMBER", "TYPE", "DATAFILE"):
            expect(any(re.search(rf"\b{operand}\b", form) for form in forms) == any(re.match(rf"  {operand} ", line) for line in lines),
                   f"help {name} says what {operand} is")
    for what, text in texts.items():
        wide = [line for line in text.splitlines() if len(line) > WIDTH or line != line.rstrip()]
        expect(not wide, f"{what}: lines of more than {WIDTH} columns, or with spaces at the end: {wide}")
    for option in ("--adrift", "--as-is", "--no-undo", "-q", "-o", "--all", "--write", "--long", "--json", "--c-array", "--force", "--strict", "--"):
        expect(re.search(rf"^  {option} ", texts["--help"], re.MULTILINE), f"--help explains {option}")


def slips(work):
    """What is wrong is named: an unknown option as an option, and just the words that are too much."""
    file = work / "game.blb"
    file.write_bytes(GAME)
    for words, option in ((("list", "-j", file), "-j"), (("list", file, "-l"), "-l"), (("check", "-v", file), "-v"), (("get", file, "-O", "x"), "-O"),
                          (("add", file, "Data", "1", "TEXT", "-notes.txt"), "-notes.txt"), (("remove", file, "Data", "7", "-f"), "-f"),
                          (("list", file, "--jsn"), "--jsn"), (("find", file, "Data", "7", "-q"), "-q")):
        text = failed(*words, saying="there is no such option; put -- in front of a name that begins so").err
        expect(f"begins so: {option}\n" in text and "usage: blorb" in text, f"{words}: {text}")
    failed("list", "a", "b", "c", saying="too much: b c\n")
    failed("get", file, "Pict", "1", "out.png", saying="too much: out.png\n")
    failed("history", *["x"] * 20, saying="too much: " + " ".join(["x"] * 19))
    failed("remove", file, "Data", "-1", saying="a number is 0 to 4294967295, in digits: -1")
    failed("table", file, "-o", work / "out", saying="-o is for --c-array")
    # Behind -- such a word is a name, and - alone is standard input.
    (work / "-notes.txt").write_bytes(b"notes")
    done("add", "game.blb", "Data", "1", "TEXT", "--", "-notes.txt", cwd=work)
    same(done("get", file, "Data", "1"), b"notes", "a name that begins with a dash")
    done("undo", file)
    same(contents(work), {"game.blb": GAME, "-notes.txt": b"notes"}, "nothing else changed")


def any_case(work):
    """pict and png are Pict and PNG; what is stored has the right letters."""
    file, right = work / "game.blb", work / "right.blb"
    done("new", file)
    done("new", right)
    for usage, number, kind, data in (("pict", "1", "png", png()), ("PICT", "2", "Jpeg", jpeg()), ("pIcT", "3", "rect", be(3) + be(2)),
                                      ("data", "7", "text", b"eel"), ("EXEC", "0", "agt", b"story"), ("SND", "4", "song", bytes(700))):
        own = {"pict": "Pict", "data": "Data", "exec": "Exec", "snd": "Snd"}[usage.lower()]
        done("add", file, usage, number, kind, "-", stdin=data)
        done("add", right, own, number, "Rect" if kind == "rect" else kind.upper(), "-", stdin=data)
        same(file.read_bytes(), right.read_bytes(), f"{usage} {kind}")
        same(done("get", file, usage, number), data, f"get {usage}")
    done("table", file)
    same(done("find", file, "pict", "2"), done("find", file, "Pict", "2"), "find")
    done("link", file, "pict", "1", "pict", "9")
    done("replace", file, "data", "7", "bina", "-", stdin=b"conger")
    same(done("history", file).splitlines()[:2], [b"1 replaced Data 7 TEXT 3", b"2 linked Pict 9"], "history has the right letters")
    done("remove", file, "PICT", "9")
    done("undo", file, "3")
    same(file.read_bytes(), right.read_bytes(), "undone")
    refused(22, 0, "get", file, "pict", "8")
    refused(112, 24 + 12 * 6, "add", file, "pics", "8", "png", "-", stdin=png())
    # A type of any case is still judged by its usage.
    refused(114, 24 + 12 * 6, "add", file, "data", "8", "png", "-", stdin=png(), advice="PNG is for the usage Pict. Data takes TEXT or BINA.")
    texts(work)


def texts(work):
    """In a list of texts too; a usage of other letters in a file keeps them."""
    file, chunk = work / "texts.blb", work / "chunk"
    file.write_bytes(GAME)
    done("describe", file, "--write", "-", "-o", chunk, stdin=b"pict 1 An eel.\nDATA 7 Words.\n")
    same(chunk.read_bytes()[12:16] + chunk.read_bytes()[31:35], b"PictData", "the usages of a list in any case")
    odd = b"RDes" + be(4 + 12 + 2 + 12 + 2) + be(2) + b"pict" + be(1) + be(2) + b"no" + b"Pict" + be(1) + be(2) + b"ok"
    held = GAME + odd
    file.write_bytes(held[:4] + be(len(held) - 8) + held[8:])
    listed = run("describe", file)
    same((listed.status, listed.out), (0, b"\\x70ict 1 no\nPict 1 ok\n"), "another usage of these letters is told apart")
    run("describe", file, "--write", "-", "-o", chunk, stdin=listed.out)
    same(chunk.read_bytes(), odd, "and what is listed is a list again")
    same(done("describe", file, "pict", "1"), b"ok\n", "one text")


def one_of_a_kind(work):
    """1 resource, 1 row, 1 form; but the plain list is the lister's, which says `1 resources`."""
    file = work / "game.blb"
    file.write_bytes(blorb([(b"Data", 7, 0)], [(b"TEXT", b"e")]))
    same(done("check", file), b"accepted 46 bytes 1 resource\n", "check")
    same(done("list", file), b"blorb 46 bytes 1 resources\nData 7 at 36 TEXT 1\n", "the lister's line")
    same(done("list", file, "--long").splitlines()[0], b"46 bytes, 1 resource", "list --long")
    expect(b"TEXT, 1 byte from 44" in done("list", file, "--long"), "1 byte")
    same(done("table", file), b"table 1 row\n", "table")
    same(done("check", file).splitlines()[1], b"table accepted 1 row", "check of the table")
    expect(", 1 row looked at." in refused(22, 0, "find", file, "Data", "8").err, "find")
    same(done("forms", file).splitlines()[0], b"group 46 bytes 1 form", "forms")


PARTS = (narrow, slips, any_case, one_of_a_kind)
