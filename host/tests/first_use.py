"""The first use of a fresh checkout: first_use.py ROOT ARCHIVE.

host/build takes the kept archive exactly where it was made of the checkout's own sources, host/prove asks rt for what is not there and for nothing
else, and host/keep-archive keeps what was built. All of it in a copy of the checkout, with a stand-in for rt that proves nothing and notes what it was
asked for. That the real rt gives the kept bytes is another test (host/keep-archive --check)."""
import os
import shutil
import subprocess
import sys
import tempfile
from pathlib import Path

ROOT, ARCHIVE = Path(sys.argv[1]), Path(sys.argv[2])
checks = 0

STAND_IN = r"""#!/bin/sh
# rt version, and in a crate's folder lib and run, and at the top ci. RT_NOTES: where it notes what it did; RT_FAILS: a crate that is not proved;
# RT_ARCHIVE: what is built.
case $1 in
version) echo 'stand-in 1' ;;
lib | run)
    [ "crates/$2" = "$(basename "$(dirname "$PWD")")/$(basename "$PWD")" ] || exit 2
    echo "$1 $2" >> "$RT_NOTES"
    echo "fn $2::one: proved"
    if [ "$2" = "${RT_FAILS:-}" ]; then echo "src/lib.rt:1:1: error[wrong]: so it is"; exit 1; fi
    mkdir -p out
    if [ "$1" = run ]; then printf '#!/bin/sh\ncat\n' > "out/$2" && chmod +x "out/$2" && exit 3; fi
    if grep -q "^$2 staticlib:" ../../crates.txt; then cp "$RT_ARCHIVE" "out/lib$2.a"; else mkdir -p "out/rlib/$2.rlib"; fi
    ;;
ci)
    printf 'rt: one proved\nrt: two is kept: as it was\n'
    if [ -n "${RT_FAILS:-}" ]; then printf 'rt: three NOT PROVED\nrt: FAILED: three\n2 passed, 1 failed\n'; exit 1; fi
    printf 'rt: must-fail one/wrong.edit: refused, as it must be: why\nrt: ok; handles allowed: none\n3 passed, 0 failed\n'
    ;;
*) exit 2 ;;
esac
"""

# In place of host/test, for ./test.
PARTS = r"""#!/bin/sh
[ "$1" != --needs ] || exit "${PARTS_MISSING:-0}"
echo "host/test: 4 passed, ${PARTS_FAILED:-0} failed"
[ "${PARTS_FAILED:-0}" = 0 ]
"""


# In place of the program, which takes longer to compile: it reads a file by the library.
PROGRAM = r'''#include <blorb.h>
#include <stdio.h>
int main(int words, char **word)
{
    static uint8_t file[100];
    FILE *from = words == 3 ? fopen(word[2], "rb") : NULL;
    size_t size = from == NULL ? 0 : fread(file, 1, sizeof file, from);
    blorb_read_answer r = blorb_read(file, size, BLORB_PLAIN);
    printf("%u bytes %u resources, %s\n", (unsigned)r.length, (unsigned)r.count, blorb_sentence(r.refusal));
    return (int)r.refusal;
}
'''


def same(what, found, expected):
    global checks
    checks += 1
    if found != expected:
        sys.exit(f"first_use: {what}\n  expected: {expected}\n  found:    {found}")


def holds(what, right, said=""):
    global checks
    checks += 1
    if not right:
        sys.exit(f"first_use: {what}\n{said}")


class Checkout:
    """A copy of the files that a build reads, with or without the stand-in in reach."""

    def __init__(self, work):
        self.root = work / "checkout"
        self.notes = work / "notes"
        self.tools = work / "tools"
        self.proved = work / "proved.a"
        shutil.copytree(ROOT / "host", self.root / "host", ignore=shutil.ignore_patterns("cli", "kept", "tests", "benchmark", "__pycache__"))
        (self.root / "host/cli").mkdir()
        (self.root / "host/cli/main.c").write_text(PROGRAM)
        for part in ("include", "crates", "samples"):
            shutil.copytree(ROOT / part, self.root / part, ignore=shutil.ignore_patterns("must-fail", "out"))
        for name in ("crates.txt", "blorb", "list", "test"):
            shutil.copy(ROOT / name, self.root / name)
        self.tools.mkdir()
        (self.tools / "rt").write_text(STAND_IN)
        (self.tools / "rt").chmod(0o755)
        self.without_rt = without_rt(work / "no-rt")
        # The archive is the proved part and the sentences in plain C, which are compiled anew.
        shutil.copy(ARCHIVE, self.proved)
        self.proved.chmod(0o644)
        subprocess.run(["ar", "dD", self.proved, "sentences.o"], check=True)

    def run(self, *words, rt=True, **more):
        """Status, standard output, standard error, and what the stand-in was asked for."""
        self.notes.write_text("")
        path = f"{self.tools}:{os.environ['PATH']}" if rt else str(self.without_rt)
        environment = {**os.environ, "PATH": path, "RT_NOTES": str(self.notes), "RT_ARCHIVE": str(self.proved), **more}
        for name in ("BLORB_ARCHIVE", "RT_FAILS"):
            if name not in more:
                environment.pop(name, None)
        ended = subprocess.run([self.root / words[0], *words[1:]], cwd=self.root, env=environment, capture_output=True, text=True, check=False)
        return ended.returncode, ended.stdout, ended.stderr, self.notes.read_text().split("\n")[:-1]

    def clean(self):
        for made in (self.root / "target", *(self.root / "crates").glob("*/out")):
            shutil.rmtree(made, ignore_errors=True)


def without_rt(folder):
    """A folder of links to all programs in reach but rt: a machine without it."""
    folder.mkdir()
    for place in os.environ["PATH"].split(os.pathsep):
        for program in Path(place).iterdir() if Path(place).is_dir() else ():
            if program.name != "rt" and not (folder / program.name).exists():
                (folder / program.name).symlink_to(program)
    return folder


LISTED = "48 bytes 1 resources, the call was carried out\n"
TAKEN = "made of exactly these sources"


def test_kept(checkout):
    status, said, told, _ = checkout.run("host/keep-archive")
    same("host/keep-archive keeps what was built", (status, said), (0, "host/keep-archive: host/kept/libcapi.a is of exactly these sources now\n"))
    record = (checkout.root / "host/kept/libcapi.txt").read_text()
    holds("its record has three lines", [line.split(": ")[0] for line in record.splitlines()] == ["sources", "archive", "toolchain"], record)
    checkout.clean()
    status, said, told, asked = checkout.run("blorb", "list", "samples/eel.blb", rt=False)
    same("a first use without rt", (status, said, asked), (0, LISTED, []))
    same("it says so in one line", sum(TAKEN in line for line in told.splitlines()), 1)
    status, said, told, _ = checkout.run("blorb", "list", "samples/eel.blb", rt=False)
    same("a second use says nothing", (status, said, told), (0, LISTED, ""))
    status, said, _, _ = checkout.run("host/keep-archive", "--check")
    same("host/keep-archive --check", (status, said), (0, "host/keep-archive: building from the sources gives the bytes of host/kept/libcapi.a\n"))


def test_prove_option(checkout):
    checkout.clean()
    checkout.run("host/build", rt=False)
    status, _, told, asked = checkout.run("host/build", "--prove")
    same("--prove proves, though the kept one is good", (status, TAKEN in told, asked[-1]), (0, False, "lib capi"))
    same("and once", checkout.run("host/build", "--prove")[3], [])
    same("what was proved serves a later build", checkout.run("host/build", rt=False)[0], 0)
    same("an unknown word", checkout.run("host/build", "--kept")[0], 2)


def refused_and_proved(checkout, what, reason):
    """A kept archive that is not right is never linked: without rt nothing is built, with it the library is proved."""
    checkout.clean()
    status, _, told, _ = checkout.run("blorb", "list", "samples/eel.blb", rt=False)
    holds(f"{what}, without rt: nothing is built", status == 2 and reason in told and "missing: rt" in told, told)
    holds(f"{what}: nothing is left of it", not (checkout.root / "target/host/libblorb.a").exists())
    status, said, told, asked = checkout.run("blorb", "list", "samples/eel.blb")
    same(f"{what}, with rt: it is proved", (status, said, asked[-1:], TAKEN in told), (0, LISTED, ["lib capi"], False))


def test_not_right(checkout):
    """Whatever could be changed: code, a definition, a proof, a line of crates.txt, a file more; the archive itself; its record."""
    kept = checkout.root / "host/kept/libcapi.a"
    stale, damaged = "was made of other sources", "is not the file that was kept"
    for name in ("crates/reader/src/lib.rt", "crates/blorb/specs/Bytes.antt", "crates/edits/proofs/Lib.antt", "crates.txt"):
        path = checkout.root / name
        before = path.read_text()
        path.write_text(before.replace("reader: blorb ", "reader: utf8 blorb ") if name == "crates.txt" else before + "\n")
        refused_and_proved(checkout, f"{name} changed", stale)
        path.write_text(before)
    more = checkout.root / "crates/capi/src/more.rt"
    more.write_text("")
    refused_and_proved(checkout, "a file more", stale)
    more.unlink()
    before = kept.read_bytes()
    kept.write_bytes(before[:-1] + bytes([before[-1] ^ 1]))
    refused_and_proved(checkout, "a bit of the archive changed", damaged)
    same("--check tells that as well", checkout.run("host/keep-archive", "--check")[0], 1)
    kept.write_bytes(before)
    record = kept.with_suffix(".txt")
    text = record.read_text()
    record.unlink()
    refused_and_proved(checkout, "no record", "missing: rt")
    record.write_text(text)
    checkout.clean()
    same("all as it was: taken again", checkout.run("blorb", "list", "samples/eel.blb", rt=False)[:2], (0, LISTED))


def test_other_sources(checkout):
    """Crates that are not in the library, and edits that must fail, are none of its sources."""
    path = checkout.root / "crates/lister/src/main.rt"
    before = path.read_text()
    path.write_text(before + "\n")
    (checkout.root / "crates/reader/must-fail").mkdir(exist_ok=True)
    (checkout.root / "crates/reader/must-fail/new.edit").write_text("file: src/lib.rt\n")
    checkout.clean()
    same("another crate changed", checkout.run("blorb", "list", "samples/eel.blb", rt=False)[:2], (0, LISTED))
    path.write_text(before)


def test_other_bytes(checkout):
    """Where the sources give other bytes than those kept, --check says so."""
    checkout.clean()
    proved = checkout.proved.read_bytes()
    checkout.proved.write_bytes(proved + b"\n")
    status, _, told, _ = checkout.run("host/keep-archive", "--check")
    holds("other bytes are told", status == 1 and "gives other bytes" in told, told)
    checkout.proved.write_bytes(proved)


def test_prove(checkout):
    """Each kind of crate: rt is asked once for it, in its folder, and again only where something that it is made of has changed."""
    checkout.clean()
    for crate, asked, made in (("editor", "lib editor", "out/rlib/editor.rlib"), ("capi", "lib capi", "out/libcapi.a"), ("lister", "run lister", "out/lister")):
        status, _, told, found = checkout.run("host/prove", crate)
        same(f"host/prove {crate}", (status, found), (0, [asked]))
        holds(f"what {crate} is built as", (checkout.root / "crates" / crate / made).exists())
        holds("what is being proved is told", f"proving {crate}, " in told, told)
        same("a second time nothing is asked for", checkout.run("host/prove", crate)[3], [])
    same("./list runs the lister", checkout.run("list", "samples/eel.blb")[3], [])
    path = checkout.root / "crates/blorb/src/lib.rt"
    before = path.read_text()
    path.write_text(before + "\n")
    same("something below has changed", checkout.run("host/prove", "editor")[3], ["lib editor"])
    path.write_text(before)
    for crate in ("editor", "lister"):
        checkout.clean()
        status, _, told, _ = checkout.run("host/prove", crate, RT_FAILS=crate)
        holds("what is not proved ends it", status == 2 and f"{crate} was not proved" in told and "so it is" in told, told)
    same("a crate that is not listed", checkout.run("host/prove", "four")[0], 2)
    same("it takes one word", checkout.run("host/prove")[0], 2)


def test_both(checkout):
    """./test: what is missing comes first, then the gate, then host/test; the last line is the sum of both."""
    (checkout.root / "host/test").write_text(PARTS)

    def ended(**more):
        status, said, told, _ = checkout.run("test", **more)
        return status, said.splitlines()[-1:], told

    status, last, told = ended()
    same("all passed", (status, last), (0, ["7 passed, 0 failed"]))
    holds("progress of the gate", "[1 of " in told and "] two is kept" in told and "must-fail one/wrong" in told, told)
    same("a part that fails", ended(PARTS_FAILED="1")[:2], (1, ["7 passed, 1 failed"]))
    status, last, told = ended(RT_FAILS="three")
    same("a gate that fails", (status, last), (1, ["2 passed, 1 failed"]))
    holds("it is told, and host/test is not run", "three NOT PROVED" in told and "host/test was not run" in told, told)
    status, last, told = ended(PARTS_MISSING="2")
    same("what is missing ends it before the gate", (status, last, "gate" in told), (2, [], False))
    same("it takes no word", checkout.run("test", "all")[0], 2)


def main():
    with tempfile.TemporaryDirectory() as folder:
        checkout = Checkout(Path(folder))
        test_kept(checkout)
        test_prove_option(checkout)
        test_not_right(checkout)
        test_other_sources(checkout)
        test_other_bytes(checkout)
        test_prove(checkout)
        test_both(checkout)
    print(f"first_use: ok, {checks} checks")


if __name__ == "__main__":
    main()
