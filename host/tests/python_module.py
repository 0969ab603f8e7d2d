"""The module for Python: python_module.py ROOT, with BLORB_LIBRARY and PYTHONPATH set. Every call by hand, its refusals, what a refused call leaves, that
buffers grow, and that every public function says the types of all that it takes and gives."""
import ctypes
import inspect
import os
import random
import re
import subprocess
import sys
import typing
from pathlib import Path

import blorb

ROOT = Path(sys.argv[1])
EEL = (ROOT / "samples/eel.blb").read_bytes()
HEADER = (ROOT / "include/blorb.h").read_text()
checks = 0


def same(what, found, expected):
    global checks
    checks += 1
    if found != expected:
        sys.exit(f"python_module: {what}\n  expected: {expected}\n  found:    {found}")


def refused(what, number, place, call, *arguments):
    try:
        call(*arguments)
    except blorb.Refused as error:
        same(what, (error.number, error.place), (number, place))
        same(f"{what}: it says why", error.sentence in str(error) and len(error.sentence) > 10, True)
        return
    same(what, "carried out", f"refused with {number}")


def invalid(what, call, *arguments):
    try:
        call(*arguments)
    except ValueError:
        same(what, "ValueError", "ValueError")
        return
    same(what, "carried out", "ValueError")


def test_header():
    """The module's numbers and structures are the header's."""
    values = dict(re.findall(r"\b(BLORB_\w+) = (\d+)", HEADER))
    for name in ("MAX_SIZE", "ENTRY_SIZE", "ROW_NUMBERS", "FILE_ROOM", "JOURNAL_ROOM", "NOT_THERE", "PLAIN", "ADRIFT"):
        same(name, getattr(blorb, name), int(values[f"BLORB_{name}"]))
    same("the version", blorb.version(), re.search(r'BLORB_VERSION_TEXT "(.*)"', HEADER).group(1))
    same("the major version", blorb.MAJOR, int(blorb.version().split(".")[0]))
    kinds = {"uint64_t": ctypes.c_uint64, "uint32_t": ctypes.c_uint32}
    for name in ("read", "entry", "lookup", "build", "check", "search", "edit"):
        declared = re.search(rf"typedef struct blorb_{name}_answer {{(.*?)}}", HEADER, re.DOTALL).group(1)
        fields = [(field, kinds[kind]) for kind, field in re.findall(r"^    (\w+) (\w+);", declared, re.MULTILINE)]
        same(f"blorb_{name}_answer", getattr(blorb, f"_{name.capitalize()}Answer")._fields_, fields)
    for call, (_, arguments) in blorb._CALLS.items():
        declared = re.search(rf"\b{call}\(([^;{{]*?)\)", HEADER, re.DOTALL).group(1)
        same(f"arguments of {call}", len(arguments), 0 if declared == "void" else declared.count(",") + 1)


def test_reading():
    same("read", blorb.read(EEL), blorb.Reading(48, 1))
    same("entries", blorb.entries(EEL), [blorb.Entry("Data", 7, 36)])
    same("lookup", blorb.lookup(EEL, "Data", 7), blorb.Resource("TEXT", 44, 3))
    same("data", blorb.data(EEL, "Data", 7), b"eel")
    for kind in (bytearray, memoryview):
        same(f"of a {kind.__name__}", blorb.data(kind(EEL), "Data", 7), b"eel")
    refused("no such resource", 22, 0, blorb.lookup, EEL, "Data", 8)
    refused("a usage with its space left out is filled up", 22, 0, blorb.lookup, EEL, "Snd", 1)
    refused("a padding byte", 7, 47, blorb.read, EEL[:-1] + b"x")
    refused("nothing", 2, 0, blorb.read, b"")
    refused("an unknown profile", 52, 0, blorb.read, EEL, 2)
    for usage in ("", "Picture"):
        invalid(f"a usage {usage!r}", blorb.lookup, EEL, usage, 1)
    for number in (-1, 2**32):
        invalid(f"a number {number}", blorb.lookup, EEL, "Pict", number)


def test_editing():
    editor = blorb.Editor()
    same("blank", (len(editor.file), editor.journal, editor.read().count), (24, b"", 0))
    refused("nothing to undo", 26, 0, editor.undo)
    editor.add("Data", 7, "TEXT", b"eel")
    same("the first example of docs/RULES.md", editor.file, EEL)
    refused("a pair that is there", 116, 36, editor.add, "Data", 7, "TEXT", b"")
    refused("a type that does not suit", 114, 36, editor.add, "Pict", 1, "TEXT", b"")
    same("a refused call changes nothing", editor.file, EEL)
    editor.link("Data", 7, "Data", 8)
    same("both names", (editor.data("Data", 7), editor.data("Data", 8)), (b"eel", b"eel"))
    refused("a shared chunk", 23, 0, editor.replace, "Data", 7, "TEXT", b"conger")
    editor.remove("Data", 8)
    editor.replace("Data", 7, "BINA", b"conger")
    same("replaced", (editor.lookup("Data", 7).type, editor.data("Data", 7), editor.entries()), ("BINA", b"conger", [blorb.Entry("Data", 7, 36)]))
    for left in (EEL, None, EEL, None):
        editor.undo()
        same("undone", left is None or editor.file == left, True)
    same("undone to the beginning", (len(editor.file), editor.journal), (24, b""))


def test_kept_journal():
    """A file and a journal that were kept: undo goes on. Forgotten: it does not."""
    first = blorb.Editor(EEL)
    first.replace("Data", 7, "TEXT", b"conger")
    second = blorb.Editor(first.file, first.journal)
    second.undo()
    same("the file begun with", second.file, EEL)
    third = blorb.Editor(first.file, first.journal)
    third.forget()
    refused("forgotten", 26, 0, third.undo)
    refused("a journal of another file", 21, 0, blorb.Editor(blorb.Editor().file, first.journal).undo)
    refused("a file that is refused", 5, 4, blorb.Editor, EEL + b"x")


def test_profile():
    editor = blorb.Editor(profile=blorb.ADRIFT)
    editor.add("Pict", 1, "GIF", b"GIF89a")
    same("under ADRIFT", editor.lookup("Pict", 1).type, "GIF ")
    refused("the same as plain", 14, 24, blorb.read, editor.file)


def test_growth():
    """Both buffers grow: a run of edits with data of up to 300 kB, then all of them taken back."""
    random.seed(7)
    editor, files = blorb.Editor(), []
    for number in range(40):
        files.append(editor.file)
        editor.add("Data", number, "BINA", random.randbytes(random.choice((0, 1, 1000, 300_000))))
        if number % 3 == 0:
            files.append(editor.file)
            editor.replace("Data", number, "BINA", random.randbytes(5000))
    same("entries", [entry.number for entry in editor.entries()], list(range(40)))
    for before in reversed(files):
        editor.undo()
        same("each undo gives the file before", editor.file, before)
    refused("a file over the limit", 101, 0, editor.add, "Data", 1, "BINA", bytes(blorb.MAX_SIZE))


def test_table():
    editor = blorb.Editor()
    for number in (5, 3, 9):
        editor.add("Pict", number, "PNG", b"x" * number)
    table = blorb.Table.build(editor.file)
    same("rows rise", table.rows[1::3], [3, 5, 9])
    table.check(editor.file)
    for entry in editor.entries():
        same("a search finds what the index has", table.search(entry.usage, entry.number), entry.start)
    refused("not in the table", 22, 0, table.search, "Pict", 4)
    same("kept and taken up again", blorb.Table(table.rows).search("Pict", 9), table.search("Pict", 9))
    editor.remove("Pict", 3)
    refused("stale", 35, 0, table.check, editor.file)
    same("of a file with nothing in it", blorb.Table.build(blorb.Editor().file).rows, [])
    refused("a search in it", 22, 0, blorb.Table([]).search, "Pict", 1)
    invalid("a row that is no number of 32 bits", blorb.Table, [2**32])


def test_types():
    """Every public function and method says the types of all that it takes and gives."""
    functions = [getattr(blorb, name) for name in blorb.__all__ if inspect.isfunction(getattr(blorb, name))]
    for owner in (blorb.Editor, blorb.Table, blorb.Refused):
        functions += [member for name, member in inspect.getmembers(owner, inspect.isfunction) if name == "__init__" or not name.startswith("_")]
        functions += [member.fget for _, member in inspect.getmembers(owner, lambda one: isinstance(one, property))]
    same("functions were found", len(functions) > 20, True)
    for function in functions:
        hints = typing.get_type_hints(function)
        for name in inspect.signature(function).parameters:
            same(f"{function.__qualname__} says the type of {name}", name == "self" or name in hints, True)
        same(f"{function.__qualname__} says what it gives", "return" in hints, True)


def test_not_found():
    """Without the shared object the module says what was tried."""
    ended = subprocess.run([sys.executable, "-B", "-c", "import blorb"], env={**os.environ, "BLORB_LIBRARY": "/nowhere/libblorb.so"},
                           capture_output=True, text=True, check=False)
    same("it is told", ended.returncode == 1 and "BLORB_LIBRARY may name it: /nowhere/libblorb.so" in ended.stderr, True)


def main():
    for test in (test_header, test_reading, test_editing, test_kept_journal, test_profile, test_growth, test_table, test_types, test_not_found):
        test()
    print(f"python_module: ok, {checks} checks")


if __name__ == "__main__":
    main()
