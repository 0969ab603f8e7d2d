"""Blorb files from Python: read, look up, edit with undo, finding tables. Over the shared object libblorb.so, by ctypes.

A Blorb file is one IFF file with the pictures, sounds, data and code of a text adventure. Files are bytes here; nothing is read from or written to
a disk. A call that the library refuses raises Refused, with the number, the place and the sentence of docs/RULES.md, and has changed nothing.

    import blorb

    game = open("game.blb", "rb").read()
    for entry in blorb.entries(game):
        print(entry.usage, entry.number, blorb.lookup(game, entry.usage, entry.number).type)
    cover = blorb.data(game, "Pict", 1)

    editor = blorb.Editor(game)
    editor.replace("Pict", 1, "PNG ", open("cover.png", "rb").read())
    editor.undo()
    open("game.blb", "wb").write(editor.file)

    table = blorb.Table.build(game)              # kept beside the file: table.rows
    table.check(game)                            # Refused 35 where it is stale
    start = table.search("Pict", 1)              # where the chunk begins

Usages and types are four characters, as "Pict" and "PNG "; "Snd" and "PNG" are filled up with spaces. The shared object is looked for where
BLORB_LIBRARY names it, then in the lib folder of the prefix that this module was installed to, then by the system."""
from __future__ import annotations

import ctypes
import ctypes.util
import os
from pathlib import Path
from typing import Iterator, List, NamedTuple, Optional, Sequence, Type, Union

__all__ = ["PLAIN", "ADRIFT", "Refused", "Reading", "Entry", "Resource", "Table", "Editor", "read", "entries", "lookup", "data", "version"]

PLAIN = 0
ADRIFT = 1

MAJOR = 2
MAX_SIZE = 16_777_216
ENTRY_SIZE = 12
ROW_NUMBERS = 3
FILE_ROOM, JOURNAL_ROOM, NOT_THERE = 24, 25, 22

Bytes = Union[bytes, bytearray, memoryview]


class Refused(Exception):
    """The library refused a call: `number` and `place` as docs/RULES.md has them, and what the number says."""

    def __init__(self, number: int, place: int, sentence: str) -> None:
        super().__init__(f"{sentence} (refusal {number} at {place})")
        self.number = number
        self.place = place
        self.sentence = sentence


class Reading(NamedTuple):
    """An accepted file: its bytes, and the entries in its index."""
    length: int
    count: int


class Entry(NamedTuple):
    """An entry of the index, and where its chunk begins."""
    usage: str
    number: int
    start: int


class Resource(NamedTuple):
    """A resource: its type, and where its bytes lie in the file."""
    type: str
    start: int
    length: int


# ---- the calls of blorb.h

class _ReadAnswer(ctypes.Structure):
    _fields_ = [("refusal", ctypes.c_uint64), ("place", ctypes.c_uint64), ("length", ctypes.c_uint64), ("count", ctypes.c_uint64)]


class _EntryAnswer(ctypes.Structure):
    _fields_ = [("refusal", ctypes.c_uint64), ("place", ctypes.c_uint64), ("usage", ctypes.c_uint32), ("number", ctypes.c_uint32),
                ("start", ctypes.c_uint64)]


class _LookupAnswer(ctypes.Structure):
    _fields_ = [("refusal", ctypes.c_uint64), ("place", ctypes.c_uint64), ("type", ctypes.c_uint32), ("start", ctypes.c_uint64),
                ("length", ctypes.c_uint64)]


class _BuildAnswer(ctypes.Structure):
    _fields_ = [("refusal", ctypes.c_uint64), ("place", ctypes.c_uint64), ("rows", ctypes.c_uint64)]


class _CheckAnswer(ctypes.Structure):
    _fields_ = [("refusal", ctypes.c_uint64), ("place", ctypes.c_uint64)]


class _SearchAnswer(ctypes.Structure):
    _fields_ = [("refusal", ctypes.c_uint64), ("place", ctypes.c_uint64), ("start", ctypes.c_uint64), ("probes", ctypes.c_uint64)]


class _EditAnswer(ctypes.Structure):
    _fields_ = [("refusal", ctypes.c_uint64), ("place", ctypes.c_uint64), ("length", ctypes.c_uint64), ("used", ctypes.c_uint64)]


_bytes, _size, _number, _name = ctypes.c_void_p, ctypes.c_size_t, ctypes.c_uint32, ctypes.c_char_p
_file = [_bytes, _size, _number]
_buffers = [_bytes, _size, _size, _bytes, _size, _size, _number]
_CALLS = {
    "blorb_read": (_ReadAnswer, _file),
    "blorb_entry": (_EntryAnswer, [*_file, _size]),
    "blorb_lookup": (_LookupAnswer, [*_file, _name, _number]),
    "blorb_table_build": (_BuildAnswer, [*_file, _bytes, _size]),
    "blorb_table_check": (_CheckAnswer, [*_file, _bytes, _size]),
    "blorb_table_search": (_SearchAnswer, [_bytes, _size, _name, _number]),
    "blorb_blank": (_EditAnswer, [_bytes, _size]),
    "blorb_add": (_EditAnswer, [*_buffers, _name, _number, _name, _bytes, _size]),
    "blorb_replace": (_EditAnswer, [*_buffers, _name, _number, _name, _bytes, _size]),
    "blorb_remove": (_EditAnswer, [*_buffers, _name, _number]),
    "blorb_link": (_EditAnswer, [*_buffers, _name, _number, _name, _number]),
    "blorb_undo": (_EditAnswer, _buffers),
    "blorb_sentence": (ctypes.c_char_p, [ctypes.c_uint64]),
    "blorb_version": (ctypes.c_uint32, []),
}


def _candidates() -> Iterator[str]:
    """Where the shared object may be, the first one first."""
    named = os.environ.get("BLORB_LIBRARY")
    if named:
        yield named
        return
    beside = Path(__file__).resolve().parents[3] / "lib" / f"libblorb.so.{MAJOR}"
    if beside.exists():
        yield str(beside)
    yield f"libblorb.so.{MAJOR}"
    found = ctypes.util.find_library("blorb")
    if found:
        yield found


def _load() -> ctypes.CDLL:
    tried: List[str] = []
    for name in _candidates():
        try:
            library = ctypes.CDLL(name)
        except OSError as error:
            tried.append(str(error))
            continue
        for call, (answer, arguments) in _CALLS.items():
            function = getattr(library, call)
            function.restype, function.argtypes = answer, arguments
        found = int(library.blorb_version())
        if found // 1_000_000 == MAJOR:
            return library
        tried.append(f"{name} is of version {found // 1_000_000}, not {MAJOR}")
    raise ImportError("the shared object of the Blorb library was not found; BLORB_LIBRARY may name it: " + "; ".join(tried))


_library = _load()


# ---- what goes in and comes out

def _four(text: str) -> bytes:
    """A usage or type as four bytes, with spaces behind where it is shorter."""
    four = text.encode("latin-1").ljust(4)
    if len(four) != 4 or not text:
        raise ValueError(f"a usage or type has four characters: {text!r}")
    return four


def _text(tag: int) -> str:
    return tag.to_bytes(4, "big").decode("latin-1")


def _whole(number: int) -> int:
    """A number that fits 32 bits: ctypes would cut off what does not."""
    if not 0 <= number <= 0xFFFFFFFF:
        raise ValueError(f"not a number of 32 bits: {number}")
    return number


def _lend(content: Bytes) -> ctypes.Array[ctypes.c_char]:
    """The bytes in memory of their own."""
    return ctypes.create_string_buffer(bytes(content), max(len(content), 1))


def _held(answer: ctypes.Structure) -> None:
    """Raises what an answer refuses."""
    if answer.refusal:
        raise Refused(answer.refusal, answer.place, _library.blorb_sentence(answer.refusal).decode())


def version() -> str:
    """The version of the library, as 2.6.0."""
    found = int(_library.blorb_version())
    return f"{found // 1_000_000}.{found // 1_000 % 1_000}.{found % 1_000}"


# ---- reading

def read(file: Bytes, profile: int = PLAIN) -> Reading:
    """Is this an accepted file, and how many entries has it?"""
    answer = _library.blorb_read(_lend(file), len(file), _whole(profile))
    _held(answer)
    return Reading(answer.length, answer.count)


def entries(file: Bytes, profile: int = PLAIN) -> List[Entry]:
    """The entries of an accepted file, in the order of its index. The file is judged once."""
    count = read(file, profile).count
    content = bytes(file)
    found = []
    for at in range(24, 24 + ENTRY_SIZE * count, ENTRY_SIZE):
        usage, number, start = (int.from_bytes(content[at + 4 * i:at + 4 * i + 4], "big") for i in range(3))
        found.append(Entry(_text(usage), number, start))
    return found


def lookup(file: Bytes, usage: str, number: int, profile: int = PLAIN) -> Resource:
    """The resource with this usage and number; Refused 22 where there is none."""
    answer = _library.blorb_lookup(_lend(file), len(file), _whole(profile), _four(usage), _whole(number))
    _held(answer)
    return Resource(_text(answer.type), answer.start, answer.length)


def data(file: Bytes, usage: str, number: int, profile: int = PLAIN) -> bytes:
    """That resource's bytes, as they were put in."""
    found = lookup(file, usage, number, profile)
    return bytes(file[found.start:found.start + found.length])


# ---- the finding table

class Table:
    """A finding table: three numbers of 32 bits to a row, usage, number and start of the chunk, rising by usage, then number."""

    def __init__(self, rows: Sequence[int]) -> None:
        self.rows: List[int] = [_whole(number) for number in rows]
        self._numbers = (ctypes.c_uint32 * max(len(self.rows), 1))(*self.rows)

    @classmethod
    def build(cls: Type[Table], file: Bytes, profile: int = PLAIN) -> Table:
        """The table of this file."""
        count = ROW_NUMBERS * read(file, profile).count
        numbers = (ctypes.c_uint32 * max(count, 1))()
        _held(_library.blorb_table_build(_lend(file), len(file), _whole(profile), numbers, count))
        return cls(list(numbers)[:count])

    def check(self, file: Bytes, profile: int = PLAIN) -> None:
        """Refused 35 unless this is the table of just that file."""
        _held(_library.blorb_table_check(_lend(file), len(file), _whole(profile), self._numbers, len(self.rows)))

    def search(self, usage: str, number: int) -> int:
        """Where the chunk of this resource begins; Refused 22 where the table has no such row."""
        answer = _library.blorb_table_search(self._numbers, len(self.rows), _four(usage), _whole(number))
        _held(answer)
        return int(answer.start)


# ---- editing

class Editor:
    """A file under edit, and the journal by which each edit can be taken back. Without a file it begins with a blank one. A journal that was kept goes
    on where it was. Both buffers grow as they need to; a file can have 16,777,216 bytes."""

    def __init__(self, file: Optional[Bytes] = None, journal: Bytes = b"", profile: int = PLAIN) -> None:
        self.profile = _whole(profile)
        if file is None:
            self._file = ctypes.create_string_buffer(1024)
            answer = _library.blorb_blank(self._file, len(self._file))
            _held(answer)
            self._length = int(answer.length)
        else:
            read(file, profile)
            self._file = _lend(file)
            self._length = len(file)
        self._journal = _lend(journal)
        self._used = len(journal)

    @property
    def file(self) -> bytes:
        """The file as it is now."""
        return self._file.raw[:self._length]

    @property
    def journal(self) -> bytes:
        """The journal's records: kept, and given to Editor with the file and the same profile, undo goes on."""
        return self._journal.raw[:self._used]

    def read(self) -> Reading:
        return read(self.file, self.profile)

    def entries(self) -> List[Entry]:
        return entries(self.file, self.profile)

    def lookup(self, usage: str, number: int) -> Resource:
        return lookup(self.file, usage, number, self.profile)

    def data(self, usage: str, number: int) -> bytes:
        return data(self.file, usage, number, self.profile)

    def add(self, usage: str, number: int, type: str, content: Bytes) -> None:
        """A resource at the end. Of type 'FORM' the content is a whole file, an AIFF sound."""
        self._edit("blorb_add", _four(usage), _whole(number), _four(type), _lend(content), len(content))

    def replace(self, usage: str, number: int, type: str, content: Bytes) -> None:
        """Another type and other data for a resource, in its place."""
        self._edit("blorb_replace", _four(usage), _whole(number), _four(type), _lend(content), len(content))

    def remove(self, usage: str, number: int) -> None:
        """Takes a resource out."""
        self._edit("blorb_remove", _four(usage), _whole(number))

    def link(self, usage: str, number: int, new_usage: str, new_number: int) -> None:
        """A second name for a resource, on the same chunk."""
        self._edit("blorb_link", _four(usage), _whole(number), _four(new_usage), _whole(new_number))

    def undo(self) -> None:
        """Takes the last edit back; Refused 26 where there is none."""
        self._edit("blorb_undo")

    def forget(self) -> None:
        """Gives undoing up."""
        self._used = 0

    def _edit(self, call: str, *arguments: object) -> None:
        """An edit or undo, again with a larger buffer where one was too small: a refused call has changed nothing."""
        while True:
            answer = getattr(_library, call)(self._file, len(self._file), self._length, self._journal, len(self._journal), self._used, self.profile,
                                             *arguments)
            if answer.refusal == FILE_ROOM and len(self._file) < MAX_SIZE:
                self._file = _grown(self._file, min(2 * len(self._file) + 1024, MAX_SIZE))
            elif answer.refusal == JOURNAL_ROOM:
                self._journal = _grown(self._journal, 2 * len(self._journal) + 1024)
            else:
                break
        _held(answer)
        self._length, self._used = int(answer.length), int(answer.used)


def _grown(buffer: ctypes.Array[ctypes.c_char], size: int) -> ctypes.Array[ctypes.c_char]:
    """A larger buffer that begins with the same bytes."""
    larger = ctypes.create_string_buffer(size)
    ctypes.memmove(larger, buffer, len(buffer))
    return larger
