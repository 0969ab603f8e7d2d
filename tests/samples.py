"""What the scripts that make run samples share: their argument, the files that they write, and the programs' checksum."""
import pathlib
import sys

BYTES, NUMBERS = 4_294_967_291, 16_777_213     # what the checksums of bytes and of numbers of 32 bits are taken by
CRATES = pathlib.Path(__file__).resolve().parent.parent / "crates"


def only_check():
    """Whether the script is only to check (--check). It stops at any other argument, so call this before anything is written."""
    if sys.argv[1:] not in ([], ["--check"]):
        sys.exit(f"usage: {pathlib.Path(sys.argv[0]).name} [--check]")
    return sys.argv[1:] == ["--check"]


def save(crate, stdin, stdout, room=None):
    """Writes what the crate's program reads and has to print; with --check, stops where a file is not as it would be written."""
    if room is not None and len(stdin) >= room:
        sys.exit(f"{len(stdin)} bytes are too many for the program's buffer")
    for name, content in (("stdin", stdin), ("stdout", stdout)):
        path = CRATES / crate / name
        if not only_check():
            path.write_bytes(content)
        elif not path.exists() or path.read_bytes() != content:
            sys.exit(f"{path} is not what this script makes")


def checksum(numbers, by=BYTES):
    """As the programs': knows the order of the numbers."""
    total = 0
    for x in numbers:
        total = total % by * 257 + x + 1
    return total
