#!/usr/bin/env python3
"""Makes the lister programs' standard input and the output that 01 and 02 (P3) ask for: crates/lister*/stdin and stdout.

usage: make_lister_inputs.py            writes the files
       make_lister_inputs.py --check    writes nothing; fails where a file is not as it would be written

The expected output is made from the entries and chunks that a file is built of, not by reading the file.
"""
from building import be, blorb, starts
from samples import only_check, save


def listed(entries, chunks):
    """entries: (usage, number, place of the chunk); chunks: (type, data). The file, and its listing."""
    file, at = blorb(entries, chunks), starts(len(entries), chunks)
    lines = [f"blorb {len(file)} bytes {len(entries)} resources"]
    for usage, number, c in entries:
        kind, data = chunks[c]
        given = len(data) + (8 if kind == b"FORM" else 0)    # of a 'FORM' a lookup gives its header too (02, P3)
        lines.append(f"{usage.decode()} {number} at {at[c]} {kind.decode()} {given}")
    return file, "".join(line + "\n" for line in lines).encode()


def filler(n):
    return bytes(i * 7 % 251 for i in range(n))


def with_length(size, entries, chunks, fill):
    """The chunk at place `fill` is made so long that the file has `size` bytes."""
    short = len(blorb(entries, chunks))
    chunks = list(chunks)
    chunks[fill] = (chunks[fill][0], filler(size - short))
    return listed(entries, chunks)


# 01's sample A
a, a_listing = listed([(b"Data", 7, 0)], [(b"TEXT", b"eel")])
assert len(a) == 48

# All usages, types with a trailing space, odd, even and no data, two entries on one chunk, usages mixed, the largest
# number, chunks without an entry; as long as the limit allows.
mixed, mixed_listing = with_length(
    65536,
    [
        (b"Pict", 2, 0), (b"Pict", 1, 0), (b"Data", 0, 1), (b"Snd ", 3, 2), (b"Exec", 0, 3), (b"Pict", 9, 4),
        (b"Pict", 10, 5), (b"Snd ", 4000000000, 6), (b"Snd ", 1, 8), (b"Data", 4294967295, 10),
    ],
    [
        (b"PNG ", b"\x89PNG\r"), (b"TEXT", b""), (b"MOD ", b"tune"), (b"ZCOD", b"\5code!\0"), (b"JPEG", b"\xff\xd8\xff\xe0\0\x10"),
        (b"Rect", be(320) + be(200)), (b"FORM", b"AIFFabc"), (b"RelN", b"\0\1"), (b"OGGV", b"O"),
        (b"Fspc", be(2)), (b"BINA", b""), (b"AUTH", b"nobody"),
    ],
    10,
)
assert len(mixed) == 65536

# one byte more than the lister takes
long = mixed + b"\0"
assert len(long) == 65537


def main():
    only_check()
    save("lister", a, a_listing)
    save("lister_long", long, b"refused 1 at 0\n")
    save("lister_mixed", mixed, mixed_listing)


if __name__ == "__main__":
    main()
