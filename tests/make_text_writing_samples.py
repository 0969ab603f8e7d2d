#!/usr/bin/env python3
"""Makes the run samples of the writer of descriptions: crates/text_writing_samples/stdin and crates/text_writing_samples/stdout.

usage: make_text_writing_samples.py            writes both files and says how many samples of each answer there are
       make_text_writing_samples.py --check    writes nothing; fails where a file is not as it would be written

The program of that crate reads the packed samples and prints what the library answers; `rt ci` holds what it prints to the
file stdout. The expectations come from text_writing_reference.py, written from 02 alone; the answer of every sample by hand is
stated here as well, and this script stops where the reference says another.

A packed sample: four numbers of four bytes (the length of its name, how many numbers its list has, the length of its texts and
that of the buffer), the name, four bytes for each number, the texts.
"""
import sys
from collections import Counter

import text_writing_reference as reference
from building import Dice, be
from samples import checksum, only_check, save

ROOM = 524_288            # the program's buffer for its input, which has to be shorter
NUMBERS = 8_192           # numbers in its longest list
BUFFER = 65_536           # bytes in its longest buffer
SHORT = 97                # a buffer under this is printed whole
GENERATED, SHARED, SEED = 500, 24, 7
PICT, SND = int.from_bytes(b"Pict", "big"), int.from_bytes(b"Snd ", "big")
TOP = 2 ** 32 - 1

# each row of RFC 3629's table at its first and last bytes
GOOD = ["00", "7f", "c280", "dfbf", "e0a080", "e0bfbf", "e18080", "ecbfbf", "ed8080", "ed9fbf", "ee8080", "efbfbf",
        "f0908080", "f0bfbfbf", "f1808080", "f3bfbfbf", "f4808080", "f48fbfbf"]
# a byte beyond each, a character cut, a stray byte
BAD = ["80", "bf", "c0", "c080", "c1bf", "c2", "c27f", "c2c0", "e0", "e09fbf", "e0a0", "e0a07f", "eda080", "edbfbf", "ee80", "efbfc0",
       "f08fbfbf", "f090", "f09080", "f48fbf", "f4908080", "f5808080", "f8", "fe", "ff", "41c3", "c3a9a9"]


def listed(*texts, usage=PICT):
    """A list of these texts one behind the other, numbers from 1, and their slice."""
    rows, slice_ = [], b""
    for i, text in enumerate(texts):
        rows += [usage, i + 1, len(slice_), len(text)]
        slice_ += text
    return rows, slice_


def rows(*quadruples):
    return [n for row in quadruples for n in row]


def answers():
    """The order of the refusals, places and lengths: (name, numbers, texts, room, answer)"""
    eel, slice_ = listed(b"eel")
    yield "no row, room just right", [], b"", 12, ("written", 12)
    yield "no row, one short", [], b"", 11, ("refused", 40, 0)
    yield "no row, no buffer", [], b"", 0, ("refused", 40, 0)
    yield "no row, room to spare", [], b"eel", 20, ("written", 12)
    for n in (1, 2, 3):
        yield f"{n} numbers of a row", eel[:n], slice_, 14, ("written", 12)
    yield "odd, room to spare", eel, slice_, 40, ("written", 28)
    yield "odd, room just right", eel, slice_, 28, ("written", 28)
    yield "odd, no room for the padding", eel, slice_, 27, ("refused", 40, 0)
    yield "odd, no room for the header", eel, slice_, 19, ("refused", 40, 0)
    yield "a row and three numbers", eel + [PICT, 2, 0], slice_, 28, ("written", 28)
    even, both = listed(b"eels")
    yield "even, room just right", even, both, 28, ("written", 28)
    yield "even, one short", even, both, 27, ("refused", 40, 0)
    yield "an empty text", *listed(b""), 24, ("written", 24)
    yield "an empty text, one short", *listed(b""), 23, ("refused", 40, 0)
    yield "an empty text at the slice's end", [PICT, 1, 3, 0], slice_, 24, ("written", 24)
    yield "an empty text behind the slice's end", [PICT, 1, 4, 0], slice_, 24, ("refused", 39, 0)
    yield "a text to the slice's end", [PICT, 1, 1, 2], slice_, 26, ("written", 26)
    yield "a text one past its slice", [PICT, 1, 1, 3], slice_, 40, ("refused", 39, 0)
    yield "a text of an empty slice", [PICT, 1, 0, 1], b"", 40, ("refused", 39, 0)
    yield "place and length beyond 32 bits together", [PICT, 1, TOP, TOP], slice_, 40, ("refused", 39, 0)
    yield "place and length that wrap to 3", [PICT, 1, TOP, 4], slice_, 40, ("refused", 39, 0)
    yield "one text twice", rows([PICT, 1, 0, 3], [PICT, 2, 0, 3]), slice_, 60, ("written", 42)
    yield "texts that overlap, the later first", rows([PICT, 1, 1, 2], [PICT, 2, 0, 3]), slice_, 42, ("written", 42)
    yield "any usage", rows([0, 0, 0, 1], [TOP, TOP, 1, 1], [1, 0, 2, 1]), slice_, 60, ("written", 52)
    yield "one usage, two numbers", rows([PICT, 1, 0, 1], [PICT, 2, 0, 1]), slice_, 60, ("written", 38)
    yield "two usages, one number", rows([PICT, 1, 0, 1], [SND, 1, 0, 1]), slice_, 60, ("written", 38)
    yield "pairs turned round", rows([1, 2, 0, 1], [2, 1, 0, 1]), slice_, 60, ("written", 38)
    yield "a repeated pair", rows([PICT, 1, 0, 1], [PICT, 1, 1, 1]), slice_, 60, ("refused", 38, 1)
    yield "a repeated pair behind another row", rows([PICT, 1, 0, 1], [PICT, 2, 0, 1], [PICT, 1, 0, 1]), slice_, 60, ("refused", 38, 2)
    yield "38 before 39 in a row", rows([PICT, 1, 0, 1], [PICT, 1, 9, 9]), slice_, 60, ("refused", 38, 1)
    yield "39 of an earlier row before 38", rows([PICT, 1, 0, 1], [PICT, 2, 9, 9], [PICT, 1, 0, 1]), slice_, 60, ("refused", 39, 1)
    yield "38 of an earlier row before 39", rows([PICT, 1, 0, 1], [PICT, 1, 0, 1], [PICT, 2, 9, 9]), slice_, 60, ("refused", 38, 1)
    yield "39 in the first row, a repeat of it behind", rows([PICT, 1, 9, 9], [PICT, 1, 0, 1]), slice_, 60, ("refused", 39, 0)
    yield "38 before 40", rows([PICT, 1, 0, 1], [PICT, 1, 0, 1]), slice_, 0, ("refused", 38, 1)
    yield "39 before 40", [PICT, 1, 3, 1], slice_, 0, ("refused", 39, 0)
    yield "40 at 0, whichever row is behind the room", rows([PICT, 1, 0, 3], [PICT, 2, 0, 3]), slice_, 41, ("refused", 40, 0)


def texts():
    for text in map(bytes.fromhex, GOOD):
        size = 24 + len(text) + len(text) % 2
        yield f"good text {text.hex()}", *listed(text), size, ("written", size)
        yield f"good text {text.hex()} cut", [PICT, 1, 0, len(text) - 1], text, 40, ("written", 24) if len(text) == 1 else ("refused", 39, 0)
    for text in map(bytes.fromhex, BAD):
        yield f"bad text {text.hex()}", *listed(text), 40, ("refused", 39, 0)
        yield f"bad text {text.hex()} in the second row", *listed(b"eel", text), 60, ("refused", 39, 1)
    yield "a character in two rows' halves", rows([PICT, 1, 0, 1], [PICT, 2, 1, 1]), bytes.fromhex("c3a9"), 60, ("refused", 39, 0)
    yield "from a character's second byte", rows([PICT, 1, 0, 2], [PICT, 2, 1, 1]), bytes.fromhex("c3a9"), 60, ("refused", 39, 1)
    yield "a bad byte between good texts", rows([PICT, 1, 0, 1], [PICT, 2, 2, 1]), b"a\xffb", 60, ("written", 38)


def long_lists():
    count = NUMBERS // 4
    last = rows(*([PICT, n, 0, 1] for n in range(count)))
    size = 12 + 13 * count
    yield "2,048 rising pairs", last, b"e", size + size % 2, ("written", size + size % 2)
    falling = rows(*([PICT, count - n, 0, 1] for n in range(count)))
    yield "2,048 falling pairs", falling, b"e", size + size % 2, ("written", size + size % 2)
    yield "2,048 falling pairs, the last repeats the first", falling[:-3] + [count, 0, 1], b"e", BUFFER, ("refused", 38, count - 1)
    yield "2,048 falling pairs, the last text bad", falling[:-2] + [1, 1], b"e", BUFFER, ("refused", 39, count - 1)
    yield "over 01's limit", rows(*([PICT, n, 0, 60_000] for n in range(300))), b"e" * 60_000, BUFFER, ("refused", 40, 0)
    yield "over 01's limit, the last text bad", rows(*([PICT, n, n, 60_000] for n in range(300))), b"e" * 60_298, BUFFER, ("refused", 39, 299)


def over(slice_, *ends, usage=PICT):
    """Rows for the bytes between these ends, numbers from 1."""
    return rows(*([usage, i + 1, a, b - a] for i, (a, b) in enumerate(ends))), slice_


def shared():
    """Many texts over one slice, longer than the parts of it that the library remembers: characters of every length, so that the ends of the
    texts lie in all ways to the ends of the parts. More than fits in a chunk is judged before 40 is answered."""
    pieces = [bytes.fromhex(GOOD[i % len(GOOD)]) for i in range(4_500)]
    starts = [0]
    for piece in pieces:
        starts.append(starts[-1] + len(piece))
    slice_ = b"".join(pieces)
    end, inside = starts[-1], next(at for at in starts if slice_[at] >= 0xF0) + 2
    many = [(a, end) for a in starts[:150]] + [(0, b) for b in starts[-150:]] + [(a, end - a) for a in (0, 54, 270, 1026)]
    yield "304 texts over one slice", *over(slice_, *many), BUFFER, ("refused", 40, 0)
    yield "304 texts over one slice, one more from within a character", *over(slice_, *many, (inside, end)), BUFFER, ("refused", 39, 304)
    yield "304 texts over one slice, one more to within a character", *over(slice_, *many, (0, end - 54 + inside)), BUFFER, ("refused", 39, 304)
    whole = slice_ * 3
    at = whole.index(b"\x7f", 36_000)
    spoilt = whole[:at] + b"\x80" + whole[at + 1:]
    ends = [(0, at), (54, at), (at + 1, len(spoilt)), (0, at), (0, len(spoilt))]
    yield "a stray byte behind what is remembered", *over(spoilt, *ends), BUFFER, ("refused", 39, 4)
    for at in (511, 512, 513, 767, 768):
        plain = b"e" * at + b"\x80" + b"e" * 700
        ends = [(0, at), (at + 1, len(plain)), (1, at), (0, at), (at + 2, len(plain))]
        yield f"a stray byte at {at}", *over(plain, *ends), 8_000, ("written", 8 + 4 + 5 * 12 + 3 * at - 1 + 2 * 700 - 1 + at % 2)
        yield f"a stray byte at {at}, and a text over it", *over(plain, *ends, (0, at + 1)), 8_000, ("refused", 39, 5)
        yield f"a stray byte at {at}, and a text from it", *over(plain, *ends, (at, len(plain))), 8_000, ("refused", 39, 5)
    for at in (509, 510, 511, 512):
        split = b"e" * at + b"\xf0\x90\x80\x80" + b"e" * 700
        ends = [(0, len(split)), (0, at), (at, len(split)), (0, at + 4), (at + 4, len(split)), (0, len(split))]
        yield f"a character from {at} on", *over(split, *ends), 14_000, ("written", 8 + 4 + 6 * 12 + 4 * len(split))
        for by in (1, 2, 3):
            yield f"a character from {at} on, cut after {by}", *over(split, *ends, (0, at + by)), 14_000, ("refused", 39, 6)
            yield f"a character from {at} on, from its byte {by}", *over(split, *ends, (at + by, len(split))), 14_000, ("refused", 39, 6)


def by_hand():
    yield from answers()
    yield from texts()
    yield from long_lists()
    yield from shared()


def generated():
    """Lists over characters of which few are bad; a text begins and ends at characters but in one row of twenty."""
    dice = Dice(SEED)
    for k in range(GENERATED):
        pieces = [bytes.fromhex(dice.one_of(GOOD if dice.below(40) else BAD)) for _ in range(dice.below(12))]
        slice_, ends = b"".join(pieces), [sum(map(len, pieces[:i])) for i in range(len(pieces) + 1)]
        numbers = []
        for _ in range(dice.below(6)):
            place, end = sorted((dice.one_of(ends), dice.one_of(ends)))
            numbers += [PICT + dice.below(2), dice.below(12), place, end - place if dice.below(20) else dice.below(9)]
        numbers += [dice.below(9) for _ in range(dice.below(4))]
        yield f"generated {k}", numbers, slice_, dice.below(180), None
    for k in range(SHARED):
        pieces = [bytes.fromhex(dice.one_of(GOOD if dice.below(1_500) else BAD)) for _ in range(300 + dice.below(500))]
        slice_, ends = b"".join(pieces), [sum(map(len, pieces[:i])) for i in range(len(pieces) + 1)]
        numbers = []
        for n in range(3 + dice.below(8)):
            place, end = dice.one_of(ends[:80] + ends[-80:]), dice.one_of(ends[-80:])
            numbers += [PICT, n, min(place, end), max(place, end) - min(place, end) + (0 if dice.below(40) else dice.below(3))]
        yield f"generated over one slice {k}", numbers, slice_, 20_000, None


def filler(n):
    """What a buffer holds before."""
    return bytes(i % 251 + 1 for i in range(n))


def line(name, numbers, slice_, room, expected):
    *answer, buffer = reference.write(numbers, slice_, filler(room))
    if expected is not None and tuple(answer) != expected:
        sys.exit(f"{name}: the reference says {answer}, expected {expected}")
    said = f"written {answer[1]}" if answer[0] == "written" else f"refused {answer[1]} at {answer[2]}"
    shown = f" {buffer.hex()}" if room < SHORT else ""
    return f"{name}: {said} sum {checksum(buffer)}{shown}\n".encode(), tuple(answer[:2]) if answer[0] == "refused" else answer[0]


def main():
    only_check()
    packed, told, count = b"", b"", Counter()
    for name, numbers, slice_, room, expected in [*by_hand(), *generated()]:
        assert len(numbers) <= NUMBERS and room <= BUFFER
        label = name.encode()
        packed += be(len(label)) + be(len(numbers)) + be(len(slice_)) + be(room) + label + b"".join(map(be, numbers)) + slice_
        said, kind = line(name, numbers, slice_, room, expected)
        told += said
        count[kind] += 1
    save("text_writing_samples", packed, told, ROOM)
    for kind, n in sorted(count.items(), key=str):
        print(kind, n)


if __name__ == "__main__":
    main()
