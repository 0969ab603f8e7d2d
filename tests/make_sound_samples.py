#!/usr/bin/env python3
"""Makes the run samples of sound lengths: crates/sound_samples/stdin and crates/sound_samples/stdout.

usage: make_sound_samples.py            writes both files and says how many samples of each answer there are
       make_sound_samples.py --check    writes nothing; fails where a file is not as it would be written

The program of that crate reads the packed samples and prints what the library answers; `rt ci` holds what it prints to the
file stdout. The expectations come from sound_reference.py, written from 02 alone; the answer of every sample by hand is stated
here as well, and this script stops where the reference says another.

A packed sample: two numbers of four bytes (the length of its name and of its bytes), the name, the bytes.
"""
import sys
from collections import Counter

import sound_reference as reference
from building import Dice, be, chunk, grow, put, whole_form
from samples import only_check, save

ROOM = 262_144            # the program's buffer; the input has to be shorter
GENERATED, SEED = 600, 11
UNIT = 16_383 + 63        # the exponent field under which the value is the significand itself
NAME = chunk(b"NAME", b"eel")
DATA = chunk(b"SSND", bytes(8))


def rate(field, significand, sign=0):
    """An 80-bit number."""
    return (sign << 15 | field).to_bytes(2, "big") + significand.to_bytes(8, "big")


def normal(n):
    """The 80-bit number n, the highest bit of its significand set."""
    shift = 64 - n.bit_length()
    return rate(UNIT - shift, n << shift)


def common(number, frames=88_200, channels=2, sample_size=16):
    """The 18 bytes of a 'COMM' chunk."""
    return channels.to_bytes(2, "big") + be(frames) + sample_size.to_bytes(2, "big") + number


def aiff(*parts):
    return whole_form(b"AIFF" + b"".join(parts))


def sound(number, *more, **fields):
    return aiff(chunk(b"COMM", common(number, **fields)), *more)


CD = normal(44_100)
GOOD = sound(CD, DATA)


def rates():
    """(name, ten bytes, the rate or None)"""
    yield "44,100", CD, 44_100
    yield "44,100 as its bytes are usually written", bytes.fromhex("400EAC44000000000000"), 44_100
    yield "44,100 with a significand of 16 bits", rate(UNIT, 44_100), 44_100
    yield "44,100 with 48 bits before the point", rate(UNIT - 48, 44_100 << 48), 44_100
    yield "8,000", normal(8_000), 8_000
    yield "192,000", normal(192_000), 192_000
    yield "22,254.54..", bytes.fromhex("400DADDD17460FC40C6E"), None
    yield "11,025 and a half", rate(UNIT - 1, 22_051), None
    yield "1", normal(1), 1
    yield "1 by the lowest bit", rate(UNIT, 1), 1
    yield "1 from field 16,383", rate(16_383, 1 << 63), 1
    yield "a half", rate(16_382, 1 << 63), None
    yield "less than 1 by the last bit", rate(16_382, 2 ** 64 - 1), None
    yield "more than 1 by the last bit", rate(16_383, (1 << 63) + 1), None
    yield "2", normal(2), 2
    yield "3 and a half", rate(UNIT - 1, 7), None
    yield "4,294,967,295", normal(4_294_967_295), 4_294_967_295
    yield "4,294,967,295 by its own bits", rate(UNIT, 4_294_967_295), 4_294_967_295
    yield "4,294,967,295 and a half", rate(UNIT - 1, 2 ** 33 - 1), None
    yield "4,294,967,296", normal(2 ** 32), None
    yield "4,294,967,296 by its own bits", rate(UNIT, 2 ** 32), None
    yield "2,147,483,648 by 31 doublings", rate(UNIT + 31, 1), 2 ** 31
    yield "4,294,967,296 by 32 doublings", rate(UNIT + 32, 1), None
    yield "4,294,967,294 by a doubling", rate(UNIT + 1, 2 ** 31 - 1), 2 ** 32 - 2
    yield "4,294,967,296 by a doubling", rate(UNIT + 1, 2 ** 31), None
    yield "1 by 63 halvings", rate(UNIT - 63, 1 << 63), 1
    yield "a half by 64 halvings", rate(UNIT - 64, 1 << 63), None
    yield "2^63", rate(UNIT, 1 << 63), None
    yield "2^64 less 1", rate(UNIT, 2 ** 64 - 1), None
    yield "zero", bytes(10), None
    yield "zero of the field of 44,100", rate(16_398, 0), None
    yield "zero of field 32,767", rate(32_767, 0), None
    yield "minus zero", rate(0, 0, 1), None
    yield "minus zero of the field of 44,100", rate(16_398, 0, 1), None
    yield "minus 44,100", put(CD, 0, bytes([CD[0] | 0x80])), None
    yield "minus 1 by the lowest bit", rate(UNIT, 1, 1), None
    yield "infinity", rate(32_767, 1 << 63), None
    yield "infinity without its bit", rate(32_767, 1), None
    yield "no number", rate(32_767, 3 << 62), None
    yield "minus infinity", rate(32_767, 1 << 63, 1), None
    yield "field 32,766", rate(32_766, 1), None
    yield "field 0", rate(0, 1 << 63), None
    yield "field 1", rate(1, 2 ** 64 - 1), None


def by_hand():
    """(name, bytes, the answer)"""
    for name, ten, n in rates():
        yield f"rate {name}", sound(ten, DATA), ("refused", 51, 0) if n is None else ("sound", 2, 88_200, 16, n, 88_200 // n)
    for frames, n, seconds in ((0, 44_100, 0), (44_099, 44_100, 0), (44_100, 44_100, 1), (88_199, 44_100, 1), (88_200, 44_100, 2),
                               (2 ** 32 - 1, 1, 2 ** 32 - 1), (2 ** 32 - 1, 2, 2 ** 31 - 1), (2 ** 32 - 1, 2 ** 32 - 1, 1),
                               (2 ** 32 - 2, 2 ** 32 - 1, 0), (2 ** 32 - 1, 2 ** 31, 1), (2 ** 32 - 1, 192_000, 22_369), (1, 1, 1)):
        yield f"{frames} frames at {n}", sound(normal(n), frames=frames), ("sound", 2, frames, 16, n, seconds)
    for channels, sample_size in ((0, 0), (1, 8), (65_535, 65_535), (0x0102, 0x0304)):
        yield f"{channels} channels of {sample_size} bits", sound(CD, channels=channels, sample_size=sample_size), \
            ("sound", channels, 88_200, sample_size, 44_100, 2)
    good = ("sound", 2, 88_200, 16, 44_100, 2)
    yield "the 'COMM' alone", sound(CD), good
    yield "behind chunks of odd and even length", aiff(NAME, DATA, chunk(b"COMM", common(CD)), NAME), good
    yield "an empty chunk in front", aiff(chunk(b"ANNO"), chunk(b"COMM", common(CD))), good
    yield "a 'comm' besides", aiff(chunk(b"comm", common(CD)), chunk(b"COMM", common(CD))), good
    yield "a 'COMM' inside another chunk", aiff(chunk(b"ANNO", chunk(b"COMM", common(CD))), chunk(b"COMM", common(CD))), good
    for name, bad in refused_49():
        yield f"49: {name}", bad, ("refused", 49, 0)
    for name, bad in refused_50():
        yield f"50: {name}", bad, ("refused", 50, 0)


def refused_49():
    no_rate = common(bytes(10))
    yield "nothing", b""
    yield "eleven bytes", whole_form(b"AIF", 3)
    yield "'FORM' and a length", whole_form(b"")
    yield "'RIFF'", put(GOOD, 0, b"RIFF")
    yield "'form'", put(GOOD, 0, b"form")
    yield "'AIFC'", put(GOOD, 8, b"AIFC")
    yield "'aiff'", put(GOOD, 8, b"aiff")
    yield "'IFRS'", put(GOOD, 8, b"IFRS")
    yield "a length one too large", grow(GOOD, 4, 1)
    yield "a length one too small", grow(GOOD, 4, -1)
    yield "a length that is the size", grow(GOOD, 4, 8)
    yield "length 0", put(GOOD, 4, be(0))
    yield "length 4,294,967,295", put(GOOD, 4, be(2 ** 32 - 1))
    yield "the padding byte of the outer chunk", aiff(chunk(b"COMM", common(CD)), NAME[:-1]) + b"\0"
    yield "a byte behind", GOOD + b"\0"
    yield "a second 'FORM' behind", GOOD + GOOD
    yield "the data without its header", GOOD[8:]
    yield "seven bytes of a chunk", aiff(chunk(b"COMM", common(CD)), DATA[:7])
    yield "one byte of a chunk", aiff(chunk(b"COMM", common(CD)), b"S")
    yield "a chunk that runs past the end", aiff(chunk(b"COMM", common(CD)), chunk(b"SSND", bytes(8), 9))
    yield "a chunk of 4,294,967,295 bytes", aiff(chunk(b"COMM", common(CD)), chunk(b"SSND", bytes(8), 2 ** 32 - 1))
    yield "a padding byte 1", aiff(chunk(b"COMM", common(CD)), chunk(b"NAME", b"eel", pad=1))
    yield "a padding byte 1 in front", aiff(chunk(b"NAME", b"eel", pad=1), chunk(b"COMM", common(CD)))
    yield "no padding byte at the end", aiff(chunk(b"COMM", common(CD)), NAME[:-1])
    yield "before 50: 'AIFC' without 'COMM'", whole_form(b"AIFC")
    yield "before 50: a padding byte 1, no 'COMM'", aiff(chunk(b"NAME", b"eel", pad=1))
    yield "before 50: a length too small, two 'COMM'", grow(aiff(*[chunk(b"COMM", common(CD))] * 2), 4, -1)
    yield "before 50: a 'COMM' of 17 bytes, padding byte 1", aiff(chunk(b"COMM", common(CD)[:17], pad=1))
    yield "before 50: two 'COMM', the second broken off", aiff(chunk(b"COMM", common(CD)), chunk(b"COMM", common(CD))[:20])
    yield "before 51: 'AIFC', rate 0", put(sound(bytes(10)), 8, b"AIFC")
    yield "before 51: rate 0, a byte behind", aiff(chunk(b"COMM", no_rate)) + b"\0"
    yield "before 51: rate 0, a padding byte 1", aiff(chunk(b"COMM", no_rate), chunk(b"NAME", b"eel", pad=1))


def refused_50():
    one, none = chunk(b"COMM", common(CD)), chunk(b"COMM", common(bytes(10)))
    yield "no chunk at all", aiff()
    yield "no 'COMM'", aiff(DATA)
    yield "only a 'comm'", aiff(chunk(b"comm", common(CD)))
    yield "only a 'COMM' inside another chunk", aiff(chunk(b"ANNO", one))
    yield "two 'COMM'", aiff(one, one)
    yield "two 'COMM' around another chunk", aiff(one, NAME, one)
    yield "three 'COMM'", aiff(one, one, one)
    yield "four 'COMM'", aiff(one, one, one, one)
    for size in (0, 1, 8, 17):
        yield f"a 'COMM' of {size} bytes", aiff(chunk(b"COMM", common(CD)[:size]))
    for more in (1, 2, 238):
        yield f"a 'COMM' of {18 + more} bytes", aiff(chunk(b"COMM", common(CD) + bytes(more)))
    yield "a good 'COMM' and one of 17 bytes", aiff(one, chunk(b"COMM", common(CD)[:17]))
    yield "a 'COMM' of 17 bytes and a good one", aiff(chunk(b"COMM", common(CD)[:17]), one)
    yield "an empty 'COMM' and a good one", aiff(chunk(b"COMM"), one)
    yield "before 51: two 'COMM' of rate 0", aiff(none, none)
    yield "before 51: a 'COMM' of rate 0 and a good one", aiff(none, one)
    yield "before 51: a good 'COMM' and one of rate 0", aiff(one, none)
    yield "before 51: a 'COMM' of 17 bytes, rate 0", aiff(chunk(b"COMM", common(bytes(10))[:17]))
    yield "before 51: a 'COMM' of 19 bytes, rate 0", aiff(chunk(b"COMM", common(bytes(10)) + b"\0"))


def some_rate(dice):
    """A rate of 1 to 32 bits, shifted as far as may be and sometimes further, now and then with a bit or a sign too many."""
    n = 1 + dice.below(2 ** (1 + dice.below(31)))
    shift = dice.below(66)
    significand = n << shift
    field = UNIT - shift
    if significand >= 2 ** 64:
        significand, field = n, UNIT + dice.below(34)
    if dice.below(6) == 0:
        significand = (significand + (1 << dice.below(64))) % 2 ** 64
    if dice.below(12) == 0:
        field = dice.below(32_768)
    return rate(field, significand, int(dice.below(16) == 0))


def generated():
    dice = Dice(SEED)
    for k in range(GENERATED):
        parts = [chunk(b"COMM", common(some_rate(dice), dice.below(2 ** 31) * 2 + dice.below(2), dice.below(65_536), dice.below(65_536)))]
        for _ in range(dice.below(4)):
            parts.insert(dice.below(len(parts) + 1), chunk(dice.one_of([b"NAME", b"SSND", b"MARK", b"(c) "]), dice.bytes(dice.below(9))))
        if dice.below(12) == 0:
            parts.insert(dice.below(len(parts) + 1), chunk(b"COMM", common(CD)[:dice.one_of([0, 17, 18])]))
        b = aiff(*parts)
        if dice.below(5) == 0:
            at = dice.below(len(b))
            b = put(b, at, bytes([b[at] ^ 1 << dice.below(8)]))
        yield f"generated {k}", b, None


def told(answer):
    if answer[0] == "refused":
        return f"refused {answer[1]} at {answer[2]}"
    return "channels {} frames {} sample size {} rate {} seconds {}".format(*answer[1:])


def main():
    only_check()
    packed, lines, counts = [], [], Counter()
    for samples in (by_hand(), generated()):
        for name, b, right in samples:
            answer = reference.length(b)
            if right is not None and answer != right:
                sys.exit(f"{name}: by hand {right}, the reference says {answer}")
            counts[answer[1] if answer[0] == "refused" else "sound"] += 1
            packed.append(be(len(name)) + be(len(b)) + name.encode("ascii") + b)
            lines.append(f"{name}: {told(answer)}\n")
    stdin = b"".join(packed)
    save("sound_samples", stdin, "".join(lines).encode("ascii"), ROOM)
    print(f"{len(lines)} samples, {len(stdin)} bytes:", ", ".join(f"{k} {n}" for k, n in sorted(counts.items(), key=str)))


if __name__ == "__main__":
    main()
