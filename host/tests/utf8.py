"""The library's UTF-8 against Python's strict decoder: utf8.py PROGRAM, which host/tests/utf8 builds.

Every sequence of one and two bytes, of three and four those of bytes about the ends of the ranges in RFC 3629's table, each alone and between
others; whole texts with and without a break; random bytes. For each the longest good beginning must be the same.
"""
import itertools
import random
import subprocess
import sys

NEAR = bytes([0x00, 0x41, 0x7F, 0x80, 0x8F, 0x90, 0x9F, 0xA0, 0xBF, 0xC0, 0xC1, 0xC2, 0xDF, 0xE0, 0xE1, 0xEC, 0xED, 0xEE, 0xEF, 0xF0, 0xF1, 0xF3, 0xF4, 0xF5,
              0xFF])


def good_length(text):
    try:
        text.decode("utf-8", "strict")
    except UnicodeDecodeError as broken:
        return broken.start
    return len(text)


def sequences():
    for length, of in ((1, range(256)), (2, range(256)), (3, NEAR)):
        for one in itertools.product(of, repeat=length):
            yield bytes(one)
    for one in itertools.product(NEAR, repeat=4):
        if one[0] >= 0x80:
            yield bytes(one)


def character(dice):
    low, high = dice.choice(((0x20, 0x7E), (0, 0x7F), (0x80, 0x7FF), (0x800, 0xD7FF), (0xE000, 0xFFFF), (0x10000, 0x10FFFF)))
    return chr(dice.randint(low, high))


def texts(dice, count):
    """Whole texts; half of them are cut, or have a byte changed, taken out or put in."""
    for _ in range(count):
        text = "".join(character(dice) for _ in range(dice.choice((1, 3, 9, 40, 700)))).encode()
        at = dice.randrange(len(text))
        change = dice.randrange(8)
        yield {0: text[:at], 1: text[:at] + bytes([dice.randrange(256)]) + text[at + 1:], 2: text[:at] + text[at + 1:],
               3: text[:at] + bytes([dice.choice(NEAR)]) + text[at:]}.get(change, text)
        yield bytes(dice.randrange(256) for _ in range(dice.randrange(9)))


def inputs():
    dice = random.Random(3629)
    yield b""
    for one in sequences():
        yield one
        if len(one) < 3 or dice.randrange(16) == 0:
            yield "eä".encode() + one + b"e"
    yield from texts(dice, 30000)


def main():
    tried = list(inputs())
    given = b"".join(len(text).to_bytes(4, "big") + text for text in tried)
    told = subprocess.run([sys.argv[1]], input=given, stdout=subprocess.PIPE, check=True).stdout.split()
    if len(told) != len(tried):
        sys.exit(f"utf8: {len(told)} answers to {len(tried)} texts")
    for text, found in zip(tried, told):
        if int(found) != good_length(text):
            sys.exit(f"utf8: {text.hex(' ')}: the library has {int(found)} good bytes, Python {good_length(text)}")
    good = sum(good_length(text) == len(text) for text in tried)
    print(f"utf8: ok, {len(tried)} texts, {good} of them UTF-8")


if __name__ == "__main__":
    main()
