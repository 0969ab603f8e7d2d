"""The lengths of sounds of 02's request P11, in Python.

Written from the paper alone: it shares no code and no order of working with the library. The rate is an exact fraction, never a
floating number.

    length(b)     ("sound", channels, frames, sample size, rate, seconds)   or ("refused", number, 0)

b is an AIFF as P3's lookup gives it: the whole 'FORM', its header included and no padding behind it.
"""
import math
from fractions import Fraction

BIAS = 16_383
LARGEST = 4_294_967_295


def number(b):
    return int.from_bytes(b, "big")


def chunks_in(b):
    """The chunks (type, data) that fill b, each as rule 2 has it, or None."""
    found = []
    while b:
        size = number(b[4:8])
        whole = 8 + size + size % 2
        if len(b) < 8 or len(b) < whole or any(b[8 + size:whole]):
            return None
        found.append((b[:4], b[8:8 + size]))
        b = b[whole:]
    return found


def extended(b):
    """The value of an 80-bit number: "sign, 15 bits of exponent, bias 16,383, and a 64-bit significand"."""
    sign, exponent, significand = b[0] >> 7, number(b[:2]) & 0x7FFF, number(b[2:10])
    value = significand * Fraction(2) ** (exponent - BIAS - 63)
    return -value if sign else value


def length(b):
    """49, 50 and 51, in that order, or what the 'COMM' chunk says."""
    single = len(b) >= 12 and b[:4] == b"FORM" and b[8:12] == b"AIFF" and number(b[4:8]) == len(b) - 8
    chunks = chunks_in(b[12:]) if single else None
    if chunks is None:
        return ("refused", 49, 0)
    commons = [data for kind, data in chunks if kind == b"COMM"]
    if len(commons) != 1 or len(commons[0]) != 18:
        return ("refused", 50, 0)
    channels, frames, sample_size = number(commons[0][:2]), number(commons[0][2:6]), number(commons[0][6:8])
    rate = extended(commons[0][8:])
    if rate.denominator != 1 or not 1 <= rate <= LARGEST:
        return ("refused", 51, 0)
    return ("sound", channels, frames, sample_size, int(rate), math.floor(Fraction(frames) / rate))
