"""The writer of spoken descriptions (02, P7), in Python.

Written from the paper alone: it shares no code and no order of working with the library.

    write(rows, texts, buffer)       ("written", length, buffer afterwards)   or ("refused", number, place, buffer)

The list is its numbers of 32 bits, four to a row (usage, number, place, length); texts and buffer are bytes.
"""
LIMIT = 16_777_216


def rows_of(numbers):
    """The whole rows."""
    return [tuple(numbers[4 * i:4 * i + 4]) for i in range(len(numbers) // 4)]


def is_utf8(text):
    """By RFC 3629, as Python's own decoder has it."""
    try:
        text.decode("utf-8")
    except UnicodeDecodeError:
        return False
    return True


def be(n):
    return n.to_bytes(4, "big")


def fault(rows, texts):
    """38 or 39 with the first faulty row from 0, or None."""
    pairs = [row[:2] for row in rows]
    for i, (_, _, place, length) in enumerate(rows):
        if pairs[i] in pairs[:i]:
            return 38, i
        if place + length > len(texts) or not is_utf8(texts[place:place + length]):
            return 39, i
    return None


def write(numbers, texts, buffer):
    rows = rows_of(numbers)
    found = fault(rows, texts)
    if found:
        return ("refused", *found, buffer)
    data = be(len(rows)) + b"".join(be(u) + be(n) + be(length) + texts[place:place + length] for u, n, place, length in rows)
    chunk = b"RDes" + be(len(data)) + data + bytes(len(data) % 2)
    if len(chunk) > len(buffer) or len(chunk) > LIMIT:
        return ("refused", 40, 0, buffer)
    return ("written", len(chunk), chunk + buffer[len(chunk):])
