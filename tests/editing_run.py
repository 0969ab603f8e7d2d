"""Scenarios of editing: how they are run by the reference, packed for the program, and told as it tells them.

A scenario is two buffers with their bytes, the L and U at first, a profile for all its calls, and steps. A step is a call with its arguments,
("blank",), ("add", usage, number, kind, body), ("replace", the same), ("remove", usage, number), ("undo",), ("link", usage, number, new usage, new number), or
("given", L, U): the next call is given these instead of the last answer's.

Packed: ten numbers of four bytes (the lengths of the name, the buffer, the journal, how many bytes of each of the two are
packed, L, U, how many bytes the steps have, 1 if the buffers are shown at the end, the profile), the name, the packed bytes
of the buffer and of the journal, the steps. Behind its packed bytes a buffer is filled (see fill). A step: a byte that says which
it is, 16 bytes (usage, number, type, length of the data; or L and U in eight bytes each; or usage, number, new usage, new
number), the data, which neither of the last two has.
"""
from collections import namedtuple
from functools import lru_cache

import editing_reference
import reference
from building import be
from editing_ledger import Ledger
from samples import checksum

Scenario = namedtuple("Scenario", "name buf jrn len used shown steps profile", defaults=[reference.PLAIN])

STEPS = ("blank", "add", "replace", "remove", "undo", "given", "link")
ROOM = 1_048_576           # the program's buffer for its input; the input has to be shorter
MOST = 65_536              # its file buffer, and its journal


# ---- buffers: bytes that are given, and behind them bytes that are not zero and differ from place to place

def fill(at, end):
    return bytes(i % 251 + 1 for i in range(at, end))


def lent(given, room):
    """A buffer of that length with these bytes at its beginning."""
    assert len(given) <= room <= MOST
    return given + fill(len(given), room)


def packed_part(buf):
    """The bytes of a buffer that have to be packed: the rest is as fill makes it."""
    n = len(buf)
    while n and buf[n - 1] == (n - 1) % 251 + 1:
        n -= 1
    return buf[:n]


# ---- running

@lru_cache(maxsize=2000)
def results(x):
    """For each step its answer (none for a step that only gives L and U) and both buffers after it."""
    buf, jrn, L, U = x.buf, x.jrn, x.len, x.used
    after = []
    for what, *args in x.steps:
        answer = None
        if what == "given":
            L, U = args
        elif what == "blank":
            answer, buf = editing_reference.blank(buf)
        else:
            answer, buf, jrn = getattr(editing_reference, what)(buf, L, jrn, U, *args, profile=x.profile)
        if answer:
            L, U = answer.len, answer.used
        after.append((answer, buf, jrn))
    return after


def is_run(x):
    """Whether 01's 'Whole runs' speaks of it: with a known profile, under which the starting file is accepted."""
    accepted = x.len <= len(x.buf) and reference.read(x.buf[:x.len], x.profile)[0] == "accepted"
    return accepted and x.used == 0 and all(what in ("add", "replace", "remove", "link", "undo") for what, *_ in x.steps)


def held_to_ledger(x):
    """What keeps a run from agreeing with the ledger, in words; None where nothing does."""
    ledger = Ledger(x.buf[:x.len], len(x.buf), len(x.jrn), x.profile)
    for k, (call, (answer, buf, jrn)) in enumerate(zip(x.steps, results(x))):
        told = ledger.call(call)
        if told != answer:
            return f"call {k}: {answer}, the ledger: {told}"
        if buf[:answer.len] != ledger.file() or reference.read(buf[:answer.len], x.profile)[0] != "accepted":
            return f"call {k}: the file isn't the ledger's"
        if jrn[:answer.used] != b"".join(ledger.records()):
            return f"call {k}: the journal isn't the ledger's"
    return None if ledger.holds() else "the ledger's file isn't that of its list"


# ---- packing

def packed_step(step):
    what, *args = step
    if what == "given":
        L, U = args
        fields = L.to_bytes(8, "big") + U.to_bytes(8, "big")
    elif what == "link":
        usage, number, new_usage, new_number = args
        fields = usage + be(number) + new_usage + be(new_number)
    else:
        usage, number, kind, body = args + [bytes(4), 0, bytes(4), b""][len(args):]
        fields = usage + be(number) + kind + be(len(body)) + body
    return bytes([STEPS.index(what)]) + fields


def packed(x):
    steps = b"".join(packed_step(s) for s in x.steps)
    buf, jrn = packed_part(x.buf), packed_part(x.jrn)
    sizes = [len(x.name), len(x.buf), len(x.jrn), len(buf), len(jrn), x.len, x.used, len(steps), int(x.shown), x.profile]
    return b"".join([*map(be, sizes), x.name.encode(), buf, jrn, steps])


# ---- telling

def words(answer):
    outcome = f"refused {answer.number} at {answer.place}" if answer.number else "done"
    return f"{outcome} L {answer.len} U {answer.used}"


def lines(x):
    """What the program prints for a scenario."""
    yield f"{x.name}: buffer {len(x.buf)} journal {len(x.jrn)} L {x.len} U {x.used}"
    sums, buf, jrn = {}, x.buf, x.jrn
    for (what, *args), (answer, buf, jrn) in zip(x.steps, results(x)):
        for b in (buf, jrn):
            if b not in sums:
                sums[b] = checksum(b)
        said = words(answer or editing_reference.Answer(0, 0, *args))
        yield f" {what} {said} sums {sums[buf]} {sums[jrn]}"
    if x.shown:
        yield f" buffer {buf.hex()}"
        yield f" journal {jrn.hex()}"
