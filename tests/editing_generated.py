"""Generated scenarios of editing: long mixed runs, and single calls on files and journals that may be spoiled.

runs(count, seed) and singles(count, seed) give the same scenarios with every Python. Arguments are chosen by looking at
the file as it is then, so that many calls succeed; the answers are not chosen here. One run in three is under the ADRIFT
profile. A single call may be made under another profile than the edits before it, known or not.
"""
import editing_reference
import reference
from building import Dice, be, blorb, grow, put, put32, whole_form
from editing_by_hand import FIRST, FOUR, FRONT, LAST, MIXED, SAME, SHARED, THREE
from editing_run import Scenario, lent
from reading_by_hand import B, BLANK, JPEG, PICT, UNKNOWN, WHOLE
from reading_generated import ADRIFT_RESOURCES, RESOURCES, USAGES, body_for, right_file, spoil
from reference import ADRIFT, PLAIN
from undo_by_hand import HELD

ALLOWED = {PLAIN: RESOURCES, ADRIFT: ADRIFT_RESOURCES}
KINDS = {profile: {usage: [kind for u, kind in allowed if u == usage] for usage in USAGES} for profile, allowed in ALLOWED.items()}
FILES = [BLANK, B, MIXED, SHARED, FOUR, WHOLE, FIRST, LAST, FRONT, HELD, SAME, THREE]
WRONG = [b"RIdx", b"RelN", b"Fspc", b"ANNO", b"TEXT", b"Rect", b"FORM", b"GIF ", b"WAV ", bytes(4)]
MOODS = [("add", "link", "link"), ("link", "replace", "remove", "undo"),
         ("add", "add", "add", "replace"), ("replace", "replace", "remove"), ("remove", "remove", "undo"), ("undo",),
         ("undo",), ("add", "replace", "remove", "undo"), ("add", "undo"), ("add", "replace", "replace", "remove")]


# ---- calls

def body_of(d, kind):
    """Data to be given with that type: of 'FORM' a whole file, now and then one whose head is wrong or cut short."""
    if kind == b"FORM":
        file = whole_form(body_for(d, kind))
        return d.one_of([file] * 6 + [file + b"\0", file[8:], file[:d.below(12)], grow(file, 4, 1), put(file, 0, b"f")])
    if kind == b"Rect" or d.below(4):
        return body_for(d, kind)
    return d.bytes(d.below(40))


def a_pair(d, file, profile):
    """A pair of the file, mostly; one that isn't in it else."""
    entries = reference.parse(file, profile)[1]
    if entries and d.below(12):
        return d.one_of(entries)[:2]
    return d.one_of([*USAGES, b"data", b"snd "]), d.below(5)


def new_pair(d, file, profile):
    """A pair that isn't in the file, mostly."""
    taken = {e[:2] for e in reference.parse(file, profile)[1]}
    usage = d.one_of(USAGES)
    number = d.one_of([d.below(4), d.below(12), d.below(256), 2 ** 32 - 1 - d.below(3)])
    pair = usage, 0 if usage == b"Exec" and d.below(8) else number
    if pair in taken and d.below(6):
        return new_pair(d, file, profile)
    return pair if d.below(30) else (b"exec", pair[1])


def a_call(d, file, what, profile):
    if what == "undo":
        return ("undo",)
    usage, number = new_pair(d, file, profile) if what == "add" else a_pair(d, file, profile)
    if what == "remove":
        return ("remove", usage, number)
    if what == "link":
        new_usage, new_number = new_pair(d, file, profile)
        return ("link", usage, number, usage if d.below(8) else new_usage, new_number)
    kind = d.one_of(KINDS[profile].get(usage, WRONG))
    body = body_of(d, kind)
    if d.below(16) == 0:
        kind = d.one_of(WRONG)
    return (what, usage, number, kind, body)


# ---- long runs

def accepted_file(d, profile):
    while True:
        s = blorb(*right_file(d, ALLOWED[profile]))
        if reference.read(s, profile)[0] == "accepted":
            return s


def a_file(d, profile):
    """A file to start from: one of those by hand, or a generated one."""
    return d.one_of(FILES) if d.below(3) else accepted_file(d, profile)


def steps_of(d, buf, L, jrn, count, profile):
    """Calls in bursts of one mood. A burst of undos goes on for some calls, or to the empty journal and beyond."""
    U, steps, left = 0, [], 0
    while len(steps) < count:
        if left == 0:
            mood, left = d.one_of(MOODS), 2 + d.below(9)
            if mood == ("undo",):
                left = 1000 if d.below(4) == 0 else left
                left = left if U or d.below(3) == 0 else 0
                continue
        what = d.one_of(mood)
        if L < 48 and what in ("replace", "remove", "link") and d.below(4):
            what = "add"
        call = a_call(d, buf[:L], what, profile)
        answer, buf, jrn = getattr(editing_reference, what)(buf, L, jrn, U, *call[1:], profile=profile)
        L, U = answer.len, answer.used
        steps.append(call)
        left = d.below(2) if answer.number == 26 else left - 1
    return tuple(steps)


def a_run(d, name, file, count, rooms, journals, profile):
    """The buffer has as much more room than the file as one of `rooms` says, and up to 100 bytes besides."""
    buf = lent(file, len(file) + d.one_of(rooms) + d.below(100))
    jrn = lent(b"", d.one_of(journals) + d.below(100))
    return Scenario(name, buf, jrn, len(file), 0, False, steps_of(d, buf, len(file), jrn, count, profile), profile)


def runs(count, seed):
    d = Dice(seed)
    for i in range(count):
        profile = ADRIFT if i % 3 == 2 else PLAIN
        file = FILES[i] if i < len(FILES) else a_file(d, profile)
        yield a_run(d, f"run {i}", file, 100 + d.below(201), [0, 0, 50, 100, 200], [29, 150, 300, 500], profile)


def run_of_many(seed):
    """Near 4,096 entries, the last twenty of them with a chunk of their own."""
    d = Dice(seed)
    entries = [(PICT, 10 + i, max(0, i - 4075)) for i in range(4095)]
    return a_run(d, "run of many entries", blorb(entries, [JPEG] * 20), 100, [400], [500], PLAIN)


# ---- single calls

def with_records(d, buf, L, jrn, U, profile):
    """The buffers after some edits that have succeeded: the journal's last record is this file's."""
    for _ in range(1 + d.below(4)):
        what, *args = a_call(d, buf[:L], d.one_of(["add", "replace", "replace", "remove", "remove", "link", "link"]), profile)
        answer, buf, jrn = getattr(editing_reference, what)(buf, L, jrn, U, *args, profile=profile)
        L, U = answer.len, answer.used
    return buf, L, jrn, U


def spoiled_record(d, file, jrn, U, profile):
    """The journal with something in its last record changed: a byte, a field, or the whole record."""
    trailer = int.from_bytes(jrn[U - 4:U], "big")
    at = U - 4 - trailer
    fields = [at + 5, at + 9, at + 13, at + 17, at + 21, U - 4]
    chunks, entries = reference.parse(file, profile)
    what = d.below(9)
    if what == 0:
        return put(jrn, at + d.below(U - at), d.bytes(1))
    if what == 1:
        return put(jrn, at, bytes([d.one_of([0, 1, 2, 3, 4, 5, 6, 255])]))
    if what == 2:
        return grow(jrn, d.one_of(fields), d.one_of([1, -1, 2, -2, 12, -12, 256]))
    if what == 3:
        return put32(jrn, d.one_of(fields), d.one_of([0, 1, 12, 24, len(file), len(entries), 2 ** 31, 2 ** 32 - 1]))
    if what == 4:
        return put(jrn, at + 1, d.one_of([*USAGES, b"data"]))
    if what == 5:
        return put32(jrn, at + 13, d.one_of([*(c.start for c in chunks), len(file)]) + 12 * d.below(3))
    if what == 6:
        return put(jrn, at + 17, d.one_of([kind for _, kind in ALLOWED[profile]] + WRONG))
    if what == 7 and entries:
        e = d.one_of(entries)
        return put(put32(jrn, at + 9, d.below(len(entries) + 2)), at + 1, e.usage + be(e.number))
    return put(jrn, at, a_record(d, chunks, entries, len(file), profile))


def a_record(d, chunks, entries, L, profile):
    """25 bytes of a record that fits, or nearly does."""
    kind = 1 + d.below(5)
    place = d.below(len(entries) + 1)
    e = entries[min(place, len(entries) - 1)] if entries else reference.Entry(b"Data", 1, 36)
    if kind == 1:
        place, e = max(0, len(entries) - 1), entries[-1] if entries else e
        return bytes([1]) + e.usage + be(e.number) + be(place) + bytes(12)
    if kind == 2:
        return bytes([2]) + e.usage + be(e.number) + be(place) + be(e.start) + d.one_of(KINDS[profile][e.usage]) + bytes(4)
    if kind == 5:
        return bytes([5]) + e.usage + be(e.number) + be(place) + be(e.start) + bytes(8)
    usage = d.one_of(USAGES)
    start = d.one_of([c.start for c in chunks[1:]] + [L]) + 12
    was = bytes(4) if kind == 4 else d.one_of(KINDS[profile][usage])
    if d.below(4):    # a place that keeps the order of the chunks
        low, same = sum(e.start < start - 12 for e in entries), sum(e.start == start - 12 for e in entries)
        place = low + d.below(same + 1 if kind == 4 else 1)
    return bytes([kind]) + usage + be(d.below(6)) + be(place) + be(start) + was + bytes(4)


def single(d, name):
    """One call. Its file, its journal, its L and U, its profile, or the room in its buffers may be wrong."""
    before = d.one_of([PLAIN, PLAIN, ADRIFT])
    file, U = accepted_file(d, before), d.below(20)
    buf, L, jrn, U = with_records(d, lent(file, len(file) + 100), len(file), lent(d.bytes(U), 200), U, before)
    call = a_call(d, buf[:L], d.one_of(["add", "replace", "remove", "link", "link", "undo", "undo", "undo", "undo"]), before)
    if call == ("undo",) and U >= 29 and d.below(4):
        jrn = spoiled_record(d, buf[:L], jrn, U, before)
    if d.below(10) == 0:
        chunks, entries = reference.parse(buf[:L], before)
        s = spoil(d, buf[:L], len(entries), [c.start for c in chunks[1:]] + [L])
        buf = s + buf[len(s):]
    if d.below(3) == 0:
        buf = buf[:L + d.below(30)]
    if d.below(4) == 0:
        jrn = jrn[:U + d.below(40)]
    if d.below(20) == 0:
        L, U = d.one_of([(len(buf) + 1, U), (L, len(jrn) + 1), (L - d.below(3), U), (L, max(0, U - 1 - d.below(30))),
                         (L, 0)])
    profile = d.one_of([before, before, before, before, before, PLAIN, ADRIFT, d.one_of(UNKNOWN)])
    return Scenario(name, buf, jrn, L, U, False, (call,), profile)


def singles(count, seed):
    d = Dice(seed)
    for i in range(count):
        yield single(d, f"single {i}")
