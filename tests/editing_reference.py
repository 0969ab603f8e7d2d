"""The editing half of 01 (The edits, The undo journal, refusals 20 to 26 and 100 + k), with 30 (P3) and 52 (P12) of 02, in
Python.

Written from the paper alone, over reference.py, to be held against the proved library: it shares no code, no definition
and no order of working with it. Where the paper leaves a choice, the reading taken is named in a comment.

    blank(buf)                                                      (answer, buf)
    add(buf, L, jrn, U, usage, number, kind, body, profile)         (answer, buf, jrn)
    replace(buf, L, jrn, U, usage, number, kind, body, profile)     (answer, buf, jrn)
    remove(buf, L, jrn, U, usage, number, profile)                  (answer, buf, jrn)
    link(buf, L, jrn, U, usage, number, new_usage, new_number, profile)    (answer, buf, jrn)
    undo(buf, L, jrn, U, profile)                                   (answer, buf, jrn)

buf and jrn are the two whole buffers as bytes, before the call and after it. The file is the first L bytes of buf, the
records are the first U bytes of jrn. An answer's number is 0 where the call has succeeded. The body given with type 'FORM' is a
whole file. The profile is plain where none is given; the present file and the one after the call are judged under the same.
"""
from collections import namedtuple

import reference
from reference import PLAIN, Entry, Refusal, be32, refuse_if

Answer = namedtuple("Answer", "number place len used")
Record = namedtuple("Record", "kind usage number place start type body")
ADDED, REPLACED, REMOVED, ENTRY_ONLY, LINKED = 1, 2, 3, 4, 5    # the kinds of a record
NO_TYPE = bytes(4)

BLANK = b"FORM\0\0\0\x10IFRSRIdx\0\0\0\4\0\0\0\0"


def be(n):
    return n.to_bytes(4, "big")


# ---- files as entries with their starts, and the chunks behind the index as (type, data)

def size(body):
    """Of a chunk: header, data and padding."""
    return 8 + len(body) + len(body) % 2


def taken_apart(file, profile):
    """The entries and the chunks behind the index, the latter with their starts; a Refusal for a file that is none."""
    chunks, entries = reference.parse(file, profile)
    return entries, chunks[1:]


def length(entries, chunks):
    """Of the file that they make, as a whole number."""
    return 24 + 12 * len(entries) + sum(size(body) for _, body in chunks)


def put_together(entries, chunks):
    rows = b"".join(e.usage + be(e.number) + be(e.start) for e in entries)
    index = b"RIdx" + be(4 + len(rows)) + be(len(entries)) + rows
    rest = b"".join(kind + be(len(body)) + body + bytes(len(body) % 2) for kind, body in chunks)
    return b"FORM" + be(4 + len(index) + len(rest)) + b"IFRS" + index + rest


def judged(entries, chunks, profile):
    """The file that they make. Where the reader refuses it: its refusal, the length judged before anything is encoded."""
    refuse_if(length(entries, chunks) > reference.MOST_BYTES, 1, 0)
    file = put_together(entries, chunks)
    reference.parse(file, profile)
    return file


def plain(chunks):
    return [(c.kind, c.body) for c in chunks]


def moved(entries, by, behind=None, more=0):
    """The entries with their starts moved: all of them by `by`, those from `behind` on by `more` besides."""
    return [e._replace(start=e.start + by + (more if behind is not None and e.start >= behind else 0)) for e in entries]


def chunk_at(chunks, start):
    """Which of these chunks begins there."""
    return [c.start for c in chunks].index(start)


def sharing(entries, start):
    """How many entries have that start."""
    return sum(e.start == start for e in entries)


# ---- The edits: each gives the entries and chunks of the resulting file, and the record

def as_held(kind, given):
    """The data as the chunk holds it. Of type 'FORM' it is given with its head (02, P3): 30 if it is under 8 bytes or its head
    isn't 'FORM' and its size less 8."""
    if kind != b"FORM":
        return given
    refuse_if(len(given) < 8 or given[:4] != b"FORM" or be32(given, 4) != len(given) - 8, 30, 0)
    return given[8:]


def added(file, profile, usage, number, kind, body):
    """Entry at the end of the index, chunk at the end of the file. All old starts grow by 12."""
    entries, chunks = taken_apart(file, profile)
    body = as_held(kind, body)
    new = Entry(usage, number, len(file) + 12)
    record = Record(ADDED, usage, number, len(entries), 0, NO_TYPE, b"")
    return moved(entries, 12) + [new], plain(chunks) + [(kind, body)], record


def found(entries, usage, number):
    """The place of a pair in the index: 22 if it isn't there. An unknown usage is in no accepted index."""
    pairs = [(e.usage, e.number) for e in entries]
    refuse_if((usage, number) not in pairs, 22, 0)
    return pairs.index((usage, number))


def replaced(file, profile, usage, number, kind, body):
    """The chunk in the same position takes the new type and data. Only starts behind it move, by the change in size."""
    entries, chunks = taken_apart(file, profile)
    place = found(entries, usage, number)
    start = entries[place].start
    refuse_if(sharing(entries, start) > 1, 23, 0)
    body = as_held(kind, body)
    k = chunk_at(chunks, start)
    old = chunks[k]
    rest = plain(chunks)
    rest[k] = (kind, body)
    record = Record(REPLACED, usage, number, place, start, old.kind, old.body)
    return moved(entries, 0, start + 1, size(body) - size(old.body)), rest, record


def removed(file, profile, usage, number):
    """The entry goes, and the chunk unless another entry shares it. Starts behind the chunk fall by 12 and its size."""
    entries, chunks = taken_apart(file, profile)
    place = found(entries, usage, number)
    start = entries[place].start
    others = entries[:place] + entries[place + 1:]
    if sharing(entries, start) > 1:
        return moved(others, -12), plain(chunks), Record(ENTRY_ONLY, usage, number, place, start, NO_TYPE, b"")
    k = chunk_at(chunks, start)
    old = chunks[k]
    record = Record(REMOVED, usage, number, place, start, old.kind, old.body)
    return moved(others, -12, start, -size(old.body)), plain(chunks[:k] + chunks[k + 1:]), record


def linked(file, profile, usage, number, new_usage, new_number):
    """A new entry on the chunk of an existing one, after the last entry whose start isn't greater. All starts grow by 12 (02, P8)."""
    entries, chunks = taken_apart(file, profile)
    start = entries[found(entries, usage, number)].start        # 22 for a missing original
    place = 1 + max(i for i, e in enumerate(entries) if e.start <= start)
    record = Record(LINKED, new_usage, new_number, place, start + 12, NO_TYPE, b"")
    return with_entry(record, moved(entries, 12)), plain(chunks), record


# ---- the bytes of a record, and the last record of a journal

def bytes_of(r):
    before = bytes([r.kind]) + r.usage + be(r.number) + be(r.place) + be(r.start) + r.type + be(len(r.body)) + r.body
    return before + be(len(before))                             # the trailer: 25 + m


def last_record(jrn, U):
    """The last record, if it is well formed; 21 otherwise. Only the last one is judged."""
    refuse_if(U < 29, 21, 0)
    trailer = be32(jrn, U - 4)
    refuse_if(not 25 <= trailer <= U - 4, 21, 0)                # both ends included
    s = jrn[U - 4 - trailer:U - 4]
    refuse_if(trailer != 25 + be32(s, 21), 21, 0)               # m agrees
    r = Record(s[0], s[1:5], be32(s, 5), be32(s, 9), be32(s, 13), s[17:21], s[25:])
    refuse_if(r.kind not in (ADDED, REPLACED, REMOVED, ENTRY_ONLY, LINKED), 21, 0)
    refuse_if(r.kind == ADDED and r.start != 0, 21, 0)          # the fields named zero
    refuse_if(r.kind in (ADDED, ENTRY_ONLY, LINKED) and (r.type != NO_TYPE or r.body != b""), 21, 0)
    return r


# ---- undo: does the record fit, and the entries and chunks of the file after it

def without_last(r, entries, chunks):
    """Kind 1: the last entry has that place, usage and number, its chunk is last in the file and unshared. Both go."""
    last = entries[-1] if entries else None
    refuse_if(last is None or (r.place, r.usage, r.number) != (len(entries) - 1, last.usage, last.number), 21, 0)
    refuse_if(last.start != chunks[-1].start or sharing(entries, last.start) > 1, 21, 0)
    return moved(entries[:-1], -12), plain(chunks[:-1])


def with_old_chunk(r, entries, chunks):
    """Kind 2: the entry at that place has that usage, number and start, its chunk is unshared. Type and data go back."""
    refuse_if(r.place >= len(entries), 21, 0)
    refuse_if(entries[r.place] != Entry(r.usage, r.number, r.start) or sharing(entries, r.start) > 1, 21, 0)
    k = chunk_at(chunks, r.start)
    rest = plain(chunks)
    rest[k] = (r.type, r.body)
    return moved(entries, 0, r.start + 1, size(r.body) - size(chunks[k].body)), rest


def with_entry(r, entries):
    return entries[:r.place] + [Entry(r.usage, r.number, r.start)] + entries[r.place:]


def with_entry_and_chunk(r, entries, chunks, L):
    """Kind 3: place is at most the count, start - 12 is a chunk's beginning behind the index or the file's end."""
    beginnings = [c.start for c in chunks] + [L]
    refuse_if(r.place > len(entries) or r.start - 12 not in beginnings, 21, 0)
    k = beginnings.index(r.start - 12)
    rest = plain(chunks)
    rest.insert(k, (r.type, r.body))
    return with_entry(r, moved(entries, 12, r.start - 12, size(r.body))), rest


def with_entry_only(r, entries, chunks):
    """Kind 4: the same, but start - 12 must be a chunk's beginning."""
    refuse_if(r.place > len(entries) or r.start - 12 not in [c.start for c in chunks], 21, 0)
    return with_entry(r, moved(entries, 12)), plain(chunks)


def without_link(r, entries, chunks):
    """Kind 5: the entry at that place has that usage, number and start and shares its chunk. It is dropped (02, P8)."""
    refuse_if(r.place >= len(entries), 21, 0)
    refuse_if(entries[r.place] != Entry(r.usage, r.number, r.start) or sharing(entries, r.start) == 1, 21, 0)
    return moved(entries[:r.place] + entries[r.place + 1:], -12), plain(chunks)


def file_before(r, file, profile):
    """The file after the undo of this record: 21 if the record doesn't fit, or if that file wouldn't be accepted."""
    entries, chunks = taken_apart(file, profile)
    if r.kind == ADDED:
        before = without_last(r, entries, chunks)
    elif r.kind == REPLACED:
        before = with_old_chunk(r, entries, chunks)
    elif r.kind == REMOVED:
        before = with_entry_and_chunk(r, entries, chunks, len(file))
    elif r.kind == ENTRY_ONLY:
        before = with_entry_only(r, entries, chunks)
    else:
        before = without_link(r, entries, chunks)
    try:
        return judged(*before, profile)
    except Refusal:
        raise Refusal(21, 0) from None


# ---- the calls

def stored(buf, L, file):
    """The buffer with this file in it: zeros between a shorter new end and the old end, bytes past both ends stay."""
    zeros = bytes(max(0, L - len(file)))
    return file + zeros + buf[len(file) + len(zeros):]


def answered(buf, L, jrn, U, profile, work):
    """What work gives, or its refusal, with L and U as given and both buffers untouched."""
    try:
        reference.known(profile)                                # 52, before 20 too
        refuse_if(L > len(buf) or U > len(jrn), 20, 0)
        reference.parse(buf[:L], profile)
        return work(buf[:L])
    except Refusal as r:
        return Answer(r.number, r.place, L, U), buf, jrn


def edit(buf, L, jrn, U, profile, change):
    """The order: 52, 20, the reader's number for the present file, 22, 23, 30, 100 + k, 24, 25."""
    def work(file):
        entries, chunks, record = change(file)                  # 22, 23, 30
        try:
            new = judged(entries, chunks, profile)
        except Refusal as r:
            raise Refusal(100 + r.number, r.place) from None
        refuse_if(len(new) > len(buf), 24, 0)
        noted = bytes_of(record)
        refuse_if(U + len(noted) > len(jrn), 25, 0)
        after = jrn[:U] + noted + jrn[U + len(noted):]
        return Answer(0, 0, len(new), U + len(noted)), stored(buf, L, new), after
    return answered(buf, L, jrn, U, profile, work)


def add(buf, L, jrn, U, usage, number, kind, body, profile=PLAIN):
    return edit(buf, L, jrn, U, profile, lambda file: added(file, profile, usage, number, kind, body))


def replace(buf, L, jrn, U, usage, number, kind, body, profile=PLAIN):
    return edit(buf, L, jrn, U, profile, lambda file: replaced(file, profile, usage, number, kind, body))


def remove(buf, L, jrn, U, usage, number, profile=PLAIN):
    return edit(buf, L, jrn, U, profile, lambda file: removed(file, profile, usage, number))


def link(buf, L, jrn, U, usage, number, new_usage, new_number, profile=PLAIN):
    return edit(buf, L, jrn, U, profile, lambda file: linked(file, profile, usage, number, new_usage, new_number))


def undo(buf, L, jrn, U, profile=PLAIN):
    """The order: 52, 20, the reader's number, 26, 21, 24."""
    def work(file):
        refuse_if(U == 0, 26, 0)
        record = last_record(jrn, U)
        old = file_before(record, file, profile)
        refuse_if(len(old) > len(buf), 24, 0)
        return Answer(0, 0, len(old), U - len(bytes_of(record))), stored(buf, L, old), jrn
    return answered(buf, L, jrn, U, profile, work)


def blank(buf):
    """Blank is given no L and U, so its refusal gives back 0 and 0. Nothing is made zero: the bytes past 24 stay."""
    if len(buf) < 24:
        return Answer(24, 0, 0, 0), buf
    return Answer(0, 0, 24, 0), BLANK + buf[24:]
