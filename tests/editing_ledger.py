"""The ledger of 01's 'Whole runs', in Python.

Told the starting file, both buffers' lengths and the calls with their arguments, and nothing else: no answer, no buffer,
no journal byte. It shares with editing_reference.py the reader and the shape of an answer. A file is kept here as
entries that name their chunk by its place among the chunks, so that no start is ever moved: all are counted anew.

    Ledger(file, room, journal, profile)     file accepted under this known profile (02, P12), which is that of the whole run;
                                    room and journal the lengths of the two buffers
    .call(call)                     its Answer; a call is ("add", usage, number, kind, body), ("replace", the same),
                                    ("remove", usage, number),
                                    ("link", usage, number, new usage, new number) or ("undo",)
    .file(), .len(), .used()        its file, L and U
    .records()                      the records of its list's edits, in order
"""
from building import be, blorb, starts
from editing_reference import Answer
import reference


class Kept:
    """A file: entries (usage, number, place of the chunk), and the chunks behind the index (type, data)."""

    def __init__(self, entries, chunks):
        self.entries, self.chunks = entries, chunks

    @staticmethod
    def of(file, profile):
        chunks, entries = reference.parse(file, profile)
        order = {c.start: k for k, c in enumerate(chunks[1:])}
        return Kept([(e.usage, e.number, order[e.start]) for e in entries], [(c.kind, c.body) for c in chunks[1:]])

    def places(self):
        """The starts of the chunks, and last the file's end: its length as a whole number."""
        return starts(len(self.entries), self.chunks)

    def place_of(self, usage, number):
        """Of a pair in the index; -1 if it isn't there."""
        return next((i for i, e in enumerate(self.entries) if e[:2] == (usage, number)), -1)

    def behind(self, k):
        """The place after the last entry whose chunk isn't behind chunk k (02, P8)."""
        return max((i + 1 for i, e in enumerate(self.entries) if e[2] <= k), default=0)

    def shared(self, i):
        return [k for _, _, k in self.entries].count(self.entries[i][2]) > 1


def disagrees(kind, body):
    """Of type 'FORM': the data given isn't a whole file, which begins with 'FORM' and its size less 8 (02, P3)."""
    return kind == b"FORM" and body[:8] != b"FORM" + be(max(0, len(body) - 8))


def new_chunk(kind, body):
    """The chunk of the arguments of an add or a replacement, its data without the head of a whole file."""
    return kind, body[8:] if kind == b"FORM" else body


def applied(f, call):
    """The file after an edit whose entry is there, as under The edits."""
    what, usage, number, *new = call
    i = f.place_of(usage, number)
    if what == "add":
        return Kept(f.entries + [(usage, number, len(f.chunks))], f.chunks + [new_chunk(*new)])
    k = f.entries[i][2]
    if what == "link":
        at = f.behind(k)
        return Kept(f.entries[:at] + [(*new, k)] + f.entries[at:], f.chunks)
    if what == "replace":
        return Kept(f.entries, f.chunks[:k] + [new_chunk(*new)] + f.chunks[k + 1:])
    rest = f.entries[:i] + f.entries[i + 1:]
    if f.shared(i):
        return Kept(rest, f.chunks)
    return Kept([(u, n, c - (c > k)) for u, n, c in rest], f.chunks[:k] + f.chunks[k + 1:])


def record(f, call):
    """The record of an edit of this file: kind, usage, number, place, start, type, m, data, trailer."""
    what, usage, number, *new = call
    place = len(f.entries) if what == "add" else f.place_of(usage, number)
    if what == "link":                # of the new entry, and the start as it is after the edit
        k = f.entries[place][2]
        usage, number = new
        kind, place, start, old = 5, f.behind(k), applied(f, call).places()[k], (bytes(4), b"")
    elif what == "add":
        kind, start, old = 1, 0, (bytes(4), b"")
    else:
        k = f.entries[place][2]
        start, old = f.places()[k], f.chunks[k]
        kind = 2 if what == "replace" else 3
        if what == "remove" and f.shared(place):
            kind, old = 4, (bytes(4), b"")
    m = len(old[1])
    return b"".join([bytes([kind]), usage, be(number), be(place), be(start), old[0], be(m), old[1], be(25 + m)])


class Ledger:
    def __init__(self, file, room, journal, profile=reference.PLAIN):
        self.first, self.room, self.journal, self.profile = Kept.of(file, profile), room, journal, profile
        self.edits = []
        self.before = []              # for each edit of the list the file before it
        self.noted = []               # and its record
        self.now = self.first

    def file(self):
        return blorb(self.now.entries, self.now.chunks)

    def len(self):
        return self.now.places()[-1]

    def records(self):
        return list(self.noted)

    def used(self):
        return sum(len(r) for r in self.noted)

    def reason(self, call):
        """The first reason in an edit's order that holds, as (number, place); None if none does."""
        what, usage, number, *new = call
        if self.len() > self.room or self.used() > self.journal:
            return 20, 0
        verdict = reference.read(self.file(), self.profile)
        if verdict[0] == "refused":
            return verdict[1:]
        i = self.now.place_of(usage, number)
        if what != "add" and i < 0:
            return 22, 0
        if what == "replace" and self.now.shared(i):
            return 23, 0
        if new and disagrees(*new):
            return 30, 0
        after = applied(self.now, call)
        if after.places()[-1] > reference.MOST_BYTES:
            return 101, 0
        verdict = reference.read(blorb(after.entries, after.chunks), self.profile)
        if verdict[0] == "refused":
            return 100 + verdict[1], verdict[2]
        if after.places()[-1] > self.room:
            return 24, 0
        if self.used() + len(record(self.now, call)) > self.journal:
            return 25, 0
        return None

    def call(self, call):
        if call[0] == "undo":
            reason = None if self.edits else (26, 0)
            if reason is None:
                self.edits.pop()
                self.noted.pop()
                self.now = self.before.pop()
        else:
            reason = self.reason(call)
            if reason is None:
                self.edits.append(call)
                self.noted.append(record(self.now, call))
                self.before.append(self.now)
                self.now = applied(self.now, call)
        return Answer(*(reason or (0, 0)), self.len(), self.used())

    def holds(self):
        """Its file is the starting file with the list's edits applied in order, its records are theirs."""
        f, noted = self.first, []
        for call in self.edits:
            noted.append(record(f, call))
            f = applied(f, call)
        return blorb(f.entries, f.chunks) == self.file() and noted == self.noted
