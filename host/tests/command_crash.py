"""The file and its journal as a pair: ended and failing at every step, and after a power loss."""
import errno
import itertools
import os

from building import be, blorb, chunk
from command_kit import (BATCH, EACH, ENDED_BY_SHIM, contents, done, editing_reference, expect, failed, jpeg, live_records, restore, run, same,
                         tried, version_1)

FILE, UNDO = "game.blb", "game.blb.undo"
TEMPS = {FILE + ".blorb-temp", UNDO + ".blorb-temp"}
START = blorb([(b"Pict", 1, 0), (b"Pict", 2, 0), (b"Data", 3, 1)], [(b"JPEG", jpeg()), (b"TEXT", b"odd"), (b"ANNO", b"x")])
ADD = ("add", "Data", "9", "BINA", "-"), b"nine nines" * 30
REPLACE = ("replace", "Data", "3", "BINA", "-"), b"another text"
SAME = ("replace", "Data", "3", "TEXT", "-"), b"odd"
REMOVE = ("remove", "Data", "3"), b""
REMOVE_SHARED = ("remove", "Pict", "1"), b""
LINK = ("link", "Pict", "1", "Pict", "8"), b""
ANOTHER = ("add", "Data", "77", "TEXT", "-"), b"seventy-seven"
UNDO_ONE, UNDO_TWO = (("undo",), b""), (("undo", "2"), b"")
UNDONE = {UNDO_ONE: 1, UNDO_TWO: 2}

# Not calls: an edit with a long record is ended before the file takes its name, or in the middle of what it adds to the journal; the
# journal becomes one of version 1; the journal gets a second name, so that it has to be copied.
ENDED, TORN, OLD_VERSION, SECOND_NAME = "ended", "torn", "version 1", "second name"

# What was done before, and the call under test.
CASES = (
    ([], ADD), ([], REMOVE), ([REMOVE_SHARED, REPLACE], ADD), ([ADD, REMOVE_SHARED], REPLACE), ([ADD], SAME),
    ([REPLACE, ADD], REMOVE), ([ADD], REMOVE_SHARED), ([], LINK), ([ADD], LINK), ([LINK], REMOVE_SHARED), ([ADD, LINK], UNDO_ONE),
    ([LINK, REMOVE_SHARED], UNDO_TWO), ([ADD, LINK, OLD_VERSION], UNDO_ONE), ([ADD, ENDED], LINK),
    ([ADD], UNDO_ONE), ([ADD, REPLACE], UNDO_ONE), ([ADD, REMOVE], UNDO_ONE), ([ADD, SAME], UNDO_ONE),
    ([ADD, REPLACE, UNDO_ONE], REMOVE), ([ADD, REPLACE, REMOVE, UNDO_ONE], UNDO_ONE),
    ([ADD, REPLACE, REMOVE], UNDO_TWO), ([ADD, REPLACE], UNDO_TWO),
    ([ADD, ENDED], REMOVE), ([ADD, ENDED], SAME), ([ADD, REPLACE, ENDED], UNDO_ONE), ([ADD, TORN], REPLACE), ([ADD, REPLACE, TORN], UNDO_ONE),
    ([ADD, REPLACE, OLD_VERSION], REMOVE), ([ADD, REPLACE, OLD_VERSION], UNDO_ONE), ([ADD, REMOVE, OLD_VERSION, UNDO_ONE], UNDO_ONE),
    ([ADD, OLD_VERSION], SAME), ([ADD, REPLACE, SECOND_NAME], REMOVE), ([ADD, REPLACE, SECOND_NAME], UNDO_ONE),
)


def batch(edits):
    """Several edits that the library saves at once, in the words of host/tests/store_kit.h."""
    return ("batch", edits), b""


def command_of(folder, step):
    """The words of a step, and what else `run` is given."""
    words, data = step
    if words[0] == "batch":
        return (folder / FILE, *words[1:]), {"program": BATCH}
    return (words[0], folder / FILE, *words[1:]), {"stdin": data}


def call(folder, step, **more):
    words, given = command_of(folder, step)
    return run(*words, **given, **more)


def prepare(folder, what):
    """One of the four that are no calls."""
    file, undo = folder / FILE, folder / UNDO
    if what == OLD_VERSION:
        undo.write_bytes(version_1(live_records(undo.read_bytes()), file.read_bytes()))
    elif what == SECOND_NAME:
        (folder.parent / "second").unlink(missing_ok=True)
        os.link(undo, folder.parent / "second")
    else:
        held = contents(folder)
        steps = steps_of(folder, "remove", file, "Data", "9")
        restore(folder, held)
        ending = ("rename", FILE + ".blorb-temp", FILE) if what == ENDED else ("write", UNDO)
        at = 1 + max(n for n, step in enumerate(steps) if step[:len(ending)] == ending)
        shim = {"CRASH_AT": str(at), "CRASH_HALF": "1"}
        same(run("remove", file, "Data", "9", shim=shim).status, ENDED_BY_SHIM, f"{what} in preparation")


def changed(folder, history, step, file):
    """The files from the first one on, after a call that made this file."""
    words, _ = step
    if words[0] == "batch":
        return after_batch(folder.parent / "single", history, words[1].split())
    return history[:-UNDONE[step]] if step in UNDONE else history + [file]


def after_batch(folder, history, edits):
    """The same of a batch: each of its edits is made by itself, beside a file without a journal."""
    folder.mkdir(exist_ok=True)
    for edit in edits:
        if edit[0] == "u":
            history = history[:-int(edit[1:])]
            continue
        restore(folder, {FILE: history[-1]})
        same(call(folder, batch(edit)).status, 0, f"{edit} by itself")
        history = history + [(folder / FILE).read_bytes()]
    return history


class Case:
    """The pair before the call, the pair after it, the files that each goes back to by undo (the latest first), and the steps."""

    def __init__(self, work, earlier, step):
        self.folder, self.step, self.second_name = work / "pair", step, SECOND_NAME in earlier
        self.folder.mkdir(exist_ok=True)
        restore(self.folder, {FILE: START})
        history = [START]
        for each in earlier:
            if isinstance(each, str):
                prepare(self.folder, each)
                continue
            same(call(self.folder, each).status, 0, f"{each[0]} in preparation")
            history = changed(self.folder, history, each, self.file())
        self.before, self.old = contents(self.folder), history[::-1]
        words, given = command_of(self.folder, step)
        self.steps = steps_of(self.folder, *words, **given)
        self.after = contents(self.folder)
        self.new = changed(self.folder, history, step, self.file())[::-1]
        same(self.file(), self.new[0], "the new file")

    def file(self):
        return (self.folder / FILE).read_bytes()

    def restore(self, files):
        restore(self.folder, files)
        if self.second_name:
            prepare(self.folder, SECOND_NAME)

    def readable(self, what):
        """The pair in the folder is the old or the new one: by the file, and by every undo from here. Gives which."""
        left = self.file()
        expect(left in (self.old[0], self.new[0]), f"{what}: the file is the old or the new one")
        same(done("check", self.folder / FILE)[:8], b"accepted", f"{what}: the file is accepted")
        files = [left]
        while (result := run("undo", self.folder / FILE)).status == 0:
            files.append(self.file())
        expect("refused 26 at 0" in result.err, f"{what}: at last there is nothing to undo: {result}")
        possible = [h for h in (self.old, self.new) if h[0] == left]
        expect(files in possible, f"{what}: undo goes back through {len(files)} files")
        return "old" if files == self.old else "new"

    def goes_on(self, left, what):
        """From what was left, the call can be made again where it was not carried out; nothing stays of the interrupted one."""
        self.restore(left)
        if left[FILE] == self.old[0] != self.new[0]:
            same(call(self.folder, self.step).status, 0, f"{what}: the call made again")
            same(self.file(), self.new[0], f"{what}: the call made again")
        same(call(self.folder, ANOTHER).status, 0, f"{what}: another edit")
        same(set(contents(self.folder)), {FILE, UNDO}, f"{what}: nothing is left of the interrupted call")


def ended_at_every_step(work, cases=CASES):
    """Ended before each step, and in the middle of each write."""
    for earlier, step in cases:
        case, kinds = Case(work, earlier, step), set()
        ends = [(n, {}) for n in range(1, len(case.steps) + 1)]
        ends += [(n, {"CRASH_HALF": "1"}) for n, _ in ends if case.steps[n - 1][0] == "write"]
        for n, half in tried(ends):
            case.restore(case.before)
            what = f"{step[0]} ended at step {n}{' in its middle' if half else ''}"
            same(call(case.folder, step, shim={"CRASH_AT": str(n), **half}).status, ENDED_BY_SHIM, what)
            left = contents(case.folder)
            kinds.add(case.readable(what))
            case.goes_on(left, what)
        expect(EACH > 1 or kinds == {"old", "new"}, f"{step[0]}: both pairs were met")


# A file with a text, and the list that its 'RDes' comes of.
LIST, TEXT = "list", b"An eel, and a comma."
RDES = chunk(b"RDes", be(1) + b"Pict" + be(1) + be(len(TEXT)) + TEXT)
DESCRIBED = blorb([(b"Pict", 1, 0)], [(b"JPEG", jpeg()), (b"RDes", RDES[8:])])


def single_calls(work):
    """new, and get, forms and describe with -o: the words, the name of the file written, what it was before, and what it becomes."""
    file, out = work / FILE, ("-o", work / "out")
    written = [(("get", file, "Pict", "1", *out), jpeg()), (("forms", file, "0", *out), DESCRIBED),      # a Blorb file is a FORM
               (("describe", file, "Pict", "1", *out), TEXT), (("describe", file, "--write", work / LIST, *out), RDES)]
    return [(("new", work / "n.blb"), "n.blb", None, editing_reference.BLANK)] + [
        (words, "out", old, wanted) for words, wanted in written for old in (None, b"old")]


def single_before(work, name, old):
    held = {FILE: DESCRIBED, LIST: b"Pict 1 " + TEXT}
    restore(work, held if old is None else {**held, name: old})


def single_files(work):
    """The same, ended at every step: there is the old file or the whole new one."""
    for words, name, old, wanted in single_calls(work):
        seen = set()
        for n in itertools.count(1):
            single_before(work, name, old)
            status = run(*words, shim={"CRASH_AT": str(n)}).status
            left = contents(work).get(name)
            expect(left in (old, wanted), f"{words} ended at step {n}: the old file or the new one")
            seen.add(left)
            if status == 0:
                break
            same(status, ENDED_BY_SHIM, f"{words} at step {n}")
            same(done(*words) if left == old or words[0] != "new" else b"", b"", f"{words} once more")
            same(contents(work)[name], wanted, f"{words} once more")
        same(seen, {old, wanted}, f"{words}: both were met")


def steps_of(work, *words, **more):
    """Runs it to its end, and gives its steps."""
    log = work.parent / "log"
    same(run(*words, shim={"CRASH_LOG": str(log)}, **more).status, 0, f"{words} to its end")
    steps = [tuple(line.split("\t")) for line in log.read_text().splitlines()]
    log.unlink()
    return steps


def single_files_failing(work):
    """The same, each step failing instead: what is said about the file is so, and nothing else is left."""
    for words, name, old, wanted in single_calls(work):
        single_before(work, name, old)
        said = set()
        for (n, step), error in itertools.product(enumerate(steps_of(work, *words), 1), (errno.ENOSPC, errno.EIO)):
            single_before(work, name, old)
            result = run(*words, shim={"CRASH_AT": str(n), "CRASH_FAIL": str(error)})
            left, what = contents(work), f"{words} failing at step {n}, {step}: {result}"
            expect(result.status == 0 or result.status == 2 and result.err.count("\n") == 2, f"with advice: {what}")
            unconfirmed = "in place, but the disk has not confirmed it" in result.err
            named_twice = "in place, but the name that it was written under" in result.err
            same(left.get(name), wanted if result.status == 0 or unconfirmed or named_twice else old, what)
            expect(not named_twice or name + ".blorb-temp" in left, what)
            # A temporary file that cannot be removed stays; the file itself is as it should be.
            spare = {name + ".blorb-temp"} if step[0] == "unlink" else set()
            same(set(left) - {name} - spare, {FILE, LIST}, what)
            said.add((result.status, unconfirmed))
        same(said, {(0, False), (2, False), (2, True)}, f"{words}: all three were met")


def all_files(work):
    """get --all, ended and failing at every step: each file is missing, the old one or the whole new one."""
    file, folder = work / FILE, work / "all"
    wanted = {"Pict-1.jpg": jpeg(), "Pict-2.jpg": jpeg(), "Data-3.txt": b"odd"}
    file.write_bytes(START)
    folder.mkdir()
    (folder / "Data-3.txt").write_bytes(b"old")
    words = "get", file, "--all", folder, "--force"
    steps, said = steps_of(work, *words), set()
    for n, shim in itertools.product(range(1, len(steps) + 1), ({}, {"CRASH_FAIL": str(errno.ENOSPC)})):
        restore(folder, {"Data-3.txt": b"old"})
        result = run(*words, shim={"CRASH_AT": str(n), **shim})
        what = f"{words} at step {n}, {steps[n - 1]}, {shim}: {result}"
        for name, held in contents(folder).items():
            expect(name.endswith(".blorb-temp") or held in (wanted[name], b"old"), f"{name}: {what}")
        if result.status == 0 or "has not confirmed" in result.err:
            same({n: h for n, h in contents(folder).items() if n in wanted}, wanted, what)
        said.add((result.status, "has not confirmed" in result.err))
        restore(folder, {})
        same(done(*words), b"", f"{words} once more")
        same(contents(folder), wanted, f"{words} once more")
    same(said, {(0, False), (2, False), (2, True), (ENDED_BY_SHIM, False)}, f"{words}: all were met")


def new_beside_others(work):
    """A file that another program makes in the last moment is not overwritten by new. Without hard links new works too."""
    file = work / "n.blb"
    at = str([step[0] for step in steps_of(work, "new", file)].index("link") + 1)
    file.unlink()
    failed("new", file, shim={"CRASH_AT": at, "CRASH_MAKE": str(file)}, saying="Move away")
    same(contents(work), {"n.blb": b""}, "another program's file stays, and nothing else is left")
    for error in (errno.EPERM, errno.ENOTSUP):
        file.unlink()
        done("new", file, shim={"CRASH_AT": at, "CRASH_FAIL": str(error)})
        same(contents(work), {"n.blb": editing_reference.BLANK}, "new on a file system without hard links")


def failing_at_every_step(work):
    """Each step fails instead: the old pair stays, or the new one is in place and only unconfirmed; nothing else is left."""
    for earlier, step in CASES:
        case = Case(work, earlier, step)
        for n in tried(range(1, len(case.steps) + 1)):
            case.restore(case.before)
            result = call(case.folder, step, shim={"CRASH_AT": str(n), "CRASH_FAIL": str(errno.ENOSPC)})
            left, what = contents(case.folder), f"{step[0]} failing at step {n}"
            expect(result.status in (0, 2), f"{what}: {result}")
            if result.status == 2:
                sure = "not confirmed" not in result.err
                same(left[FILE], case.old[0] if sure else case.new[0], f"{what}: what is said is so: {result.err}")
                expect(any(word in result.err for word in ("Make room", "locked", "Move away what")), f"{what}: advice: {result.err}")
            expect(not TEMPS & set(left) - set(case.before), f"{what}: no temporary file is left")
            kind = case.readable(what)
            expect(result.status == 2 or kind == "new", f"{what}: success means the new pair")


class Disk:
    """What a power loss can leave, by the steps that the shim wrote down and the folder's files after each of them.

    What a folder's fsync confirmed stays; of later new names, renames and removals any may be lost. What was written to a file
    since its last fsync may be there in part.
    """

    def __init__(self, folder, before):
        self.folder = folder
        self.names = {n: "before " + n for n in before}    # as the disk has confirmed them
        self.live = dict(self.names)                       # as programs see them
        self.pending = []
        self.versions = {"before " + n: [held] for n, held in before.items()}

    def carry_out(self, number, step, after):
        what, name, other = step
        if what in ("create", "rename", "unlink"):
            made = f"{name} of step {number}"
            if what == "create":
                self.versions[made] = [b""]
            self.pending.append((what, name, made if what == "create" else other))
            self.live = applied(self.live, self.pending[-1:])
        elif what in ("write", "truncate") and name in self.live:
            self.versions[self.live[name]].append(after[name])
        elif what == "fsync" and name == self.folder.name:
            self.names, self.pending = applied(self.names, self.pending), []
        elif what == "fsync" and name in self.live:
            del self.versions[self.live[name]][:-1]

    def left(self):
        """Each pair of a file and a journal that can be found now; None where there is no file of that name."""
        for kept in itertools.chain.from_iterable(itertools.combinations(self.pending, k) for k in range(len(self.pending) + 1)):
            names = applied(self.names, kept)
            yield from itertools.product(*(self.contents(names.get(name)) for name in (FILE, UNDO)))

    def contents(self, held):
        return [None] if held is None else torn(self.versions[held])


def applied(names, operations):
    names = dict(names)
    for what, name, other in operations:
        if what == "create":
            names[name] = other
        elif what == "unlink":
            names.pop(name, None)
        elif name in names:
            names[other] = names.pop(name)
    return names


def torn(versions):
    """What can be found of a file with these contents, one after the other, the first of which the disk has confirmed."""
    found = list(versions)
    for old, new in zip(versions, versions[1:]):
        tail = new[len(old):]
        if new[:len(old)] == old:
            found += [old + tail[:n] for n in range(1, len(tail), 7)] + [old + bytes(len(tail))]
            found += [old + bytes(n) + tail[n:] for n in range(16, len(tail), 16)]
            found += [old + tail[:n] + bytes(len(tail) - n) for n in range(16, len(tail), 40)]
    return found


def power_loss(work, cases=CASES):
    """Every pair that a power loss can leave, before, between and after the steps."""
    for earlier, step in cases:
        case = Case(work, earlier, step)
        disk, kinds, seen = Disk(case.folder, case.before), set(), set()
        for n, each in enumerate(case.steps, 1):
            case.restore(case.before)
            at = {"CRASH_AT": str(n + 1)}
            expect(call(case.folder, step, shim=at).status in (0, ENDED_BY_SHIM), f"{step[0]} before step {n + 1}")
            disk.carry_out(n, each, contents(case.folder))
            pairs = set(disk.left()) - seen
            seen |= pairs
            for pair in tried(sorted(pairs, key=repr)):
                restore(case.folder, {name: held for name, held in zip((FILE, UNDO), pair) if held is not None})
                kinds.add(case.readable(f"{step[0]}, power lost after step {n}, {each}"))
        expect(EACH > 1 or kinds == {"old", "new"}, f"{step[0]}: both pairs were met")
        expect(len(seen) >= 2, f"{step[0]}: {len(seen)} pairs were met")


PARTS = (ended_at_every_step, single_files, single_files_failing, all_files, new_beside_others, failing_at_every_step, power_loss)
