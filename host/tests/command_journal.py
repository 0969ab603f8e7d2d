"""The journal's file: its bytes, version 1, damage, other files', history, several undos, giving it up, and what an edit costs."""
import errno
import hashlib
import os
import shutil
import stat

from building import Dice, blorb, put
from command_crash import (ADD, FILE, LINK, REMOVE, REMOVE_SHARED, REPLACE, SAME, START, UNDO, UNDO_ONE, Case, call)
from command_kit import (JOURNAL_HEAD, ROOT, contents, done, editing_reference, expect, failed, live_records, reference, refused, restore, run,
                         same, state_at, tried, version_1)
from command_use import a_call


def untouched(work, held, what, saying="the journal {} is ", advice="blorb forget FILE"):
    """Undo is refused with 21, an edit and the history end with 2, and no byte changes."""
    refused(21, 0, "undo", work / FILE, advice=advice)
    saying = saying.format(work.resolve() / UNDO)
    expect(advice in failed("remove", work / FILE, "Data", "3", saying=saying).err, f"{what}: advice")
    failed("add", work / FILE, "Data", "10", "TEXT", "-", saying=saying)
    result = run("history", work / FILE)
    expect(result.status == 2 and saying in result.err, f"{what}: history: {result}")
    same(contents(work), held, f"{what}: nothing changes")


def other_journals(work):
    case = Case(work, [ADD, REPLACE], REMOVE)
    older = Case(work, [ADD], REPLACE).after[UNDO]
    work, pair, earlier = case.folder, case.after, case.before
    # Another accepted file, also one of the same length, and one before the last two edits.
    for other in (START, put(pair[FILE], len(pair[FILE]) - 3, b"?"), case.new[2]):
        restore(work, {**pair, FILE: other})
        same(done("check", work / FILE)[:8], b"accepted", "another file")
        untouched(work, {**pair, FILE: other}, "another file", saying="the journal {} is not this file's")
    restore(work, pair)
    same(case.readable("the file put back"), "new", "the file put back")
    # The file before the last edit is known to the journal: undo goes on from there.
    restore(work, {**pair, FILE: earlier[FILE]})
    same(case.readable("the file before the last edit"), "old", "the file before the last edit")
    # An older journal does not know the new file; without a journal there is nothing to undo.
    restore(work, {FILE: pair[FILE], UNDO: older})
    untouched(work, contents(work), "an older journal")
    restore(work, {FILE: pair[FILE]})
    refused(26, 0, "undo", work / FILE)
    same(contents(work), {FILE: pair[FILE]}, "without a journal")
    same(call(work, REMOVE_SHARED).status, 0, "a new journal begins")
    done("undo", work / FILE)
    same(contents(work), {FILE: pair[FILE]}, "and ends")


def undone(work, files, what):
    """Undo goes back through these files in turn until it is refused; a refused one changes nothing. Gives how many were undone."""
    for count in range(len(files)):
        held = contents(work)
        result = run("undo", work / FILE)
        if result.status != 0:
            expect("refused 21 at 0" in result.err or count == len(files) - 1 and "refused 26 at 0" in result.err, f"{what}: {result}")
            same(contents(work), held, f"{what}: a refused undo changes nothing")
            return count
        same((work / FILE).read_bytes(), files[count + 1], f"{what}: the file after undo {count + 1}")
    raise AssertionError(what)


def damaged_journals(work):
    """Each byte changed, each beginning, more at the end: what is undone is right, and the rest is refused."""
    dice = Dice(15)
    case = Case(work, [ADD], REPLACE)
    work, pair, journal = case.folder, case.after, case.after[UNDO]
    first, last = state_at(journal, len(journal) - 160), len(journal) - 160
    below = first.below
    # Undo needs the last step and the state below it at once, and the oldest step only for the second undo.
    for at in tried(range(len(journal))):
        restore(work, {FILE: pair[FILE], UNDO: put(journal, at, bytes([journal[at] ^ 1 << dice.below(8)]))})
        wanted = 0 if at < 16 or at >= below else 1
        same(undone(work, case.new, f"byte {at} changed"), wanted, f"undos with byte {at} changed, the last state being at {last}")
    for n in tried(range(len(journal))):
        restore(work, {FILE: pair[FILE], UNDO: journal[:n]})
        same(undone(work, case.new, f"the first {n} bytes"), 0, f"undos with the first {n} bytes")
    for more in (b"\0", journal, bytes(200), b"\1" + bytes(400), journal[last:]):
        restore(work, {FILE: pair[FILE], UNDO: journal + more})
        same(undone(work, case.new, "more at the end"), 2, "what an interrupted call has left at the end is passed over")
    restore(work, {FILE: pair[FILE], UNDO: put(journal, last, b"?")})
    untouched(work, contents(work), "a damaged state", saying="the journal {} is damaged")


def no_journals(work):
    """Something else in the journal's place: other bytes, a newer version, a folder, a link, a file of 40 GiB that is not read."""
    case = Case(work, [ADD], REPLACE)
    work, pair = case.folder, case.after
    aside = "leaves it alone"
    for other in (b"", b"an author's own notes on undoing", bytes(5000), START):
        restore(work, {FILE: pair[FILE], UNDO: other})
        untouched(work, contents(work), f"{other[:20]}", saying="is no journal of this program", advice=aside)
        failed("forget", work / FILE, saying="delete it yourself")
        same(contents(work), {FILE: pair[FILE], UNDO: other}, "what is no journal is not forgotten")
    for other in (b"BLORBUN3" + bytes(300), put(pair[UNDO], 7, b"9"), put(pair[UNDO], 11, b"\2"), put(pair[UNDO], 8, b"\1"), put(pair[UNDO], 15, b"\1")):
        restore(work, {FILE: pair[FILE], UNDO: other})
        untouched(work, contents(work), f"{other[:16]}", saying="was written by a newer version", advice="Use that version")
    restore(work, {FILE: pair[FILE], UNDO: put(pair[UNDO], 11, b"\1")})
    untouched(work, contents(work), "another profile in the head, which the seals do not know", saying="is damaged", advice="from a copy")
    for head in (b"", b"BLORBUN1", b"BLORBUN2" + bytes(8), pair[UNDO]):
        restore(work, {FILE: pair[FILE], UNDO: head})
        os.truncate(work / UNDO, 40 << 30)
        if head == pair[UNDO]:
            done("undo", work / FILE)
        else:
            refused(21, 0, "undo", work / FILE)
    restore(work, {FILE: pair[FILE]})
    (work / UNDO).mkdir()
    refused(21, 0, "undo", work / FILE, advice=aside)
    failed("remove", work / FILE, "Data", "3", saying="is no journal")
    failed("forget", work / FILE)
    (work / UNDO).rmdir()
    (work / UNDO).symlink_to("elsewhere")
    failed("remove", work / FILE, "Data", "3", saying="is a symbolic link")
    failed("forget", work / FILE, saying="delete it yourself")
    expect((work / UNDO).is_symlink(), "a link in the journal's place stays")
    (work / UNDO).unlink()
    os.mkfifo(work / UNDO)
    refused(21, 0, "undo", work / FILE, advice=aside)
    failed("forget", work / FILE)


def journal_format(work):
    """FILE.undo by its description, with hashlib's SHA-256: old data of 0 to 129 bytes gives records of every length modulo 64."""
    file, undo, lengths = work / FILE, work / UNDO, set()
    for n in range(130):
        old = blorb([(b"Data", 3, 0)], [(b"TEXT", bytes(n))])
        restore(work, {FILE: old})
        done("replace", file, "Data", "3", "BINA", "-", stdin=b"new")
        held, new = undo.read_bytes(), file.read_bytes()
        _, _, record = editing_reference.replaced(old, reference.PLAIN, b"Data", 3, b"BINA", b"new")
        record = editing_reference.bytes_of(record)
        same(held[:16], JOURNAL_HEAD, "the head")
        same(len(held), 16 + 160 + len(record) + 160, "a first state, a record and a state")
        same(held[176:176 + len(record)], record, "the record")
        first, last = state_at(held, 16), state_at(held, 176 + len(record))
        same(first, (16, 0, 0, 0, 0, 0, bytes(32), len(old), hashlib.sha256(old).digest()), "the first state")
        same(last, (176 + len(record), 16, 16, 1, 176, len(record), hashlib.sha256(record).digest(), len(new),
                    hashlib.sha256(new).digest()), "the last state")
        lengths.add(len(record) % 64)
    same(len(lengths), 64, "lengths modulo 64")


def only_added_to(work):
    """Each edit leaves what is there; an undo takes away what its edit has added."""
    file, undo, journals = work / FILE, work / UNDO, []
    restore(work, {FILE: START})
    for step in (ADD, REMOVE_SHARED, REPLACE, REMOVE):
        same(call(work, step).status, 0, f"{step[0]}")
        journals.append(undo.read_bytes())
        same(journals[-1][:len(journals[-2])], journals[-2], "nothing before changes") if len(journals) > 1 else None
    for held in journals[-2::-1]:
        done("undo", file)
        same(undo.read_bytes(), held, "after an undo the journal is the one before the edit")
    done("undo", file)
    same(contents(work), {FILE: START}, "at last there is none")


def bytes_moved(work, *words, **more):
    """How many bytes of the journal and of the file the program has read and written, by name."""
    log, moved = work.parent / "log", {}
    same(run(*words, shim={"CRASH_LOG": str(log), "CRASH_READS": "1"}, **more).status, 0, f"{words}")
    for line in log.read_text().splitlines():
        what, name, size = line.split("\t")
        if what in ("read", "write") and name.startswith(FILE):
            moved[name, what] = moved.get((name, what), 0) + int(size)
    log.unlink()
    return moved


def cost_of_an_edit(work):
    """An edit reads and writes as much after sixty edits as after two, and so does an undo."""
    work = work / "cost"
    work.mkdir()
    file, costs = work / FILE, []
    done("new", file)
    done("add", file, "Data", "1", "BINA", "-", stdin=bytes(50_000))
    for n in range(1, 61):
        costs.append(bytes_moved(work, "replace", file, "Data", "1", "BINA", "-", stdin=bytes([n]) * 50_000))
    same(costs[59], costs[1], "the bytes read and written by the last replacement and by the second one")
    expect(costs[59][UNDO, "write"] == 50_000 + 29 + 160 and costs[59][UNDO, "read"] <= 16 + 2 * 160, f"and how many: {costs[59]}")
    late = bytes_moved(work, "undo", file)
    for _ in range(56):
        done("undo", file)
    same(bytes_moved(work, "undo", file), late, "the bytes read and written by an undo")


def history(work):
    file = work / FILE
    restore(work, {FILE: START})
    same(done("history", file), b"", "nothing can be undone")
    for step in (ADD, LINK, REMOVE_SHARED, REPLACE, REMOVE):
        call(work, step)
    lines = [b"removed Data 3 BINA 12", b"replaced Data 3 TEXT 3", b"removed Pict 1", b"linked Pict 8", b"added Data 9"]
    for left in range(5, -1, -1):
        wanted = b"".join(b"%d %s\n" % (n, line) for n, line in enumerate(lines[5 - left:], 1))
        same(done("history", file), wanted, f"{left} edits can be undone")
        run("undo", file)
    failed("history", work / "none", saying="Check the name")
    os.mkdir(work / "closed")
    shutil.copy(file, work / "closed" / FILE)
    os.chmod(work / "closed" / FILE, 0o444)
    same(done("history", work / "closed" / FILE), b"", "a file that may only be read")


def history_reads_little(work):
    """However long the old data is, history reads what each edit did and not what it kept; undo still reads and judges that."""
    file, undo = work / FILE, work / UNDO
    restore(work, {FILE: blorb([(b"Data", 1, 0)], [(b"BINA", bytes(100_000))])})
    for n in range(1, 21):
        done("replace", file, "Data", "1", "BINA", "-", stdin=bytes([n]) * 100_000)
    moved = bytes_moved(work, "history", file)
    expect(moved[UNDO, "read"] <= 16 + 22 * 160 + 20 * 25 and (UNDO, "write") not in moved, f"what history reads: {moved}")
    same(done("history", file), b"".join(b"%d replaced Data 1 BINA 100000\n" % n for n in range(1, 21)), "and what it prints")
    # Damage in old data is found by the undo that needs it; in what history prints, by history.
    held = undo.read_bytes()
    state = state_at(held, len(held) - 160)
    undo.write_bytes(held[:state.record_at + 1000] + b"?" + held[state.record_at + 1001:])
    same(len(done("history", file).splitlines()), 20, "old data is not looked at")
    refused(21, 0, "undo", file)
    undo.write_bytes(held[:state.record_at + 21] + b"?" + held[state.record_at + 22:])
    failed("history", file, saying="is damaged")


def before_links(work):
    """A file and its journal, with a record of each kind from 1 to 4, that the program wrote before it knew links: a link goes on top, and all
    of it undoes."""
    file, data = work / FILE, ROOT / "host/tests/data"
    start = blorb([(b"Pict", 1, 0), (b"Pict", 2, 0), (b"Data", 3, 1)], [(b"JPEG", b"\xff\xd8\xff"), (b"TEXT", b"odd"), (b"ANNO", b"x")])
    held = {FILE: (data / "before_links.blb").read_bytes(), UNDO: (data / "before_links.blb.undo").read_bytes()}
    same([record[0] for record in live_records(held[UNDO])], [1, 4, 2, 3], "the kinds of its records")
    for linked in (False, True):
        restore(work, held)
        if linked:
            done("link", file, "Data", "9", "Data", "10")
            same([record[0] for record in live_records((work / UNDO).read_bytes())], [1, 4, 2, 3, 5], "and a link on top")
            done("undo", file)
            same(contents(work), held, "the link undone")
            done("link", file, "Data", "9", "Data", "10")
            done("undo", file)
        done("undo", file, "4")
        same(contents(work), {FILE: start}, "all undone")


def several_undos(work):
    """undo FILE N is N undos or none."""
    file, files = work / FILE, [START]
    restore(work, {FILE: START})
    for step in (ADD, SAME, REMOVE_SHARED, REPLACE, REMOVE):
        call(work, step)
        files.append(file.read_bytes())
    held = contents(work)
    for count in range(1, 6):
        restore(work, held)
        done("undo", file, str(count))
        same(file.read_bytes(), files[5 - count], f"the file after {count} undos at once")
        same(len(done("history", file).splitlines()), 5 - count, f"what is left after {count} undos at once")
        while count < 5:
            done("undo", file)
            count += 1
            same(file.read_bytes(), files[5 - count], "the file after another undo")
        same(contents(work), {FILE: START}, "back at the start")
    restore(work, held)
    for count in ("6", "9", "4294967295"):
        result = refused(26, 0, "undo", file, count, saying=f" at 0: only 5 edits can be undone, not {count}.", advice="blorb history")
        expect("nothing to undo" not in result.err, f"there is something to undo: {result.err}")
    same(contents(work), held, "too many undos change nothing")
    done("undo", file, "4")
    refused(26, 0, "undo", file, "2", saying=" at 0: only 1 edit can be undone, not 2.", advice="blorb history")
    restore(work, {FILE: START})
    refused(26, 0, "undo", file, "3")


def forgotten(work):
    """forget drops the journal and nothing else; the file is as it was and can be edited."""
    file, undo = work / FILE, work / UNDO
    restore(work, {FILE: START})
    done("forget", file)
    same(contents(work), {FILE: START}, "forget without a journal")
    call(work, ADD)
    rebuilt = blorb([(b"Data", 3, 0)], [(b"TEXT", b"rebuilt")])
    for journal in (undo.read_bytes(), put(undo.read_bytes(), 40, b"?"), b"BLORBUN1 damaged", b"BLORBUN7 newer"):
        restore(work, {FILE: rebuilt, UNDO: journal})
        failed("remove", file, "Data", "3", saying="blorb forget FILE")
        done("forget", file)
        same(contents(work), {FILE: rebuilt}, "forget drops a journal of any state")
        done("remove", file, "Data", "3")
        done("undo", file)
        same(contents(work), {FILE: rebuilt}, "edits go on from there")
    restore(work, {UNDO: b"BLORBUN1"})
    failed("new", file, saying="blorb forget FILE")
    done("forget", file)
    done("new", file)
    same(contents(work), {FILE: editing_reference.BLANK}, "a journal whose file is gone")
    failed("forget", work / "no" / "file", saying="Check the name")


def new_beside(work):
    """new beside a FILE.undo that is no journal: `forget` would not drop it, so the message does not name it."""
    file, undo = work / FILE, work / UNDO

    def makes_none(what):
        result = failed("new", file, saying="this is no journal")
        expect("delete it yourself" in result.err and "forget" not in result.err, f"{what}: {result.err}")
        expect(not file.exists(), f"{what}: no file is made")
        failed("forget", file, saying="this is no journal")

    for other in (b"", b"BLORBU", b"an author's own notes on undoing", START):
        restore(work, {UNDO: other})
        makes_none("other bytes")
        same(contents(work), {UNDO: other}, "they stay")
    restore(work, {})
    for make, drop in ((undo.mkdir, undo.rmdir), (lambda: os.mkfifo(undo), undo.unlink), (lambda: undo.symlink_to("elsewhere"), undo.unlink)):
        make()
        makes_none("a folder, pipe or link")
        drop()
    done("new", file)


def without_undo(work):
    """--no-undo keeps nothing for undo, and does not go past what can be undone."""
    file = work / FILE
    restore(work, {FILE: START})
    os.chmod(file, 0o640)
    done("add", file, "Data", "9", "BINA", "-", "--no-undo", stdin=b"nine")
    wanted = file.read_bytes()
    same(stat.S_IMODE(file.stat().st_mode), 0o640, "permissions are kept")
    done("replace", file, "--no-undo", "Data", "9", "TEXT", "-", stdin=b"nine again")
    same(done("get", file, "Data", "9"), b"nine again", "replace --no-undo")
    done("remove", file, "Data", "9", "--no-undo")
    same(contents(work), {FILE: START}, "nothing is left beside the file")
    refused(26, 0, "undo", file)
    failed("undo", file, "--no-undo", saying="no such option")
    call(work, ADD)
    held = contents(work)
    failed("remove", file, "Data", "9", "--no-undo", saying="blorb forget FILE")
    same(contents(work), held, "edits that can be undone are in the way")
    for journal in (version_1([], wanted), b"an author's notes", b"BLORBUN7", put(held[UNDO], 40, b"?")):
        restore(work, {FILE: START, UNDO: journal})
        done("remove", file, "Data", "3", "--no-undo")
        same(contents(work)[UNDO], journal, "a journal that cannot be used is left alone")
    restore(work, {FILE: START})
    refused(22, 0, "remove", file, "Data", "10", "--no-undo")
    failed("add", file, "Pict", "9", "PNG", "-", "--no-undo", stdin=b"a text", saying="--as-is")
    same(contents(work), {FILE: START}, "refused with --no-undo")


def old_versions(work):
    """Journals of version 1 are read, undone and gone on from; damaged ones are refused, byte for byte."""
    for earlier, step in (([ADD, REMOVE_SHARED], REPLACE), ([ADD, REPLACE], REMOVE), ([ADD], SAME), ([REPLACE, REMOVE], UNDO_ONE)):
        case = Case(work, earlier, step)
        records = live_records(case.after[UNDO])
        old = {FILE: case.after[FILE], UNDO: version_1(records, case.after[FILE], case.before[FILE])}
        restore(case.folder, old)
        same(len(done("history", case.folder / FILE).splitlines()), len(records), "the history of version 1")
        same(contents(case.folder), old, "history changes nothing")
        same(case.readable("version 1"), "new", "undo with version 1")
        restore(case.folder, old)
        same(call(case.folder, (("add", "Data", "77", "TEXT", "-"), b"more")).status, 0, "an edit after version 1")
        same((case.folder / UNDO).read_bytes()[:16], JOURNAL_HEAD, "it makes a journal of the present version")
        same(live_records((case.folder / UNDO).read_bytes())[:-1], records, "with the old records")
        done("undo", case.folder / FILE)
        same(case.readable("version 1, an edit and its undo"), "new", "undo goes on with the old records")
        if step is not UNDO_ONE:
            restore(case.folder, {**old, FILE: case.before[FILE]})
            expect(case.readable("version 1 and the file before") in ("old", "new"), "undo from the file before")
    journal, dice = old[UNDO], Dice(15)
    wrong = [put(journal, at, bytes([journal[at] ^ 1 << dice.below(8)])) for at in range(7, len(journal))]
    wrong += [journal[:n] for n in range(8, len(journal))] + [journal + b"\0", journal + journal]
    for each in tried(wrong):
        held = {FILE: old[FILE], UNDO: each}
        restore(case.folder, held)
        refused(21, 0, "undo", case.folder / FILE)
        same(contents(case.folder), held, "undo with a damaged journal of version 1")
    restore(case.folder, {FILE: old[FILE], UNDO: version_1([b"\1" + bytes(27)], old[FILE])})
    refused(21, 0, "undo", case.folder / FILE)


def damage_after_version_1(work):
    """The older steps of a converted journal name no file: a changed record of theirs is found by its own hash."""
    case = Case(work, [ADD, REPLACE], REMOVE)
    records = live_records(case.after[UNDO])
    restore(case.folder, {FILE: case.after[FILE], UNDO: version_1(records, case.after[FILE])})
    same(call(case.folder, REMOVE_SHARED).status, 0, "an edit after version 1")
    held, files = contents(case.folder), [None] + case.new
    place = held[UNDO].index(records[1])
    for at in tried(range(place, place + len(records[1]))):
        restore(case.folder, {**held, UNDO: put(held[UNDO], at, bytes([held[UNDO][at] ^ 1]))})
        same(undone(case.folder, files, f"byte {at} changed"), 2, "undos down to the changed record")


def other_permissions(work):
    """A journal that is open to others than the file is, or may not be written, is not added to but written anew."""
    file, undo = work / FILE, work / UNDO
    restore(work, {FILE: START})
    call(work, ADD)
    for mode in (0o666, 0o444, 0o600):
        os.chmod(undo, mode)
        before = undo.stat().st_ino
        same(call(work, SAME).status, 0, f"a journal with permissions {mode:o}")
        same(stat.S_IMODE(undo.stat().st_mode), stat.S_IMODE(file.stat().st_mode), "the journal gets the file's permissions")
        expect(undo.stat().st_ino != before, "in a new file")
    before = undo.stat().st_ino
    same(call(work, SAME).status, 0, "a journal with the file's permissions")
    same(undo.stat().st_ino, before, "is added to")
    copy = work.parent / "second name"
    os.link(undo, copy)
    held = copy.read_bytes()
    same(call(work, SAME).status, 0, "a journal with a second name")
    same(copy.read_bytes(), held, "the file under the second name stays as it was")
    same(len(done("history", file).splitlines()), 6, "nothing is lost")
    done("undo", file, "6")
    same(contents(work), {FILE: START}, "all is undone")


def a_step(dice, file, files):
    """Words, data, and the files from the first one on after the call; None where it is refused."""
    if dice.below(6) == 0:
        count = 1 + dice.below(3)
        return ["undo", file, str(count)], b"", files[:-count] if len(files) > count else None
    words, data, change = a_call(dice, file)
    try:
        return words, data, files + [change(files[-1])]
    except reference.Refusal:
        return words, data, None


def an_end(dice):
    """Half of the calls are ended or fail at one of their steps, if they have so many."""
    shim = {"CRASH_AT": str(1 + dice.below(26))}
    return dice.one_of([None, None, None, shim, {**shim, "CRASH_HALF": "1"}, {**shim, "CRASH_FAIL": str(errno.EIO)}])


def runs_with_ends(work):
    """Long runs of edits and undos, many of them ended or failing at any step: after each call the file and all that can be undone are as
    before it or as after it, by the reference."""
    dice, file, ended, deepest = Dice(2611), work / FILE, 0, 0
    for _ in range(5):
        restore(work, {FILE: START})
        files = [START]
        for _ in range(80):
            words, data, after = a_step(dice, file, files)
            shim = an_end(dice)
            result = run(*words, stdin=data, shim=shim)
            left, count = file.read_bytes(), len(done("history", file).splitlines())
            possible = [files] if after is None or result.status == 1 else [after] if result.status == 0 else [files, after]
            found = [f for f in possible if f[-1] == left and len(f) == count + 1]
            expect(len(found) > 0, f"{words} with {shim}: {result}, {count} edits can be undone")
            expect(result.status != 1 or after is None, f"{words} refused without reason: {result}")
            ended += result.status not in (0, 1)
            files = found[0]
            deepest = max(deepest, count)
        for wanted in files[-2::-1]:
            done("undo", file)
            same(file.read_bytes(), wanted, "the file after an undo")
        refused(26, 0, "undo", file)
    expect(ended > 50 and deepest > 10, f"{ended} calls were ended or failed, up to {deepest} edits could be undone")


PARTS = (other_journals, journal_format, only_added_to, cost_of_an_edit, damaged_journals, no_journals, history, history_reads_little, before_links,
         several_undos, forgotten, new_beside, without_undo, old_versions, damage_after_version_1, other_permissions, runs_with_ends)
