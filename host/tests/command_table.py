"""The finding table beside a file: written, brought up to date by every edit, checked, and caught where it is stale."""
import errno
import itertools
import os
import re
import stat
import subprocess

from building import blorb
from command_crash import ADD, FILE, LINK, REMOVE, REMOVE_SHARED, REPLACE, SAME, START, UNDO, UNDO_ONE, call, steps_of
from command_kit import ARCHIVE, EACH, ENDED_BY_SHIM, ROOT, be, contents, done, expect, failed, jpeg, reference, refused, restore, run, same, tried
import table_reference

TABLE = FILE + ".table"
TABLE_CALL = ("table",), b""
OTHER = blorb([(b"Pict", 1, 0), (b"Pict", 2, 0), (b"Data", 4, 1)], [(b"JPEG", jpeg()), (b"TEXT", b"odd"), (b"ANNO", b"x")])


def table_of(file):
    """The bytes of the file's table, by the reference."""
    return b"".join(be(x) for row in table_reference.rows_for(file) for x in row)


def judged(file, held):
    """The reference's answer to these bytes as a table: cut numbers are more than the rows."""
    numbers = [int.from_bytes(held[i:i + 4], "big") for i in range(0, len(held) - 3, 4)]
    answer = table_reference.check(file, numbers)
    if answer[0] == "accepted" and len(held) % 4 != 0:
        return ("refused", 35, len(numbers) // 3)
    return answer


def up_to_date(folder, what):
    file = (folder / FILE).read_bytes()
    same((folder / TABLE).read_bytes(), table_of(file), f"{what}: the table is the file's")
    rows = len(reference.parse(file)[1])
    same(done("check", folder / FILE).splitlines()[-1], b"table accepted %d rows" % rows, f"{what}: check says so")


def tables(work):
    """Written once, found by, and brought up to date by every edit and undo."""
    file = work / FILE
    file.write_bytes(START)
    failed("find", file, "Data", "3", saying="no finding table")
    for step in (ADD, UNDO_ONE):
        same(call(work, step).status, 0, f"{step[0]} without a table")
        expect(not (work / TABLE).exists(), f"{step[0]} makes no table")
    same(done("table", file), b"table 3 rows\n", "table")
    up_to_date(work, "table")
    for usage, number, start, kind in ((b"Pict", 1, 60, b"JPEG"), (b"Pict", 2, 60, b"JPEG"), (b"Data", 3, 60 + 8 + len(jpeg()), b"TEXT")):
        start += start % 2
        found = done("find", file, usage.decode(), str(number))
        same(found.split(b" probes ")[0], b"%s %d at %d" % (usage, number, start), "find")
        same(START[start:start + 4], kind, "find gives the chunk")
    expect(" 2 rows looked at" in refused(22, 0, "find", file, "Pict", "3").err, "find says how many rows it looked at")
    for step in (ADD, REPLACE, SAME, LINK, UNDO_ONE, LINK, REMOVE_SHARED, REMOVE, UNDO_ONE, UNDO_ONE, UNDO_ONE, UNDO_ONE):
        same(call(work, step).status, 0, f"{step[0]} with a table")
        up_to_date(work, step[0])
        expect(not [n for n in contents(work) if n.endswith(".blorb-temp")], f"{step[0]} leaves nothing behind")
    done("forget", file)
    done("add", file, "Data", "50", "TEXT", "-", "--no-undo", stdin=b"fifty")
    up_to_date(work, "--no-undo")
    (work / TABLE).unlink()
    same(call(work, REMOVE_SHARED).status, 0, "an edit after the table is deleted")
    expect(not (work / TABLE).exists(), "a deleted table stays away")


def own_names(work):
    """A table is no Blorb file, and nothing else is written under such a name."""
    file = work / FILE
    file.write_bytes(START)
    done("table", file)
    failed("list", work / TABLE, saying=".table")
    failed("get", file, "Data", "3", "-o", work / "other.table", saying="program's own")
    same(sorted(contents(work)), [FILE, TABLE], "nothing was written")


def through_a_link(work):
    """By a link to the file in another folder every command goes to the table beside the file itself, and to no other."""
    folder, link = work / "real", work / "link.blb"
    folder.mkdir()
    file, table = folder / FILE, folder / TABLE
    file.write_bytes(START)
    link.symlink_to(file)
    failed("find", link, "Data", "3", saying="no finding table")
    same(done("table", link), b"table 3 rows\n", "table by a link")
    same(sorted(contents(folder)), [FILE, TABLE], "the table stands beside the file")
    same(done("check", link).splitlines()[-1], b"table accepted 3 rows", "check by a link")
    same(done("find", link, "Data", "3"), done("find", file, "Data", "3"), "find by a link")
    (work / "link.blb.table").write_bytes(table.read_bytes())
    table.write_bytes(b"no table at all")
    refused(35, 0, "check", link)
    refused(35, 0, "find", link, "Data", "3")
    done("add", link, "Data", "50", "TEXT", "-", stdin=b"fifty")
    up_to_date(folder, "an edit by a link")
    same(run("check", "/dev/stdin", stdin=START).status, 0, "a file without a name has no table")


def stale_tables(work):
    """Of last year, of another game, cut anywhere, with one bit flipped anywhere: check and find refuse it, table mends it."""
    file, table = work / FILE, work / TABLE
    file.write_bytes(START)
    done("table", file)
    right = table.read_bytes()
    same(call(work, ADD).status, 0, "an edit")
    wrong = [right, table_of(OTHER), b"", right + right, bytes(60000), b"no table at all"]
    now = table.read_bytes()
    wrong += [now[:n] for n in range(len(now))] + [now + bytes(n) for n in (1, 2, 3, 4, 11, 12)]
    wrong += [now[:i] + bytes([now[i] ^ 1 << bit]) + now[i + 1:] for i in range(len(now)) for bit in range(8)]
    for held in tried(wrong):
        table.write_bytes(held)
        what, number, place = judged(file.read_bytes(), held)
        same((what, number), ("refused", 35), "by the reference")
        told = b"accepted %d bytes %d resources\n" % (len(file.read_bytes()), len(now) // 12)
        same(refused(35, place, "check", file).out, told, "what check prints of the file itself")
        same(refused(35, place, "find", file, "Data", "9").out, b"", "find finds nothing")
    same(call(work, REPLACE).status, 0, "an edit beside a stale table")
    up_to_date(work, "an edit beside a stale table")
    table.write_bytes(right)
    done("table", file)
    up_to_date(work, "a stale table written anew")


# What was done before with a table beside the file, and the call under test.
CASES = (([], TABLE_CALL), ([], ADD), ([ADD], REPLACE), ([ADD], SAME), ([ADD], REMOVE), ([ADD, REPLACE], UNDO_ONE), ([ADD], UNDO_ONE),
         ([ADD], LINK), ([LINK], UNDO_ONE))


def prepared(work):
    """Of each case: the folder, the call, what is in the folder before it and after it, and its steps."""
    for earlier, step in CASES:
        folder = work / "beside"
        folder.mkdir(exist_ok=True)
        restore(folder, {FILE: START})
        done("table", folder / FILE)
        for each in earlier:
            same(call(folder, each).status, 0, f"{each[0]} in preparation")
        words, data = step
        if step == TABLE_CALL:
            (folder / TABLE).write_bytes(b"old")
        before = contents(folder)
        steps = steps_of(folder, words[0], folder / FILE, *words[1:], stdin=data)
        yield folder, step, before, contents(folder), steps


def goes_on(folder, what):
    """The next edit brings the table up to date, and nothing is left of the interrupted call."""
    same(call(folder, (("add", "Data", "88", "TEXT", "-"), b"after")).status, 0, f"{what}: another edit")
    up_to_date(folder, f"{what}: another edit")
    same(set(contents(folder)), {FILE, UNDO, TABLE}, f"{what}: nothing is left of the interrupted call")


def tables_at_every_step(work):
    """Ended before each step and in the middle of each write: the table is right, or the check refuses it."""
    for folder, step, before, _, steps in prepared(work):
        ends = [(n, {}) for n in range(1, len(steps) + 1)]
        ends += [(n, {"CRASH_HALF": "1"}) for n, _ in ends if steps[n - 1][0] == "write"]
        met = set()
        for n, half in tried(ends):
            restore(folder, before)
            what = f"{step[0]} with a table ended at step {n}{' in its middle' if half else ''}"
            same(call(folder, step, shim={"CRASH_AT": str(n), **half}).status, ENDED_BY_SHIM, what)
            met.add(caught(folder, what))
            goes_on(folder, what)
        expect(EACH > 1 or "right" in met, f"{step[0]}: a right table was met")


# What a call that ends with status 2 says of FILE and FILE.table, and which of the two are then the new ones.
OLD_TABLE, NEW_TABLE = "but its finding table is still the old one", "but the disk has not confirmed the table"
UNCONFIRMED = "the new file is in place, but the disk has not confirmed it"
SAID = {OLD_TABLE: {FILE}, NEW_TABLE: {FILE, TABLE}, UNCONFIRMED: {FILE, TABLE}}


def tables_failing_at_every_step(work):
    """Each step fails instead: file and table are the old or the new ones as the status and the message say."""
    for folder, step, before, after, steps in prepared(work):
        met = set()
        for (n, each), error in tried(itertools.product(enumerate(steps, 1), (errno.ENOSPC, errno.EIO))):
            restore(folder, before)
            result = call(folder, step, shim={"CRASH_AT": str(n), "CRASH_FAIL": str(error)})
            left, what = contents(folder), f"{step[0]} with a table failing at step {n}, {each}: {result}"
            said = [sentence for sentence in SAID if sentence in result.err]
            expect(result.status == 0 and not result.err or result.status == 2 and result.err.count("\n") >= 2 and len(said) <= 1, what)
            new = {FILE, TABLE} if result.status == 0 else SAID[said[0]] if said else set()
            same({name: left[name] for name in (FILE, TABLE)}, {name: (after if name in new else before)[name] for name in (FILE, TABLE)}, what)
            # A temporary file that cannot be removed stays until the next edit.
            spare = {each[1]} if each[0] == "unlink" else set()
            same(set(left) - {FILE, TABLE, UNDO} - spare, set(), what)
            met.add((result.status, *said))
            if step != TABLE_CALL:
                expect(OLD_TABLE not in result.err or "blorb table FILE" in result.err, f"what to do: {what}")
            caught(folder, what)
            goes_on(folder, what)
        wanted = {(0,), (2,), (2, UNCONFIRMED)} | ({(2, OLD_TABLE), (2, NEW_TABLE)} if step != TABLE_CALL else set())
        expect(EACH > 1 or met == wanted, f"{step[0]}: all were met: {met}")


def caught(folder, what):
    """The table in the folder is right and accepted, or wrong and refused with 35."""
    file, held = (folder / FILE).read_bytes(), (folder / TABLE).read_bytes()
    answer = judged(file, held)
    result = run("check", folder / FILE)
    if answer == ("accepted",):
        same((result.status, held), (0, table_of(file)), f"{what}: a right table")
        return "right"
    same(result.status, 1, f"{what}: a stale table is refused: {result}")
    expect(f"refused 35 at {answer[2]}:" in result.err, f"{what}: {result.err}")
    return "stale"


def pipes(work):
    """A pipe in the place of FILE or of its table holds nobody up."""
    os.mkfifo(work / "pipe")
    failed("table", work / "pipe", saying="this is not a plain file")
    file = work / FILE
    file.write_bytes(START)
    os.mkfifo(work / TABLE)
    for words in (("check", file), ("find", file, "Data", "3")):
        result = run(*words)
        expect(result.status == 2 and "this is not a plain file, so it is no finding table" in result.err and "Move it away" in result.err,
               f"{words} beside a pipe: {result}")
    same(call(work, ADD).status, 0, "an edit beside a pipe")
    expect(stat.S_ISFIFO((work / TABLE).stat().st_mode), "the pipe stays")
    (work / TABLE).unlink()
    (work / TABLE).mkdir()
    expect("no finding table" in run("check", file).err, "a folder is no table either")


# A program as firmware has it: the table compiled in, the game's file in memory.
FIRMWARE = """#include <stdio.h>
#include "blorb.h"
#include "table.c"
static uint8_t file[1 << 20];
int main(int count, char **given)
{
    FILE *f = fopen(given[1], "rb");
    size_t length = count == 2 && f != NULL ? fread(file, 1, sizeof file, f) : 0;
    printf("%d %d\\n", length == blorb_table_file_length,
           (int)blorb_table_check(file, length, BLORB_PLAIN, blorb_table, blorb_table_numbers).refusal);
    printf("%d\\n", (int)blorb_table_search(blorb_table, blorb_table_numbers, "Pict", 2).start);
    return fclose(f);
}
"""


def as_c(work):
    """table --c-array: what it prints compiles without a warning, is the file's table, and finds what the file has."""
    source, compiler = work / "table.c", os.environ.get("CC", "cc").split()
    (work / "firmware.c").write_text(FIRMWARE)
    for held, start in ((START, 60), (blorb([], []), 0), (OTHER, 60)):
        file = work / FILE
        file.write_bytes(held)
        text = done("table", file, "--c-array")
        done("table", file, "--c-array", "-o", source)
        same(source.read_bytes(), text, "the same in a file")
        expect(not (work / TABLE).exists(), "no table is written beside the file")
        numbers = [int(n, 0) for n in re.findall(r"(0x[0-9a-f]+|\d+)u", text.decode())]
        same(numbers, [x for row in table_reference.rows_for(held) for x in row], "its numbers are the table's")
        subprocess.run([*compiler, "-std=c99", "-Wall", "-Wextra", "-Wpedantic", "-Werror", "-I", ROOT / "include", "-o", work / "firmware",
                        work / "firmware.c", ARCHIVE], check=True)
        said = subprocess.run([work / "firmware", file], capture_output=True, check=True).stdout
        same(said.split(), [b"1", b"0", b"%d" % start], "what the compiled table is good for")
    strange = work / "*" / "*"
    strange.parent.mkdir()
    strange.write_bytes(START)
    expect(b"of ?, 3 rows" in done("table", strange, "--c-array"), "a name cannot end the comment")
    file.write_bytes(START[:-1])
    refused(5, 4, "table", file, "--c-array")


PARTS = (tables, own_names, through_a_link, pipes, as_c, stale_tables, tables_at_every_step, tables_failing_at_every_step)
