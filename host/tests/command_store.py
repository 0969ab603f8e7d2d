"""Several edits saved at once by the library (blorb_store.h, host/tests/batch.c): the pair is the old or the new one, and the program undoes each."""
from command_crash import (ADD, ENDED, FILE, OLD_VERSION, REMOVE, REPLACE, SECOND_NAME, TORN, batch, call, ended_at_every_step, power_loss)
from command_crash import START
from command_kit import contents, done, restore, same

SAME_TEXT = batch("s3")

# What was done before, and the edits that are saved at once. In two of them the new file is the old one again, once in between.
CASES = (
    ([], batch("a10 r3 l8")), ([ADD, REPLACE], batch("a10 x3 r10")), ([ADD, REPLACE, REMOVE], batch("u2 a10 r3")),
    ([SAME_TEXT], batch("r3 s3")), ([SAME_TEXT, ADD], batch("r3 s3 a11")), ([ADD, REPLACE], batch("x3 u2 a12")),
    ([ADD, batch("a10 r3 x3")], batch("u2")), ([ADD, batch("a10 r3 x3")], batch("u2 a12")),
    ([ADD, TORN], batch("r3 a10")), ([ADD, ENDED], batch("r3 s3")), ([ADD, REPLACE, OLD_VERSION], batch("a10 r3")),
    ([ADD, REPLACE, OLD_VERSION], batch("u1 a10")), ([ADD, REPLACE, SECOND_NAME], batch("a10 r3")),
)


def batches_ended(work):
    ended_at_every_step(work, CASES)


def batches_power_loss(work):
    power_loss(work, CASES)


def batches_listed(work):
    """The program lists each edit of a batch, takes them back one by one or at once, and goes on in between."""
    file = work / FILE
    restore(work, {FILE: START})
    same(call(work, batch("a10 r3 l8")).status, 0, "three edits at once")
    same(done("history", file), b"1 linked Pict 8\n2 replaced Data 3 TEXT 3\n3 added Data 10\n", "each of them is listed")
    done("undo", file, "2")
    same(done("history", file), b"1 added Data 10\n", "two of them are taken back")
    same(call(work, REPLACE).status, 0, "an edit of the program")
    same(call(work, batch("u1 a11")).status, 0, "taken back, and another added")
    same(done("history", file), b"1 added Data 11\n2 added Data 10\n", "as if the other had never been")
    done("undo", file, "2")
    same(contents(work), {FILE: START}, "all is taken back")


PARTS = (batches_listed, batches_ended, batches_power_loss)
