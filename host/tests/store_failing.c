/* Edits saved while each step in turn fails, or the process is ended there. What lies on the disk then is judged by a store that nothing happens to. */
#define _GNU_SOURCE
#include <errno.h>
#include <stdio.h>
#include <stdlib.h>
#include <string.h>
#include <unistd.h>

#include "crash.h"
#include "store_kit.h"
#include "store_process.h"
#include "store_tests.h"

/* ---- what is tried */

enum { TABLE = 1, NO_UNDO = 2, SECOND_NAME = 4, LEFT_OVER = 8 };

typedef struct scenario {
    const char *before; /* saved before */
    const char *edits;  /* made and saved while steps fail */
    int with;
} scenario;

static const scenario scenarios[] = {
    {"", "a9", 0},
    {"", "a9 r3 l8", TABLE},
    {"a9 | r3 |", "x4 a10 r9 r10", TABLE},
    {"a9", "s3", 0},
    {"a9", "r3 s3 a12", 0},
    {"a9", "r3 s3", 0},
    {"a9 | r3 | x4 |", "u1", TABLE},
    {"a9 | r3 | x4 |", "u2 a11 r3", 0},
    {"a9 r3 x4", "u2", 0},
    {"a9 | r3 |", "x4 u2 a30", 0},
    {"a9 | r3 |", "u2", TABLE},
    {"a9 | r3 |", "x4 a20", SECOND_NAME},
    {"a9 | r3 |", "u1", SECOND_NAME},
    {"a9 | r3 |", "x4 a20", LEFT_OVER},
    {"", "a9 r3", NO_UNDO | TABLE},
};

/* The three files that a scenario begins with, and the chains before and after. */
typedef struct trial {
    const scenario *sc;
    held file, undo, table;
    chain old, new;
} trial;

static void put_back(const trial *t)
{
    empty_folder();
    write_name(FILE_NAME, t->file);
    write_name(UNDO_NAME, t->undo);
    write_name(TABLE_NAME, t->table);
    if (t->sc->with & SECOND_NAME)
        expect(link(UNDO_NAME, "second") == 0, "a second name");
}

static void leave_something(trial *t)
{
    held more = {malloc(t->undo.length + 300), t->undo.length + 300};
    memcpy(more.at, t->undo.at, t->undo.length);
    memset(more.at + t->undo.length, 1, 300);
    free(t->undo.at);
    t->undo = more;
}

static trial prepared(const scenario *sc)
{
    trial t = {.sc = sc, .old = first_chain(), .new = first_chain()};
    empty_folder();
    write_name(FILE_NAME, top_of(&t.old));
    if (sc->before[0] != '\0')
        carry_out(sc->before);
    follow(&t.old, sc->before);
    follow(&t.new, sc->before);
    follow(&t.new, sc->edits);
    /* Without undo the new file is all that there is. */
    for (; (sc->with & NO_UNDO) && t.new.count > 1; t.new.count--) {
        free(t.new.files[0].at);
        memmove(t.new.files, t.new.files + 1, (t.new.count - 1) * sizeof *t.new.files);
    }
    if (sc->with & TABLE) {
        blorb_store *s = opened(BLORB_STORE_LOOK);
        expect(blorb_store_write_table(s).error == BLORB_STORE_DONE, "a table");
        blorb_store_close(s);
    }
    t.file = read_name(FILE_NAME);
    t.undo = read_name(UNDO_NAME);
    t.table = read_name(TABLE_NAME);
    if (sc->with & LEFT_OVER)
        leave_something(&t);
    return t;
}

static void free_trial(trial *t)
{
    free(t->file.at);
    free(t->undo.at);
    free(t->table.at);
    free_chain(&t->old);
    free_chain(&t->new);
}

/* ---- in the process where steps fail */

/* Whether these numbers say that the file is saved all the same. */
static int is_saved(uint64_t error)
{
    return error == BLORB_STORE_DONE || error == BLORB_STORE_UNCONFIRMED || error == BLORB_STORE_TABLE_OLD || error == BLORB_STORE_TABLE_UNCONFIRMED;
}

static blorb_store_answer open_and_load(blorb_store **s, int how)
{
    blorb_store_answer a = blorb_store_open(s, FILE_NAME, NULL, NULL);
    return a.error == BLORB_STORE_DONE ? blorb_store_load(*s, BLORB_PLAIN, how) : a;
}

/* One edit after the other, so that after a failure only that one is made again. What fails changes nothing in memory. */
static blorb_store_answer edit_one_by_one(blorb_store *s, const char *edits, int again)
{
    static uint8_t room[65536];
    char all[80], *rest = all;
    blorb_store_answer a = {.error = BLORB_STORE_DONE};
    snprintf(all, sizeof all, "%s", edits);
    for (char *one = strsep(&rest, " "); one != NULL && a.error == BLORB_STORE_DONE; one = strsep(&rest, " ")) {
        held now, then;
        uint64_t count = blorb_store_edits(s);
        now.at = (uint8_t *)blorb_store_file(s, &now.length);
        then = (held){room, now.length};
        memcpy(room, now.at, now.length);
        a = apply(s, one);
        now.at = (uint8_t *)blorb_store_file(s, &now.length);
        expect(a.error == BLORB_STORE_DONE || (same_bytes(now, then) && blorb_store_edits(s) == count), "%s failing changes nothing in memory", one);
        if (a.error != BLORB_STORE_DONE && again) {
            calm_down();
            a = apply(s, one);
        }
    }
    return a;
}

/* The whole of it, up to the first failure; or with each call that fails made again. */
static blorb_store_answer act(const void *context, int again)
{
    blorb_store *s;
    const scenario *sc = context;
    int how = sc->with & NO_UNDO ? BLORB_STORE_NO_UNDO : BLORB_STORE_EDIT;
    blorb_store_answer a = open_and_load(&s, how);
    if (a.error != BLORB_STORE_DONE && again) {
        blorb_store_close(s);
        calm_down();
        a = open_and_load(&s, how);
    }
    if (a.error == BLORB_STORE_DONE)
        a = edit_one_by_one(s, sc->edits, again);
    if (a.error == BLORB_STORE_DONE)
        a = blorb_store_save(s, NULL);
    if (!is_saved(a.error) && again) {
        calm_down();
        a = blorb_store_save(s, NULL);
    }
    expect(a.system != 0 || a.error < BLORB_STORE_MEMORY, "a failure by a failing step has its errno: %s", blorb_store_sentence(a.error));
    blorb_store_close(s);
    return a;
}

/* ---- what is left */

/* The table is the file's where the save said so. After a crash it may be refused, and then it is written anew by the next save. */
static void judge_table(const trial *t, int must_be_right, const char *what)
{
    static uint32_t table[BLORB_STORE_TABLE_NUMBERS];
    size_t numbers;
    held file = read_name(FILE_NAME);
    blorb_store_answer a = blorb_store_read_table(FILE_NAME, file.at, file.length, BLORB_PLAIN, table, &numbers);
    if (!(t->sc->with & TABLE))
        expect(a.error == BLORB_STORE_NO_TABLE, "%s: no table was made", what);
    else if (must_be_right)
        expect(a.error == BLORB_STORE_DONE, "%s: the table is the file's", what);
    else
        expect(a.error == BLORB_STORE_DONE || a.error == BLORB_TABLE_STALE, "%s: the table is right or refused", what);
    free(file.at);
}

/* From what was left another edit can be saved, and nothing of the interrupted save stays. */
static void goes_on(const trial *t, const char *what)
{
    carry_out("a77");
    judge_table(t, 1, what);
    expect(temporary_names() == 0, "%s: the next save leaves nothing behind", what);
}

/* The pair is the old or the new one, by the file and by every undo. Gives whether it is the new one. */
static int judge_pair(const trial *t, const char *what)
{
    held file = read_name(FILE_NAME);
    int is_old = same_bytes(file, top_of(&t->old)), is_new = same_bytes(file, top_of(&t->new));
    free(file.at);
    expect(is_old || is_new, "%s: the file is the old or the new one", what);
    if (is_old && is_new) {
        blorb_store *s = opened(BLORB_STORE_EDIT);
        is_new = blorb_store_edits(s) + 1 == t->new.count;
        blorb_store_close(s);
    }
    goes_back(is_new ? &t->new : &t->old, what);
    return is_new;
}

/* ---- at every step */

static void fail_at_each_step(const trial *t, int error)
{
    char what[120];
    int saved = 0, not_saved = 0;
    told->met = 1;
    for (int at = 1; told->met; at += each_step()) {
        put_back(t);
        expect(in_process(act, t->sc, at, error, 0, 0) == 0, "the process ends by itself");
        snprintf(what, sizeof what, "'%s' after '%s', %s failing at step %d with %d", t->sc->edits, t->sc->before, told->step, at, error);
        int is_new = judge_pair(t, what);
        expect(is_new == is_saved(told->error) || same_bytes(top_of(&t->old), top_of(&t->new)), "%s: what is answered is so, %s", what,
               blorb_store_sentence(told->error));
        expect(temporary_names() == 0 || strcmp(told->step, "unlink") == 0, "%s: nothing is left behind", what);
        judge_table(t, told->error == BLORB_STORE_DONE, what);
        goes_on(t, what);
        is_new ? saved++ : not_saved++;
    }
    expect(saved > 0 && not_saved > 0, "'%s': %d saved and %d not", t->sc->edits, saved, not_saved);
}

/* Each call that fails is made again, and then the new pair is there. */
static void fail_and_try_again(const trial *t, int error)
{
    char what[120];
    told->met = 1;
    for (int at = 1; told->met; at += each_step()) {
        put_back(t);
        expect(in_process(act, t->sc, at, error, 0, 1) == 0, "the process ends by itself");
        snprintf(what, sizeof what, "'%s' after '%s', made again after %s failed at step %d", t->sc->edits, t->sc->before, told->step, at);
        expect(is_saved(told->error), "%s: it is saved, %s", what, blorb_store_sentence(told->error));
        expect(judge_pair(t, what), "%s: the new pair", what);
        goes_on(t, what);
    }
}

static void end_at_each_step(const trial *t, int half)
{
    char what[120];
    int met[2] = {0, 0}, status = ENDED_HERE;
    for (int at = 1; status == ENDED_HERE; at += each_step()) {
        put_back(t);
        status = in_process(act, t->sc, at, 0, half, 0);
        expect(status == ENDED_HERE || status == 0, "the process is ended, or ends by itself");
        snprintf(what, sizeof what, "'%s' after '%s', ended at step %d%s", t->sc->edits, t->sc->before, at, half ? ", half of it" : "");
        met[judge_pair(t, what)]++;
        judge_table(t, 0, what);
        goes_on(t, what);
    }
    expect(met[0] > 0 && met[1] > 0, "'%s': both pairs were met", t->sc->edits);
}

void failing_and_ended(void)
{
    for (size_t i = 0; i < sizeof scenarios / sizeof *scenarios; i++) {
        trial t = prepared(&scenarios[i]);
        fail_at_each_step(&t, EIO);
        fail_at_each_step(&t, ENOSPC);
        fail_and_try_again(&t, EIO);
        end_at_each_step(&t, 0);
        end_at_each_step(&t, 1);
        free_trial(&t);
    }
}
