/* Calls other than a save, failing and ended at each step: a new file, the journal dropped, a table written and read, the history. */
#define _GNU_SOURCE
#include <errno.h>
#include <stdio.h>
#include <stdlib.h>
#include <string.h>

#include "crash.h"
#include "store_kit.h"
#include "store_process.h"
#include "store_tests.h"

/* Whether the call has done its work, by what lies on the disk. */
typedef int is_done(const chain *c);

typedef struct other {
    const char *name;
    acting *act;
    is_done *done;
    int begins_empty; /* there is no file yet */
    int changes;      /* something on the disk */
} other;

static blorb_store_answer on_store(blorb_store_answer (*call)(blorb_store *s), int loaded)
{
    blorb_store *s;
    blorb_store_answer a = blorb_store_open(&s, FILE_NAME, NULL, NULL);
    if (a.error == BLORB_STORE_DONE && loaded)
        a = blorb_store_load(s, BLORB_PLAIN, BLORB_STORE_LOOK);
    if (a.error == BLORB_STORE_DONE)
        a = call(s);
    blorb_store_close(s);
    return a;
}

static blorb_store_answer act_create(const void *context, int again)
{
    (void)context, (void)again;
    return on_store(blorb_store_create, 0);
}

static blorb_store_answer act_forget(const void *context, int again)
{
    (void)context, (void)again;
    return on_store(blorb_store_forget, 0);
}

static blorb_store_answer act_table(const void *context, int again)
{
    (void)context, (void)again;
    return on_store(blorb_store_write_table, 1);
}

static int count_edit(void *context, const blorb_store_edit *e)
{
    *(size_t *)context += e->saved == 1 && memcmp(e->usage, "Data", 4) == 0;
    return 0;
}

static blorb_store_answer all_of_history(blorb_store *s)
{
    size_t count = 0;
    blorb_store_answer a = blorb_store_history(s, count_edit, &count);
    expect(count == 3 || a.error != BLORB_STORE_DONE, "the history has three edits, or an error: %zu", count);
    return a;
}

static blorb_store_answer act_history(const void *context, int again)
{
    (void)context, (void)again;
    return on_store(all_of_history, 1);
}

static blorb_store_answer act_read_table(const void *context, int again)
{
    static uint32_t table[BLORB_STORE_TABLE_NUMBERS];
    size_t numbers;
    held file = top_of(context);
    (void)again;
    blorb_store_answer a = blorb_store_read_table(FILE_NAME, file.at, file.length, BLORB_PLAIN, table, &numbers);
    expect(a.error != BLORB_STORE_DONE || blorb_table_search(table, numbers, "Data", 9).refusal == BLORB_DONE, "a table that was read is right");
    return a;
}

static int blank_is_there(const chain *c)
{
    uint8_t blank[BLORB_BLANK_SIZE];
    held file = read_name(FILE_NAME);
    (void)c;
    blorb_blank(blank, sizeof blank);
    int there = file.at != NULL;
    expect(!there || same_bytes(file, (held){blank, sizeof blank}), "a new file is whole");
    free(file.at);
    return there;
}

static int journal_is_gone(const chain *c)
{
    chain last = {.files = {top_of(c)}, .count = 1};
    int gone = !is_there(UNDO_NAME);
    goes_back(gone ? &last : c, "the journal dropped or not");
    return gone;
}

static int table_is_there(const chain *c)
{
    held table = read_name(TABLE_NAME);
    int there = table.at != NULL;
    if (there)
        expect(act_read_table(c, 0).error == BLORB_STORE_DONE, "a table is whole");
    free(table.at);
    return there;
}

static int nothing_changes(const chain *c)
{
    goes_back(c, "looked at");
    return 0;
}

static const other others[] = {
    {"create", act_create, blank_is_there, 1, 1},
    {"forget", act_forget, journal_is_gone, 0, 1},
    {"write_table", act_table, table_is_there, 0, 1},
    {"history", act_history, nothing_changes, 0, 0},
    {"read_table", act_read_table, nothing_changes, 0, 0},
};

static void begin(const other *o, const chain *c)
{
    empty_folder();
    if (o->begins_empty)
        return;
    write_name(FILE_NAME, c->files[0]);
    carry_out("a9 | a10 r3");
    if (o->act == act_read_table)
        expect(act_table(NULL, 0).error == BLORB_STORE_DONE, "a table to be read");
}

/* Numbers that say that the work is done all the same. */
static int says_done(uint64_t error)
{
    return error == BLORB_STORE_DONE || error == BLORB_STORE_UNCONFIRMED || error == BLORB_STORE_TABLE_UNCONFIRMED
        || error == BLORB_STORE_FORGOTTEN_UNCONFIRMED || error == BLORB_STORE_NAMED_TWICE;
}

static void fail_each(const other *o, const chain *c, int error)
{
    int met[2] = {0, 0};
    told->met = 1;
    for (int at = 1; told->met; at += each_step()) {
        begin(o, c);
        expect(in_process(o->act, c, at, error, 0, 0) == 0, "the process ends by itself");
        int done = o->done(c);
        met[done]++;
        expect(done == (o->changes && says_done(told->error)), "%s, %s failing at step %d: %s", o->name, told->step, at,
               blorb_store_sentence(told->error));
        expect(temporary_names() == 0 || strcmp(told->step, "unlink") == 0, "%s failing at step %d leaves nothing behind", o->name, at);
    }
    expect(met[0] > 0 && (met[1] > 0 || !o->changes), "%s: done and not done", o->name);
}

static void end_each(const other *o, const chain *c)
{
    int met[2] = {0, 0}, status = ENDED_HERE;
    for (int at = 1; status == ENDED_HERE; at += each_step()) {
        begin(o, c);
        status = in_process(o->act, c, at, 0, 1, 0);
        met[o->done(c)]++;
    }
    expect(status == 0 && met[0] > 0 && (met[1] > 0 || !o->changes), "%s: ended before it was done, and behind", o->name);
}

void others_failing(void)
{
    chain c = first_chain();
    follow(&c, "a9 a10 r3");
    for (size_t i = 0; i < sizeof others / sizeof *others; i++) {
        fail_each(&others[i], &c, EIO);
        fail_each(&others[i], &c, ENOSPC);
        end_each(&others[i], &c);
    }
    free_chain(&c);
}
