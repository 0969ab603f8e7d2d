/* Every call of blorb_store.h, and every number that it can answer where no system call fails. */
#define _GNU_SOURCE
#include <errno.h>
#include <fcntl.h>
#include <stdio.h>
#include <stdlib.h>
#include <string.h>
#include <sys/stat.h>
#include <unistd.h>

#include "store_kit.h"
#include "store_tests.h"

static void answers(blorb_store_answer a, uint64_t wanted, const char *what)
{
    expect(a.error == wanted, "%s: wanted %u (%s), got %u (%s)", what, (unsigned)wanted, blorb_store_sentence(wanted), (unsigned)a.error,
           blorb_store_sentence(a.error));
}

static blorb_store *at(const char *path, uint64_t wanted)
{
    blorb_store *s;
    answers(blorb_store_open(&s, path, NULL, NULL), wanted, path);
    return s;
}

static void write_text(const char *name, const char *text)
{
    write_name(name, (held){(uint8_t *)text, strlen(text)});
}

/* The first file alone in the folder. */
static void begin(void)
{
    chain c = first_chain();
    empty_folder();
    write_name(FILE_NAME, top_of(&c));
    free_chain(&c);
}

/* ---- numbers */

static void sentences(void)
{
    const char *none = blorb_store_sentence(BLORB_STORE_FORGOTTEN_UNCONFIRMED + 1);
    int known = 0;
    for (uint64_t n = BLORB_STORE_MEMORY; n < 70000; n++) {
        const char *text = blorb_store_sentence(n);
        expect(text != NULL && text[0] != '\0' && text[strlen(text) - 1] != '.', "the sentence of %u", (unsigned)n);
        for (uint64_t m = BLORB_STORE_MEMORY; m < n && strcmp(text, none) != 0; m++)
            expect(strcmp(blorb_store_sentence(m), text) != 0, "%u and %u have one sentence", (unsigned)m, (unsigned)n);
        known += strcmp(text, none) != 0;
    }
    expect(known == 36, "numbers with a sentence of their own: %d", known);
    for (uint64_t n = 0; n < BLORB_STORE_MEMORY; n++)
        expect(strcmp(blorb_store_sentence(n), blorb_sentence(n)) == 0, "the sentence of blorb.h's %u", (unsigned)n);
    expect(strcmp(blorb_store_sentence(UINT64_MAX), none) == 0, "the largest number");
}

/* ---- opening, loading, making */

static void places(void)
{
    static const char *const own[] = {"a.undo", "a.table", "a.blorb-temp", FILE_NAME ".undo", "A.UNDO", "b.Table"};
    empty_folder();
    for (size_t i = 0; i < sizeof own / sizeof *own; i++)
        blorb_store_close(at(own[i], BLORB_STORE_OWN_NAME));
    expect(symlink("a.undo", "link") == 0, "a link");
    write_text("a.undo", "x");
    blorb_store_close(at("link", BLORB_STORE_OWN_NAME));
    blorb_store *s;
    blorb_store_answer a = blorb_store_open(&s, "no folder/a.blb", NULL, NULL);
    answers(a, BLORB_STORE_REACH, "a folder that is not there");
    expect(a.system == ENOENT, "with its errno");
    blorb_store_close(s);
    blorb_store_close(NULL);
    s = at(FILE_NAME, BLORB_STORE_DONE);
    const char *undo = blorb_store_undo_path(s), *table = blorb_store_table_path(s);
    expect(undo[0] == '/' && strcmp(strrchr(undo, '/') + 1, UNDO_NAME) == 0, "the journal's path: %s", undo);
    expect(table[0] == '/' && strcmp(strrchr(table, '/') + 1, TABLE_NAME) == 0, "the table's path: %s", table);
    blorb_store_close(s);
}

static int give_up(void *context, const char *path)
{
    ++*(int *)context;
    return strcmp(path, FILE_NAME) == 0 ? -1 : 0;
}

/* Who holds the lock is waited for, a second, and then given up where the caller says so. */
static void locked(void)
{
    int told = 0;
    blorb_store *other, *s = at(FILE_NAME, BLORB_STORE_DONE);
    answers(blorb_store_open(&other, FILE_NAME, give_up, &told), BLORB_STORE_BUSY, "while another has the lock");
    expect(told == 1, "told once");
    blorb_store_close(other);
    blorb_store_close(s);
    answers(blorb_store_open(&other, FILE_NAME, give_up, &told), BLORB_STORE_DONE, "after the other has closed");
    expect(told == 1, "not told");
    blorb_store_close(other);
}

static void unloaded(blorb_store *s, uint64_t wanted, const char *what)
{
    answers(apply(s, "a9"), wanted, what);
    answers(apply(s, "r3"), wanted, what);
    answers(apply(s, "x3"), wanted, what);
    answers(apply(s, "l8"), wanted, what);
    answers(apply(s, "u1"), wanted, what);
    answers(blorb_store_save(s, NULL), wanted, what);
    expect(blorb_store_edits(s) == 0, "%s: nothing can be undone", what);
}

static void loading(void)
{
    size_t length = 1;
    begin();
    blorb_store *s = at(FILE_NAME, BLORB_STORE_DONE);
    expect(blorb_store_file(s, &length) == NULL && length == 0, "nothing is loaded");
    unloaded(s, BLORB_STORE_NOT_LOADED, "before loading");
    answers(blorb_store_write_table(s), BLORB_STORE_NOT_LOADED, "a table before loading");
    answers(blorb_store_history(s, NULL, NULL), BLORB_STORE_NOT_LOADED, "the history before loading");
    answers(blorb_store_load(s, 7, BLORB_STORE_EDIT), BLORB_PROFILE, "an unknown profile");
    answers(blorb_store_load(s, BLORB_PLAIN, BLORB_STORE_LOOK), BLORB_STORE_DONE, "to look");
    unloaded(s, BLORB_STORE_LOOKING, "loaded to look");
    answers(blorb_store_load(s, BLORB_PLAIN, BLORB_STORE_EDIT), BLORB_STORE_DONE, "to edit");
    answers(apply(s, "a9"), BLORB_STORE_DONE, "an edit");
    answers(blorb_store_load(s, BLORB_PLAIN, BLORB_STORE_EDIT), BLORB_STORE_DONE, "again");
    expect(blorb_store_edits(s) == 0, "loading again drops what is not saved");
    write_text(FILE_NAME, "FORM\x1\x1\x1\x1" "IFRS");
    blorb_store_answer a = blorb_store_load(s, BLORB_PLAIN, BLORB_STORE_EDIT);
    expect(a.error == BLORB_FORM_LENGTH && a.place == 4 && a.system == 0, "a refused file: number and place");
    expect(memcmp(blorb_store_file(s, &length), "FORM", 4) == 0 && length == 12, "what was read of it");
    unloaded(s, BLORB_STORE_NOT_LOADED, "a refused file");
    unlink(FILE_NAME);
    a = blorb_store_load(s, BLORB_PLAIN, BLORB_STORE_EDIT);
    expect(a.error == BLORB_STORE_OPEN && a.system == ENOENT, "no file");
    expect(mkdir(FILE_NAME, 0700) == 0, "a folder");
    answers(blorb_store_load(s, BLORB_PLAIN, BLORB_STORE_EDIT), BLORB_STORE_NOT_PLAIN, "a folder");
    answers(blorb_store_load(s, BLORB_PLAIN, BLORB_STORE_LOOK), BLORB_STORE_NOT_PLAIN, "a folder to look at");
    blorb_store_close(s);
}

/* A new file of given bytes, good ones or not; none is overwritten. */
static void made_of_bytes(void)
{
    chain c = first_chain();
    held file = top_of(&c);
    empty_folder();
    blorb_store *s = at(FILE_NAME, BLORB_STORE_DONE);
    answers(blorb_store_create_from(s, file.at, file.length), BLORB_STORE_DONE, "a file of these bytes");
    answers(blorb_store_create_from(s, file.at, 3), BLORB_STORE_TAKEN, "over a file");
    blorb_store_close(s);
    goes_back(&c, "a file of these bytes");
    unlink(FILE_NAME);
    s = at(FILE_NAME, BLORB_STORE_DONE);
    answers(blorb_store_create_from(s, file.at, 3), BLORB_STORE_DONE, "bytes that are no file");
    answers(blorb_store_load(s, BLORB_PLAIN, BLORB_STORE_EDIT), BLORB_TOO_SHORT, "are refused when loaded");
    blorb_store_close(s);
    free_chain(&c);
}

static void making(void)
{
    char longest[256];
    empty_folder();
    blorb_store *s = at(FILE_NAME, BLORB_STORE_DONE);
    write_text(UNDO_NAME, "mine");
    answers(blorb_store_create(s), BLORB_STORE_UNDO_NAME_TAKEN, "what is no journal under its name");
    write_text(UNDO_NAME, "BLORBUN2 of an older file");
    answers(blorb_store_create(s), BLORB_STORE_UNDO_TAKEN, "an older journal");
    expect(!is_there(FILE_NAME), "nothing was made");
    unlink(UNDO_NAME);
    answers(blorb_store_create(s), BLORB_STORE_DONE, "a new file");
    answers(blorb_store_create(s), BLORB_STORE_TAKEN, "the same again");
    answers(blorb_store_load(s, BLORB_PLAIN, BLORB_STORE_EDIT), BLORB_STORE_DONE, "the new file");
    answers(apply(s, "a9 |"), BLORB_STORE_DONE, "is edited");
    blorb_store_close(s);
    made_of_bytes();
    memset(longest, 'n', sizeof longest);
    longest[250] = '\0';
    s = at(longest, BLORB_STORE_DONE);
    answers(blorb_store_create(s), BLORB_STORE_LONG_NAME, "a name without room for more");
    blorb_store_close(s);
}

/* ---- editing */

static held in_memory(const blorb_store *s)
{
    held h;
    h.at = (uint8_t *)blorb_store_file(s, &h.length);
    return h;
}

/* Edits and undos in memory, over saves and between them, are those of blorb.h. */
static void editing(void)
{
    static const char *const runs[] = {"a9", "r9 x3", "u1", "l8 s4", "|", "u2", "a10 r10 a11", "u1", "|", "u3", "x4 |", "|", "u1", "a3000000000", "u2 |"};
    chain c = first_chain();
    begin();
    blorb_store *s = opened(BLORB_STORE_EDIT);
    for (size_t i = 0; i < sizeof runs / sizeof *runs; i++) {
        answers(apply(s, runs[i]), BLORB_STORE_DONE, runs[i]);
        follow(&c, runs[i]);
        expect(same_bytes(in_memory(s), top_of(&c)), "the file after %s", runs[i]);
        expect(blorb_store_edits(s) == c.count - 1, "the edits after %s: %zu", runs[i], (size_t)blorb_store_edits(s));
    }
    expect(c.count == 1 && !is_there(UNDO_NAME), "all is undone, and the journal gone");
    answers(apply(s, "u1"), BLORB_NOTHING_TO_UNDO, "nothing is left to undo");
    blorb_store_close(s);
    goes_back(&c, "all is undone");
    free_chain(&c);
}

static void refusals(void)
{
    begin();
    carry_out("a9");
    blorb_store *s = opened(BLORB_STORE_EDIT);
    held before = read_name(FILE_NAME);
    answers(apply(s, "x99"), BLORB_NOT_THERE, "what is not there");
    answers(apply(s, "a3"), BLORB_RESULT_REPEATED, "a name that is taken");
    answers(apply(s, "l1"), BLORB_RESULT_REPEATED, "a link to a name that is taken");
    answers(blorb_store_add(s, "Data", 7, "FORM", (const uint8_t *)"x", 1), BLORB_WHOLE_FORM, "no whole FORM");
    answers(blorb_store_add(s, "What", 7, "TEXT", NULL, 0), BLORB_RESULT_USAGE, "no usage");
    answers(blorb_store_undo(s, 2), BLORB_NOTHING_TO_UNDO, "more than there are");
    answers(blorb_store_undo(s, 0), BLORB_STORE_DONE, "none");
    expect(same_bytes(in_memory(s), before) && blorb_store_edits(s) == 1, "a refused call changes nothing");
    free(before.at);
    blorb_store_close(s);
}

/* Without a change, or with all of it taken back, a save touches nothing. */
static void idle_saves(void)
{
    struct stat was, is;
    begin();
    carry_out("a9");
    expect(stat(FILE_NAME, &was) == 0, "the file");
    blorb_store *s = opened(BLORB_STORE_EDIT);
    answers(blorb_store_save(s, NULL), BLORB_STORE_DONE, "a save of nothing");
    answers(apply(s, "r9 x3 u2 |"), BLORB_STORE_DONE, "a save of what was taken back");
    blorb_store_close(s);
    expect(stat(FILE_NAME, &is) == 0 && is.st_ino == was.st_ino, "the file is the same one");
    s = opened(BLORB_STORE_EDIT);
    answers(apply(s, "r9"), BLORB_STORE_DONE, "an edit");
    blorb_store_close(s);
    expect(stat(FILE_NAME, &is) == 0 && is.st_ino == was.st_ino, "what is not saved is dropped");
    expect(chmod(FILE_NAME, 0640) == 0, "permissions");
    carry_out("r9");
    expect(stat(FILE_NAME, &is) == 0 && is.st_ino != was.st_ino && (is.st_mode & 0777) == 0640, "a new file with the old permissions");
    expect(stat(UNDO_NAME, &is) == 0 && (is.st_mode & 0777) == 0640, "and so is the journal");
}

/* ---- history */

typedef struct listing {
    char text[200];
    size_t most;
} listing;

static int list(void *context, const blorb_store_edit *e)
{
    listing *l = context;
    size_t length = strlen(l->text);
    snprintf(l->text + length, sizeof l->text - length, "%u%.4s%u%.4s%c%u ", (unsigned)e->kind, e->usage, (unsigned)e->number,
             e->type[0] != '\0' ? e->type : "none", e->saved ? '+' : '-', (unsigned)e->length);
    return --l->most == 0;
}

static void lists(blorb_store *s, size_t most, const char *wanted)
{
    listing l = {.text = "", .most = most};
    answers(blorb_store_history(s, list, &l), BLORB_STORE_DONE, "history");
    expect(strcmp(l.text, wanted) == 0, "history: wanted %s, got %s", wanted, l.text);
}

static void history(void)
{
    begin();
    carry_out("a9 | l8 |");
    blorb_store *s = opened(BLORB_STORE_EDIT);
    lists(s, 99, "5Pict8none+0 1Data9none+0 ");
    answers(apply(s, "r9 x4"), BLORB_STORE_DONE, "two edits");
    lists(s, 99, "3Data4TEXT-168 2Data9TEXT-356 5Pict8none+0 1Data9none+0 ");
    lists(s, 3, "3Data4TEXT-168 2Data9TEXT-356 5Pict8none+0 ");
    lists(s, 1, "3Data4TEXT-168 ");
    answers(apply(s, "u3"), BLORB_STORE_DONE, "three undos");
    lists(s, 99, "1Data9none+0 ");
    answers(blorb_store_save(s, NULL), BLORB_STORE_DONE, "saved");
    lists(s, 99, "1Data9none+0 ");
    blorb_store_close(s);
    s = opened(BLORB_STORE_LOOK);
    lists(s, 99, "1Data9none+0 ");
    blorb_store_close(s);
}

/* ---- journals that are not as they should be */

/* Loading to edit says this of the journal, and so does the history; to look is no matter. */
static void trouble(uint64_t wanted, uint32_t profile, const char *what)
{
    held undo = read_name(UNDO_NAME), file = read_name(FILE_NAME);
    blorb_store *s = at(FILE_NAME, BLORB_STORE_DONE);
    answers(blorb_store_load(s, profile, BLORB_STORE_EDIT), wanted, what);
    unloaded(s, BLORB_STORE_NOT_LOADED, what);
    answers(blorb_store_load(s, profile, BLORB_STORE_LOOK), BLORB_STORE_DONE, what);
    listing l = {.text = "", .most = 99};
    int knows = wanted == BLORB_STORE_JOURNAL_ADRIFT || wanted == BLORB_STORE_JOURNAL_PLAIN;
    answers(blorb_store_history(s, list, &l), knows ? BLORB_STORE_DONE : wanted, what);
    answers(blorb_store_load(s, profile, BLORB_STORE_NO_UNDO), knows ? wanted : BLORB_STORE_DONE, what);
    if (!knows) {
        answers(apply(s, "r3 |"), BLORB_STORE_DONE, what);
        write_name(FILE_NAME, file);
    }
    blorb_store_close(s);
    held left = read_name(UNDO_NAME);
    expect(same_bytes(left, undo), "%s: it is left alone", what);
    free(left.at);
    free(undo.at);
    free(file.at);
}

static void journals(void)
{
    begin();
    carry_out("a9");
    held good = read_name(UNDO_NAME);
    trouble(BLORB_STORE_JOURNAL_PLAIN, BLORB_ADRIFT, "a plain journal under ADRIFT");
    good.at[7] = '9';
    write_name(UNDO_NAME, good);
    trouble(BLORB_STORE_JOURNAL_NEWER, BLORB_PLAIN, "a newer journal");
    good.at[7] = '2';
    good.at[good.length - 1] ^= 1;
    write_name(UNDO_NAME, good);
    trouble(BLORB_STORE_JOURNAL_DAMAGED, BLORB_PLAIN, "a damaged journal");
    good.at[0] = '?';
    write_name(UNDO_NAME, good);
    trouble(BLORB_STORE_JOURNAL_OTHER, BLORB_PLAIN, "no journal");
    blorb_store *s = at(FILE_NAME, BLORB_STORE_DONE);
    answers(blorb_store_forget(s), BLORB_STORE_JOURNAL_OTHER, "no journal to be dropped");
    blorb_store_close(s);
    unlink(UNDO_NAME);
    expect(symlink("elsewhere", UNDO_NAME) == 0, "a link");
    trouble(BLORB_STORE_JOURNAL_LINK, BLORB_PLAIN, "a link");
    begin();
    carry_out("a9");
    held file = read_name(FILE_NAME);
    begin();
    carry_out("a10 | r3 |");
    write_name(FILE_NAME, file);
    trouble(BLORB_STORE_JOURNAL_NOT_ITS, BLORB_PLAIN, "another file's journal");
    free(file.at);
    free(good.at);
}

static void profiles(void)
{
    begin();
    blorb_store *s = at(FILE_NAME, BLORB_STORE_DONE);
    answers(blorb_store_load(s, BLORB_ADRIFT, BLORB_STORE_EDIT), BLORB_STORE_DONE, "under ADRIFT");
    answers(apply(s, "a9 |"), BLORB_STORE_DONE, "an edit under ADRIFT");
    blorb_store_close(s);
    trouble(BLORB_STORE_JOURNAL_ADRIFT, BLORB_PLAIN, "an ADRIFT journal under plain");
}

static void forgetting(void)
{
    begin();
    carry_out("a9 | a10 |");
    blorb_store *s = opened(BLORB_STORE_EDIT);
    answers(blorb_store_forget(s), BLORB_STORE_DONE, "the journal is dropped");
    expect(!is_there(UNDO_NAME), "and gone");
    unloaded(s, BLORB_STORE_NOT_LOADED, "after forgetting");
    answers(blorb_store_forget(s), BLORB_STORE_DONE, "there is none");
    answers(blorb_store_load(s, BLORB_PLAIN, BLORB_STORE_EDIT), BLORB_STORE_DONE, "loaded again");
    answers(apply(s, "u1"), BLORB_NOTHING_TO_UNDO, "nothing to undo");
    blorb_store_close(s);
}

/* Without undo nothing is kept, and no edit that can be undone is lost. */
static void without_undo(void)
{
    chain c = first_chain();
    begin();
    blorb_store *s = opened(BLORB_STORE_NO_UNDO);
    answers(apply(s, "a9 r3 |"), BLORB_STORE_DONE, "edits without undo");
    answers(apply(s, "u1"), BLORB_NOTHING_TO_UNDO, "nothing to undo");
    answers(apply(s, "a10 |"), BLORB_STORE_DONE, "another");
    blorb_store_close(s);
    expect(!is_there(UNDO_NAME), "no journal");
    follow(&c, "a9 r3 a10");
    held file = read_name(FILE_NAME);
    expect(same_bytes(file, top_of(&c)), "the file");
    carry_out("x9");
    s = opened(BLORB_STORE_NO_UNDO);
    answers(apply(s, "a11"), BLORB_STORE_DONE, "an edit without undo");
    answers(blorb_store_save(s, NULL), BLORB_STORE_UNDO_LEFT, "where another can be undone");
    blorb_store_close(s);
    free(file.at);
    free_chain(&c);
}

/* ---- tables */

static blorb_store_answer table_answer(void)
{
    static uint32_t table[BLORB_STORE_TABLE_NUMBERS];
    size_t numbers;
    held file = read_name(FILE_NAME);
    blorb_store_answer a = blorb_store_read_table(FILE_NAME, file.at, file.length, BLORB_PLAIN, table, &numbers);
    if (a.error == BLORB_STORE_DONE)
        expect(numbers == 3 * blorb_read(file.at, file.length, BLORB_PLAIN).count, "all rows");
    free(file.at);
    return a;
}

static void tables(void)
{
    begin();
    answers(table_answer(), BLORB_STORE_NO_TABLE, "no table");
    blorb_store *s = opened(BLORB_STORE_EDIT);
    answers(apply(s, "a9"), BLORB_STORE_DONE, "an edit");
    answers(blorb_store_write_table(s), BLORB_STORE_UNSAVED, "a table of what is not saved");
    answers(blorb_store_save(s, NULL), BLORB_STORE_DONE, "saved");
    answers(blorb_store_write_table(s), BLORB_STORE_DONE, "a table");
    answers(table_answer(), BLORB_STORE_DONE, "is right");
    blorb_store_answer table = {.error = 1};
    answers(apply(s, "a10 l8"), BLORB_STORE_DONE, "edits");
    answers(blorb_store_save(s, &table), BLORB_STORE_DONE, "saved with a table");
    answers(table, BLORB_STORE_DONE, "what came of the table");
    answers(table_answer(), BLORB_STORE_DONE, "is right again");
    blorb_store_close(s);
    held whole = read_name(TABLE_NAME);
    whole.at[whole.length - 1] ^= 1;
    write_name(TABLE_NAME, whole);
    blorb_store_answer a = table_answer();
    expect(a.error == BLORB_TABLE_STALE && a.place == whole.length / 12 - 1, "a wrong number in the last row");
    whole.at[whole.length - 1] ^= 1;
    whole.length -= 1;
    write_name(TABLE_NAME, whole);
    answers(table_answer(), BLORB_TABLE_STALE, "a number that is cut");
    carry_out("u1");
    answers(table_answer(), BLORB_STORE_DONE, "a save puts it right");
    expect(unlink(TABLE_NAME) == 0 && mkdir(TABLE_NAME, 0700) == 0, "a folder of that name");
    answers(table_answer(), BLORB_STORE_TABLE_OTHER, "a folder is no table");
    carry_out("u1");
    expect(rmdir(TABLE_NAME) == 0, "and stays");
    free(whole.at);
}

void calls(void)
{
    sentences();
    places();
    locked();
    loading();
    making();
    editing();
    refusals();
    idle_saves();
    history();
    journals();
    profiles();
    forgetting();
    without_undo();
    tables();
}
