#define _XOPEN_SOURCE 700
#include "stores.h"

#include <errno.h>
#include <limits.h>
#include <stdio.h>

#include "contents.h"
#include "words.h"

/* ---- journals */

#define NO_JOURNAL_ADVICE "Move it away: the journal needs this name. Or edit with --no-undo, which leaves it alone."

/* What is wrong with the journal, and what to do about it. */
typedef struct trouble {
    uint64_t error;
    const char *what;
    const char *advice;
} trouble;

static const trouble troubles[] = {
    {BLORB_STORE_JOURNAL_DAMAGED, "is damaged", OTHER_JOURNAL},
    {BLORB_STORE_JOURNAL_NOT_ITS, "is not this file's, which another program has changed or replaced", OTHER_JOURNAL},
    {BLORB_STORE_JOURNAL_ADRIFT, "was written with --adrift",
     "Give --adrift here too. Or give undoing up: `blorb forget FILE` drops the journal, and then --adrift can be left out."},
    {BLORB_STORE_JOURNAL_PLAIN, "was written without --adrift",
     "Leave --adrift out here too. Or give undoing up: `blorb forget FILE` drops the journal, and then --adrift can be given."},
    {BLORB_STORE_JOURNAL_NEWER, "was written by a newer version of this program",
     "Use that version. Or give undoing up: `blorb forget FILE` drops the journal, and --no-undo edits without one."},
    {BLORB_STORE_JOURNAL_OTHER, "is no journal of this program", NO_JOURNAL_ADVICE},
    {BLORB_STORE_JOURNAL_LINK, "is a symbolic link", NO_JOURNAL_ADVICE},
};

int say_unusable(const char *file, const blorb_store *s, const blorb_store_answer *a, int undoing)
{
    char about[PATH_MAX + 128];
    const trouble *found = troubles;
    const char *path = blorb_store_undo_path(s);
    errno = a->system;
    if (a->error == BLORB_STORE_JOURNAL_READ)
        return say_failed(path, "the journal cannot be read");
    for (size_t i = 0; i < sizeof troubles / sizeof *troubles; i++)
        if (troubles[i].error == a->error)
            found = &troubles[i];
    snprintf(about, sizeof about, "the journal %s %s", path, found->what);
    if (undoing)
        return say_refused(file, BLORB_RECORD, 0, about, found->advice);
    return say_cannot(file, about, found->advice);
}

/* By the kind of an edit; its place in the list is the kind. */
static const char *const done_by_kind[] = {"changed", "added", "replaced", "removed", "removed", "linked"};
enum { KINDS = sizeof done_by_kind / sizeof *done_by_kind };

/* The four bytes of a tag, nothing in it that a terminal could take amiss. */
static void take_tag(const char from[4], char tag[4])
{
    for (int i = 0; i < 4; i++)
        tag[i] = from[i] >= ' ' && from[i] <= '~' ? from[i] : '?';
}

past_edit shown_edit(const blorb_store_edit *e)
{
    past_edit shown = {.done = done_by_kind[e->kind < KINDS ? e->kind : 0], .number = e->number,
                       .has_old = number_in((const uint8_t *)e->type) != 0, .length = e->length};
    take_tag(e->usage, shown.usage);
    take_tag(e->type, shown.type);
    return shown;
}

/* ---- tables */

int say_table(const char *table_path, const blorb_store_answer *a)
{
    const char *advice = "Do not edit again for that: `blorb table FILE` writes the table anew.";
    if (a->error == BLORB_STORE_DONE)
        return CARRIED_OUT;
    return say_error(table_path,
                     a->error == BLORB_STORE_TABLE_OLD
                         ? "the file is edited, but its finding table is still the old one"
                         : "the file is edited and its new finding table in place, but the disk has not confirmed the table",
                     a->system, advice);
}

/* ---- opening */

int open_store(blorb_store **s, const char *file)
{
    blorb_store_answer a = blorb_store_open(s, file, wait_for_other, NULL);
    errno = a.system;
    return a.error == BLORB_STORE_DONE ? CARRIED_OUT : say_failed(file, "the file cannot be reached");
}

contents contents_of(const request *r, const blorb_store *s)
{
    contents c = {.profile = r->profile};
    c.file = (uint8_t *)blorb_store_file(s, &c.length);
    c.read = blorb_read(c.file, c.length, r->profile);
    return c;
}

/* Says which rule the file breaks, by what was read of it. */
static int say_refused_file(const request *r, const blorb_store *s)
{
    contents c = contents_of(r, s);
    return say_refused_contents(&c, r->file);
}

static int say_not_loaded(const request *r, const blorb_store *s, const blorb_store_answer *a, int how, int undoing)
{
    errno = a->system;
    switch (a->error) {
    case BLORB_STORE_NOT_PLAIN:
        return say_cannot(r->file, NO_PLAIN_FILE, how == BLORB_STORE_LOOK ? "Copy what it holds to a plain file and give that."
                                                                          : "Copy what it holds to a plain file and edit that.");
    case BLORB_STORE_OPEN:
        if (errno == ENOENT && how != BLORB_STORE_LOOK)
            return say_cannot(r->file, "there is no such file", "Check the name; `blorb new` makes a file with no resources.");
        return say_failed(r->file, "the file cannot be opened");
    case BLORB_STORE_MEMORY: case BLORB_STORE_READ:
        return say_failed(r->file, "the file cannot be read");
    default:
        return a->error < BLORB_STORE_MEMORY ? say_refused_file(r, s) : say_unusable(r->file, s, a, undoing);
    }
}

int load_store(blorb_store **s, const request *r, int how, int undoing)
{
    int status = open_store(s, r->file);
    if (status != CARRIED_OUT)
        return status;
    blorb_store_answer a = blorb_store_load(*s, r->profile, how);
    return a.error == BLORB_STORE_DONE ? CARRIED_OUT : say_not_loaded(r, *s, &a, how, undoing);
}
