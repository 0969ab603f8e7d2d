/* history, forget and new: the commands that look at the journal or at where it would stand, and at no resource. */
#define _XOPEN_SOURCE 700
#include <errno.h>
#include <inttypes.h>
#include <stdio.h>

#include "commands.h"
#include "store.h"
#include "stores.h"
#include "words.h"

/* What the edit did, and the type and length of the old data that undo brings back. */
static int print_edit(void *context, const blorb_store_edit *edit)
{
    uint64_t *number = context;
    past_edit e = shown_edit(edit);
    printf("%" PRIu64 " %s %.4s %" PRIu32, ++*number, e.done, e.usage, e.number);
    if (e.has_old)
        printf(" %.4s %" PRIu32, e.type, e.length);
    putchar('\n');
    return 0;
}

int run_history(const request *r)
{
    blorb_store *s;
    uint64_t number = 0;
    int status = load_store(&s, r, BLORB_STORE_LOOK, 0);
    if (status == CARRIED_OUT) {
        blorb_store_answer a = blorb_store_history(s, print_edit, &number);
        status = a.error == BLORB_STORE_DONE ? CARRIED_OUT : say_unusable(r->file, s, &a, 0);
    }
    blorb_store_close(s);
    return status;
}

static int say_forgotten(const request *r, const blorb_store *s, const blorb_store_answer *a)
{
    const char *undo = blorb_store_undo_path(s);
    errno = a->system;
    switch (a->error) {
    case BLORB_STORE_DONE:
        return CARRIED_OUT;
    case BLORB_STORE_JOURNAL_OTHER:
        return say_cannot(undo, "this is no journal, or not even its first bytes are left",
                          "Look at it, and move it away or delete it yourself.");
    case BLORB_STORE_FORGOTTEN_UNCONFIRMED:
        return say_failed(r->file, blorb_store_sentence(a->error));
    default:
        return say_failed(undo, blorb_store_sentence(a->error));
    }
}

/* What came of a new file. */
static int say_made(const char *file, const char *undo, const blorb_store_answer *a)
{
    errno = a->system;
    switch (a->error) {
    case BLORB_STORE_DONE:
        return CARRIED_OUT;
    case BLORB_STORE_TAKEN:
        return say_cannot(file, "this name is taken", "Move it away or delete it first, or give another name.");
    case BLORB_STORE_UNDO_NAME_READ:
        return say_failed(undo, "what has the name of the new file's journal cannot be read");
    case BLORB_STORE_UNDO_NAME_TAKEN:
        return say_cannot(undo, "this is no journal, and has the name that the new file's journal needs",
                          "Look at it, and move it away or delete it yourself; or give another name.");
    case BLORB_STORE_UNDO_TAKEN:
        return say_cannot(undo, "the journal of an older file of this name is still there",
                          "Move it away, or drop it with `blorb forget FILE`; or give another name.");
    case BLORB_STORE_LONG_NAME:
        return say_failed(file, "edits would find no name for the journal");
    default:
        return say_stored(file,
                          a->error == BLORB_STORE_NOT_CREATED ? OLD_IN_PLACE
                              : a->error == BLORB_STORE_NAMED_TWICE ? NEW_NAMED_TWICE : NEW_UNCONFIRMED,
                          "the file cannot be written");
    }
}

int may_begin(const char *file, const place *p, int force)
{
    blorb_store_answer a = may_begin_at(p, force);
    return say_made(file, p->undo_path, &a);
}

int begin_file(const char *file, bytes held)
{
    blorb_store *s;
    int status = open_store(&s, file);
    if (status == CARRIED_OUT) {
        blorb_store_answer a = blorb_store_create_from(s, held.at, held.length);
        status = say_made(file, blorb_store_undo_path(s), &a);
    }
    blorb_store_close(s);
    return status;
}

int run_forget(const request *r)
{
    blorb_store *s;
    int status = open_store(&s, r->file);
    if (status == CARRIED_OUT) {
        blorb_store_answer a = blorb_store_forget(s);
        status = say_forgotten(r, s, &a);
    }
    blorb_store_close(s);
    return status;
}

int run_new(const request *r)
{
    uint8_t blank[BLORB_BLANK_SIZE];
    blorb_edit_answer a = blorb_blank(blank, sizeof blank);
    return begin_file(r->file, (bytes){blank, (size_t)a.length});
}
