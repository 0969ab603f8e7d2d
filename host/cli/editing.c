/* add, replace, remove, link and undo: the commands that change a Blorb file and its journal. */
#define _XOPEN_SOURCE 700
#include <errno.h>
#include <fcntl.h>
#include <inttypes.h>
#include <limits.h>
#include <stdio.h>
#include <stdlib.h>
#include <string.h>
#include <unistd.h>

#include "blorb_store.h"
#include "commands.h"
#include "contents.h"
#include "kinds.h"
#include "stores.h"
#include "telling.h"
#include "warnings.h"
#include "words.h"

/* One edit of a store. */
typedef blorb_store_answer call(const request *r, blorb_store *s, bytes held);

static blorb_store_answer call_add(const request *r, blorb_store *s, bytes held)
{
    return blorb_store_add(s, r->usage, r->number, r->type, held.at, held.length);
}

static blorb_store_answer call_replace(const request *r, blorb_store *s, bytes held)
{
    return blorb_store_replace(s, r->usage, r->number, r->type, held.at, held.length);
}

static blorb_store_answer call_remove(const request *r, blorb_store *s, bytes held)
{
    (void)held;
    return blorb_store_remove(s, r->usage, r->number);
}

static blorb_store_answer call_link(const request *r, blorb_store *s, bytes held)
{
    (void)held;
    return blorb_store_link(s, r->usage, r->number, r->new_usage, r->new_number);
}

/* What to do where a second name is refused and the usual advice speaks of data; null where that is right. */
static const char *link_advice(uint64_t refusal)
{
    switch (refusal) {
    case BLORB_RESULT_TOO_LONG:
        return "Remove another resource first.";
    case BLORB_RESULT_EXEC_NUMBER:
        return "The story of a file has the one name Exec 0.";
    case BLORB_RESULT_REPEATED:
        return "Use another NEWNUMBER, or remove that resource first. `blorb list` shows what the file has.";
    default:
        return NULL;
    }
}

static int refused_link(const request *r, const blorb_store_answer *a)
{
    char about[2 * PAIR_SIZE + 8], original[PAIR_SIZE], name[PAIR_SIZE];
    show_pair(r->usage, r->number, original);
    show_pair(r->new_usage, r->new_number, name);
    snprintf(about, sizeof about, "%s as %s", original, name);
    char types[ADVICE_SIZE];
    snprintf(types, sizeof types, "Both names have one chunk, so its type must suit the new usage too.\n  %s", types_of(r->new_usage));
    return say_refused(r->file, a->error, a->place, a->error == BLORB_NOT_THERE ? original : about,
                       a->error == BLORB_RESULT_TYPE ? types : link_advice(a->error));
}

/* What to do about a refused type or data: of an AIFF file what is wrong with it, else which types the usage takes. Null where neither helps. */
static const char *type_advice(const request *r, uint64_t refusal, const data *d, char advice[ADVICE_SIZE])
{
    int wrong_type = refusal == BLORB_RESULT_TYPE || refusal == BLORB_RESULT_SECOND_INDEX;
    int head = refusal == BLORB_WHOLE_FORM || (refusal == BLORB_RESULT_TYPE && memcmp(r->type, "FORM", 4) == 0);
    if (d == NULL || (!wrong_type && !head))
        return NULL;
    if (head && !d->is_cut && memcmp(r->usage, "Snd ", 4) == 0 && aiff_advice(d->held, advice))
        return advice;
    if (refusal == BLORB_RESULT_TYPE && r->profile == BLORB_PLAIN && only_adrift(r->usage, r->type))
        return USE_ADRIFT;
    const char *meant = usage_for(r->type);
    if (refusal == BLORB_WHOLE_FORM)
        snprintf(advice, ADVICE_SIZE, "%s\n  %s", remedy_for(refusal), types_of(r->usage));
    else if (meant != NULL && memcmp(meant, r->usage, 4) != 0)
        snprintf(advice, ADVICE_SIZE, "%.*s is for the usage %.*s. %s", tag_length(r->type), r->type, tag_length(meant), meant,
                 types_of(r->usage));
    else
        snprintf(advice, ADVICE_SIZE, "%s", types_of(r->usage));
    return advice;
}

static int refused_edit(const request *r, const blorb_store_answer *a, const data *d)
{
    if (r->new_usage[0] != '\0')
        return refused_link(r, a);
    char about[80], advice[ADVICE_SIZE], pair[PAIR_SIZE], type[SHOWN_SIZE];
    show_pair(r->usage, r->number, pair);
    show_tag(r->type, type);
    snprintf(about, sizeof about, d != NULL ? "%s %s" : "%s", pair, type);
    return say_refused(r->file, a->error, a->place, about, type_advice(r, a->error, d, advice));
}

/* How the data is called in a message. */
static const char *shown_data(const request *r)
{
    return strcmp(r->data, "-") == 0 ? "standard input" : r->data;
}

/* Data that is not what its type stands for is only put in where the user says so. */
static int refused_data(const request *r, const data *d)
{
    char why[WHY_SIZE], advice[ADVICE_SIZE];
    if (d == NULL || r->as_is || !contradicts(r->type, d->held, why))
        return CARRIED_OUT;
    const kind *k = kind_of(d->held);
    snprintf(advice, sizeof advice, "%s --as-is puts the data in as it is.",
             k != NULL && k->instead != NULL ? k->instead : "Check the name and TYPE; TYPE can be left out where the data tells it.");
    return say_cannot(shown_data(r), why, advice);
}

static int save(const request *r, blorb_store *s)
{
    blorb_store_answer table, a = blorb_store_save(s, &table);
    int settled = say_table(blorb_store_table_path(s), &table);
    if (a.error == BLORB_STORE_UNDO_LEFT)
        return say_cannot(r->file, "after an edit with --no-undo the earlier edits could not be undone any more",
                          "Leave --no-undo out, or give undoing up first with `blorb forget FILE`.");
    errno = a.system;
    if (a.error == BLORB_STORE_NOT_SAVED || a.error == BLORB_STORE_UNCONFIRMED)
        return say_edited(r->file, a.error == BLORB_STORE_NOT_SAVED ? OLD_IN_PLACE : NEW_UNCONFIRMED);
    return settled;
}

/* An edit of a store, and the word for it. */
typedef struct change {
    call *carry_out;
    const char *done;
} change;

/* What `check` would say of the resource, and on a terminal what was done to it. */
static void tell(const request *r, const blorb_store *s, const change *h, const found *before)
{
    contents c = contents_of(r, s);
    if (is_told(r)) {
        found after = find_resource(&c, r->usage, r->number);
        tell_edit(r, h->done, before, &after);
    }
    if (r->data != NULL)
        warn_of_resource(&c, r->file, r->usage, r->number);
}

static int edit_contents(const request *r, blorb_store *s, const change *h, const data *d)
{
    contents c = contents_of(r, s);
    found before = is_told(r) ? find_resource(&c, r->usage, r->number) : (found){0};
    blorb_store_answer a = h->carry_out(r, s, d != NULL ? d->held : (bytes){0});
    errno = a.system;
    if (a.error == BLORB_STORE_MEMORY)
        return say_failed(r->file, "the file cannot be edited");
    int status = a.error != BLORB_STORE_DONE ? refused_edit(r, &a, d) : refused_data(r, d);
    if (status == CARRIED_OUT)
        status = save(r, s);
    if (status == CARRIED_OUT)
        tell(r, s, h, &before);
    return status;
}

static int edit(const request *r, const change *h, const data *d)
{
    blorb_store *s;
    int status = load_store(&s, r, r->no_undo ? BLORB_STORE_NO_UNDO : BLORB_STORE_EDIT, 0);
    if (status == CARRIED_OUT)
        status = edit_contents(r, s, h, d);
    blorb_store_close(s);
    return status;
}

/* The data does not tell a type for this usage. */
static int say_untold(const request *r, const data *d)
{
    char why[WHY_SIZE], advice[ADVICE_SIZE];
    const kind *k = kind_of(d->held);
    int none = k != NULL && k->type == NULL && memcmp(r->usage, "Data", 4) != 0;
    if (none) {
        snprintf(why, sizeof why, "the data is %s, which no type of %.*s is for", k->what, tag_length(r->usage), r->usage);
        return say_cannot(shown_data(r), why, k->instead);
    }
    snprintf(why, sizeof why, "TYPE is left out, and the data does not tell it%s%s", k != NULL ? ": it is " : "", k != NULL ? k->what : "");
    int house = r->profile == BLORB_PLAIN && type_told(BLORB_ADRIFT, r->usage, d->held) != NULL;
    snprintf(advice, sizeof advice, "Give TYPE in front of DATAFILE. %s", types_of(r->usage));
    return say_cannot(shown_data(r), why, house ? USE_ADRIFT : advice);
}

/* Where TYPE is left out, the data has to tell it. */
static int settle_type(request *r, const data *d)
{
    if (r->type[0] != '\0')
        return CARRIED_OUT;
    const char *told = type_told(r->profile, r->usage, d->held);
    if (told == NULL)
        return say_untold(r, d);
    memcpy(r->type, told, sizeof r->type);
    return CARRIED_OUT;
}

static int edit_with_data(const request *asked, const change *h)
{
    data d;
    request r = *asked;
    if (r.type[0] == '\0' && strcmp(r.data, "-") != 0 && access(r.data, F_OK) != 0 && errno == ENOENT)
        return say_cannot(r.data, "there is no such data file", "Check the name. If this is the TYPE, DATAFILE is missing.");
    int status = load_data(&d, r.data);
    if (status == CARRIED_OUT)
        status = settle_type(&r, &d);
    if (status == CARRIED_OUT)
        status = edit(&r, h, &d);
    free(d.room);
    return status;
}

int run_add(const request *r)
{
    static const change adding = {call_add, "added"};
    return edit_with_data(r, &adding);
}

int run_replace(const request *r)
{
    static const change replacing = {call_replace, "replaced"};
    return edit_with_data(r, &replacing);
}

int run_remove(const request *r)
{
    static const change removing = {call_remove, "removed"};
    return edit(r, &removing, NULL);
}

int run_link(const request *r)
{
    static const change linking = {call_link, "linked"};
    return edit(r, &linking, NULL);
}

/* The edits that are to be taken back, written down for when they are. */
typedef struct taking {
    FILE *told;
    uint32_t left;
} taking;

static int note_edit(void *context, const blorb_store_edit *e)
{
    taking *t = context;
    tell_undone(t->told, e);
    return --t->left == 0;
}

/* All of them or none. */
static int undo_contents(const request *r, blorb_store *s, FILE *told)
{
    char what[80];
    uint64_t edits = blorb_store_edits(s);
    if (edits > 0 && edits < r->edits) {
        snprintf(what, sizeof what, "only %" PRIu64 " edit%s can be undone, not %" PRIu32, edits, plural(edits), r->edits);
        return say_refused_as(r->file, BLORB_NOTHING_TO_UNDO, what, "`blorb history FILE` lists what can be undone.");
    }
    blorb_store_answer a = {.error = BLORB_STORE_DONE};
    if (told != NULL)
        a = blorb_store_history(s, note_edit, &(taking){told, r->edits});
    if (a.error == BLORB_STORE_DONE)
        a = blorb_store_undo(s, r->edits);
    errno = a.system;
    if (a.error == BLORB_STORE_MEMORY)
        return say_failed(r->file, "the file cannot be edited");
    if (a.error > BLORB_STORE_MEMORY)
        return say_unusable(r->file, s, &a, 1);
    return a.error == BLORB_STORE_DONE ? save(r, s) : say_refused(r->file, a.error, a.place, "", NULL);
}

/* What was taken back is told once it is. */
int run_undo(const request *r)
{
    blorb_store *s;
    char *text = NULL;
    size_t length = 0;
    FILE *told = is_told(r) ? open_memstream(&text, &length) : NULL;
    int status = load_store(&s, r, BLORB_STORE_EDIT, 1);
    if (status == CARRIED_OUT)
        status = undo_contents(r, s, told);
    blorb_store_close(s);
    if (told != NULL && fclose(told) == 0 && status == CARRIED_OUT)
        fwrite(text, 1, length, stdout);
    free(text);
    return status;
}
