/* pack: a whole file from a list, by the library's own edits in memory, and stored once. */
#define _XOPEN_SOURCE 700
#include <errno.h>
#include <inttypes.h>
#include <stdio.h>
#include <stdlib.h>
#include <string.h>
#include <sys/stat.h>
#include <unistd.h>

#include "blorb.h"
#include "commands.h"
#include "contents.h"
#include "describing.h"
#include "files.h"
#include "kinds.h"
#include "lists.h"
#include "overview.h"
#include "progress.h"
#include "stories.h"
#include "store.h"
#include "stores.h"
#include "table_file.h"
#include "warnings.h"
#include "words.h"

typedef struct packing {
    const request *r;
    items list;
    contents c; /* the file so far */
    size_t others; /* chunks that are no resources */
} packing;

/* ---- messages: of the list, with the line */

enum { ABOUT_SIZE = 2 * PAIR_SIZE + SHOWN_SIZE + 40 };

static void tell_item(const item *it, char about[ABOUT_SIZE])
{
    char pair[PAIR_SIZE], new_pair[PAIR_SIZE], type[SHOWN_SIZE];
    show_pair(it->usage, it->number, pair);
    show_pair(it->new_usage, it->new_number, new_pair);
    show_tag(it->type, type);
    if (it->kind == ADD_RESOURCE)
        snprintf(about, ABOUT_SIZE, "line %zu, %s %s", it->line, pair, type);
    else if (it->kind == LINK_RESOURCE)
        snprintf(about, ABOUT_SIZE, "line %zu, %s as %s", it->line, pair, new_pair);
    else
        snprintf(about, ABOUT_SIZE, "line %zu, chunk %s", it->line, type);
}

/* What to do where the usual advice speaks of a file that others have packed; null where that is right. */
static const char *list_advice(uint64_t refusal)
{
    switch (refusal) {
    case BLORB_SECOND_INDEX:
        return "The index is made by itself: leave the line out.";
    case BLORB_SECOND_OPTIONAL:
        return "Give one release and one cover.";
    case BLORB_OPTIONAL_LENGTH:
        return "Use the lines `release NUMBER` and `cover NUMBER`, which make these chunks.";
    case BLORB_FRONTISPIECE:
        return "Give the number of a picture in the list that is no Rect.";
    case BLORB_RESULT_REPEATED:
        return "Give each resource one line, and another number.";
    case BLORB_NOT_THERE:
        return "A link stands behind the line of its resource.";
    default:
        return NULL;
    }
}

static int refused_item(const packing *p, const item *it, uint64_t refusal, uint64_t place)
{
    char about[ABOUT_SIZE];
    tell_item(it, about);
    return say_refused(p->r->data, refusal, place, about, list_advice(refusal));
}

/* The same of a resource: what helps may depend on its data. */
static int refused_resource(const packing *p, const item *it, const blorb_edit_answer *a, const data *d)
{
    char about[ABOUT_SIZE], advice[ADVICE_SIZE];
    tell_item(it, about);
    int wrong_type = a->refusal == BLORB_RESULT_TYPE;
    if ((a->refusal == BLORB_WHOLE_FORM || wrong_type) && memcmp(it->type, "FORM", 4) == 0 && !d->is_cut && aiff_advice(d->held, advice))
        return say_refused(p->r->data, a->refusal, a->place, about, advice);
    if (wrong_type && p->r->profile == BLORB_PLAIN && only_adrift(it->usage, it->type))
        return say_refused(p->r->data, a->refusal, a->place, about, USE_ADRIFT);
    return say_refused(p->r->data, a->refusal, a->place, about, wrong_type ? types_of(it->usage) : list_advice(a->refusal));
}

static int say_of_line(const packing *p, const item *it, const char *why, const char *advice)
{
    char whole[WHY_SIZE + 280];
    snprintf(whole, sizeof whole, "line %zu, %.240s: %s", it->line, it->path, why);
    return say_cannot(p->r->data, whole, advice);
}

/* ---- parts */

/* Where TYPE is left out, the data has to tell it. */
static int settle_type(const packing *p, item *it, const data *d)
{
    if (it->type[0] != '\0')
        return CARRIED_OUT;
    const char *told = type_told(p->r->profile, it->usage, d->held);
    if (told != NULL) {
        memcpy(it->type, told, sizeof it->type);
        return CARRIED_OUT;
    }
    char why[WHY_SIZE], advice[ADVICE_SIZE];
    const kind *k = kind_of(d->held);
    snprintf(why, sizeof why, "TYPE is left out, and the data does not tell it%s%s", k != NULL ? ": it is " : "", k != NULL ? k->what : "");
    int house = p->r->profile == BLORB_PLAIN && type_told(BLORB_ADRIFT, it->usage, d->held) != NULL;
    snprintf(advice, sizeof advice, "Give TYPE in front of FILE. %s", types_of(it->usage));
    return say_of_line(p, it, why, house ? USE_ADRIFT : k != NULL && k->instead != NULL ? k->instead : advice);
}

/* No edit needs an older record, so each one is written over the last. */
static int add_resource(packing *p, item *it, const data *d)
{
    uint8_t record[BLORB_RECORD_SIZE];
    char why[WHY_SIZE];
    int status = settle_type(p, it, d);
    if (status != CARRIED_OUT)
        return status;
    blorb_edit_answer a = blorb_add(p->c.file, BLORB_MAX_SIZE, p->c.length, record, sizeof record, 0, p->r->profile, it->usage, it->number, it->type,
                                    d->held.at, d->held.length);
    if (a.refusal != BLORB_DONE)
        return refused_resource(p, it, &a, d);
    p->c.length = (size_t)a.length;
    if (!p->r->as_is && contradicts(it->type, d->held, why))
        return say_of_line(p, it, why, "Check the name and TYPE; TYPE can be left out where the data tells it. --as-is puts the data in as it is.");
    return CARRIED_OUT;
}

static int link_resource(packing *p, const item *it)
{
    uint8_t record[BLORB_RECORD_SIZE];
    blorb_edit_answer a = blorb_link(p->c.file, BLORB_MAX_SIZE, p->c.length, record, sizeof record, 0, p->r->profile, it->usage, it->number,
                                     it->new_usage, it->new_number);
    if (a.refusal != BLORB_DONE)
        return refused_item(p, it, a.refusal, a.place);
    p->c.length = (size_t)a.length;
    return CARRIED_OUT;
}

/*
 * A chunk that is no resource, at the file's end. Its type is a number until all parts are in, so that no rule speaks of it: 'Fspc' may stand
 * before its picture. Gives 0, or -1 where the file would be too long.
 */
static int append_chunk(contents *c, uint32_t type, bytes held)
{
    size_t length = BLORB_HEADER_SIZE + held.length + held.length % 2;
    if (length > BLORB_MAX_SIZE - c->length)
        return -1;
    uint8_t *at = c->file + c->length;
    number_to(at, type);
    number_to(at + 4, (uint32_t)held.length);
    if (held.length > 0)
        memcpy(at + BLORB_HEADER_SIZE, held.at, held.length);
    if (held.length % 2 == 1)
        at[length - 1] = 0;
    c->length += length;
    number_to(c->file + 4, (uint32_t)(c->length - BLORB_HEADER_SIZE));
    return 0;
}

static int put_chunk(packing *p, const item *it, bytes held)
{
    if (append_chunk(&p->c, (uint32_t)p->others++, held) != 0)
        return refused_item(p, it, BLORB_RESULT_TOO_LONG, 0);
    return CARRIED_OUT;
}

/* OUT may not be one of the files that it is made of, by the same file or, as on a card, by its name in other cases. */
static int refuse_out(const packing *p, const char *path)
{
    struct stat out, read;
    int same = stat(p->r->file, &out) == 0 && stat(path, &read) == 0 && out.st_dev == read.st_dev && out.st_ino == read.st_ino && S_ISREG(out.st_mode);
    return same || is_same_but_for_case(p->r->file, path) ? say_cannot(p->r->file, "OUT is the list itself, or one of its files", "Give another name.") : CARRIED_OUT;
}

static int load_part(const packing *p, const item *it, data *d)
{
    *d = (data){0};
    if (it->path == NULL) {
        d->held = (bytes){it->made, it->length};
        return CARRIED_OUT;
    }
    if (is_temporary(it->path))
        return say_of_line(p, it, "names that end in .blorb-temp are this program's own", "Rename the file first.");
    int status = refuse_out(p, it->path);
    if (status != CARRIED_OUT)
        return status;
    return it->kind == PUT_TEXTS ? load_texts(it->path, d) : load_data(d, it->path);
}

static int pack_part(packing *p, item *it)
{
    data d = {0};
    uint8_t identity[IDENTITY_SIZE];
    if (it->kind == LINK_RESOURCE)
        return link_resource(p, it);
    int status = load_part(p, it, &d);
    if (status == CARRIED_OUT && it->kind == ADD_RESOURCE) {
        status = add_resource(p, it, &d);
    } else if (status == CARRIED_OUT) {
        bytes held = it->kind == PUT_IDENTITY ? identity_of(d.held, identity) : d.held;
        status = held.length == 0 && it->kind == PUT_IDENTITY
            ? say_of_line(p, it, "this is no story of the Z-machine or Glulx, and only these can be told without being included", "Write include behind it.")
            : put_chunk(p, it, held);
    }
    free(d.room);
    return status;
}

/* ---- the whole */

/* Each item but a link is a chunk, in order: those that are no resources get their types. Gives the item whose chunk has this place in it. */
static const item *give_types(packing *p, uint64_t place)
{
    const item *found = NULL;
    uint32_t at = next_chunk(&p->c, FIRST_CHUNK);
    for (size_t i = 0; i < p->list.count; i++) {
        const item *it = &p->list.at[i];
        if (it->kind == LINK_RESOURCE)
            continue;
        if (it->kind != ADD_RESOURCE)
            memcpy(p->c.file + at, it->type, sizeof it->type);
        if (place >= at)
            found = it;
        at = next_chunk(&p->c, at);
    }
    return found;
}

/* What the library says of the file as it will be. */
static int judge(packing *p)
{
    give_types(p, 0);
    p->c.read = blorb_read(p->c.file, p->c.length, p->r->profile);
    p->c.profile = p->r->profile;
    if (p->c.read.refusal == BLORB_DONE)
        return CARRIED_OUT;
    const item *it = give_types(p, p->c.read.place);
    return it == NULL ? say_refused_contents(&p->c, p->r->data) : refused_item(p, it, p->c.read.refusal, p->c.read.place);
}

static int pack_parts(packing *p)
{
    progress shown;
    int status = CARRIED_OUT;
    p->c.file = malloc(BLORB_MAX_SIZE + 1);
    if (p->c.file == NULL)
        return say_failed(p->r->data, "the file cannot be packed");
    p->c.length = (size_t)blorb_blank(p->c.file, BLORB_MAX_SIZE).length;
    begin_progress(&shown, "packing", p->list.count);
    for (size_t i = 0; i < p->list.count && status == CARRIED_OUT; i++) {
        show_progress(&shown, i);
        status = pack_part(p, &p->list.at[i]);
        if (status != CARRIED_OUT)
            end_progress(&shown);
    }
    end_progress(&shown);
    return status == CARRIED_OUT ? judge(p) : status;
}

/* Over an older file, with the finding table that stands beside it. */
static int replace_older(const packing *p, const place *at, const struct stat *older)
{
    bytes held = {p->c.file, p->c.length};
    const char *old = "the file is as it was, since the new one cannot be written";
    int keeps_table = table_stands(at);
    if (keeps_table < 0 || (keeps_table && stage_table(at, held, p->r->profile, older) != 0))
        return say_stored(p->r->file, OLD_IN_PLACE, old);
    in_place answer = replace_file(at, held, older);
    int error = errno;
    blorb_store_answer table = came_of(keeps_table ? settle_table(at, answer) : NEW_IN_PLACE, BLORB_STORE_TABLE_OLD, BLORB_STORE_TABLE_UNCONFIRMED);
    int settled = say_table(at->table_path, &table);
    errno = error;
    int status = say_stored(p->r->file, answer, old);
    return status == CARRIED_OUT ? settled : status;
}

static int store(const packing *p)
{
    place at;
    struct stat older;
    if (!p->r->force || stat(p->r->file, &older) != 0)
        return begin_file(p->r->file, (bytes){p->c.file, p->c.length});
    int status = open_place(&at, p->r->file) == 0 ? may_begin(p->r->file, &at, 1) : say_failed(p->r->file, "the file cannot be reached");
    if (status == CARRIED_OUT && !S_ISREG(older.st_mode))
        status = say_cannot(p->r->file, "this is not a plain file", "Give another name.");
    else if (status == CARRIED_OUT && access(p->r->file, W_OK) != 0)
        status = say_failed(p->r->file, "the file may not be overwritten");
    else if (status == CARRIED_OUT)
        status = replace_older(p, &at, &older);
    close_place(&at);
    return status;
}

/* Names that a Blurb script gives to numbers, as Inform takes them. */
static void print_constants(const items *list)
{
    for (size_t i = 0; i < list->count; i++)
        if (list->at[i].constant != NULL) {
            const char *name = list->at[i].constant;
            fputs("Constant ", stdout);
            print_shown(stdout, (bytes){(const uint8_t *)name, strlen(name)});
            printf(" = %" PRIu32 ";\n", list->at[i].number);
        }
}

static int pack(packing *p)
{
    int status = pack_parts(p);
    if (status == CARRIED_OUT)
        status = store(p);
    if (status != CARRIED_OUT)
        return status;
    print_constants(&p->list);
    printf("packed %" PRIu64 " resource%s and %zu other chunk%s, %" PRIu64 " bytes\n", p->c.read.count, plural(p->c.read.count), p->others,
           plural(p->others), p->c.read.length);
    warn_of(&p->c, p->r->file);
    return CARRIED_OUT;
}

int run_pack(const request *r)
{
    packing p = {.r = r};
    data d;
    int status = refuse_out(&p, r->data);
    if (status != CARRIED_OUT)
        return status;
    status = load_data(&d, r->data);
    if (status == CARRIED_OUT && d.is_cut)
        status = say_cannot(r->data, "the list is longer than any file may be", "Check the name.");
    if (status == CARRIED_OUT)
        status = read_items(r->data, d.held, &p.list);
    if (status == CARRIED_OUT)
        status = pack(&p);
    free_items(&p.list);
    free_contents(&p.c);
    free(d.room);
    return status;
}
