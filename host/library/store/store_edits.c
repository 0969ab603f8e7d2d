/* Edits in memory, taken back and listed. */
#define _XOPEN_SOURCE 700
#include "store.h"

#include <errno.h>
#include <stdlib.h>
#include <string.h>

#include "numbers.h"

int is_changed(const blorb_store *s)
{
    return s->changed || s->rewound || s->count > 0;
}

/* ---- edits */

/* What an edit is called with; each call takes of it what it needs. */
typedef struct arguments {
    const char *usage;
    uint32_t number;
    const char *type;
    bytes data;
    const char *new_usage;
    uint32_t new_number;
} arguments;

/* One edit of the library. Its record goes to `to`, which is large enough: no older one is needed there. */
typedef blorb_edit_answer call(blorb_store *s, uint8_t *to, size_t size, const arguments *a);

static blorb_edit_answer call_add(blorb_store *s, uint8_t *to, size_t size, const arguments *a)
{
    return blorb_add(s->file, BLORB_MAX_SIZE, s->length, to, size, 0, s->profile, a->usage, a->number, a->type, a->data.at, a->data.length);
}

static blorb_edit_answer call_replace(blorb_store *s, uint8_t *to, size_t size, const arguments *a)
{
    return blorb_replace(s->file, BLORB_MAX_SIZE, s->length, to, size, 0, s->profile, a->usage, a->number, a->type, a->data.at, a->data.length);
}

static blorb_edit_answer call_remove(blorb_store *s, uint8_t *to, size_t size, const arguments *a)
{
    return blorb_remove(s->file, BLORB_MAX_SIZE, s->length, to, size, 0, s->profile, a->usage, a->number);
}

static blorb_edit_answer call_link(blorb_store *s, uint8_t *to, size_t size, const arguments *a)
{
    return blorb_link(s->file, BLORB_MAX_SIZE, s->length, to, size, 0, s->profile, a->usage, a->number, a->new_usage, a->new_number);
}

/* Where the next record goes: behind the state of the last edit that is not saved. */
static size_t room_used(const blorb_store *s)
{
    const unsaved *last = s->count > 0 ? &s->edits[s->count - 1] : NULL;
    return last != NULL ? last->at + last->record + STATE_SIZE : 0;
}

/* Makes an array larger, at least twice as large. Gives 0, or -1 and errno, and the array is as it was. */
static int grow(void **array, size_t *size, size_t wanted, size_t each)
{
    size_t more = wanted > 2 * *size ? wanted : 2 * *size;
    if (wanted <= *size)
        return 0;
    void *larger = realloc(*array, more * each);
    if (larger == NULL)
        return -1;
    *array = larger;
    *size = more;
    return 0;
}

/* Room for one record more, as long as the whole file at most, with its state. */
static int make_room(blorb_store *s)
{
    void *room = s->room, *edits = s->edits;
    int grown = grow(&room, &s->room_size, room_used(s) + BLORB_RECORD_SIZE + s->length + STATE_SIZE, 1);
    s->room = room;
    if (grown == 0)
        grown = grow(&edits, &s->edits_size, s->count + 1, sizeof *s->edits);
    s->edits = edits;
    return grown;
}

static blorb_store_answer edit(blorb_store *s, call *carry_out, const arguments *a)
{
    blorb_store_answer ready = ready_to_edit(s);
    if (ready.error != BLORB_STORE_DONE)
        return ready;
    if (make_room(s) != 0)
        return failed_with(BLORB_STORE_MEMORY);
    size_t at = room_used(s);
    blorb_edit_answer made = carry_out(s, s->room + at, BLORB_RECORD_SIZE + s->length, a);
    if (made.refusal != BLORB_DONE)
        return refused_with(made.refusal, made.place);
    s->length = (size_t)made.length;
    if (s->how == BLORB_STORE_NO_UNDO)
        s->changed = 1;
    else
        s->edits[s->count++] = (unsaved){at, (size_t)made.used};
    return answer_done();
}

blorb_store_answer blorb_store_add(blorb_store *s, const char usage[4], uint32_t number, const char type[4], const uint8_t *data, size_t size)
{
    return edit(s, call_add, &(arguments){.usage = usage, .number = number, .type = type, .data = {data, size}});
}

blorb_store_answer blorb_store_replace(blorb_store *s, const char usage[4], uint32_t number, const char type[4], const uint8_t *data, size_t size)
{
    return edit(s, call_replace, &(arguments){.usage = usage, .number = number, .type = type, .data = {data, size}});
}

blorb_store_answer blorb_store_remove(blorb_store *s, const char usage[4], uint32_t number)
{
    return edit(s, call_remove, &(arguments){.usage = usage, .number = number});
}

blorb_store_answer blorb_store_link(blorb_store *s, const char usage[4], uint32_t number, const char new_usage[4], uint32_t new_number)
{
    return edit(s, call_link, &(arguments){.usage = usage, .number = number, .new_usage = new_usage, .new_number = new_number});
}

/* ---- undo */

/* Without undo there is no state that the edits stand on. */
static int has_base(const blorb_store *s)
{
    return s->loaded && s->how == BLORB_STORE_EDIT;
}

uint64_t blorb_store_edits(const blorb_store *s)
{
    return has_base(s) ? s->base.edits + s->count : 0;
}

static blorb_store_answer take_back(blorb_store *s, const uint8_t *record, size_t length)
{
    blorb_edit_answer a = blorb_undo(s->file, BLORB_MAX_SIZE, s->length, record, length, length, s->profile);
    s->length = (size_t)a.length;
    return refused_with(a.refusal, a.place);
}

/* Takes a saved edit back in memory, and moves on to the state below it. */
static blorb_store_answer undo_saved(blorb_store *s)
{
    uint8_t *record = NULL;
    state below = {0};
    journal_answer found = load_record(&s->j, &s->base, &record);
    if (found == JOURNAL_READY)
        found = load_below(&s->j, &s->base, &below);
    blorb_store_answer answer = journal_trouble(found);
    if (answer.error == BLORB_STORE_DONE)
        answer = take_back(s, record, (size_t)s->base.record_length);
    if (answer.error == BLORB_STORE_DONE) {
        s->base = below;
        s->rewound = 1;
    }
    free(record);
    return answer;
}

static blorb_store_answer undo_one(blorb_store *s)
{
    if (s->count == 0)
        return undo_saved(s);
    const unsaved *last = &s->edits[s->count - 1];
    blorb_store_answer answer = take_back(s, s->room + last->at, last->record);
    s->count -= answer.error == BLORB_STORE_DONE;
    return answer;
}

/* The file that undo has led to is the one that its state names, if that names one. */
static int is_as_named(const blorb_store *s)
{
    if (s->count > 0 || s->base.file.length == 0)
        return 1;
    file_id id = id_of(s->file, s->length);
    return same_file(&s->base.file, &id);
}

static blorb_store_answer undo_all(blorb_store *s, uint64_t edits)
{
    blorb_store_answer answer = answer_done();
    for (uint64_t i = 0; i < edits && answer.error == BLORB_STORE_DONE; i++)
        answer = undo_one(s);
    if (answer.error == BLORB_STORE_DONE && !is_as_named(s))
        answer = failed_without(BLORB_STORE_JOURNAL_DAMAGED);
    return answer;
}

/* All of them or none. The edits that are not saved lose nothing but their count, so that brings them back too. */
blorb_store_answer blorb_store_undo(blorb_store *s, uint64_t edits)
{
    blorb_store_answer answer = ready_to_edit(s);
    if (answer.error != BLORB_STORE_DONE || edits == 0)
        return answer;
    if (edits > blorb_store_edits(s))
        return refused_with(BLORB_NOTHING_TO_UNDO, 0);
    const blorb_store before = *s;
    uint8_t *file = malloc(s->length);
    if (file == NULL)
        return failed_with(BLORB_STORE_MEMORY);
    memcpy(file, s->file, s->length);
    answer = undo_all(s, edits);
    if (answer.error != BLORB_STORE_DONE) {
        s->length = before.length;
        s->base = before.base;
        s->rewound = before.rewound;
        s->count = before.count;
        memcpy(s->file, file, s->length);
    }
    free(file);
    return answer;
}

/* ---- history */

static blorb_store_edit edit_of(const uint8_t record[RECORD_HEAD_SIZE], int saved)
{
    enum { USAGE_AT = 1, NUMBER_AT = 5, TYPE_AT = 17, LENGTH_AT = 21 };
    blorb_store_edit e = {.kind = record[0], .number = number_in(record + NUMBER_AT), .length = number_in(record + LENGTH_AT), .saved = saved};
    memcpy(e.usage, record + USAGE_AT, sizeof e.usage);
    memcpy(e.type, record + TYPE_AT, sizeof e.type);
    return e;
}

static blorb_store_answer visit_saved(const blorb_store *s, state at, blorb_store_visit *visit, void *context)
{
    journal_answer answer = JOURNAL_READY;
    int ended = 0;
    while (at.edits > 0 && answer == JOURNAL_READY && !ended) {
        uint8_t head[RECORD_HEAD_SIZE];
        state from = at;
        answer = load_record_head(&s->j, &from, head);
        if (answer == JOURNAL_READY) {
            blorb_store_edit e = edit_of(head, 1);
            ended = visit(context, &e);
            answer = load_below(&s->j, &from, &at);
        }
    }
    return ended ? answer_done() : journal_trouble(answer);
}

/* What was done under another profile can be looked at, too. */
static blorb_store_answer find_history(blorb_store *s)
{
    if (!s->loaded)
        return failed_without(BLORB_STORE_NOT_LOADED);
    if (s->how == BLORB_STORE_LOOK)
        s->on_disk = id_of(s->file, s->length);
    find_journal(s);
    return s->how == BLORB_STORE_LOOK && knows_file(s->found) ? answer_done() : journal_trouble(s->found);
}

blorb_store_answer blorb_store_history(blorb_store *s, blorb_store_visit *visit, void *context)
{
    blorb_store_answer answer = find_history(s);
    if (answer.error != BLORB_STORE_DONE)
        return answer;
    for (size_t i = s->count; i > 0; i--) {
        blorb_store_edit e = edit_of(s->room + s->edits[i - 1].at, 0);
        if (visit(context, &e) != 0)
            return answer;
    }
    return visit_saved(s, s->how == BLORB_STORE_EDIT ? s->base : s->j.now, visit, context);
}
