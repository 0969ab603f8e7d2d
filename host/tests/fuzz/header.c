/*
 * A target for libFuzzer over the calls of blorb.h. The input is a file and a list of calls on it; each call's promises are checked, and a broken one
 * ends the run.
 *
 * The archive is not compiled for libFuzzer, so it has no counters of its own. What guides the fuzzer are the answers: each pair of a call and a
 * refusal, and the sizes of what was accepted, count as places that an input has reached.
 */
#include <stdio.h>
#include <stdlib.h>
#include <string.h>

#include "blorb.h"

enum { ROOM = 4096, SLACK = 64, CALLS = 16, ANSWERS = 160, SIZES = 64, GUARD = 0xa5 };

__attribute__((section("__libfuzzer_extra_counters"))) static uint8_t reached[CALLS * ANSWERS + SIZES];

/* The same for the whole run: how many pairs of a call and a refusal were seen is told at the end. */
static uint8_t seen[CALLS * ANSWERS];

static void tell(void)
{
    int pairs = 0;
    for (size_t i = 0; i < sizeof seen; i++)
        pairs += seen[i];
    fprintf(stderr, "fuzz: %d pairs of a call and an answer seen\n", pairs);
}

static void broken(const char *promise)
{
    fprintf(stderr, "fuzz: a promise is broken: %s\n", promise);
    abort();
}

static void hold(int right, const char *promise)
{
    if (!right)
        broken(promise);
}

enum { READ, ENTRY, LOOKUP, BUILD, CHECK, SEARCH, FORMS, PICK, AIFF, SCALED, TEXT, TEXT_OF, WRITE, EDIT, UNDO, COLUMNS };

static void note(int call, uint64_t refusal)
{
    size_t at = refusal < ANSWERS ? (size_t)refusal : ANSWERS - 1;
    reached[call * ANSWERS + (int)at]++;
    seen[call * ANSWERS + (int)at] = 1;
    hold(refusal < ANSWERS, "a refusal is one of the header's numbers");
    hold(strcmp(blorb_sentence(refusal), blorb_sentence(UINT64_MAX)) != 0, "every refusal has its sentence");
}

/* ---- the input, taken byte by byte */

typedef struct {
    const uint8_t *at;
    size_t left;
} input;

static uint8_t byte_of(input *in)
{
    if (in->left == 0)
        return 0;
    in->left--;
    return *in->at++;
}

static uint32_t small_number(input *in)
{
    uint8_t b = byte_of(in);
    return b < 250 ? b % 8 : (uint32_t)b << 24 | byte_of(in);
}

static const char *one_of(input *in, const char *const *names, size_t count)
{
    return names[byte_of(in) % count];
}

static const char *usage_of(input *in)
{
    static const char *const names[] = {BLORB_USAGE_PICT, BLORB_USAGE_SND, BLORB_USAGE_DATA, BLORB_USAGE_EXEC, "Junk"};
    return one_of(in, names, 5);
}

static const char *type_of(input *in)
{
    static const char *const names[] = {BLORB_TYPE_PNG, BLORB_TYPE_RECT, BLORB_TYPE_FORM, BLORB_TYPE_MOD,  BLORB_TYPE_TEXT,
                                        BLORB_TYPE_BINA, BLORB_TYPE_ZCOD, BLORB_TYPE_GIF,  BLORB_TYPE_MP3, "RIdx"};
    return one_of(in, names, 10);
}

/* ---- calls that only read */

static void read_all(const uint8_t *file, size_t size, uint32_t profile)
{
    blorb_read_answer r = blorb_read(file, size, profile);
    note(READ, r.refusal);
    hold(r.refusal != BLORB_DONE ? r.length == 0 && r.count == 0 : r.length == size && r.count <= BLORB_MAX_ENTRIES, "read: length and count");
    if (r.refusal == BLORB_DONE)
        reached[CALLS * ANSWERS + (r.count < SIZES ? (int)r.count : SIZES - 1)]++;
    for (uint64_t i = 0; i <= r.count && i < 20; i++) {
        blorb_entry_answer e = blorb_entry(file, size, profile, (size_t)i);
        note(ENTRY, e.refusal);
        hold((e.refusal == BLORB_DONE) == (r.refusal == BLORB_DONE && i < r.count), "entry: just those of the index");
        if (e.refusal != BLORB_DONE)
            continue;
        char usage[5];
        blorb_lookup_answer l = blorb_lookup(file, size, profile, blorb_tag_text(e.usage, usage), e.number);
        note(LOOKUP, l.refusal);
        hold(l.refusal == BLORB_DONE && l.start + l.length <= size, "lookup: an entry's resource is within the file");
    }
}

static void look(const uint8_t *file, size_t size, uint32_t profile, input *in)
{
    const char *usage = usage_of(in);
    uint32_t number = small_number(in), rows[3 * 64], columns[3 * 64];
    blorb_lookup_answer l = blorb_lookup(file, size, profile, usage, number);
    note(LOOKUP, l.refusal);
    size_t room = byte_of(in) % (3 * 64 + 1);
    blorb_build_answer b = blorb_table_build(file, size, profile, rows, room);
    note(BUILD, b.refusal);
    if (b.refusal == BLORB_DONE) {
        size_t numbers = (size_t)b.rows * BLORB_ROW_NUMBERS;
        note(CHECK, blorb_table_check(file, size, profile, rows, numbers).refusal);
        hold(blorb_table_check(file, size, profile, rows, numbers).refusal == BLORB_DONE, "table: what was built is accepted");
        blorb_search_answer s = blorb_table_search(rows, numbers, usage, number);
        note(SEARCH, s.refusal);
        hold(s.refusal == l.refusal && s.probes <= 13, "table: a search answers as the lookup");
        note(COLUMNS, blorb_table_to_columns(rows, numbers, columns, numbers).refusal);
        hold(blorb_columns_check(file, size, profile, columns, numbers).refusal == BLORB_DONE, "columns: the table turned is accepted");
        hold(blorb_columns_search(columns, numbers, usage, number).start == s.start, "columns: a search answers as in rows");
    }
}

static void read_parts(const uint8_t *file, size_t size, uint32_t profile, input *in)
{
    uint32_t rows[4 * 16];
    blorb_build_answer forms = blorb_forms_list(file, size, rows, sizeof rows / sizeof *rows);
    note(FORMS, forms.refusal);
    size_t i = small_number(in);
    blorb_pick_answer picked = blorb_forms_pick(file, size, i);
    note(PICK, picked.refusal);
    hold(picked.refusal != BLORB_DONE || picked.start + picked.length <= size, "pick: the FORM is within the file");
    hold(forms.refusal != BLORB_DONE || (picked.refusal == BLORB_DONE) == (i < forms.rows), "pick: just the FORMs of the list");
    note(AIFF, blorb_aiff_length(file, size).refusal);
    note(SCALED, blorb_scaled(file, size, profile, byte_of(in), byte_of(in), small_number(in), byte_of(in), byte_of(in)).refusal);
    blorb_text_answer text = blorb_text(file, size, profile, small_number(in));
    note(TEXT, text.refusal);
    hold(text.refusal != BLORB_DONE || text.start + text.length <= size, "text: within the file");
    note(TEXT_OF, blorb_text_of(file, size, profile, usage_of(in), small_number(in)).refusal);
}

static void write_texts(input *in)
{
    uint8_t buffer[256];
    uint32_t rows[4 * 8];
    size_t numbers = byte_of(in) % (4 * 8), room = byte_of(in);
    for (size_t i = 0; i < numbers; i++)
        rows[i] = i % 4 == 0 ? BLORB_PICT : byte_of(in) % 32;
    memset(buffer, GUARD, sizeof buffer);
    blorb_write_answer w = blorb_texts_write(rows, numbers, in->at, in->left, buffer, room);
    note(WRITE, w.refusal);
    for (size_t i = w.refusal == BLORB_DONE ? (size_t)w.length : 0; i < sizeof buffer; i++)
        hold(buffer[i] == GUARD, "texts: nothing is written behind the chunk, nor where the call is refused");
}

/* ---- edits */

typedef struct {
    uint8_t file[ROOM + SLACK], journal[ROOM + SLACK];
    size_t length;
} state;

/* One edit. Refused it has changed nothing; carried out the file is accepted, and its undo gives the old file back. */
static void edit(blorb_editor *e, input *in)
{
    static state before, after;
    memcpy(before.file, e->file, ROOM);
    memcpy(before.journal, e->journal, ROOM);
    size_t length = e->length, used = e->used, size = byte_of(in) % 48u, call = byte_of(in) % 4u;
    const char *usage = usage_of(in), *type = type_of(in);
    uint32_t number = small_number(in);
    size = size < in->left ? size : in->left;
    blorb_edit_answer a = call == 0   ? blorb_editor_add(e, usage, number, type, in->at, size)
                          : call == 1 ? blorb_editor_replace(e, usage, number, type, in->at, size)
                          : call == 2 ? blorb_editor_remove(e, usage, number)
                                      : blorb_editor_link(e, usage, number, usage_of(in), small_number(in));
    note(EDIT, a.refusal);
    if (a.refusal != BLORB_DONE) {
        hold(e->length == length && e->used == used, "edit: a refused one hands back the lengths given");
        hold(memcmp(before.file, e->file, ROOM) == 0 && memcmp(before.journal, e->journal, ROOM) == 0, "edit: a refused one has written nothing");
        return;
    }
    hold(blorb_editor_read(e).refusal == BLORB_DONE, "edit: the new file is accepted");
    memcpy(after.file, e->file, ROOM);
    after.length = e->length;
    size_t after_used = e->used;
    if (call < 2) {
        blorb_lookup_answer l = blorb_editor_lookup(e, usage, number);
        hold(l.refusal == BLORB_DONE && l.length == size && (size == 0 || memcmp(e->file + l.start, in->at, size) == 0), "edit: what was put in reads back");
    }
    hold(blorb_editor_undo(e).refusal == BLORB_DONE && e->length == length && e->used == used, "undo: of the last edit");
    hold(memcmp(e->file, before.file, length) == 0, "undo: the file before, byte for byte");
    memcpy(e->file, after.file, ROOM);
    e->length = after.length;
    e->used = after_used;
}

static void undo_once(blorb_editor *e)
{
    size_t used = e->used;
    blorb_edit_answer a = blorb_editor_undo(e);
    note(UNDO, a.refusal);
    hold(a.refusal == BLORB_DONE ? e->used < used : e->used == used, "undo: takes its record away, or nothing");
}

/* ---- one input */

/* The head and the length of a file, so that what stands behind them is looked at. */
static void mend_head(uint8_t *file, size_t length)
{
    if (length < 12)
        return;
    uint32_t n = (uint32_t)(length - 8);
    memcpy(file, "FORM", 4);
    memcpy(file + 8, "IFRS", 4);
    for (int i = 0; i < 4; i++)
        file[4 + i] = (uint8_t)(n >> (24 - 8 * i));
}

int LLVMFuzzerInitialize(int *words, char ***word);
int LLVMFuzzerInitialize(int *words, char ***word)
{
    (void)words;
    (void)word;
    return atexit(tell);
}

int LLVMFuzzerTestOneInput(const uint8_t *data, size_t size);
int LLVMFuzzerTestOneInput(const uint8_t *data, size_t size)
{
    static state s;
    input in = {data, size};
    uint8_t how = byte_of(&in);
    uint32_t profile = how % 16 == 15 ? how : how & 1u;
    size_t length = (size_t)byte_of(&in) * 4;
    length = length < in.left ? length : in.left;
    memset(&s, GUARD, sizeof s);
    memcpy(s.file, in.at, length);
    in.at += length;
    in.left -= length;
    if (how & 2u)
        mend_head(s.file, length);
    read_all(s.file, length, profile);
    look(s.file, length, profile, &in);
    read_parts(s.file, length, profile, &in);
    write_texts(&in);
    blorb_editor e;
    /* A journal that the fuzzer has written, or none. */
    size_t used = how & 4u ? byte_of(&in) % 64u : 0;
    used = used < in.left ? used : in.left;
    memcpy(s.journal, in.at, used);
    in.at += used;
    in.left -= used;
    if (how & 8u)
        blorb_editor_blank(&e, s.file, ROOM, s.journal, ROOM, profile);
    else
        blorb_editor_resume(&e, s.file, ROOM, length, s.journal, ROOM, used, profile);
    for (int steps = 0; in.left > 0 && steps < 12; steps++) {
        if (byte_of(&in) % 4 == 3)
            undo_once(&e);
        else
            edit(&e, &in);
    }
    for (size_t i = ROOM; i < ROOM + SLACK; i++)
        hold(s.file[i] == GUARD && s.journal[i] == GUARD, "no byte behind a buffer is written");
    return 0;
}
