/*
 * The functions over blorb_editor, against the plain calls on buffers of their own: after each step answers, lengths and all bytes are the same.
 * The same text is compiled as C99, as C11 and as C++.
 */
#include <stdbool.h>
#include <stdio.h>
#include <stdlib.h>
#include <string.h>

#include "blorb.h"

enum { ROOM = 200, JOURNAL = 160, NUMBERS = 12 };

/* Two of each: [0] is the editor's, [1] that of the plain calls. */
static uint8_t file[2][ROOM], journal[2][JOURNAL];
static size_t length, used; /* of the plain calls */
static uint32_t table[2][NUMBERS];
static unsigned long checks;

static void expect(int right, const char *what)
{
    checks++;
    if (right)
        return;
    printf("editor: FAILED: %s\n", what);
    exit(1);
}

static void fill(void)
{
    memset(file, 0xee, sizeof file);
    memset(journal, 0xdd, sizeof journal);
    memset(table, 0xcc, sizeof table);
}

/* The answer of an edit or undo is that of the plain call, both have left the same bytes, and the editor goes on with what was handed back. */
static void same(const blorb_editor *e, blorb_edit_answer a, blorb_edit_answer b, uint64_t refusal, const char *what)
{
    expect(a.refusal == refusal && b.refusal == refusal && a.place == b.place && a.length == b.length && a.used == b.used, what);
    expect(e->length == a.length && e->used == a.used, "the lengths are stored");
    expect(memcmp(file[0], file[1], ROOM) == 0 && memcmp(journal[0], journal[1], JOURNAL) == 0, "the bytes are the same");
    expect(e->file == file[0] && e->size == ROOM && e->journal == journal[0] && e->journal_size == JOURNAL, "the buffers stay");
    length = (size_t)b.length;
    used = (size_t)b.used;
}

static void add(blorb_editor *e, const char *usage, uint32_t number, const char *type, const char *data, uint64_t refusal)
{
    const uint8_t *d = (const uint8_t *)data;
    same(e, blorb_editor_add(e, usage, number, type, d, strlen(data)),
         blorb_add(file[1], ROOM, length, journal[1], JOURNAL, used, e->profile, usage, number, type, d, strlen(data)), refusal, "add");
}

static void replace(blorb_editor *e, const char *usage, uint32_t number, const char *type, const char *data, uint64_t refusal)
{
    const uint8_t *d = (const uint8_t *)data;
    same(e, blorb_editor_replace(e, usage, number, type, d, strlen(data)),
         blorb_replace(file[1], ROOM, length, journal[1], JOURNAL, used, e->profile, usage, number, type, d, strlen(data)), refusal,
         "replace");
}

static void removal(blorb_editor *e, const char *usage, uint32_t number, uint64_t refusal)
{
    same(e, blorb_editor_remove(e, usage, number),
         blorb_remove(file[1], ROOM, length, journal[1], JOURNAL, used, e->profile, usage, number), refusal, "remove");
}

static void linking(blorb_editor *e, const char *usage, uint32_t number, const char *new_usage, uint32_t new_number, uint64_t refusal)
{
    same(e, blorb_editor_link(e, usage, number, new_usage, new_number),
         blorb_link(file[1], ROOM, length, journal[1], JOURNAL, used, e->profile, usage, number, new_usage, new_number), refusal, "link");
}

static void undo(blorb_editor *e, uint64_t refusal)
{
    same(e, blorb_editor_undo(e), blorb_undo(file[1], ROOM, length, journal[1], JOURNAL, used, e->profile), refusal, "undo");
}

static bool same_text(blorb_text_answer a, blorb_text_answer b)
{
    return a.refusal == b.refusal && a.place == b.place && a.usage == b.usage && a.number == b.number && a.start == b.start && a.length == b.length;
}

static void columns_scaled_texts(const blorb_editor *e, const char *usage, uint32_t number, size_t rows)
{
    uint32_t columns[NUMBERS];
    blorb_table_to_columns(table[1], 3 * rows, columns, NUMBERS);
    blorb_check_answer a = blorb_editor_columns_check(e, columns, 3 * rows), b = blorb_columns_check(file[1], length, e->profile, columns, 3 * rows);
    expect(a.refusal == b.refusal && a.place == b.place, "columns check");
    blorb_scaled_answer c = blorb_editor_scaled(e, 600, 400, number, 60, 40), d = blorb_scaled(file[1], length, e->profile, 600, 400, number, 60, 40);
    expect(c.refusal == d.refusal && c.place == d.place && c.width == d.width && c.height == d.height, "scaled");
    expect(same_text(blorb_editor_text(e, 0), blorb_text(file[1], length, e->profile, 0)), "text");
    expect(same_text(blorb_editor_text_of(e, usage, number), blorb_text_of(file[1], length, e->profile, usage, number)), "text of");
}

/* The calls that only read: on the file of the plain calls, which has the same bytes. */
static void reads(const blorb_editor *e, const char *usage, uint32_t number)
{
    blorb_read_answer r = blorb_editor_read(e), s = blorb_read(file[1], length, e->profile);
    expect(r.refusal == s.refusal && r.place == s.place && r.length == s.length && r.count == s.count, "read");
    blorb_entry_answer f = blorb_editor_entry(e, 1), g = blorb_entry(file[1], length, e->profile, 1);
    expect(f.refusal == g.refusal && f.place == g.place && f.usage == g.usage && f.number == g.number && f.start == g.start, "entry");
    blorb_lookup_answer k = blorb_editor_lookup(e, usage, number), l = blorb_lookup(file[1], length, e->profile, usage, number);
    expect(k.refusal == l.refusal && k.place == l.place && k.type == l.type && k.start == l.start && k.length == l.length, "lookup");
    blorb_build_answer b = blorb_editor_table_build(e, table[0], NUMBERS);
    blorb_build_answer c = blorb_table_build(file[1], length, e->profile, table[1], NUMBERS);
    expect(b.refusal == c.refusal && b.place == c.place && b.rows == c.rows && memcmp(table[0], table[1], sizeof table[0]) == 0, "build");
    blorb_check_answer m = blorb_editor_table_check(e, table[0], 3 * (size_t)b.rows);
    blorb_check_answer n = blorb_table_check(file[1], length, e->profile, table[1], 3 * (size_t)c.rows);
    expect(m.refusal == n.refusal && m.place == n.place && (b.refusal != 0 || m.refusal == 0), "check");
    columns_scaled_texts(e, usage, number, (size_t)b.rows);
}

/* A run from the blank file to three resources and back. */
static void run(uint32_t profile)
{
    blorb_editor e;
    uint64_t only_adrift = profile == BLORB_ADRIFT ? BLORB_DONE : BLORB_RESULT_TYPE;
    fill();
    blorb_edit_answer made = blorb_editor_blank(&e, file[0], ROOM, journal[0], JOURNAL, profile);
    same(&e, made, blorb_blank(file[1], ROOM), BLORB_DONE, "blank");
    expect(e.profile == profile, "the profile stays");
    undo(&e, BLORB_NOTHING_TO_UNDO);
    add(&e, "Data", 7, "TEXT", "eel", BLORB_DONE);
    add(&e, "Pict", 1, "GIF ", "GIF89a", only_adrift);
    add(&e, "Pict", 1, "JPEG", "jpeg", profile == BLORB_ADRIFT ? BLORB_RESULT_REPEATED : BLORB_DONE);
    reads(&e, "Pict", 1);
    reads(&e, "Data", 8);
    replace(&e, "Data", 7, "BINA", "conger eel", BLORB_DONE);
    replace(&e, "Data", 7, "FORM", "AIFF without its head", BLORB_WHOLE_FORM);
    removal(&e, "Data", 8, BLORB_NOT_THERE);
    linking(&e, "Pict", 1, "Pict", 1, BLORB_RESULT_REPEATED);
    linking(&e, "Pict", 9, "Pict", 8, BLORB_NOT_THERE);
    linking(&e, "Pict", 1, "Pict", 8, BLORB_DONE);
    reads(&e, "Pict", 8);
    removal(&e, "Pict", 8, BLORB_DONE);
    undo(&e, BLORB_DONE);
    undo(&e, BLORB_DONE);
    removal(&e, "Data", 7, BLORB_DONE);
    reads(&e, "Data", 7);
    add(&e, "Data", 9, "TEXT", "a text that is too long for what is left of the buffer, since it takes more than two hundred bytes; one that has to be"
        " refused with 24, and it is, by the plain call and by the editor's", BLORB_FILE_ROOM);
    for (int i = 0; i < 4; i++)
        undo(&e, BLORB_DONE);
    expect(e.length == BLORB_BLANK_SIZE && e.used == 0, "the blank file again");
    undo(&e, BLORB_NOTHING_TO_UNDO);
}

/* Begun with a file that is there; the old journal counts only where the editor goes on with it; the journal is given up. */
static void begun(void)
{
    blorb_editor e, later;
    fill();
    blorb_editor_blank(&e, file[0], ROOM, journal[0], JOURNAL, BLORB_PLAIN);
    blorb_editor_add(&e, "Data", 7, "TEXT", (const uint8_t *)"eel", 3);
    memcpy(file[1], file[0], ROOM);
    memcpy(journal[1], journal[0], JOURNAL);
    blorb_read_answer r = blorb_editor_begin(&later, file[0], ROOM, e.length, journal[0], JOURNAL, BLORB_PLAIN);
    expect(r.refusal == BLORB_DONE && r.length == 48 && r.count == 1 && later.length == 48 && later.used == 0, "begin");
    length = later.length;
    used = later.used;
    undo(&later, BLORB_NOTHING_TO_UNDO);
    blorb_editor_resume(&later, file[0], ROOM, e.length, journal[0], JOURNAL, e.used, BLORB_PLAIN);
    used = later.used;
    undo(&later, BLORB_DONE);
    expect(later.length == BLORB_BLANK_SIZE, "the journal that was put away");
    add(&later, "Data", 7, "TEXT", "eel", BLORB_DONE);
    blorb_editor_forget(&later);
    used = 0;
    undo(&later, BLORB_NOTHING_TO_UNDO);
    r = blorb_editor_begin(&e, file[0], ROOM, 11, journal[0], JOURNAL, BLORB_PLAIN);
    expect(r.refusal == BLORB_TOO_SHORT && e.length == 11 && e.used == 0, "begin with a file that is refused");
    r = blorb_editor_begin(&e, file[0], ROOM, 11, journal[0], JOURNAL, 2);
    expect(r.refusal == BLORB_PROFILE && e.profile == 2, "begin under an unknown profile");
    r = blorb_editor_begin(&e, NULL, 0, 0, NULL, 0, BLORB_ADRIFT);
    expect(r.refusal == BLORB_TOO_SHORT, "begin with nothing");
    r = blorb_editor_begin(&e, file[0], ROOM, ROOM + 1, journal[0], JOURNAL, BLORB_PLAIN);
    expect(r.refusal == BLORB_LENGTHS && e.length == ROOM + 1, "begin with a length beyond the buffer");
    blorb_edit_answer a = blorb_editor_blank(&e, file[0], 23, journal[0], JOURNAL, BLORB_PLAIN);
    expect(a.refusal == BLORB_FILE_ROOM && e.length == 0 && e.used == 0, "blank without room");
}

/* Both pairs of buffers hold what editor `e` has kept in [0], and nothing else of it. */
static void put_away(const blorb_editor *e)
{
    uint8_t kept_file[ROOM], kept_journal[JOURNAL];
    memcpy(kept_file, file[0], ROOM);
    memcpy(kept_journal, journal[0], JOURNAL);
    fill();
    for (int i = 0; i < 2; i++) {
        memcpy(file[i], kept_file, e->length);
        memcpy(journal[i], kept_journal, e->used);
    }
}

/* The lengths of a run that was put away, each beyond its buffer, just within it, and in the other's place. */
static void mixed_up(const blorb_editor *kept, uint32_t profile)
{
    blorb_editor e;
    const size_t within = kept->length, records = kept->used;
    const struct { size_t length, used; uint64_t refusal; } tries[] = {
        {within, JOURNAL, BLORB_DONE}, {within, JOURNAL + 1, BLORB_LENGTHS}, {within, (size_t)-1, BLORB_LENGTHS},
        {ROOM, records, BLORB_FORM_LENGTH}, {ROOM + 1, records, BLORB_LENGTHS}, {(size_t)-1, records, BLORB_LENGTHS},
        {records, within, BLORB_FORM_LENGTH}, {ROOM + 1, JOURNAL + 1, BLORB_LENGTHS}};
    for (size_t i = 0; i < sizeof tries / sizeof *tries; i++) {
        blorb_read_answer r = blorb_editor_resume(&e, file[0], ROOM, tries[i].length, journal[0], JOURNAL, tries[i].used, profile);
        expect(r.refusal == tries[i].refusal && r.count == (r.refusal == BLORB_DONE ? 3u : 0u), "resume with other lengths");
        expect(r.place == (r.refusal == BLORB_FORM_LENGTH ? 4u : 0u), "resume with other lengths: place");
        expect(e.length == tries[i].length && e.used == tries[i].used, "resume keeps what it is given");
        r = blorb_editor_resume(&e, file[0], ROOM, tries[i].length, journal[0], JOURNAL, tries[i].used, 2);
        expect(r.refusal == BLORB_PROFILE && r.place == 0 && r.length == 0 && r.count == 0 && e.profile == 2, "resume under profile 2");
    }
}

/* A run of edits is put away, goes on in buffers that hold no more than was kept, and is undone to its beginning. */
static void resumed(uint32_t profile, const char *picture)
{
    blorb_editor e, later;
    const uint64_t as_plain = profile == BLORB_ADRIFT ? BLORB_TYPE : BLORB_DONE;
    fill();
    same(&e, blorb_editor_blank(&e, file[0], ROOM, journal[0], JOURNAL, profile), blorb_blank(file[1], ROOM), BLORB_DONE, "blank");
    add(&e, "Data", 7, "TEXT", "eel", BLORB_DONE);
    add(&e, "Pict", 1, picture, "picture", BLORB_DONE);
    linking(&e, "Pict", 1, "Pict", 2, BLORB_DONE);
    replace(&e, "Data", 7, "BINA", "conger", BLORB_DONE);
    put_away(&e);
    mixed_up(&e, profile);
    blorb_read_answer r = blorb_editor_resume(&later, file[0], ROOM, e.length, journal[0], JOURNAL, e.used, BLORB_PLAIN);
    expect(r.refusal == as_plain && r.place == (as_plain == BLORB_DONE ? 0u : 36u), "resume as plain");
    r = blorb_editor_resume(&later, file[0], ROOM, e.length, journal[0], JOURNAL, e.used, profile);
    expect(r.refusal == BLORB_DONE && r.place == 0 && r.length == e.length && r.count == 3, "resume");
    expect(later.length == e.length && later.used == e.used && later.profile == profile, "resume sets the lengths and the profile");
    reads(&later, "Pict", 2);
    removal(&later, "Pict", 1, BLORB_DONE);
    for (int i = 0; i < 5; i++)
        undo(&later, BLORB_DONE);
    expect(later.length == BLORB_BLANK_SIZE && later.used == 0, "the blank file again");
    undo(&later, BLORB_NOTHING_TO_UNDO);
}

/* A length beyond its buffer: 20 behind 52 in every call, and nothing is read beyond it. */
static void beyond(size_t far, size_t far_used, uint32_t profile, uint64_t refusal)
{
    uint8_t few[3] = {1, 2, 3};
    blorb_editor e;
    blorb_read_answer r = blorb_editor_resume(&e, few, sizeof few, far, NULL, 0, far_used, profile);
    expect(r.refusal == refusal && r.place == 0 && r.length == 0 && r.count == 0, "read: 20");
    expect(blorb_editor_entry(&e, 0).refusal == refusal && blorb_editor_lookup(&e, "Data", 7).refusal == refusal, "entry, lookup: 20");
    expect(blorb_editor_table_build(&e, table[0], NUMBERS).refusal == refusal, "build: 20");
    expect(blorb_editor_table_check(&e, table[0], NUMBERS).refusal == refusal, "check: 20");
    expect(blorb_editor_columns_check(&e, table[0], NUMBERS).refusal == refusal, "columns check: 20");
    expect(blorb_editor_scaled(&e, 1, 1, 1, 1, 1).refusal == refusal, "scaled: 20");
    expect(blorb_editor_text(&e, 0).refusal == refusal && blorb_editor_text_of(&e, "Data", 7).refusal == refusal, "texts: 20");
    expect(blorb_editor_undo(&e).refusal == refusal && e.length == far, "undo: 20");
    expect(blorb_editor_link(&e, "Data", 7, "Data", 8).refusal == refusal && e.length == far, "link: 20");
    expect(blorb_editor_add(&e, "Data", 7, "TEXT", few, 3).refusal == refusal && blorb_editor_remove(&e, "Data", 7).refusal == refusal
           && blorb_editor_replace(&e, "Data", 7, "TEXT", few, 3).refusal == refusal && e.length == far && e.used == far_used, "edits: 20");
}

int main(void)
{
    run(BLORB_PLAIN);
    run(BLORB_ADRIFT);
    begun();
    resumed(BLORB_PLAIN, "PNG ");
    resumed(BLORB_ADRIFT, "GIF ");
    const size_t far[][2] = {{(size_t)-1, 0}, {4, 0}, {3, 1}, {0, (size_t)-1}, {(size_t)-1, (size_t)-1}};
    for (size_t i = 0; i < sizeof far / sizeof *far; i++) {
        beyond(far[i][0], far[i][1], BLORB_PLAIN, BLORB_LENGTHS);
        beyond(far[i][0], far[i][1], BLORB_ADRIFT, BLORB_LENGTHS);
        beyond(far[i][0], far[i][1], 2, BLORB_PROFILE);
        beyond(far[i][0], far[i][1], 4294967295u, BLORB_PROFILE);
    }
    printf("editor: ok, %lu checks\n", checks);
    return 0;
}
