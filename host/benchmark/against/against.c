/*
 * against LINKS: two archives by turns in one process, on the same files in the same buffers. A line for each row that host/bench has of calls, moves of
 * bytes, growth, longest readings and finding tables, and some of shared chunks: file, call, and the fastest times of now, before and before again, in
 * nanoseconds, apart by tabs. Before a row is timed its answers are compared. LINKS is 1 where both archives have a link.
 */
#include "../files.h"
#include "../format.h"
#include "../timing.h"
#include "wrapped.h"

#include <stdio.h>
#include <stdlib.h>
#include <string.h>

const struct library libraries[LIBRARIES] = {LIBRARY(now), LIBRARY(before), LIBRARY(again)};
static const struct tables tables[LIBRARIES] = {TABLES(now), TABLES(before), TABLES(again)};

static struct times edit_times, undo_times;
static bool links;

static void print_row(const char *file, const char *before, const char *call, const struct times *t)
{
    printf("%s\t%s%s\t%.2f\t%.2f\t%.2f\n", file, before, call, t->least[0], t->least[1], t->least[2]);
    fflush(stdout);
}

static void hold(bool same, const char *file, const char *call)
{
    if (same)
        return;
    fprintf(stderr, "against: the two archives answer differently: %s, %s\n", file, call);
    exit(1);
}

static void compare_reading(const struct sample *s, const char *file)
{
    blorb_read_answer now = libraries[0].read(s->file, s->length, BLORB_PLAIN), before = libraries[1].read(s->file, s->length, BLORB_PLAIN);

    hold(memcmp(&now, &before, sizeof now) == 0, file, question_names[READ]);
}

static void compare_lookup(const struct sample *s, const char *file, enum question q)
{
    const struct resource *r = q == FIRST ? &s->first : &s->last;
    uint32_t number = q == MISSING ? 999999 : r->number;
    blorb_lookup_answer a = libraries[0].lookup(s->file, s->length, BLORB_PLAIN, r->usage, number);
    blorb_lookup_answer b = libraries[1].lookup(s->file, s->length, BLORB_PLAIN, r->usage, number);

    hold(a.refusal == b.refusal && a.place == b.place && a.type == b.type && a.start == b.start && a.length == b.length, file, question_names[q]);
}

static uint64_t sum_of(const uint8_t *bytes, size_t n)
{
    uint64_t sum = n;

    for (size_t i = 0; i < n; i++)
        sum = (sum ^ bytes[i]) * 0x100000001b3u;
    return sum;
}

/* The answers, the file's whole buffer and the record; each edit is undone. */
static void compare_edit(const struct sample *s, const char *file, const struct edit *e)
{
    blorb_edit_answer a[2];
    uint64_t sums[2], records[2];

    for (unsigned k = 0; k < 2; k++) {
        a[k] = carry_out(&libraries[k], s->file, s->room, s->length, journal(), JOURNAL_ROOM, 0, BLORB_PLAIN, e);
        sums[k] = sum_of(s->file, s->room);
        records[k] = sum_of(journal(), (size_t)a[k].used);
        hold(libraries[k].undo(s->file, s->room, (size_t)a[k].length, journal(), JOURNAL_ROOM, (size_t)a[k].used, BLORB_PLAIN).refusal == 0, file, e->name);
    }
    hold(memcmp(&a[0], &a[1], sizeof a[0]) == 0 && sums[0] == sums[1] && records[0] == records[1], file, e->name);
}

static void question_row(const struct sample *s, const char *file, enum question q)
{
    if (q == READ)
        compare_reading(s, file);
    else
        compare_lookup(s, file, q);
    time_question(s, q, &edit_times);
    print_row(file, "", question_names[q], &edit_times);
}

static void edit_row(const struct sample *s, const char *file, const struct edit *e)
{
    compare_edit(s, file, e);
    time_edit(s, e, &edit_times, &undo_times);
    print_row(file, "", e->name, &edit_times);
    print_row(file, "undo of ", e->name, &undo_times);
}

static void rows_of_calls(void)
{
    for (unsigned i = 0; i < SAMPLES; i++) {
        struct sample s = sample(i), to_add = sample_to_add(i);
        struct edit edits[EDITS], adding_entries[EDITS];
        for (enum question q = READ; q < QUESTIONS; q++)
            question_row(&s, s.name, q);
        edits_of(&s, edits);
        edits_of(&to_add, adding_entries);
        for (unsigned k = 0; k < EDITS && s.order != REVERSED; k++)
            if (links || edits[k].kind != LINK)
                edit_row(adds_entry(&edits[k]) ? &to_add : &s, s.name, adds_entry(&edits[k]) ? &adding_entries[k] : &edits[k]);
        free_sample(&s);
        free_sample(&to_add);
    }
}

static void rows_of_moves(void)
{
    static const struct {
        const char *name;
        size_t size;
    } parts[] = {{"64 KB", 65536}, {"65,000", 65000}, {"15 MB", 15 * 1048576}};
    static const struct {
        const char *name;
        size_t by;
    } ways[] = {{"move by 2", 2}, {"move by 12", 12}, {"move by 512", 512}};

    for (unsigned i = 0; i < 9; i++) {
        struct sample s = make_pair(parts[i / 3].name, 100, parts[i / 3].size - 8);
        struct edit e = {ways[i % 3].name, REPLACE, s.first, NULL, NULL, 0};
        e.what.size += ways[i % 3].by;
        edit_row(&s, s.name, &e);
        free_sample(&s);
    }
}

static void rows_by_entries(void)
{
    static const size_t counts[] = {16, 64, 256, 1024, 4096};
    static const char *const orders[] = {"rising", "falling", "reversed"};
    char name[64];

    for (unsigned i = 0; i < 15; i++) {
        struct sample s = make_sample("", counts[i / 3], 1024, (enum order)(i % 3));
        snprintf(name, sizeof name, "%zu of 1 KB, %s", counts[i / 3], orders[i % 3]);
        question_row(&s, name, READ);
        free_sample(&s);
    }
}

static void rows_of_shared(void)
{
    static const size_t chunks[] = {1, 64, 2048};
    char name[64];

    for (unsigned i = 0; i < 3; i++) {
        struct sample s = make_shared("", BLORB_MAX_ENTRIES, chunks[i]);
        snprintf(name, sizeof name, "4096 on %zu chunks", chunks[i]);
        for (enum question q = READ; q < QUESTIONS; q++)
            question_row(&s, name, q);
        free_sample(&s);
    }
}

static void rows_by_bytes(void)
{
    static const size_t megabytes[] = {1, 4, 15};
    char name[64];

    for (unsigned i = 0; i < 3; i++) {
        struct sample s = make_sample("", 16, megabytes[i] * 65536 - 64, RISING);
        struct edit e = {"replace front, 512 more", REPLACE, s.first, NULL, NULL, 0};
        e.what.size += MORE;
        snprintf(name, sizeof name, "16 in %zu MB by bytes", megabytes[i]);
        question_row(&s, name, READ);
        edit_row(&s, name, &e);
        free_sample(&s);
    }
}

static void rows_of_longest(void)
{
    static const char *const flaws[FLAWS] = {"full", "full, last pair again", "full, last start at no chunk", "full, last chunk an index"};

    for (unsigned i = 0; i < FLAWS; i++) {
        struct sample s = make_crowded((enum flaw)i);
        question_row(&s, flaws[i], READ);
        free_sample(&s);
    }
}

/* ---- finding tables */

struct tabled {
    const struct sample *file;
    uint32_t *rows;
};

static uint64_t built(const struct tables *t, const struct tabled *g)
{
    return t->build(g->file->file, g->file->length, g->rows, 3 * g->file->count).rows;
}

static uint64_t checked(const struct tables *t, const struct tabled *g)
{
    return t->check(g->file->file, g->file->length, g->rows, 3 * g->file->count).refusal;
}

/* Every pair of the file, one after another. */
static uint64_t searched(const struct tables *t, const struct tabled *g)
{
    uint64_t sum = 0;

    for (size_t i = 0; i < g->file->count; i++)
        sum += t->search(g->rows, 3 * g->file->count, (const char *)g->file->file + entry_at(i), get32(g->file->file + entry_at(i) + 4)).start;
    return sum;
}

#define TURNS(what)                                                                                                          \
    static uint64_t what##_now(const void *g) { return what(&tables[0], g); }                                                 \
    static uint64_t what##_before(const void *g) { return what(&tables[1], g); }                                              \
    static uint64_t what##_again(const void *g) { return what(&tables[2], g); }                                               \
    static timed *const what##_by_turns[LIBRARIES] = {what##_now, what##_before, what##_again};

TURNS(built)
TURNS(checked)
TURNS(searched)

static void table_row(const char *name, const char *call, timed *const functions[LIBRARIES], const struct tabled *g)
{
    hold(functions[0](g) == functions[1](g), name, call);
    time_functions(functions, LIBRARIES, g, &edit_times);
    print_row(name, "", call, &edit_times);
}

static void rows_of_tables(void)
{
    static const size_t counts[] = {16, 256, 4096};
    static const struct {
        const char *name;
        enum order order;
    } orders[] = {{"rising", RISING}, {"shuffled", SHUFFLED}, {"falling", FALLING}};
    static uint32_t rows[3 * BLORB_MAX_ENTRIES];
    char name[64];

    for (unsigned i = 0; i < 9; i++) {
        struct sample s = make_sample("", counts[i / 3], 16, orders[i % 3].order);
        struct tabled g = {&s, rows};
        snprintf(name, sizeof name, "%zu of 16 bytes, %s", counts[i / 3], orders[i % 3].name);
        if (built(&tables[0], &g) != s.count)
            exit(1);
        table_row(name, "table build", built_by_turns, &g);
        table_row(name, "table check", checked_by_turns, &g);
        table_row(name, "table search, all", searched_by_turns, &g);
        rows[3 * s.count - 1] += 2;
        table_row(name, "table check, stale", checked_by_turns, &g);
        free_sample(&s);
    }
}

int main(int argc, char **argv)
{
    if (argc != 2) {
        fputs("use: against LINKS\n", stderr);
        return 2;
    }
    links = strcmp(argv[1], "1") == 0;
    time_clock();
    rows_of_calls();
    rows_of_moves();
    rows_by_entries();
    rows_of_shared();
    rows_by_bytes();
    rows_of_longest();
    rows_of_tables();
    return 0;
}
