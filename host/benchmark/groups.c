/*
 * Listing the FORMs of a group file, against two recursive walkers in C: (a) judges and counts first and writes the rows in a second walk, as the archive
 * does, since a refused call may write nothing; (b) writes each row when it comes to it, so that a file refused later leaves rows behind.
 */
#include "groups.h"

#include "format.h"
#include "timing.h"

#include <stdio.h>
#include <stdlib.h>
#include <string.h>

enum { COUNT = 4096, ROOM = BLORB_FORM_NUMBERS * COUNT };
enum { LIST = BLORB_TAG('L', 'I', 'S', 'T'), CAT = BLORB_TAG('C', 'A', 'T', ' '), PROP = BLORB_TAG('P', 'R', 'O', 'P') };
static uint32_t rows[ROOM];

/* ---- files */

struct group_file {
    const char *name;
    size_t levels; /* FORMs in each other */
    size_t chunks; /* in the innermost one */
    uint8_t *bytes;
    size_t size;
};

enum { CHUNK = 8 + 100 };

/* A 'LIST' of 4,096 FORMs. */
static void make_file(struct group_file *f)
{
    size_t way = BLORB_FORM_SIZE * f->levels + CHUNK * f->chunks, ways = COUNT / f->levels;
    uint8_t *to = f->bytes = calloc(f->size = BLORB_FORM_SIZE + ways * way, 1);

    if (to == NULL)
        exit(1);
    memcpy(to, "LIST", 4);
    put32(to + 4, (uint32_t)f->size - 8);
    memcpy(to + 8, "ILBM", 4);
    to += BLORB_FORM_SIZE;
    for (size_t i = 0; i < ways; i++) {
        for (size_t k = 0; k < f->levels; k++, to += BLORB_FORM_SIZE) {
            memcpy(to, "FORM", 4);
            put32(to + 4, (uint32_t)(way - BLORB_FORM_SIZE * k - 8));
            memcpy(to + 8, "ILBM", 4);
        }
        for (size_t k = 0; k < f->chunks; k++, to += CHUNK) {
            memcpy(to, "BODY", 4);
            put32(to + 4, CHUNK - 8);
        }
    }
}

/* ---- the walkers in C */

struct walk {
    const uint8_t *file;
    uint32_t *to; /* null where nothing is written */
    size_t room;  /* in rows */
    size_t count;
    uint64_t refusal, place;
};

static int fault(struct walk *w, uint64_t number, size_t place)
{
    w->refusal = number;
    w->place = place;
    return 0;
}

static int may_hold(uint32_t holder, int begins, uint32_t kind)
{
    int nests = kind == FORM || kind == LIST || kind == CAT;

    switch (holder) {
    case FORM:
        return kind != PROP;
    case LIST:
        return nests || (kind == PROP && begins);
    case PROP:
        return !nests && kind != PROP;
    default: /* a 'CAT ', or the file itself */
        return nests;
    }
}

/* One chunk and all in it; gives where the next one begins, 0 for a fault. */
static size_t walk_chunk(struct walk *w, uint32_t holder, int begins, uint32_t depth, size_t at, size_t end);

static int walk_members(struct walk *w, uint32_t holder, uint32_t depth, size_t at, size_t end)
{
    for (int begins = 1; at < end;) {
        int prop = end - at >= 8 && get32(w->file + at) == PROP;
        at = walk_chunk(w, holder, begins, depth, at, end);
        if (at == 0)
            return 0;
        begins = begins && prop;
    }
    return 1;
}

static size_t walk_chunk(struct walk *w, uint32_t holder, int begins, uint32_t depth, size_t at, size_t end)
{
    if (end - at < 8)
        return (size_t)fault(w, BLORB_GROUP_SIZE, at);
    uint32_t kind = get32(w->file + at), m = get32(w->file + at + 4);
    int nests = kind == FORM || kind == LIST || kind == CAT, holds = nests || kind == PROP;
    size_t close = at + 8 + m;
    if (m > end - at - 8 || (holds && m < 4))
        return (size_t)fault(w, BLORB_GROUP_SIZE, at);
    if (nests && depth > BLORB_MAX_DEPTH)
        return (size_t)fault(w, BLORB_GROUP_DEPTH, at);
    if (!may_hold(holder, begins, kind))
        return (size_t)fault(w, BLORB_GROUP_MEMBER, at);
    if (m % 2 == 1 && (close == end || w->file[close] != 0))
        return (size_t)fault(w, BLORB_GROUP_PADDING, at);
    if (kind == FORM) {
        if (w->to != NULL && w->count < w->room) {
            uint32_t *row = w->to + BLORB_FORM_NUMBERS * w->count;
            row[0] = get32(w->file + at + 8), row[1] = (uint32_t)at, row[2] = m, row[3] = depth;
        }
        w->count++;
    }
    if (holds && !walk_members(w, kind, depth + 1, at + 12, close))
        return 0;
    return close + m % 2;
}

static struct walk walk_file(const struct group_file *f, uint32_t *to)
{
    struct walk w = {f->bytes, to, ROOM / BLORB_FORM_NUMBERS, 0, 0, 0};

    if (f->size > BLORB_MAX_SIZE) {
        fault(&w, BLORB_TOO_LONG, 0);
        return w;
    }
    size_t end = walk_chunk(&w, 0, 0, 1, 0, f->size);
    if (end != 0 && end != f->size)
        fault(&w, BLORB_GROUP_MEMBER, end);
    return w;
}

/* Refusal, place and rows as one number. */
static uint64_t told(uint64_t refusal, uint64_t place, uint64_t count)
{
    return refusal << 48 | place << 16 | (refusal == 0 ? count : 0);
}

static uint64_t by_archive(const void *given)
{
    const struct group_file *f = given;
    blorb_build_answer a = blorb_forms_list(f->bytes, f->size, rows, ROOM);

    return told(a.refusal, a.place, a.rows);
}

static uint64_t by_two_walks(const void *given)
{
    struct walk w = walk_file(given, NULL);

    if (w.refusal == 0 && w.count > w.room)
        fault(&w, BLORB_FORMS_ROOM, 0);
    if (w.refusal == 0)
        w = walk_file(given, rows);
    return told(w.refusal, w.place, w.count);
}

static uint64_t by_one_walk(const void *given)
{
    struct walk w = walk_file(given, rows);

    return told(w.refusal, w.place, w.count);
}

/* All three list the same, and refuse the same cut and changed files. */
static void compare(struct group_file *f)
{
    static timed *const all[] = {by_archive, by_two_walks, by_one_walk};
    static uint32_t first[ROOM];
    size_t size = f->size;

    for (unsigned i = 0; i < 3; i++) {
        memset(rows, 0, sizeof rows);
        if (all[i](f) != COUNT || (i > 0 && memcmp(first, rows, sizeof rows) != 0))
            exit(1);
        memcpy(first, rows, sizeof rows);
    }
    for (size_t at = 0; at < size; at += 1 + size / 997) {
        uint8_t old = f->bytes[at];
        f->bytes[at] ^= (uint8_t)(1u << at % 8);
        f->size = size - at % 3;
        if (by_archive(f) != by_two_walks(f) || by_archive(f) != by_one_walk(f))
            exit(1);
        f->bytes[at] = old;
        f->size = size;
    }
}

void print_groups(void)
{
    static timed *const all[] = {by_archive, by_two_walks, by_one_walk};
    static struct times t;
    struct group_file files[] = {{"empty", 1, 0, NULL, 0}, {"with 3 chunks each", 1, 3, NULL, 0}, {"in ways of 8 levels", 8, 0, NULL, 0}};

    puts("| 4,096 FORMs | Archive | / (a) | / (b) |\n|---|--:|--:|--:|");
    for (unsigned i = 0; i < 3; i++) {
        make_file(&files[i]);
        compare(&files[i]);
        time_functions(all, 3, &files[i], &t);
        printf("| %s | %.1f us | %.2f | %.2f |\n", files[i].name, t.least[0] / 1e3, t.least[0] / t.least[1], t.least[0] / t.least[2]);
        fflush(stdout);
        free(files[i].bytes);
    }
}
