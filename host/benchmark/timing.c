#define _POSIX_C_SOURCE 200809L
#include "timing.h"

#include <stdio.h>
#include <stdlib.h>
#include <string.h>
#include <time.h>

enum { FEWEST_ROUNDS = 9 };
static const double ROW_TIME = 0.4e9; /* ns for a row, once it has the fewest rounds */
static const double BATCH_TIME = 10e3; /* ns: calls that only read are timed together up to this */

const char *const question_names[QUESTIONS] = {"read", "lookup first", "lookup last", "lookup missing"};

static double clock_cost;
static volatile uint64_t sink;

static double now(void)
{
    struct timespec t;

    clock_gettime(CLOCK_MONOTONIC, &t);
    return (double)t.tv_sec * 1e9 + (double)t.tv_nsec;
}

void time_clock(void)
{
    clock_cost = 1e9;
    for (int i = 0; i < 100000; i++) {
        double from = now(), took = now() - from;
        if (took < clock_cost)
            clock_cost = took;
    }
}

uint8_t *journal(void)
{
    static uint8_t *bytes;

    if (bytes == NULL) {
        bytes = calloc(JOURNAL_ROOM, 1);
        if (bytes == NULL)
            exit(1);
        memset(bytes, 1, JOURNAL_ROOM);
    }
    return bytes;
}

static int by_size(const void *a, const void *b)
{
    double x = *(const double *)a, y = *(const double *)b;

    return (x > y) - (x < y);
}

static void sum_up(struct times *t, unsigned rounds, unsigned compared)
{
    for (unsigned k = 0; k < compared; k++) {
        qsort(t->all[k], rounds, sizeof t->all[k][0], by_size);
        t->least[k] = t->all[k][0];
        t->median[k] = t->all[k][rounds / 2];
    }
}

static bool goes_on(unsigned rounds, double begun)
{
    return rounds < MOST_ROUNDS && (rounds < FEWEST_ROUNDS || now() - begun < ROW_TIME);
}

void ask(const struct library *l, const struct sample *s, enum question q)
{
    switch (q) {
    case READ:
        sink = l->read(s->file, s->length, BLORB_PLAIN).count;
        return;
    case FIRST:
        sink = l->lookup(s->file, s->length, BLORB_PLAIN, s->first.usage, s->first.number).start;
        return;
    case LAST:
        sink = l->lookup(s->file, s->length, BLORB_PLAIN, s->last.usage, s->last.number).start;
        return;
    default:
        sink = l->lookup(s->file, s->length, BLORB_PLAIN, "Data", 999999).start;
    }
}

static double time_batch(const struct library *l, const struct sample *s, enum question q, unsigned batch)
{
    double from = now();

    for (unsigned i = 0; i < batch; i++)
        ask(l, s, q);
    return (now() - from - clock_cost) / batch;
}

void time_question(const struct sample *s, enum question q, struct times *t)
{
    unsigned batch[LIBRARIES], rounds = 0;
    double begun = now();

    for (unsigned k = 0; k < LIBRARIES; k++) {
        time_batch(&libraries[k], s, q, 1);
        double once = time_batch(&libraries[k], s, q, 1);
        batch[k] = 1 + (unsigned)(BATCH_TIME / (once < 20 ? 20 : once));
    }
    for (; goes_on(rounds, begun); rounds++)
        for (unsigned i = 0; i < LIBRARIES; i++) {
            unsigned k = (i + rounds) % LIBRARIES;
            t->all[k][rounds] = time_batch(&libraries[k], s, q, batch[k]);
        }
    sum_up(t, rounds, LIBRARIES);
}

static double time_calls(timed *function, const void *given, unsigned batch)
{
    double from = now();

    for (unsigned i = 0; i < batch; i++)
        sink = function(given);
    return (now() - from - clock_cost) / batch;
}

void time_functions(timed *const *functions, unsigned count, const void *given, struct times *t)
{
    unsigned batch[COMPARED], rounds = 0;
    double begun = now();

    for (unsigned k = 0; k < count; k++) {
        time_calls(functions[k], given, 1);
        double once = time_calls(functions[k], given, 1);
        batch[k] = 1 + (unsigned)(BATCH_TIME / (once < 20 ? 20 : once));
    }
    for (; goes_on(rounds, begun); rounds++)
        for (unsigned i = 0; i < count; i++) {
            unsigned k = (i + rounds) % count;
            t->all[k][rounds] = time_calls(functions[k], given, batch[k]);
        }
    sum_up(t, rounds, count);
}

static void time_pair(const struct library *l, const struct sample *s, const struct edit *e, double *edit, double *undo)
{
    double t0 = now();
    blorb_edit_answer a = carry_out(l, s->file, s->room, s->length, journal(), JOURNAL_ROOM, 0, BLORB_PLAIN, e);
    double t1 = now();
    blorb_edit_answer b = l->undo(s->file, s->room, a.length, journal(), JOURNAL_ROOM, a.used, BLORB_PLAIN);
    double t2 = now();

    if (a.refusal != 0 || b.refusal != 0 || b.length != s->length || b.used != 0) {
        fprintf(stderr, "bench: %s refused %s on %s\n", l->name, e->name, s->name);
        exit(1);
    }
    *edit = t1 - t0 - clock_cost;
    *undo = t2 - t1 - clock_cost;
}

static void time_memmove(const struct sample *s, size_t moved, size_t by, double *there, double *back)
{
    uint8_t *from = s->file + s->length - moved;
    double t0 = now();
    memmove(from + by, from, moved);
    double t1 = now();
    memmove(from, from + by, moved);
    double t2 = now();

    *there = t1 - t0 - clock_cost;
    *back = t2 - t1 - clock_cost;
}

void time_move(const struct sample *s, const struct edit *e, size_t moved, size_t by, struct times *edit, struct times *undo)
{
    unsigned compared = moved == 0 ? LIBRARIES : COMPARED, rounds = 0;
    double begun = now(), ignored;

    time_pair(&libraries[0], s, e, &ignored, &ignored);
    for (; goes_on(rounds, begun); rounds++)
        for (unsigned i = 0; i < compared; i++) {
            unsigned k = (i + rounds) % compared;
            double *there = &edit->all[k][rounds], *back = &undo->all[k][rounds];
            if (k < LIBRARIES)
                time_pair(&libraries[k], s, e, there, back);
            else
                time_memmove(s, moved, by, there, back);
        }
    sum_up(edit, rounds, compared);
    sum_up(undo, rounds, compared);
}

void time_edit(const struct sample *s, const struct edit *e, struct times *edit, struct times *undo)
{
    time_move(s, e, 0, 0, edit, undo);
}
