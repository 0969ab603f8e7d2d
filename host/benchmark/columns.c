/*
 * A finding table in rows and in columns: one search of a full table, warm and with the table out of the cache, by the archive and by the same
 * halving in C, and how many cache lines it reads. Out of the cache: every line of the table is flushed before each search, which is timed by
 * itself; what a timing of nothing takes is taken off.
 */
#define _POSIX_C_SOURCE 200809L
#include "tables.h"

#include "blorb.h"

#include <stdio.h>
#include <stdlib.h>
#include <string.h>
#include <time.h>

enum { ROWS = BLORB_MAX_ENTRIES, NUMBERS = BLORB_ROW_NUMBERS * ROWS, LINE = 64, WARM_ROUNDS = 401, COLD_ROUNDS = 20001 };
static const char *const usages[] = {"Data", "Exec", "Pict", "Snd "};

/* Aligned to cache lines. */
static _Alignas(LINE) uint32_t rows[NUMBERS], columns[NUMBERS];

/* The pairs that are sought, in no order; the tables themselves are not asked for them. */
static struct question {
    char usage[4];
    uint32_t number, start;
    uint64_t pair;
} questions[ROWS];
static volatile uint64_t sink;

static double now(clockid_t clock)
{
    struct timespec t;

    clock_gettime(clock, &t);
    return (double)t.tv_sec * 1e9 + (double)t.tv_nsec;
}

/* A quarter of each usage, every seventh number; row (i * odd) mod 4,096 is sought i-th. */
static void make_tables(void)
{
    for (uint32_t i = 0; i < ROWS; i++) {
        const char *u = usages[i / (ROWS / 4)];
        struct question *q = &questions[(i * 2654435761u) % ROWS];
        rows[3 * i] = BLORB_TAG(u[0], u[1], u[2], u[3]);
        rows[3 * i + 1] = 7 * (i % (ROWS / 4));
        rows[3 * i + 2] = 12 + 24 * i;
        memcpy(q->usage, u, 4);
        q->number = rows[3 * i + 1];
        q->start = rows[3 * i + 2];
        q->pair = (uint64_t)rows[3 * i] << 32 | q->number;
    }
    if (blorb_table_to_columns(rows, NUMBERS, columns, NUMBERS).rows != ROWS)
        exit(1);
}

/* ---- the same in C: step from row to row, gap from number to number */

static uint64_t key_at(const uint32_t *t, size_t row, size_t step, size_t gap)
{
    return (uint64_t)t[row * step] << 32 | t[row * step + gap];
}

static inline uint32_t c_search(const uint32_t *t, size_t step, size_t gap, uint64_t pair)
{
    size_t low = 0, high = ROWS;

    while (low < high) {
        size_t middle = (low + high) / 2;
        uint64_t k = key_at(t, middle, step, gap);
        if (k == pair)
            return t[middle * step + 2 * gap];
        if (k < pair)
            low = middle + 1;
        else
            high = middle;
    }
    return 0;
}

enum way { ARCHIVE_ROWS, ARCHIVE_COLUMNS, C_ROWS, C_COLUMNS, NOTHING, WAYS };

static uint64_t search(enum way w, const struct question *q)
{
    switch (w) {
    case ARCHIVE_ROWS:
        return blorb_table_search(rows, NUMBERS, q->usage, q->number).start;
    case ARCHIVE_COLUMNS:
        return blorb_columns_search(columns, NUMBERS, q->usage, q->number).start;
    case C_ROWS:
        return c_search(rows, 3, 1, q->pair);
    case C_COLUMNS:
        return c_search(columns, 1, ROWS, q->pair);
    default:
        return q->pair;
    }
}

/* ---- timing */

static int by_time(const void *a, const void *b)
{
    double x = *(const double *)a, y = *(const double *)b;

    return (x > y) - (x < y);
}

static double median(double *all, size_t n)
{
    qsort(all, n, sizeof *all, by_time);
    return all[n / 2];
}

/* All rows by turns, in no order: processor time for one. */
static void time_warm(double result[WAYS])
{
    static double all[WAYS][WARM_ROUNDS];

    for (unsigned round = 0; round < WARM_ROUNDS; round++)
        for (unsigned i = 0; i < WAYS; i++) {
            unsigned w = (i + round) % WAYS;
            double from = now(CLOCK_PROCESS_CPUTIME_ID);
            for (size_t k = 0; k < ROWS; k++)
                sink = search((enum way)w, &questions[k]);
            all[w][round] = (now(CLOCK_PROCESS_CPUTIME_ID) - from) / ROWS;
        }
    for (unsigned w = 0; w < WAYS; w++)
        result[w] = median(all[w], WARM_ROUNDS);
}

static double time_cold_once(enum way w, const struct question *q)
{
    const uint32_t *t = w == ARCHIVE_ROWS || w == C_ROWS ? rows : columns;

    for (size_t at = 0; at < NUMBERS; at += LINE / sizeof *t)
        __builtin_ia32_clflush(t + at);
    __builtin_ia32_mfence();
    double from = now(CLOCK_MONOTONIC);
    sink = search(w, q);
    return now(CLOCK_MONOTONIC) - from;
}

static void time_cold(double result[WAYS])
{
    static double all[WAYS][COLD_ROUNDS];

    for (unsigned round = 0; round < COLD_ROUNDS; round++)
        for (unsigned w = 0; w < WAYS; w++)
            all[w][round] = time_cold_once((enum way)w, &questions[round % ROWS]);
    for (unsigned w = 0; w < WAYS; w++)
        result[w] = median(all[w], COLD_ROUNDS);
}

/* A whole table turned into columns, or back: processor time. */
static double time_turn(int back)
{
    static double all[WARM_ROUNDS];

    for (unsigned round = 0; round < WARM_ROUNDS; round++) {
        double from = now(CLOCK_PROCESS_CPUTIME_ID);
        if (back)
            sink = blorb_table_to_rows(columns, NUMBERS, rows, NUMBERS).rows;
        else
            sink = blorb_table_to_columns(rows, NUMBERS, columns, NUMBERS).rows;
        all[round] = now(CLOCK_PROCESS_CPUTIME_ID) - from;
    }
    return median(all, WARM_ROUNDS);
}

/* ---- cache lines that a search reads, on average over all rows */

static double lines_read(size_t step, size_t gap)
{
    size_t all = 0;

    for (size_t row = 0; row < ROWS; row++) {
        size_t seen[2 * 13 + 1], count = 0, low = 0, high = ROWS;
        for (size_t middle = ROWS; middle != row;) {
            middle = (low + high) / 2;
            for (size_t k = 0; k < (middle == row ? 3u : 2u); k++) {
                size_t line = (middle * step + k * gap) * sizeof *rows / LINE, i = 0;
                while (i < count && seen[i] != line)
                    i++;
                if (i == count)
                    seen[count++] = line;
            }
            if (middle < row)
                low = middle + 1;
            else
                high = middle;
        }
        all += count;
    }
    return (double)all / ROWS;
}

void print_columns(void)
{
    double warm[WAYS], cold[WAYS];

    make_tables();
    for (size_t i = 0; i < ROWS; i++)
        for (unsigned w = 0; w < NOTHING; w++)
            if (search((enum way)w, &questions[i]) != questions[i].start)
                exit(1);
    time_warm(warm);
    time_cold(cold);
    puts("\n| 4,096 rows | Warm ns | / C | Out of cache ns | / C | Lines read |");
    puts("|---|--:|--:|--:|--:|--:|");
    printf("| in rows | %6.1f | %5.2f | %6.0f | %5.2f | %4.1f |\n", warm[ARCHIVE_ROWS], warm[ARCHIVE_ROWS] / warm[C_ROWS],
           cold[ARCHIVE_ROWS] - cold[NOTHING], (cold[ARCHIVE_ROWS] - cold[NOTHING]) / (cold[C_ROWS] - cold[NOTHING]), lines_read(3, 1));
    printf("| in columns | %6.1f | %5.2f | %6.0f | %5.2f | %4.1f |\n", warm[ARCHIVE_COLUMNS], warm[ARCHIVE_COLUMNS] / warm[C_COLUMNS],
           cold[ARCHIVE_COLUMNS] - cold[NOTHING], (cold[ARCHIVE_COLUMNS] - cold[NOTHING]) / (cold[C_COLUMNS] - cold[NOTHING]),
           lines_read(1, ROWS));
    printf("\nTurning 4,096 rows takes %.1f us to columns and %.1f us back.\n", time_turn(0) / 1e3, time_turn(1) / 1e3);
    fflush(stdout);
}
