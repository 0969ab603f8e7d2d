/*
 * Building, checking and searching a finding table, against the same in C: rows filled from the index and sorted by qsort, and the same
 * halving, in processor time. What a build or check takes beyond the read is the difference of two times of one round; rounds go by turns.
 */
#define _POSIX_C_SOURCE 200809L
#include "tables.h"

#include "files.h"
#include "format.h"

#include <stdio.h>
#include <stdlib.h>
#include <time.h>

enum { MOST_NUMBERS = BLORB_ROW_NUMBERS * BLORB_MAX_ENTRIES, MOST_TABLE_ROUNDS = 2001, BODY = 16, ORDERS = 3 };
static const double TABLE_ROW_TIME = 0.4e9;
static const char *const orders[ORDERS] = {"rising", "shuffled", "falling"};

static uint32_t table[MOST_NUMBERS], other[MOST_NUMBERS];
static volatile uint64_t sink;

static double now(void)
{
    struct timespec t;

    clock_gettime(CLOCK_PROCESS_CPUTIME_ID, &t); /* what others use of the machine does not count */
    return (double)t.tv_sec * 1e9 + (double)t.tv_nsec;
}

static uint32_t number_of(size_t i, size_t count, unsigned order)
{
    return order == 0 ? (uint32_t)i : order == 1 ? (uint32_t)(i * 2654435761u) : (uint32_t)(count - i);
}

/* Data resources in chunk order, their numbers in one of the orders. */
static uint8_t *file_of(size_t count, unsigned order, size_t *length)
{
    size_t chunk = BLORB_HEADER_SIZE + BODY;
    *length = entry_at(count) + count * chunk;
    uint8_t *f = calloc(*length, 1);
    if (f == NULL)
        exit(1);
    blorb_blank(f, *length);
    put32(f + 4, (uint32_t)*length - 8);
    put32(f + 16, (uint32_t)(4 + BLORB_ENTRY_SIZE * count));
    put32(f + 20, (uint32_t)count);
    for (size_t i = 0; i < count; i++) {
        size_t start = entry_at(count) + i * chunk;
        put32(f + entry_at(i), BLORB_DATA);
        put32(f + entry_at(i) + 4, number_of(i, count, order));
        put32(f + entry_at(i) + 8, (uint32_t)start);
        memcpy(f + start, "BINA", 4);
        put32(f + start + 4, BODY);
    }
    return f;
}

/* ---- the same in C */

static uint64_t key(const uint32_t *row)
{
    return (uint64_t)row[0] << 32 | row[1];
}

static int by_pair(const void *a, const void *b)
{
    uint64_t x = key(a), y = key(b);

    return (x > y) - (x < y);
}

static void c_build(const uint8_t *f, size_t count)
{
    for (size_t i = 0; i < BLORB_ROW_NUMBERS * count; i++)
        other[i] = get32(f + entry_at(0) + 4 * i);
    qsort(other, count, BLORB_ROW_NUMBERS * sizeof *other, by_pair);
}

static uint32_t c_search(const uint32_t *t, size_t count, uint32_t usage, uint32_t number)
{
    size_t low = 0, high = count;
    uint64_t sought = (uint64_t)usage << 32 | number;

    while (low < high) {
        size_t middle = (low + high) / 2;
        uint64_t k = key(t + 3 * middle);
        if (k == sought)
            return t[3 * middle + 2];
        if (k < sought)
            low = middle + 1;
        else
            high = middle;
    }
    return 0;
}

/* ---- timing */

static int by_time(const void *a, const void *b)
{
    double x = *(const double *)a, y = *(const double *)b;

    return (x > y) - (x < y);
}

static double median(double *all, unsigned n)
{
    qsort(all, n, sizeof *all, by_time);
    return all[n / 2];
}

/* All pairs of the file, one after another: nanoseconds for one. */
static double search_all(const uint8_t *f, size_t count, int in_c)
{
    double from = now();

    for (size_t i = 0; i < count; i++) {
        uint32_t number = get32(f + entry_at(i) + 4);
        sink = in_c ? c_search(table, count, BLORB_DATA, number) : blorb_table_search(table, 3 * count, "Data", number).start;
    }
    return (now() - from) / (double)count;
}

enum what { READ_ONLY, BUILD, C_BUILD, CHECK, SEARCH, C_SEARCH, WHATS };

/* A hundred calls of the small files at once, one of the large ones. */
static double time_once(enum what w, const uint8_t *f, size_t length, size_t count)
{
    unsigned calls = count < 1000 ? 100 : 1;

    if (w == SEARCH || w == C_SEARCH)
        return search_all(f, count, w == C_SEARCH);
    double from = now();
    for (unsigned i = 0; i < calls; i++)
        switch (w) {
        case READ_ONLY:
            sink = blorb_read(f, length, BLORB_PLAIN).count;
            break;
        case BUILD:
            sink = blorb_table_build(f, length, BLORB_PLAIN, table, 3 * count).rows;
            break;
        case C_BUILD:
            c_build(f, count);
            break;
        default:
            sink = blorb_table_check(f, length, BLORB_PLAIN, table, 3 * count).refusal;
        }
    return (now() - from) / calls;
}

static void measure(const uint8_t *f, size_t length, size_t count, double result[WHATS])
{
    static double all[WHATS][MOST_TABLE_ROUNDS];
    double begun = now();
    unsigned rounds = 0;

    for (; rounds < MOST_TABLE_ROUNDS && (rounds < 9 || now() - begun < TABLE_ROW_TIME); rounds++) {
        double t[WHATS];
        for (unsigned i = 0; i < WHATS; i++) {
            unsigned w = (i + rounds) % WHATS;
            t[w] = time_once((enum what)w, f, length, count);
        }
        for (unsigned w = 0; w < WHATS; w++)
            all[w][rounds] = w == BUILD || w == CHECK ? t[w] - t[READ_ONLY] : t[w];
    }
    for (unsigned w = 0; w < WHATS; w++)
        result[w] = median(all[w], rounds);
}

static void print_one(size_t count, unsigned order, double in_order)
{
    double t[WHATS];
    size_t length;
    uint8_t *f = file_of(count, order, &length);

    if (blorb_table_build(f, length, BLORB_PLAIN, table, MOST_NUMBERS).rows != count)
        exit(1);
    c_build(f, count);
    if (memcmp(table, other, 3 * count * sizeof *table) != 0)
        exit(1);
    measure(f, length, count, t);
    printf("| %5zu | %-8s | %8.2f | %8.2f | %8.2f | %5.2f | %8.2f | %5.2f | %6.1f | %5.2f |\n", count, orders[order], t[READ_ONLY] / 1e3,
           t[BUILD] / 1e3, t[C_BUILD] / 1e3, t[BUILD] / t[C_BUILD], t[CHECK] / 1e3, t[CHECK] / (in_order > 0 ? in_order : t[READ_ONLY]),
           t[SEARCH], t[SEARCH] / t[C_SEARCH]);
    fflush(stdout);
    free(f);
}

/* The read of a file with rising numbers, which the check is judged by. */
static double read_in_order(size_t count)
{
    double t[WHATS];
    size_t length;
    uint8_t *f = file_of(count, 0, &length);

    blorb_table_build(f, length, BLORB_PLAIN, table, MOST_NUMBERS);
    measure(f, length, count, t);
    free(f);
    return t[READ_ONLY];
}

/* What a check of these rows takes beyond the read. */
static double time_check(const uint8_t *f, size_t length, size_t count, const uint32_t *rows)
{
    static double all[MOST_TABLE_ROUNDS];
    double begun = now();
    unsigned rounds = 0;

    for (; rounds < MOST_TABLE_ROUNDS && (rounds < 9 || now() - begun < TABLE_ROW_TIME); rounds++) {
        double from = now();
        sink = blorb_read(f, length, BLORB_PLAIN).count;
        double between = now();
        sink = blorb_table_check(f, length, BLORB_PLAIN, rows, 3 * count).refusal;
        all[rounds] = now() - between - (between - from);
    }
    return median(all, rounds);
}

/* The check of a table that is right but for the start in its last row, which is refused there. */
static void print_refused(void)
{
    puts("\n| Numbers | Right us | Stale us | / right |\n|---|--:|--:|--:|");
    for (unsigned order = 0; order < ORDERS; order++) {
        size_t count = BLORB_MAX_ENTRIES, length;
        uint8_t *f = file_of(count, order, &length);
        blorb_table_build(f, length, BLORB_PLAIN, table, MOST_NUMBERS);
        double right = time_check(f, length, count, table);
        table[3 * count - 1] += 2;
        blorb_check_answer a = blorb_table_check(f, length, BLORB_PLAIN, table, 3 * count);
        if (a.refusal != BLORB_TABLE_STALE || a.place != count - 1)
            exit(1);
        double stale = time_check(f, length, count, table);
        printf("| %-8s | %8.2f | %8.2f | %5.1f |\n", orders[order], right / 1e3, stale / 1e3, stale / right);
        fflush(stdout);
        free(f);
    }
}

/* Every resource of a full file: looked up one by one, or by one check and a search for each. */
static void print_opening(void)
{
    size_t count = BLORB_MAX_ENTRIES, length;
    uint8_t *f = file_of(count, 0, &length);
    double from = now();

    for (size_t i = 0; i < count; i++)
        sink = blorb_lookup(f, length, BLORB_PLAIN, "Data", get32(f + entry_at(i) + 4)).start;
    double plainly = now() - from;
    blorb_table_build(f, length, BLORB_PLAIN, table, MOST_NUMBERS);
    from = now();
    sink = blorb_table_check(f, length, BLORB_PLAIN, table, 3 * count).refusal;
    double searched = now() - from + search_all(f, count, 0) * (double)count;
    printf("\nAll 4,096 resources of a file in order: %.1f ms by lookups, %.3f ms by one check and 4,096 searches (%.0f times as fast).\n",
           plainly / 1e6, searched / 1e6, plainly / searched);
    free(f);
}

void print_tables(void)
{
    static const size_t counts[] = {16, 256, 4096};

    puts("| Rows | Numbers | Read us | Build us | qsort us | / (b) | Check us | / read | Search ns | / C |");
    puts("|--:|---|--:|--:|--:|--:|--:|--:|--:|--:|");
    for (unsigned i = 0; i < 3; i++) {
        double in_order = read_in_order(counts[i]);
        for (unsigned order = 0; order < ORDERS; order++)
            print_one(counts[i], order, in_order);
    }
    print_refused();
    print_opening();
}
