/*
 * Scaled pictures, against the same in C, in processor time: (a) the same algorithm, with the same marks; (b) the reading of fast.c, and for pictures
 * that do not rise a table of those seen, in static memory. Before a row is measured, all three give the same answers to it.
 */
#define _POSIX_C_SOURCE 200809L
#include "tables.h"

#include "calls.h"
#include "format.h"
#include "orders.h"

#include <stdbool.h>
#include <stdio.h>
#include <stdlib.h>
#include <string.h>
#include <time.h>

enum { HEAD = 24, ROW = 28, START = 24, LARGEST = 65535, MOST_ROWS = (BLORB_MAX_SIZE - START - BLORB_HEADER_SIZE - HEAD) / ROW, ROUNDS = 101 };
static const double SCALED_ROW_TIME = 0.4e9;
static volatile uint64_t sink;

static double now(void)
{
    struct timespec t;

    clock_gettime(CLOCK_PROCESS_CPUTIME_ID, &t);
    return (double)t.tv_sec * 1e9 + (double)t.tv_nsec;
}

/* ---- (a) */

static struct list list_of(const uint8_t *rows, size_t n)
{
    return (struct list){rows, ROW, n, false};
}

static bool plain_repeats(const uint8_t *rows, size_t n)
{
    struct list l = list_of(rows, n);

    return list_repeats(&l);
}

/* ---- (b): a table of the pictures seen, at most half full; 0 stands for none, so picture 0 is looked for by itself */

static uint32_t seen[1 << 21];

static bool fast_repeats(const uint8_t *rows, size_t n)
{
    size_t size = 64, zeros = 0;
    struct list l = list_of(rows, n);
    const uint8_t *end;

    if (rising(&l, &end) == n)
        return false;
    while (size < 2 * n)
        size *= 2;
    memset(seen, 0, size * sizeof *seen);
    for (size_t i = 0; i < n; i++) {
        uint32_t k = get32(rows + ROW * i);
        size_t at = (uint32_t)(k * 2654435761u) >> 7 & (size - 1);
        if (k == 0 && zeros++ > 0)
            return true;
        while (k != 0 && seen[at] != 0) {
            if (seen[at] == k)
                return true;
            at = (at + 1) & (size - 1);
        }
        if (k != 0)
            seen[at] = k;
    }
    return false;
}

/* ---- the rest of the call, for both */

typedef bool repeating(const uint8_t *, size_t);
struct fraction {
    uint64_t numerator, denominator;
};

static bool at_most(struct fraction a, struct fraction b)
{
    return a.numerator * b.denominator <= b.numerator * a.denominator;
}

static struct fraction fraction_at(const uint8_t *at)
{
    return (struct fraction){get32(at), get32(at + 4)};
}

static bool good_row(const uint8_t *row)
{
    struct fraction least = fraction_at(row + 12), greatest = fraction_at(row + 20);

    for (size_t i = 4; i < ROW; i += 4)
        if (get32(row + i) > LARGEST)
            return false;
    return get32(row + 8) != 0 && (least.numerator == 0 || least.denominator != 0) && (greatest.numerator == 0 || greatest.denominator != 0)
        && (least.numerator == 0 || greatest.numerator == 0 || at_most(least, greatest));
}

static bool good_reso(const uint8_t *d, size_t n, repeating *repeats)
{
    for (size_t i = 0; i < HEAD; i += 4)
        if (get32(d + i) > LARGEST)
            return false;
    if (get32(d) == 0 || get32(d + 4) == 0)
        return false;
    for (size_t i = 0; i < n; i++)
        if (!good_row(d + HEAD + ROW * i))
            return false;
    return !repeats(d + HEAD, n);
}

static blorb_scaled_answer by_row(const uint8_t *d, const uint8_t *row, const uint64_t sides[4])
{
    struct fraction across = {sides[0], get32(d)}, down = {sides[1], get32(d + 4)}, r = at_most(across, down) ? across : down;
    struct fraction least = fraction_at(row + 12), greatest = fraction_at(row + 20);

    r.numerator *= get32(row + 4);
    r.denominator *= get32(row + 8);
    if (least.numerator != 0 && !at_most(least, r))
        r = least;
    if (greatest.numerator != 0 && !at_most(r, greatest))
        r = greatest;
    return (blorb_scaled_answer){0, 0, sides[2] * r.numerator / r.denominator, sides[3] * r.numerator / r.denominator};
}

static blorb_scaled_answer in_c(reading_call *reads, repeating *repeats, const uint8_t *f, size_t size, const uint64_t sides[4], uint32_t picture)
{
    blorb_read_answer read = reads(f, size, BLORB_PLAIN);
    const uint8_t *reso = NULL;

    if (read.refusal != 0)
        return (blorb_scaled_answer){read.refusal, read.place, 0, 0};
    for (size_t at = 12, m; at < size; at += BLORB_HEADER_SIZE + m + m % 2) {
        m = get32(f + at + 4);
        if (memcmp(f + at, "Reso", 4) != 0)
            continue;
        if (reso != NULL)
            return (blorb_scaled_answer){BLORB_SECOND_RESO, at, 0, 0};
        reso = f + at;
    }
    size_t m = reso == NULL ? HEAD : get32(reso + 4), n = (m - HEAD) / ROW;
    if (m < HEAD || (m - HEAD) % ROW != 0)
        return (blorb_scaled_answer){BLORB_RESO_LENGTH, (uint64_t)(reso - f), 0, 0};
    bool large = sides[0] > LARGEST || sides[1] > LARGEST || sides[2] > LARGEST || sides[3] > LARGEST;
    if (large || (reso != NULL && !good_reso(reso + 8, n, repeats)))
        return (blorb_scaled_answer){BLORB_RESO_NUMBER, 0, 0, 0};
    for (size_t i = 0; reso != NULL && i < n; i++)
        if (get32(reso + 8 + HEAD + ROW * i) == picture)
            return by_row(reso + 8, reso + 8 + HEAD + ROW * i, sides);
    return (blorb_scaled_answer){0, 0, sides[2], sides[3]};
}

static blorb_scaled_answer scaled_by(unsigned library, const uint8_t *f, size_t size, uint32_t picture)
{
    static const uint64_t sides[4] = {1280, 1000, 333, 222};

    if (library == 0)
        return blorb_scaled(f, size, BLORB_PLAIN, sides[0], sides[1], picture, sides[2], sides[3]);
    return library == 1 ? in_c(plain_read, plain_repeats, f, size, sides, picture) : in_c(fast_read, fast_repeats, f, size, sides, picture);
}

/* ---- files */

/*
 * Crafted: so many rows of a block fill two words by the factor of one round, the next ones by that of the next round. So of the earlier rows that are
 * held against the block one in 448 misleads in each of these rounds, which therefore end early. The pictures fall.
 */
enum { FILLED = 2, FILLING = 56 };
struct crafting {
    uint32_t last;
    uint64_t factor, words[FILLED];
};

static unsigned ones(uint64_t word)
{
    unsigned n = 0;

    for (; word != 0; word &= word - 1)
        n++;
    return n;
}

/* Whether the picture's marks are in one of the words and fill it further, or it is full but for a few bits. */
static bool fills_word(struct crafting *c, uint32_t picture)
{
    uint64_t m = mixed(c->factor, picture), bits = mark_bits(m);
    size_t w = mark_word(m);

    if (w >= FILLED || (ones(bits & ~c->words[w]) < 2 && ones(~c->words[w]) > 5))
        return false;
    c->words[w] |= bits;
    return true;
}

static uint32_t crafted(struct crafting *c, size_t i)
{
    size_t j = i - block_of(i);

    if (i > 0 && j % FILLING == 0) {
        c->factor = j == 0 ? first_factor(i) : next_factor(c->factor);
        memset(c->words, 0, sizeof c->words);
    }
    do
        c->last--;
    while (i > 0 && !fills_word(c, c->last));
    return c->last;
}

static uint8_t *file_of(size_t count, enum order order, size_t *length)
{
    size_t size = HEAD + ROW * count;
    uint32_t last = UINT32_MAX;
    struct crafting c = {.last = UINT32_MAX};
    uint8_t *f = calloc(*length = START + BLORB_HEADER_SIZE + size, 1), *reso = f + START + BLORB_HEADER_SIZE;

    if (f == NULL)
        exit(1);
    blorb_blank(f, *length);
    put32(f + 4, (uint32_t)*length - 8);
    memcpy(f + START, "Reso", 4);
    put32(f + START + 4, (uint32_t)size);
    put32(reso, 640);
    put32(reso + 4, 480);
    for (size_t i = 0; i < count; i++) {
        uint8_t *row = reso + HEAD + ROW * i;
        put32(row, order == CRAFTED ? crafted(&c, i) : number_of(i, count, order, 0, &last));
        for (uint32_t k = 1; k < 7; k++)
            put32(row + 4 * k, k < 5 ? 2 : 7);
        put32(row + 4, 3);
    }
    return f;
}

static bool same(blorb_scaled_answer a, blorb_scaled_answer b)
{
    return a.refusal == b.refusal && a.place == b.place && a.width == b.width && a.height == b.height;
}

/* The pictures of the first, the middle and the last row, and one that is not listed. */
static void check(const uint8_t *f, size_t length, size_t count)
{
    const uint8_t *rows = f + START + BLORB_HEADER_SIZE + HEAD;
    uint32_t pictures[] = {get32(rows), get32(rows + ROW * (count / 2)), get32(rows + ROW * (count - 1)), 1234567};

    for (unsigned i = 0; i < 4; i++)
        for (unsigned library = 1; library < LIBRARIES; library++)
            if (count > 10000 && i > 0)
                continue; /* once is enough where it takes seconds */
            else if (!same(scaled_by(0, f, length, pictures[i]), scaled_by(library, f, length, pictures[i])))
                exit(1);
}

static int by_time(const void *a, const void *b)
{
    double x = *(const double *)a, y = *(const double *)b;

    return (x > y) - (x < y);
}

/* Medians of one call, by turns; a hundred calls at once where they are short. */
static void measure(const uint8_t *f, size_t length, size_t count, double result[LIBRARIES])
{
    static double all[LIBRARIES][ROUNDS];
    uint32_t picture = get32(f + START + BLORB_HEADER_SIZE + HEAD + ROW * (count - 1));
    unsigned calls = count < 10 ? 100 : 1, rounds = 0;
    double begun = now();

    for (; rounds < ROUNDS && (rounds < 1 || now() - begun < SCALED_ROW_TIME); rounds++)
        for (unsigned i = 0; i < LIBRARIES; i++) {
            unsigned library = (i + rounds) % LIBRARIES;
            double from = now();
            for (unsigned k = 0; k < calls; k++)
                sink = scaled_by(library, f, length, picture).width;
            all[library][rounds] = (now() - from) / calls;
        }
    for (unsigned library = 0; library < LIBRARIES; library++) {
        qsort(all[library], rounds, sizeof **all, by_time);
        result[library] = all[library][rounds / 2];
    }
}

void print_scaling(void)
{
    static const struct {
        size_t count;
        enum order order;
    } cases[] = {{1, RISING}, {1000, RISING}, {1000, FALLING}, {1000, SHUFFLED}, {1000, AGAINST}, {MOST_ROWS, RISING}, {MOST_ROWS, FALLING},
                 {MOST_ROWS, SHUFFLED}, {MOST_ROWS, AGAINST}, {MOST_ROWS, CRAFTED}};

    puts("| Rows | Pictures | Call us | / (a) | / (b) |");
    puts("|--:|---|--:|--:|--:|");
    for (unsigned i = 0; i < sizeof cases / sizeof *cases; i++) {
        double t[LIBRARIES];
        size_t length;
        uint8_t *f = file_of(cases[i].count, cases[i].order, &length);
        check(f, length, cases[i].count);
        measure(f, length, cases[i].count, t);
        printf("| %6zu | %-16s | %10.2f | %5.2f | %7.2f |\n", cases[i].count, orders[cases[i].order], t[0] / 1e3, t[0] / t[1], t[0] / t[2]);
        fflush(stdout);
        free(f);
    }
}
