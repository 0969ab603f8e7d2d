/*
 * Spoken descriptions, in processor time: how fast a long text is judged, against a plain validator of UTF-8 in C, and the 'RDes' chunks of as many texts
 * as a file can have, against (a) the same search for a repeated pair and (b) a hash of all pairs, in static memory. Before a row is measured, all give
 * the same answers to it.
 */
#define _POSIX_C_SOURCE 200809L
#include "tables.h"

#include "calls.h"
#include "format.h"
#include "orders.h"

#include <stdio.h>
#include <stdlib.h>
#include <string.h>
#include <time.h>

enum { START = 24, COUNT_AT = START + BLORB_HEADER_SIZE, FIRST = COUNT_AT + 4, ENTRY = 12, MOST_TEXTS = (BLORB_MAX_SIZE - FIRST) / ENTRY };
enum { LONG_TEXT = 8 << 20, TEXT_ROUNDS = 31 };
static volatile uint64_t sink;

static double now(void)
{
    struct timespec t;

    clock_gettime(CLOCK_PROCESS_CPUTIME_ID, &t);
    return (double)t.tv_sec * 1e9 + (double)t.tv_nsec;
}

static int by_time(const void *a, const void *b)
{
    double x = *(const double *)a, y = *(const double *)b;

    return (x > y) - (x < y);
}

/* A file of `size` bytes behind the count of its only chunk, an 'RDes' of so many texts. */
static uint8_t *file_of(size_t size, size_t count, size_t *length)
{
    uint8_t *f = calloc(*length = FIRST + size + size % 2, 1);

    if (f == NULL)
        exit(1);
    blorb_blank(f, *length);
    put32(f + 4, (uint32_t)*length - 8);
    memcpy(f + START, "RDes", 4);
    put32(f + START + 4, (uint32_t)(4 + size));
    put32(f + COUNT_AT, (uint32_t)count);
    return f;
}

/* ---- UTF-8 */

/* A plain validator: by the first byte, the range of the second and how many follow. Gives how many bytes are good. */
static size_t c_good_length(const uint8_t *s, size_t n)
{
    size_t i = 0;

    while (i < n) {
        uint8_t first = s[i], low = 0x80, high = 0xbf;
        size_t more;
        if (first < 0x80) {
            i++;
            continue;
        }
        if (first < 0xc2 || first > 0xf4)
            return i;
        more = first < 0xe0 ? 1 : first < 0xf0 ? 2 : 3;
        low = first == 0xe0 ? 0xa0 : first == 0xf0 ? 0x90 : 0x80;
        high = first == 0xed ? 0x9f : first == 0xf4 ? 0x8f : 0xbf;
        if (n - i <= more || s[i + 1] < low || s[i + 1] > high)
            return i;
        for (size_t k = 2; k <= more; k++)
            if (s[i + k] < 0x80 || s[i + k] > 0xbf)
                return i;
        i += 1 + more;
    }
    return n;
}

enum kind { ASCII, MIXED, LATIN, GREEK, CHINESE, KINDS };
static const char *const kinds[KINDS] = {"ASCII", "mixed, one to four bytes", "German", "Greek", "Chinese"};
static const char *const words[KINDS] = {
    "An eel lies in the reeds, and the reeds do not mind. ",
    "eel \xc3\xa4\xce\xb1 \xe6\xb0\xb4\xe2\x82\xac \xf0\x9f\x90\x9f, ",
    "Gr\xc3\xbc\xc3\x9f""e aus der Sch\xc3\xb6nau, sagt der Aal. ",
    "\xcf\x84\xce\xbf \xcf\x87\xce\xad\xce\xbb\xce\xb9 \xce\xba\xce\xbf\xce\xb9\xce\xbc\xce\xac\xcf\x84\xce\xb1\xce\xb9 ",
    "\xe9\xb3\x97\xe9\xad\x9a\xe5\x9c\xa8\xe8\x98\x86\xe8\x91\xa6\xe4\xb8\xad\xe3\x80\x82",
};

/* One text of about 8 MiB, the words again and again. */
static uint8_t *long_text(enum kind kind, size_t *length, size_t *size)
{
    size_t each = strlen(words[kind]);

    *size = LONG_TEXT / each * each;
    uint8_t *f = file_of(ENTRY + *size, 1, length);
    memcpy(f + FIRST, "Pict\0\0\0\1", 8);
    put32(f + FIRST + 8, (uint32_t)*size);
    for (size_t i = 0; i < *size; i += each)
        memcpy(f + FIRST + ENTRY + i, words[kind], each);
    return f;
}

static void print_long_text(enum kind kind)
{
    static double archive[TEXT_ROUNDS], plain[TEXT_ROUNDS];
    size_t length, size;
    uint8_t *f = long_text(kind, &length, &size), *text = f + FIRST + ENTRY;

    if (blorb_text(f, length, BLORB_PLAIN, 0).length != size || c_good_length(text, size) != size)
        exit(1);
    text[size - 1] = 0xff;
    if (blorb_text(f, length, BLORB_PLAIN, 0).place != FIRST + ENTRY + c_good_length(text, size))
        exit(1);
    memcpy(text + size - strlen(words[kind]), words[kind], strlen(words[kind]));
    for (unsigned i = 0; i < TEXT_ROUNDS; i++) {
        double from = now();
        sink = blorb_text(f, length, BLORB_PLAIN, 0).length;
        double between = now();
        sink = c_good_length(text, size);
        plain[i] = now() - between;
        archive[i] = between - from;
    }
    qsort(archive, TEXT_ROUNDS, sizeof *archive, by_time);
    qsort(plain, TEXT_ROUNDS, sizeof *plain, by_time);
    double a = archive[TEXT_ROUNDS / 2], c = plain[TEXT_ROUNDS / 2];
    printf("| %-24s | %6.0f | %6.0f | %5.2f |\n", kinds[kind], (double)size * 1e3 / a, (double)size * 1e3 / c, a / c);
    fflush(stdout);
    free(f);
}

/* ---- many texts */

static uint64_t random_number(uint64_t *state)
{
    *state ^= *state << 13;
    *state ^= *state >> 7;
    return *state ^= *state << 17;
}

/* How often STIR has to be taken to come one beyond a multiple of f; STIR is a prime above f. */
static uint64_t inverse_of(uint64_t f)
{
    int64_t a = (int64_t)f, b = (int64_t)(STIR % f), x = 0, y = 1;

    while (b != 0) {
        int64_t times = a / b, rest = a % b, next = x - times * y;
        a = b;
        b = rest;
        x = y;
        y = next;
    }
    return (uint64_t)(x < 0 ? x + (int64_t)f : x);
}

/* An x that is stirred to y, if it is found; its upper half is below f. */
static bool stirred_back(uint64_t f, uint64_t inverse, uint64_t y, uint64_t *x)
{
    uint64_t upper = y % f * inverse % f;

    if (upper * STIR > y)
        return false;
    *x = upper << 32 | (y - upper * STIR) / f;
    return (y - upper * STIR) / f < 4294967296;
}

/* A key that has the marks of m by the factor f: its bits are told by bits 30 to 53 of what it is mixed to, its word by those from 20 on. */
static uint64_t key_like(uint64_t f, uint64_t inverse, uint64_t m, uint64_t *state)
{
    const uint64_t told = 0x3fffffc0000000, behind = 0x7ffffff, above = UINT64_MAX << 54;
    uint64_t y, k;

    for (;;) {
        uint64_t z = (random_number(state) & (above | behind)) | (m & told);
        z += (mark_word(m) + MARK_WORDS - mark_word(z)) % MARK_WORDS << 20;
        if (stirred_back(f, inverse, z, &y) && stirred_back(f, inverse, y, &k))
            return k;
    }
}

/*
 * Crafted: each key of a block has the marks of one of the list's first entries, by the factor in force when that entry is held against the block. So
 * these mislead in every block, round after round, as many as a block has keys.
 */
static void craft(uint64_t *keys, size_t count)
{
    uint64_t state = 88172645463325252, f = 0, inverse = 0;

    keys[0] = UINT64_MAX;
    for (size_t i = 1; i < count; i++) {
        size_t b = block_of(i), j = i - b;
        if (b == 1) {
            keys[i] = random_number(&state);
            continue;
        }
        if (j % SUSPECTS == 0) {
            f = j == 0 ? first_factor(b) : next_factor(f);
            inverse = inverse_of(f);
        }
        keys[i] = key_like(f, inverse, mixed(f, keys[j]), &state);
    }
}

/* Usage and number of each text, as one number; all but the crafted ones are pictures'. */
static uint64_t *keys_of(size_t count, enum order order)
{
    uint64_t *keys = malloc(count * sizeof *keys);
    uint32_t last = UINT32_MAX;

    if (keys == NULL)
        exit(1);
    if (order == CRAFTED)
        craft(keys, count);
    for (size_t i = 0; order != CRAFTED && i < count; i++)
        keys[i] = (uint64_t)BLORB_PICT << 32 | number_of(i, count, order, BLORB_PICT, &last);
    return keys;
}

/* Texts of no bytes. */
static uint8_t *many_texts(size_t count, enum order order, size_t *length)
{
    uint8_t *f = file_of(ENTRY * count, count, length);
    uint64_t *keys = keys_of(count, order);

    for (size_t i = 0; i < count; i++) {
        put32(f + FIRST + ENTRY * i, (uint32_t)(keys[i] >> 32));
        put32(f + FIRST + ENTRY * i + 4, (uint32_t)keys[i]);
    }
    free(keys);
    return f;
}

/* Whether the entries fill the chunk; `at` is then its end. */
static bool fills(const struct list *l, const uint8_t *end, const uint8_t **at)
{
    *at = l->base;
    for (size_t i = 0; i < l->count; i++, *at = next_at(l, *at))
        if (end - *at < ENTRY || (size_t)(end - *at) - ENTRY < get32(*at + 8))
            return false;
    return *at == end;
}

static bool all_good(const struct list *l)
{
    const uint8_t *at = l->base;

    for (size_t i = 0; i < l->count; i++, at = next_at(l, at))
        if (c_good_length(at + ENTRY, get32(at + 8)) != get32(at + 8))
            return false;
    return true;
}

/* The library's passes: the file, the entries, the texts, the pairs, and on to the last text. */
static bool plain_texts(const uint8_t *f, size_t length, size_t count)
{
    struct list l = {f + FIRST, ENTRY, count, true};
    const uint8_t *end, *last = l.base;

    if (plain_read(f, length, BLORB_PLAIN).refusal != 0 || !fills(&l, f + length, &end) || !all_good(&l) || list_repeats(&l))
        return false;
    for (size_t i = 1; i < count; i++)
        last = next_at(&l, last);
    sink = (uint64_t)(last - f);
    return true;
}

static uint64_t pairs[1 << 22];

/* At most half full; no pair is 0. */
static bool fast_texts(const uint8_t *f, size_t length, size_t count)
{
    size_t size = 64;
    struct list l = {f + FIRST, ENTRY, count, true};
    const uint8_t *at;

    if (fast_read(f, length, BLORB_PLAIN).refusal != 0 || !fills(&l, f + length, &at) || !all_good(&l))
        return false;
    if (rising(&l, &at) == count)
        return true;
    while (size < 2 * count)
        size *= 2;
    memset(pairs, 0, size * sizeof *pairs);
    at = l.base;
    for (size_t i = 0; i < count; i++, at = next_at(&l, at)) {
        uint64_t k = key_at(&l, at);
        size_t slot = k * 0x9e3779b97f4a7c15 >> 20 & (size - 1);
        for (; pairs[slot] != 0; slot = (slot + 1) & (size - 1))
            if (pairs[slot] == k)
                return false;
        pairs[slot] = k;
    }
    return true;
}

static bool texts_by(unsigned library, const uint8_t *f, size_t length, size_t count)
{
    if (library == 0)
        return blorb_text(f, length, BLORB_PLAIN, count - 1).refusal == 0;
    return library == 1 ? plain_texts(f, length, count) : fast_texts(f, length, count);
}

/* One round for the worst ones, which take seconds; the median of more for the others. */
static void print_many(size_t count, enum order order)
{
    static double all[LIBRARIES][TEXT_ROUNDS];
    size_t length;
    uint8_t *f = many_texts(count, order, &length);
    double begun = now();
    unsigned rounds = 0;

    for (; rounds < TEXT_ROUNDS && (rounds < 1 || now() - begun < 0.4e9); rounds++)
        for (unsigned library = 0; library < LIBRARIES; library++) {
            double from = now();
            if (!texts_by(library, f, length, count))
                exit(1);
            all[library][rounds] = now() - from;
        }
    for (unsigned library = 0; library < LIBRARIES; library++)
        qsort(all[library], rounds, sizeof **all, by_time);
    double t = all[0][rounds / 2];
    printf("| %7zu | %-16s | %11.2f | %5.2f | %7.2f |\n", count, orders[order], t / 1e3, t / all[1][rounds / 2], t / all[2][rounds / 2]);
    fflush(stdout);
    free(f);
}

/* The same list as rows: what the writer takes with all texts of no bytes, in seconds. */
static double time_writing(enum order order)
{
    uint32_t *rows = malloc(BLORB_TEXT_NUMBERS * MOST_TEXTS * sizeof *rows);
    uint64_t *keys = keys_of(MOST_TEXTS, order);
    uint8_t *buffer = malloc(BLORB_MAX_SIZE);

    if (rows == NULL || buffer == NULL)
        exit(1);
    for (size_t i = 0; i < MOST_TEXTS; i++)
        memcpy(rows + BLORB_TEXT_NUMBERS * i, (uint32_t[]){(uint32_t)(keys[i] >> 32), (uint32_t)keys[i], 0, 0}, 4 * sizeof *rows);
    double from = now();
    if (blorb_texts_write(rows, BLORB_TEXT_NUMBERS * MOST_TEXTS, NULL, 0, buffer, BLORB_MAX_SIZE).refusal != 0)
        exit(1);
    double taken = now() - from;
    free(rows);
    free(keys);
    free(buffer);
    return taken / 1e9;
}

/* ---- texts that share their bytes */

/*
 * What the writer takes with a million texts of all of one slice of 16 MB, in seconds: 40 is answered once all are judged. The slice is remembered in
 * parts of PART bytes, 64 to a word. Worst: each text begins just behind the first border and ends at one where a stray byte follows, so that most of
 * three parts is walked for each text, and the parts of two words are looked at one by one.
 */
enum { SHARING = 1000000, PART = BLORB_MAX_SIZE / 57344 + 256 };

static double time_sharing(enum kind kind, bool worst)
{
    size_t each = strlen(words[kind]), from = worst ? 3 : 0, to = BLORB_MAX_SIZE / each * each;
    uint32_t *rows = malloc(BLORB_TEXT_NUMBERS * SHARING * sizeof *rows);
    uint8_t *texts = calloc(BLORB_MAX_SIZE, 1), buffer[1];

    if (rows == NULL || texts == NULL)
        exit(1);
    for (size_t i = 0; i + each <= BLORB_MAX_SIZE; i += each)
        memcpy(texts + i, words[kind], each);
    if (worst) {
        to = BLORB_MAX_SIZE / (192 * PART) * (192 * PART);
        texts[to] = 0x80;
    }
    for (uint32_t i = 0; i < SHARING; i++)
        memcpy(rows + BLORB_TEXT_NUMBERS * i, (uint32_t[]){BLORB_PICT, i, (uint32_t)from, (uint32_t)(to - from)}, 4 * sizeof *rows);
    double begun = now();
    if (blorb_texts_write(rows, BLORB_TEXT_NUMBERS * SHARING, texts, BLORB_MAX_SIZE, buffer, sizeof buffer).refusal != BLORB_RDES_ROOM)
        exit(1);
    double taken = now() - begun;
    free(rows);
    free(texts);
    return taken / 1e9;
}

void print_texts(void)
{
    puts("| Text of 8 MB | MB/s | C MB/s | time / C |");
    puts("|---|--:|--:|--:|");
    for (unsigned kind = 0; kind < KINDS; kind++)
        print_long_text((enum kind)kind);
    puts("\n| Texts | Numbers | Call us | / (a) | / (b) |");
    puts("|--:|---|--:|--:|--:|");
    print_many(1, RISING);
    for (unsigned order = 0; order < CRAFTED; order++)
        print_many(1000, (enum order)order);
    for (unsigned order = 0; order < ORDERS; order++)
        print_many(MOST_TEXTS, (enum order)order);
    printf("\nWriting %d texts of no bytes takes %.2f s rising, %.2f s shuffled, %.2f s crafted.\n", (int)MOST_TEXTS, time_writing(RISING),
           time_writing(SHUFFLED), time_writing(CRAFTED));
    printf("\nWriting %d texts that are one text of 16 MB takes %.2f s of ASCII, %.2f s of Chinese; the worst that were made, whose ends lie just off the\n"
           "parts that are remembered, %.2f s and %.2f s.\n",
           SHARING, time_sharing(ASCII, false), time_sharing(CHINESE, false), time_sharing(ASCII, true), time_sharing(CHINESE, true));
    fflush(stdout);
}
