/*
 * The search for a repeated key in a long list, as the library makes it, in C: (a) of the benchmark. Keys are marked block by block in a small array,
 * and earlier entries are held against the marks. Those whose marks are all set are the suspects, which one pass over the block settles. Each block has a
 * factor of its own; where there is no room for another suspect, the next round marks by another.
 */
#ifndef REPEATS_H
#define REPEATS_H

#include "format.h"

/* Entries of `step` bytes from `base` on. With texts each key has two numbers, and the length of the text behind the entry follows them. */
struct list {
    const uint8_t *base;
    size_t step, count;
    bool texts;
};

enum { MARK_WORDS = 896, MARK_BLOCK = 1792, SUSPECTS = 32 };
#define STIR ((uint64_t)2246822519)

static inline uint64_t key_at(const struct list *l, const uint8_t *at)
{
    return l->texts ? (uint64_t)get32(at) << 32 | get32(at + 4) : get32(at);
}

static inline const uint8_t *next_at(const struct list *l, const uint8_t *at)
{
    return at + l->step + (l->texts ? get32(at + 8) : 0);
}

static inline uint64_t stirred(uint64_t f, uint64_t x)
{
    return x % 4294967296 * f + x / 4294967296 * STIR;
}

static inline uint64_t mixed(uint64_t f, uint64_t k)
{
    return stirred(f, stirred(f, k));
}

static inline size_t mark_word(uint64_t m)
{
    return m / 1048576 % MARK_WORDS;
}

static inline uint64_t mark_bits(uint64_t m)
{
    return (uint64_t)1 << m / 1073741824 % 64 | (uint64_t)1 << m / 68719476736 % 64 | (uint64_t)1 << m / 4398046511104 % 64
        | (uint64_t)1 << m / 281474976710656 % 64;
}

/* The factor of the block that begins with entry b. */
static inline uint64_t first_factor(size_t b)
{
    return b % 1000000007 * 48271 % 1000000007 + 1000000000;
}

/* Where the block of entry i begins in a list of which only the first entry rises. */
static inline size_t block_of(size_t i)
{
    return i == 0 ? 1 : i - (i - 1) % MARK_BLOCK;
}

static inline uint64_t next_factor(uint64_t f)
{
    return f * 48271 % 1000000007 + 1000000000;
}

/* Whether k is one of the suspects. All are looked at, so that several can be compared at once. */
static inline bool is_held(const uint64_t *suspects, size_t count, uint64_t k)
{
    bool there = false;

    for (size_t i = 0; i < count; i++)
        there |= suspects[i] == k;
    return there;
}

static inline size_t place_of(const uint64_t *suspects, size_t count, uint64_t k)
{
    size_t i = 0;

    if (!is_held(suspects, count, k))
        return count;
    while (i < count && suspects[i] != k)
        i++;
    return i;
}

static inline void mark(const struct list *l, const uint8_t *from, size_t n, uint64_t f, uint64_t marks[MARK_WORDS])
{
    memset(marks, 0, MARK_WORDS * sizeof *marks);
    for (; n > 0; n--, from = next_at(l, from)) {
        uint64_t m = mixed(f, key_at(l, from));
        marks[mark_word(m)] |= mark_bits(m);
    }
}

/* Whether a suspect is the key of two of the n entries from `from` on. */
static inline bool held_again(const struct list *l, const uint8_t *from, size_t n, const uint64_t *suspects, size_t count)
{
    bool seen[SUSPECTS + 1] = {false};

    for (; count > 0 && n > 0; n--, from = next_at(l, from)) {
        size_t i = place_of(suspects, count, key_at(l, from));
        if (seen[i])
            return true;
        seen[i] = i < count;
    }
    return false;
}

/* Whether one of the n entries from entry b on, which stands at `from`, has the key of an earlier one of them; `end` is what stands behind them. */
static inline bool repeats_inside(const struct list *l, size_t b, const uint8_t *from, size_t n, const uint8_t **end)
{
    uint64_t marks[MARK_WORDS], suspects[SUSPECTS], f = first_factor(b);
    size_t j = 0;

    for (const uint8_t *at = *end = from; j < n; f = next_factor(f)) {
        size_t count = 0;
        mark(l, from, j, f, marks);
        for (; j < n && count < SUSPECTS; j++, *end = at = next_at(l, at)) {
            uint64_t k = key_at(l, at), m = mixed(f, k), bits = mark_bits(m), *word = &marks[mark_word(m)];
            suspects[count] = k;
            count += (*word & bits) == bits;
            *word |= bits;
        }
        if (held_again(l, from, j, suspects, count))
            return true;
    }
    return false;
}

/* Whether one of the n entries from `from` on has the key of a suspect. */
static inline bool any_held(const struct list *l, const uint8_t *from, size_t n, const uint64_t *suspects, size_t count)
{
    for (; count > 0 && n > 0; n--, from = next_at(l, from))
        if (is_held(suspects, count, key_at(l, from)))
            return true;
    return false;
}

/* Whether one of the n entries from entry b on, which stands at `from`, has the key of one before b. */
static inline bool repeats_below(const struct list *l, size_t b, const uint8_t *from, size_t n)
{
    uint64_t marks[MARK_WORDS], suspects[SUSPECTS], f = first_factor(b);
    const uint8_t *at = l->base;

    for (size_t i = 0; i < b; f = next_factor(f)) {
        size_t count = 0;
        mark(l, from, n, f, marks);
        for (; i < b && count < SUSPECTS; i++, at = next_at(l, at)) {
            uint64_t k = key_at(l, at), m = mixed(f, k), bits = mark_bits(m);
            suspects[count] = k;
            count += (marks[mark_word(m)] & bits) == bits;
        }
        if (any_held(l, from, n, suspects, count))
            return true;
    }
    return false;
}

/* How many entries rise from the first on, and where the next one stands. */
static inline size_t rising(const struct list *l, const uint8_t **at)
{
    size_t j = 1;
    *at = l->base;
    if (l->count == 0)
        return 0;
    for (uint64_t top = key_at(l, *at); (*at = next_at(l, *at), j < l->count) && key_at(l, *at) > top; j++)
        top = key_at(l, *at);
    return j;
}

static inline bool list_repeats(const struct list *l)
{
    const uint8_t *from, *end;

    for (size_t b = rising(l, &from); b < l->count; b += MARK_BLOCK, from = end) {
        size_t n = l->count - b < MARK_BLOCK ? l->count - b : MARK_BLOCK;
        if (repeats_inside(l, b, from, n, &end) || repeats_below(l, b, from, n))
            return true;
    }
    return false;
}

#endif
