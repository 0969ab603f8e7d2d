/*
 * The same answers as fast as C gives them, with static scratch. A file in chunk order with rising numbers and without
 * 'RelN' and 'Fspc' is judged in one pass over chunks and entries side by side. Any other is walked once with its starts noted in
 * a sorted table; entries find theirs next to the last one found or by halving, and pairs that could repeat are hashed.
 */
#include "calls.h"
#include "format.h"

#define CALL(name) fast_##name

/* The straight path goes into each call, the other one stays out of it. */
#define INLINE inline __attribute__((always_inline))
#define APART __attribute__((noinline, cold))

enum { SLOTS = 16384 };

static uint32_t starts[BLORB_MAX_SIZE / 8 + 1]; /* where each chunk behind the index begins, rising */
static struct {
    uint64_t pair;
    uint64_t turn; /* the slot is in use where this is the present turn */
} slots[SLOTS];
static uint64_t turn;

static uint64_t pair_at(const uint8_t *entry)
{
    uint64_t pair;

    memcpy(&pair, entry, 8);
    return pair;
}

static uint64_t pair_of(uint32_t usage, uint32_t number)
{
    return (uint64_t)__builtin_bswap32(number) << 32 | __builtin_bswap32(usage);
}

/* What the pair's entry tells of its chunk. */
static void found_at(const uint8_t *file, size_t place, struct facts *f)
{
    f->found = true;
    f->place = place;
    f->start = get32(file + entry_at(place) + 8);
    f->type = get32(file + f->start);
    f->length = get32(file + f->start + 4);
}

/* For each usage a number above all of its numbers so far. */
struct tops {
    uint64_t of[8];
    uint64_t allowed; /* usage and type of the last entry, where rules 5 and 6 need no look at anything else; or 0 */
};

static uint32_t raw32(const uint8_t *p)
{
    uint32_t v;

    memcpy(&v, p, 4);
    return v;
}

/* Refusals 12, 14 and 15 of the entry at `e`, which has another usage or type than the last one. */
static inline bool other_kind(struct tops *t, uint32_t profile, const uint8_t *e, const uint8_t *chunk)
{
    uint32_t usage = get32(e), type = get32(chunk);

    if (!type_allowed(profile, usage, type, chunk + 8, get32(chunk + 4)) || (usage == BLORB_EXEC && get32(e + 4) != 0))
        return false;
    t->allowed = type == RECT || type == FORM || usage == BLORB_EXEC ? 0 : (uint64_t)raw32(chunk) << 32 | raw32(e);
    return true;
}

/* Whether the entry at `e` is in order and its number above all before it of its usage. */
static inline bool rising(struct tops *t, uint32_t profile, const uint8_t *e, const uint8_t *chunk)
{
    uint64_t number = get32(e + 4), *top = &t->of[e[0] % 8];

    if (((uint64_t)raw32(chunk) << 32 | raw32(e)) != t->allowed && !other_kind(t, profile, e, chunk))
        return false;
    if (number < *top)
        return false;
    *top = number + 1;
    return true;
}

/* Chunks without an entry, from `at` up to `to`. */
static bool passed_over(const uint8_t *file, size_t size, size_t *at, size_t to, size_t asked, bool *begins)
{
    while (*at < to) {
        *begins |= *at == asked;
        size_t now = *at;
        if (chunk_whole(file, size, now, at).refusal != 0 || special(get32(file + now)))
            return false;
    }
    return true;
}

/* Entries and chunks side by side: false where the file must be judged otherwise. */
static INLINE bool side_by_side(const uint8_t *file, size_t size, uint32_t profile, uint64_t pair, size_t asked, struct facts *f)
{
    struct tops tops = {{0}, 0};
    size_t count = get32(file + 20), at = entry_at(count), last = 0, hit = 0;
    const uint8_t *end = file + at;

    for (const uint8_t *e = file + 24; e < end; e += 12) {
        /* Chunks are read at the entry's start, once it is known to be the walk's: no load waits for the one before. */
        size_t start = get32(e + 8), same = start;
        __asm__("" : "+r"(same));
        if (start != last) {
            if (at != start && (!passed_over(file, size, &at, start, asked, &f->begins) || at != start))
                return false;
            f->begins |= at == asked;
            if (chunk_whole(file, size, same, &at).refusal != 0)
                return false;
            last = start;
        }
        if (!rising(&tops, profile, e, file + same))
            return false;
        if (pair_at(e) == pair)
            hit = (size_t)(e - file);
    }
    f->count = count;
    if (hit != 0) {
        found_at(file, (hit - 24) / 12, f);
        f->shared = (f->place > 0 && get32(file + hit - 4) == f->start)
            || (f->place + 1 < count && get32(file + hit + 20) == f->start);
    }
    return passed_over(file, size, &at, size, asked, &f->begins) && at == size;
}

/* Refusals 6, 28, 29 and 7; notes the starts, and whether a chunk behind the index is an 'RIdx', a 'RelN' or an 'Fspc'. */
static struct verdict walk(const uint8_t *file, size_t size, size_t *chunks, bool *specials)
{
    size_t at = 12, next, n = 0;

    *specials = false;
    for (; at < size; at = next) {
        struct verdict v = chunk_whole(file, size, at, &next);
        if (v.refusal != 0)
            return v;
        if (at != 12) {
            starts[n++] = (uint32_t)at;
            *specials |= special(get32(file + at));
        }
    }
    *chunks = n;
    return (struct verdict){0, 0};
}

/* The place of `start` among the starts, or `chunks`. `near` is the place last found. */
static size_t place_of(size_t chunks, uint32_t start, size_t near)
{
    for (size_t k = near == 0 ? 0 : near - 1; k < near + 2 && k < chunks; k++)
        if (starts[k] == start)
            return k;
    size_t low = 0, high = chunks;
    while (low < high) {
        size_t middle = (low + high) / 2;
        if (starts[middle] < start)
            low = middle + 1;
        else
            high = middle;
    }
    return low < chunks && starts[low] == start ? low : chunks;
}

/* Whether the pair is in the table; it is afterwards. */
static bool hashed(uint64_t pair)
{
    size_t k = (size_t)(pair * 0x9e3779b97f4a7c15u >> 50);

    for (; slots[k].turn == turn; k = (k + 1) % SLOTS)
        if (slots[k].pair == pair)
            return true;
    slots[k].pair = pair;
    slots[k].turn = turn;
    return false;
}

/* For each usage the least of its numbers and one above the greatest: a number outside repeats none. */
struct ranges {
    uint64_t least[8], top[8];
    size_t noted; /* entries in the table; they are put there once a number lies inside */
};

static bool repeated(const uint8_t *file, size_t j, struct ranges *r)
{
    const uint8_t *e = file + entry_at(j);
    uint64_t number = get32(e + 4), *least = &r->least[e[0] % 8], *top = &r->top[e[0] % 8];
    bool inside = number < *top && number >= *least;

    if (*top == 0 || number < *least)
        *least = number;
    if (number >= *top)
        *top = number + 1;
    if (!inside)
        return false;
    if (r->noted == 0)
        turn++;
    for (; r->noted < j; r->noted++)
        hashed(pair_at(file + entry_at(r->noted)));
    r->noted = j + 1;
    return hashed(pair_at(e));
}

/* Refusals 12 to 16 and 27, and the pair asked for. */
static struct verdict entries(const uint8_t *file, size_t chunks, uint32_t profile, uint64_t pair, struct facts *f)
{
    struct ranges ranges = {{0}, {0}, 0};
    size_t near = 0, hit = f->count;
    uint32_t before = 0;

    for (size_t j = 0; j < f->count; j++) {
        size_t at = entry_at(j);
        uint32_t usage = get32(file + at), start = get32(file + at + 8);
        if (!known_usage(usage))
            return (struct verdict){BLORB_USAGE, at};
        near = place_of(chunks, start, near);
        if (near == chunks)
            return (struct verdict){BLORB_START, at + 8};
        if (!type_allowed(profile, usage, get32(file + start), file + start + 8, get32(file + start + 4)))
            return (struct verdict){BLORB_TYPE, at};
        if (usage == BLORB_EXEC && get32(file + at + 4) != 0)
            return (struct verdict){BLORB_EXEC_NUMBER, at + 4};
        if (repeated(file, j, &ranges))
            return (struct verdict){BLORB_REPEATED, at};
        if (start < before)
            return (struct verdict){BLORB_ORDER, at + 8};
        before = start;
        if (pair_at(file + at) == pair)
            hit = j;
    }
    if (hit < f->count)
        found_at(file, hit, f);
    return (struct verdict){0, 0};
}

/* Refusal 9. */
static struct verdict second_index(const uint8_t *file, size_t chunks)
{
    for (size_t k = 0; k < chunks; k++)
        if (get32(file + starts[k]) == RIDX)
            return (struct verdict){BLORB_SECOND_INDEX, starts[k]};
    return (struct verdict){0, 0};
}

/* Refusal 19: the picture of that number is in the index and no 'Rect'. */
static bool pictured(const uint8_t *file, size_t count, uint32_t number)
{
    uint64_t pair = pair_of(BLORB_PICT, number);

    for (size_t i = 0; i < count; i++)
        if (pair_at(file + entry_at(i)) == pair)
            return get32(file + get32(file + entry_at(i) + 8)) != RECT;
    return false;
}

/* Refusals 17 to 19, and the frontispiece. */
static struct verdict optional(const uint8_t *file, size_t chunks, struct facts *f)
{
    bool reln = false;

    for (size_t k = 0; k < chunks; k++) {
        uint32_t at = starts[k], type = get32(file + at), m = get32(file + at + 4);
        if (type != RELN && type != FSPC)
            continue;
        if (type == RELN ? reln : f->fronted)
            return (struct verdict){BLORB_SECOND_OPTIONAL, at};
        if (m != (type == RELN ? 2 : 4))
            return (struct verdict){BLORB_OPTIONAL_LENGTH, at + 4};
        if (type == RELN) {
            reln = true;
            continue;
        }
        if (!pictured(file, f->count, get32(file + at + 8)))
            return (struct verdict){BLORB_FRONTISPIECE, at + 8};
        f->fronted = true;
        f->front_start = at;
        f->front_number = get32(file + at + 8);
    }
    return (struct verdict){0, 0};
}

static bool has_start_twice(const uint8_t *file, const struct facts *f)
{
    size_t n = 0;

    for (size_t j = 0; j < f->count; j++)
        n += get32(file + entry_at(j) + 8) == f->start;
    return n > 1;
}

/* Refusals 6 to 19, 28 and 29 of any file. */
static struct verdict judge(const uint8_t *file, size_t size, uint32_t profile, uint64_t pair, size_t asked, struct facts *f)
{
    size_t chunks;
    bool specials;
    struct verdict v = walk(file, size, &chunks, &specials);

    if (v.refusal != 0)
        return v;
    if (size == 12 || get32(file + 12) != RIDX)
        return (struct verdict){BLORB_NO_INDEX, 12};
    if (specials) {
        v = second_index(file, chunks);
        if (v.refusal != 0)
            return v;
    }
    v = index_shape(file);
    if (v.refusal != 0)
        return v;
    f->count = get32(file + 20);
    v = entries(file, chunks, profile, pair, f);
    if (v.refusal == 0 && specials)
        v = optional(file, chunks, f);
    f->begins = asked != 0 && place_of(chunks, (uint32_t)asked, 0) < chunks;
    return v;
}

/* Whether the walk side by side can be tried: the index is whole and its count right. */
static bool index_whole(const uint8_t *file, size_t size)
{
    return size >= 24 && get32(file + 12) == RIDX && index_shape(file).refusal == 0 && entry_at(get32(file + 20)) <= size;
}

static APART void inspect_any(const uint8_t *file, size_t size, uint32_t profile, uint64_t pair, size_t asked, struct facts *f)
{
    *f = (struct facts){.count = 0};
    f->verdict = judge(file, size, profile, pair, asked, f);
    if (f->verdict.refusal == 0 && f->found)
        f->shared = has_start_twice(file, f);
}

static INLINE struct facts inspect(const uint8_t *file, size_t size, uint32_t profile, uint32_t usage, uint32_t number, size_t asked)
{
    struct facts f = {.count = 0};
    uint64_t pair = pair_of(usage, number);

    f.verdict = head(file, size, profile);
    if (f.verdict.refusal != 0)
        return f;
    if (!index_whole(file, size) || !side_by_side(file, size, profile, pair, asked, &f))
        inspect_any(file, size, profile, pair, asked, &f);
    return f;
}

blorb_read_answer fast_read(const uint8_t *file, size_t size, uint32_t profile)
{
    struct facts f = inspect(file, size, profile, 0, 0, 0);

    if (f.verdict.refusal != 0)
        return (blorb_read_answer){f.verdict.refusal, f.verdict.place, 0, 0};
    return (blorb_read_answer){0, 0, size, f.count};
}

blorb_lookup_answer fast_lookup(const uint8_t *file, size_t size, uint32_t profile, const char *usage, uint32_t number)
{
    struct facts f = inspect(file, size, profile, tag(usage), number, 0);

    if (f.verdict.refusal != 0)
        return (blorb_lookup_answer){f.verdict.refusal, f.verdict.place, 0, 0, 0};
    if (!f.found)
        return (blorb_lookup_answer){BLORB_NOT_THERE, 0, 0, 0, 0};
    size_t skipped = left_out(f.type);
    return (blorb_lookup_answer){0, 0, f.type, f.start + skipped, 8 + (uint64_t)f.length - skipped};
}

static size_t find(const uint8_t *file, size_t count, uint32_t usage, uint32_t number)
{
    uint64_t pair = pair_of(usage, number);

    for (size_t i = 0; i < count; i++)
        if (pair_at(file + entry_at(i)) == pair)
            return i;
    return count;
}

static void move_starts(uint8_t *file, size_t count, uint32_t limit, uint32_t behind, uint32_t other)
{
    if (behind == 0 && other == 0)
        return;
    for (uint8_t *start = file + 32, *end = file + 32 + 12 * count; start < end; start += 12) {
        uint32_t s = get32(start);
        put32(start, s + (s > limit ? behind : other));
    }
}

#include "editing.h"
