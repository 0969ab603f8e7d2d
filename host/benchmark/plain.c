/*
 * The same checks and edits as the library's, with the same algorithms, as straightforward C. A good file is known in one pass over
 * chunks and entries side by side, which remembers the last usage and type that are allowed together. Any other file is judged in
 * turn: one walk over the chunks; each entry's chunk sought by walking on from the last one found, or from the index for the one entry
 * that lies before and is refused. Both look at earlier pairs only for an entry whose number is not above all before it of its usage.
 * No scratch but eight numbers; edits in place.
 */
#include "calls.h"
#include "format.h"

#define CALL(name) plain_##name

struct reading {
    size_t count;
    bool ordinary; /* no chunk behind the index is an 'RIdx', a 'RelN' or an 'Fspc' */
};

static size_t skip(const uint8_t *file, size_t at)
{
    return at + chunk_size(get32(file + at + 4));
}

static bool same_pair(const uint8_t *file, size_t i, size_t j)
{
    return memcmp(file + entry_at(i), file + entry_at(j), 8) == 0;
}

/* Whether an entry before entry j has its pair; all of its usage have numbers below `top`. Four are asked in a turn, as the library does. */
static bool repeats(const uint8_t *file, size_t j, uint64_t top)
{
    size_t i = 0;

    if (get32(file + entry_at(j) + 4) >= top)
        return false;
    for (; i + 3 < j; i += 4)
        if (same_pair(file, i, j) | same_pair(file, i + 1, j) | same_pair(file, i + 2, j) | same_pair(file, i + 3, j))
            return true;
    for (; i < j; i++)
        if (same_pair(file, i, j))
            return true;
    return false;
}

/* Where the top of the entry's usage is kept: the usages differ in the low three bits of their first byte. */
static uint64_t *top_of(uint64_t tops[8], const uint8_t *entry)
{
    return &tops[entry[0] % 8];
}

static void raise_top(uint64_t *top, uint32_t number)
{
    if (number >= *top)
        *top = (uint64_t)number + 1;
}

/* ---- In one pass: false where the file has to be judged in turn. */

/* The walk from `at` up to `to`, or to the first chunk that has a fault or is an index. Gives back where it ends. */
static size_t pass_over(const uint8_t *file, size_t size, size_t at, size_t to, bool *ordinary)
{
    for (size_t next; at < to && at < size; at = next) {
        if (chunk_whole(file, size, at, &next).refusal != 0 || get32(file + at) == RIDX)
            return at;
        if (special(get32(file + at)))
            *ordinary = false;
    }
    return at;
}

/*
 * The way from `*at`, behind the last entry's chunk `found`, to the chunk at `start`; `*at` becomes where the one behind that begins. The chunk is read
 * before it is known that the walk comes to it. That it is no index and none of rule 7's chunks is left to rule 5.
 */
static bool step_to(const uint8_t *file, size_t size, uint64_t found, size_t *at, size_t start, bool *ordinary)
{
    size_t behind;

    if (start >= size || chunk_whole(file, size, start, &behind).refusal != 0)
        return false;
    if (start == found)
        return true;
    if (start != *at && pass_over(file, size, *at, start, ordinary) != start)
        return false;
    *at = behind;
    return true;
}

/* A usage and a type that are allowed together whatever the data and the number are. */
struct allowed {
    uint64_t usage, type;
};

/* Whether the entry at `e`, whose chunk begins at `start`, gives no cause for 12, 14 and 15. */
static bool suits(const uint8_t *file, uint32_t profile, size_t e, size_t start, struct allowed *last)
{
    uint32_t usage = get32(file + e), type = get32(file + start);

    if (usage == last->usage && type == last->type)
        return true;
    if (!type_allowed(profile, usage, type, file + start + 8, get32(file + start + 4)))
        return false;
    if (usage == BLORB_EXEC && get32(file + e + 4) != 0)
        return false;
    if (type != RECT && type != FORM && usage != BLORB_EXEC)
        *last = (struct allowed){usage, type};
    return true;
}

static bool side_by_side(const uint8_t *file, size_t size, uint32_t profile, struct reading *r)
{
    const uint64_t none = UINT64_MAX;
    uint64_t tops[8] = {0}, found = none;
    struct allowed last = {none, none};
    size_t at = entry_at(r->count);

    for (size_t j = 0; j < r->count; j++) {
        size_t e = entry_at(j), start = get32(file + e + 8);
        uint64_t *top = top_of(tops, file + e);
        if (!step_to(file, size, found, &at, start, &r->ordinary))
            return false;
        if (!suits(file, profile, e, start, &last) || repeats(file, j, *top))
            return false;
        raise_top(top, get32(file + e + 4));
        found = start;
    }
    return pass_over(file, size, at, size, &r->ordinary) == size;
}

static bool in_one_pass(const uint8_t *file, size_t size, uint32_t profile, struct reading *r)
{
    if (head(file, size, profile).refusal != 0 || size < entry_at(0) || get32(file + 12) != RIDX || index_shape(file).refusal != 0)
        return false;
    *r = (struct reading){get32(file + 20), true};
    return size >= entry_at(r->count) && side_by_side(file, size, profile, r);
}

/* ---- In turn. */

/* Refusals 6, 28, 29 and 7. */
static struct verdict walk(const uint8_t *file, size_t size, bool *ordinary)
{
    size_t next;

    *ordinary = true;
    for (size_t at = 12; at < size; at = next) {
        struct verdict v = chunk_whole(file, size, at, &next);
        if (v.refusal != 0)
            return v;
        if (at != 12 && special(get32(file + at)))
            *ordinary = false;
    }
    return (struct verdict){0, 0};
}

/* Refusal 9. */
static struct verdict second_index(const uint8_t *file, size_t size)
{
    for (size_t at = skip(file, 12); at < size; at = skip(file, at))
        if (get32(file + at) == RIDX)
            return (struct verdict){BLORB_SECOND_INDEX, at};
    return (struct verdict){0, 0};
}

/* Whether a chunk from `from` on begins at `start`. */
static bool begins(const uint8_t *file, size_t size, size_t from, size_t start)
{
    size_t at = from;

    if (start >= size)
        return false;
    while (at < start)
        at = skip(file, at);
    return at == start;
}

/* Refusals 12 to 15 of the entry at `e`; `found` is where the last entry's chunk begins, and becomes where this one's does. */
static struct verdict entry_fault(const uint8_t *file, size_t size, uint32_t profile, size_t base, size_t e, size_t *found)
{
    uint32_t usage = get32(file + e), number = get32(file + e + 4);
    size_t start = get32(file + e + 8);

    if (!known_usage(usage))
        return (struct verdict){BLORB_USAGE, e};
    if (!begins(file, size, *found <= start ? *found : base, start))
        return (struct verdict){BLORB_START, e + 8};
    if (!type_allowed(profile, usage, get32(file + start), file + start + 8, get32(file + start + 4)))
        return (struct verdict){BLORB_TYPE, e};
    if (usage == BLORB_EXEC && number != 0)
        return (struct verdict){BLORB_EXEC_NUMBER, e + 4};
    *found = start;
    return (struct verdict){0, 0};
}

/* Refusals 12 to 16 and 27. */
static struct verdict entries(const uint8_t *file, size_t size, uint32_t profile, size_t count)
{
    uint64_t tops[8] = {0};
    size_t base = entry_at(count), found = base;

    for (size_t j = 0; j < count; j++) {
        size_t e = entry_at(j), before = found;
        uint64_t *top = top_of(tops, file + e);
        struct verdict v = entry_fault(file, size, profile, base, e, &found);
        if (v.refusal != 0)
            return v;
        if (repeats(file, j, *top))
            return (struct verdict){BLORB_REPEATED, e};
        if (found < before)
            return (struct verdict){BLORB_ORDER, e + 8};
        raise_top(top, get32(file + e + 4));
    }
    return (struct verdict){0, 0};
}

/* The place of the entry (usage, number); `count` where there is none. */
static size_t find(const uint8_t *file, size_t count, uint32_t usage, uint32_t number)
{
    for (size_t i = 0; i < count; i++)
        if (get32(file + entry_at(i)) == usage && get32(file + entry_at(i) + 4) == number)
            return i;
    return count;
}

/* Refusals 18 and 19 of the 'RelN' or 'Fspc' at `at`. */
static struct verdict optional_fault(const uint8_t *file, size_t count, size_t at)
{
    uint32_t type = get32(file + at);

    if (get32(file + at + 4) != (type == RELN ? 2 : 4))
        return (struct verdict){BLORB_OPTIONAL_LENGTH, at + 4};
    if (type == RELN)
        return (struct verdict){0, 0};
    size_t i = find(file, count, BLORB_PICT, get32(file + at + 8));
    if (i == count || get32(file + get32(file + entry_at(i) + 8)) == RECT)
        return (struct verdict){BLORB_FRONTISPIECE, at + 8};
    return (struct verdict){0, 0};
}

/* Refusals 17 to 19. */
static struct verdict optional(const uint8_t *file, size_t size, size_t count)
{
    bool reln = false, fspc = false;

    for (size_t at = entry_at(count); at < size; at = skip(file, at)) {
        uint32_t type = get32(file + at);
        if (type != RELN && type != FSPC)
            continue;
        bool *seen = type == RELN ? &reln : &fspc;
        if (*seen)
            return (struct verdict){BLORB_SECOND_OPTIONAL, at};
        *seen = true;
        struct verdict v = optional_fault(file, count, at);
        if (v.refusal != 0)
            return v;
    }
    return (struct verdict){0, 0};
}

/* Refusals 52, 1 to 16 and 27 to 29. */
static struct verdict judge_in_turn(const uint8_t *file, size_t size, uint32_t profile, struct reading *r)
{
    struct verdict v = head(file, size, profile);

    if (v.refusal != 0)
        return v;
    v = walk(file, size, &r->ordinary);
    if (v.refusal != 0)
        return v;
    if (size == 12 || get32(file + 12) != RIDX)
        return (struct verdict){BLORB_NO_INDEX, 12};
    if (!r->ordinary) {
        v = second_index(file, size);
        if (v.refusal != 0)
            return v;
    }
    v = index_shape(file);
    if (v.refusal != 0)
        return v;
    r->count = get32(file + 20);
    return entries(file, size, profile, r->count);
}

static struct verdict judge(const uint8_t *file, size_t size, uint32_t profile, struct reading *r)
{
    struct verdict v = {0, 0};

    if (!in_one_pass(file, size, profile, r))
        v = judge_in_turn(file, size, profile, r);
    if (v.refusal != 0 || r->ordinary)
        return v;
    return optional(file, size, r->count);
}

blorb_read_answer plain_read(const uint8_t *file, size_t size, uint32_t profile)
{
    struct reading r;
    struct verdict v = judge(file, size, profile, &r);

    if (v.refusal != 0)
        return (blorb_read_answer){v.refusal, v.place, 0, 0};
    return (blorb_read_answer){0, 0, size, r.count};
}

blorb_lookup_answer plain_lookup(const uint8_t *file, size_t size, uint32_t profile, const char *usage, uint32_t number)
{
    struct reading r;
    struct verdict v = judge(file, size, profile, &r);

    if (v.refusal != 0)
        return (blorb_lookup_answer){v.refusal, v.place, 0, 0, 0};
    size_t i = find(file, r.count, tag(usage), number);
    if (i == r.count)
        return (blorb_lookup_answer){BLORB_NOT_THERE, 0, 0, 0, 0};
    size_t at = get32(file + entry_at(i) + 8), skipped = left_out(get32(file + at));
    return (blorb_lookup_answer){0, 0, get32(file + at), at + skipped, 8 + (uint64_t)get32(file + at + 4) - skipped};
}

/* Whether an entry other than entry i has its start: in chunk order it would stand beside it. */
static bool start_again(const uint8_t *file, size_t count, size_t i, uint32_t start)
{
    if (i + 1 < count && get32(file + entry_at(i + 1) + 8) == start)
        return true;
    return i > 0 && get32(file + entry_at(i - 1) + 8) == start;
}

static void find_front(const uint8_t *file, size_t size, struct facts *f)
{
    for (size_t at = entry_at(f->count); at < size; at = skip(file, at))
        if (get32(file + at) == FSPC) {
            f->fronted = true;
            f->front_start = (uint32_t)at;
            f->front_number = get32(file + at + 8);
            return;
        }
}

static struct facts inspect(const uint8_t *file, size_t size, uint32_t profile, uint32_t usage, uint32_t number, size_t at)
{
    struct facts f = {{0, 0}, 0, false, false, 0, 0, 0, 0, false, 0, 0, false};
    struct reading r;

    f.verdict = judge(file, size, profile, &r);
    if (f.verdict.refusal != 0)
        return f;
    f.count = r.count;
    f.place = find(file, r.count, usage, number);
    if (f.place < r.count) {
        f.found = true;
        f.start = get32(file + entry_at(f.place) + 8);
        f.type = get32(file + f.start);
        f.length = get32(file + f.start + 4);
        f.shared = start_again(file, r.count, f.place, f.start);
    }
    if (!r.ordinary)
        find_front(file, size, &f);
    f.begins = at >= entry_at(r.count) && begins(file, size, entry_at(r.count), at);
    return f;
}

static void move_starts(uint8_t *file, size_t count, uint32_t limit, uint32_t behind, uint32_t other)
{
    for (size_t i = 0; i < count; i++) {
        uint8_t *start = file + entry_at(i) + 8;
        uint32_t s = get32(start);
        put32(start, s + (s > limit ? behind : other));
    }
}

#include "editing.h"
