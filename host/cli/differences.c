/* diff: what two files have in common and what not, resource by resource and chunk by chunk. */
#define _XOPEN_SOURCE 700
#include <fcntl.h>
#include <inttypes.h>
#include <stdio.h>
#include <stdlib.h>
#include <string.h>

#include "blorb.h"
#include "commands.h"
#include "contents.h"
#include "words.h"

enum { SAME = CARRIED_OUT, DIFFERENT = 1 };

/* A chunk: of a resource, whose rows rise by usage and number, or without an entry, where the rows rise by type and place. */
typedef struct row {
    uint32_t tag;    /* the usage, or the type */
    uint32_t number; /* the resource's, or how many of this type stand before it */
    uint32_t start;
} row;

typedef struct side {
    contents c;
    row *resources, *others;
    size_t resource_count, other_count;
} side;

/* ---- rows */

static int compare_rows(const void *a, const void *b)
{
    const row *one = a, *other = b;
    if (one->tag != other->tag)
        return one->tag < other->tag ? -1 : 1;
    return (one->number > other->number) - (one->number < other->number);
}

static void sort(row *rows, size_t count)
{
    if (count > 0)
        qsort(rows, count, sizeof *rows, compare_rows);
}

static void take_resources(side *s)
{
    s->resource_count = (size_t)s->c.read.count;
    for (size_t i = 0; i < s->resource_count; i++) {
        entry e = entry_at(s->c.file, i);
        s->resources[i] = (row){number_in((const uint8_t *)e.usage), e.number, e.start};
    }
    sort(s->resources, s->resource_count);
}

/* Chunks and the starts of entries both rise through the file, so one walk tells which chunk has no entry. */
static void take_others(side *s)
{
    size_t i = 0;
    for (uint32_t at = next_chunk(&s->c, FIRST_CHUNK); at < s->c.length; at = next_chunk(&s->c, at)) {
        while (i < s->c.read.count && entry_at(s->c.file, i).start < at)
            i++;
        if (i == s->c.read.count || entry_at(s->c.file, i).start != at)
            s->others[s->other_count++] = (row){number_in(s->c.file + at), at, at};
    }
    sort(s->others, s->other_count);
    for (size_t k = 0; k < s->other_count; k++)
        s->others[k].number = k > 0 && s->others[k - 1].tag == s->others[k].tag ? s->others[k - 1].number + 1 : 0;
}

static int load_side(side *s, const char *path, uint32_t profile)
{
    int status = load_accepted(&s->c, path, open(path, O_RDONLY | O_CLOEXEC), profile);
    if (status != CARRIED_OUT)
        return FAILED;
    s->resources = malloc((size_t)s->c.read.count * sizeof *s->resources + 1);
    s->others = malloc(s->c.length / BLORB_HEADER_SIZE * sizeof *s->others + 1);
    if (s->resources == NULL || s->others == NULL)
        return say_failed(path, "the files cannot be compared");
    take_resources(s);
    take_others(s);
    return CARRIED_OUT;
}

static void free_side(side *s)
{
    free(s->resources);
    free(s->others);
    free_contents(&s->c);
}

/* ---- printing */

static void print_name(char sign, const row *r, int is_resource)
{
    char tag[4], shown[SHOWN_SIZE];
    put_tag(r->tag, tag);
    show_tag(tag, shown);
    if (is_resource)
        printf("%c %.*s %" PRIu32, sign, tag_length(tag), tag, r->number);
    else
        printf("%c chunk %s", sign, shown);
}

/* Chunks whose few bytes are shown instead of their length. */
static int tells_itself(const char type[4])
{
    return memcmp(type, "RelN", 4) == 0 || memcmp(type, "Fspc", 4) == 0;
}

/* What a chunk holds: type and length of a resource; of a loose chunk what it says, or its length. */
static void print_held(const side *s, const row *r, int is_resource)
{
    const char *type = type_at(s->c.file, r->start);
    bytes held = found_at(s->c.file, r->start);
    if (is_resource)
        printf(" %.*s", tag_length(type), type);
    if (!is_resource && memcmp(type, "RelN", 4) == 0)
        printf(" release %u", (unsigned)held.at[0] << 8 | held.at[1]);
    else if (!is_resource && memcmp(type, "Fspc", 4) == 0)
        printf(" cover Pict %" PRIu32, number_in(held.at));
    else
        printf(" %zu byte%s", held.length, plural(held.length));
}

static void print_only(char sign, const side *s, const row *r, int is_resource)
{
    print_name(sign, r, is_resource);
    print_held(s, r, is_resource);
    putchar('\n');
}

/* One that both have; says what differs. Gives whether anything does. */
static int compare_held(const side *a, const row *one, const side *b, const row *other, int is_resource)
{
    bytes old = found_at(a->c.file, one->start), now = found_at(b->c.file, other->start);
    size_t at = 0, least = old.length < now.length ? old.length : now.length;
    while (at < least && old.at[at] == now.at[at])
        at++;
    int is_type = memcmp(type_at(a->c.file, one->start), type_at(b->c.file, other->start), 4) == 0;
    if (is_type && old.length == now.length && at == least)
        return SAME;
    print_name('!', one, is_resource);
    print_held(a, one, is_resource);
    fputs(" ->", stdout);
    print_held(b, other, is_resource);
    if (is_type && old.length == now.length && (is_resource || !tells_itself(type_at(a->c.file, one->start))))
        printf(", from byte %zu on", at);
    putchar('\n');
    return DIFFERENT;
}

/* ---- comparing */

typedef struct rows {
    const row *at;
    size_t count;
} rows;

/* Goes through the rows of both in their order. */
static int compare_all(const side *a, rows one, const side *b, rows other, int is_resource)
{
    int answer = SAME;
    for (size_t i = 0, k = 0; i < one.count || k < other.count;) {
        int order = i == one.count ? 1 : k == other.count ? -1 : compare_rows(&one.at[i], &other.at[k]);
        if (order == 0)
            answer |= compare_held(a, &one.at[i], b, &other.at[k], is_resource);
        else
            print_only(order < 0 ? '-' : '+', order < 0 ? a : b, order < 0 ? &one.at[i] : &other.at[k], is_resource);
        answer |= order != 0 ? DIFFERENT : SAME;
        i += order <= 0;
        k += order >= 0;
    }
    return answer;
}

/* A resource that both have, with its chunk in either. */
typedef struct common {
    uint32_t usage, number;
    uint32_t starts[2];
} common;

/* The first of the common resources that has the same chunk there. */
static const common *first_sharer(const common *all, const common *c, int side)
{
    while (all->starts[side] != c->starts[side])
        all++;
    return all;
}

static void print_sharer(const common *c, const common *first)
{
    char tag[4];
    put_tag(first->usage, tag);
    if (c == first)
        fputs("a chunk of its own", stdout);
    else
        printf("the chunk of %.*s %" PRIu32, tag_length(tag), tag, first->number);
}

/* Which resources have one chunk together, where both files have these resources. */
static int compare_links(const side *a, const side *b, common *all)
{
    size_t count = 0;
    int answer = SAME;
    for (size_t i = 0, k = 0; i < a->resource_count && k < b->resource_count;) {
        const row *one = &a->resources[i], *other = &b->resources[k];
        int order = compare_rows(one, other);
        if (order == 0)
            all[count++] = (common){one->tag, one->number, {one->start, other->start}};
        i += order <= 0;
        k += order >= 0;
    }
    for (size_t i = 0; i < count; i++) {
        const common *before = first_sharer(all, &all[i], 0), *now = first_sharer(all, &all[i], 1);
        if (before == now)
            continue;
        print_name('!', &(row){all[i].usage, all[i].number, 0}, 1);
        fputs(" has ", stdout);
        print_sharer(&all[i], before);
        fputs(" -> ", stdout);
        print_sharer(&all[i], now);
        putchar('\n');
        answer = DIFFERENT;
    }
    return answer;
}

static int compare(const request *r, const side *a, const side *b)
{
    common *all = malloc(a->resource_count * sizeof *all + 1);
    if (all == NULL)
        return say_failed(r->file, "the files cannot be compared");
    int answer = compare_all(a, (rows){a->resources, a->resource_count}, b, (rows){b->resources, b->resource_count}, 1);
    answer |= compare_links(a, b, all);
    answer |= compare_all(a, (rows){a->others, a->other_count}, b, (rows){b->others, b->other_count}, 0);
    free(all);
    if (answer == SAME && (a->c.length != b->c.length || memcmp(a->c.file, b->c.file, a->c.length) != 0))
        puts("# the same resources and chunks, in another order");
    return answer;
}

int run_diff(const request *r)
{
    side a = {.resource_count = 0}, b = {.resource_count = 0};
    int status = load_side(&a, r->file, r->profile);
    if (status == CARRIED_OUT)
        status = load_side(&b, r->other, r->profile);
    if (status == CARRIED_OUT)
        status = compare(r, &a, &b);
    free_side(&a);
    free_side(&b);
    return status;
}
