#include "overview.h"

#include <stdlib.h>
#include <string.h>

#include "kinds.h"

bytes chunk_of_type(const contents *c, const char type[4])
{
    for (uint32_t at = next_chunk(c, FIRST_CHUNK); at < c->length; at = next_chunk(c, at))
        if (memcmp(type_at(c->file, at), type, 4) == 0)
            return data_at(c->file, at);
    return (bytes){NULL, 0};
}

int look_over(const contents *c, overview *o)
{
    *o = (overview){.starts = malloc((size_t)c->read.count * sizeof *o->starts + 1)};
    if (o->starts == NULL)
        return -1;
    for (size_t i = 0; i < c->read.count; i++)
        o->starts[i] = entry_at(c->file, i).start;
    o->release = chunk_of_type(c, "RelN").at;
    o->frontispiece = chunk_of_type(c, "Fspc").at;
    return 0;
}

void free_overview(overview *o)
{
    free(o->starts);
}

uint32_t release_in(const overview *o)
{
    return (uint32_t)o->release[0] << 8 | o->release[1];
}

static int compare_starts(const void *a, const void *b)
{
    uint32_t one = *(const uint32_t *)a, other = *(const uint32_t *)b;
    return (one > other) - (one < other);
}

run_of_entries entries_on(const contents *c, const overview *o, uint32_t start)
{
    const uint32_t *found = bsearch(&start, o->starts, (size_t)c->read.count, sizeof start, compare_starts);
    const uint32_t *first = found, *last = found, *end = o->starts + c->read.count;
    if (found == NULL)
        return (run_of_entries){0, 0};
    while (first > o->starts && first[-1] == start)
        first--;
    while (last < end && *last == start)
        last++;
    return (run_of_entries){(size_t)(first - o->starts), (size_t)(last - first)};
}

int has_entry(const contents *c, const overview *o, uint32_t start)
{
    return bsearch(&start, o->starts, (size_t)c->read.count, sizeof start, compare_starts) != NULL;
}

resource resource_at(const contents *c, const overview *o, size_t i)
{
    char why[WHY_SIZE];
    entry e = entry_at(c->file, i);
    resource r = {.entry = e, .type = type_at(c->file, e.start), .held = found_at(c->file, e.start)};
    const kind *k = kind_of(r.held);
    r.at = (size_t)(r.held.at - c->file);
    r.sharers = entries_on(c, o, e.start).count;
    r.is_frontispiece = o->frontispiece != NULL && memcmp(e.usage, "Pict", 4) == 0 && number_in(o->frontispiece) == e.number;
    r.has_size = size_told(r.type, r.held, &r.width, &r.height);
    r.told = k == NULL ? NULL : k->what;
    r.suits = !contradicts(r.type, r.held, why);
    /* In an accepted file every FORM that has an entry is one. */
    r.is_aiff = memcmp(r.type, "FORM", 4) == 0;
    if (r.is_aiff)
        r.sound = blorb_aiff_length(r.held.at, r.held.length);
    return r;
}
