#include "files.h"

#include "format.h"

#include <stdio.h>
#include <stdlib.h>

static void *lent(size_t n)
{
    void *p = malloc(n);

    if (p == NULL) {
        fputs("bench: no memory\n", stderr);
        exit(1);
    }
    return p;
}

const uint8_t *payload(void)
{
    static uint8_t *bytes;

    if (bytes == NULL) {
        size_t n = 4096;
        bytes = lent(BLORB_MAX_SIZE);
        for (size_t i = 0; i < n; i++)
            bytes[i] = (uint8_t)(i * 7 + i / 251);
        for (; n < BLORB_MAX_SIZE; n *= 2)
            memcpy(bytes + n, bytes, n);
    }
    return bytes;
}

/* Resource i of a sample with this many, by file position: an Exec, then pictures, sounds and data. */
static struct resource resource_of(size_t i, size_t count, size_t size, enum order order)
{
    uint32_t number = (uint32_t)(order == FALLING ? count - i : order == SHUFFLED ? i * 2654435761u : i);

    if (i == 0)
        return (struct resource){"Exec", "ZCOD", 0, size};
    if (i < count / 2)
        return (struct resource){"Pict", "PNG ", number, size};
    if (i < count / 2 + count / 4)
        return (struct resource){"Snd ", "OGGV", number, size};
    return (struct resource){"Data", "BINA", number, size};
}

/* Chunk i and its entry at `place` go into the file, whose chunks so far end at s->length. */
static void put_in(struct sample *s, struct resource r, size_t place)
{
    uint8_t *entry = s->file + entry_at(place), *chunk = s->file + s->length;

    put32(entry, tag(r.usage));
    put32(entry + 4, r.number);
    put32(entry + 8, (uint32_t)s->length);
    put32(chunk, tag(r.type));
    put32(chunk + 4, (uint32_t)r.size);
    memcpy(chunk + 8, payload(), r.size);
    if (r.size % 2 == 1)
        chunk[8 + r.size] = 0;
    s->length += chunk_size(r.size);
}

static struct sample begun(const char *name, size_t count, size_t bytes)
{
    struct sample s = {.name = name, .order = RISING, .count = count, .length = entry_at(count)};

    s.room = entry_at(count) + bytes + 65536;
    s.file = lent(s.room);
    memset(s.file, 0, s.room);
    return s;
}

static void finish(struct sample *s)
{
    memcpy(s->file, "FORM", 4);
    put32(s->file + 4, (uint32_t)s->length - 8);
    memcpy(s->file + 8, "IFRSRIdx", 8);
    put32(s->file + 16, (uint32_t)(4 + 12 * s->count));
    put32(s->file + 20, (uint32_t)s->count);
}

struct sample make_sample(const char *name, size_t count, size_t size, enum order order)
{
    struct sample s = begun(name, count, count * chunk_size(size));

    s.order = order;
    for (size_t i = 0; i < count; i++)
        put_in(&s, resource_of(i, count, size, order), order == REVERSED ? count - 1 - i : i);
    finish(&s);
    s.first = resource_of(0, count, size, order);
    s.middle = resource_of(count / 2 - 1, count, size, order);
    s.last = resource_of(count - 1, count, size, order);
    return s;
}

struct sample make_shared(const char *name, size_t count, size_t chunks)
{
    struct sample s = begun(name, count, chunks * chunk_size(16));
    size_t base = s.length;

    s.first = (struct resource){"Data", "BINA", 0, 16};
    for (size_t k = 0; k < chunks; k++)
        put_in(&s, s.first, 0);
    for (size_t i = 0; i < count; i++) {
        put32(s.file + entry_at(i), tag("Data"));
        put32(s.file + entry_at(i) + 4, (uint32_t)i);
        put32(s.file + entry_at(i) + 8, (uint32_t)(base + i * chunks / count * chunk_size(16)));
    }
    finish(&s);
    s.last = s.middle = (struct resource){"Data", "BINA", (uint32_t)(count - 1), 16};
    return s;
}

struct sample make_pair(const char *name, size_t first, size_t second)
{
    struct sample s = begun(name, 2, chunk_size(first) + chunk_size(second));

    s.first = (struct resource){"Data", "BINA", 1, first};
    s.last = (struct resource){"Data", "BINA", 2, second};
    s.middle = s.last;
    put_in(&s, s.first, 0);
    put_in(&s, s.last, 1);
    finish(&s);
    return s;
}

struct sample make_crowded(enum flaw flaw)
{
    enum { COUNT = BLORB_MAX_ENTRIES };
    size_t front = entry_at(COUNT), chunks = (BLORB_MAX_SIZE - front) / 8, apart = chunks / COUNT;
    struct sample s = begun("", COUNT, 8 * chunks);
    uint8_t *last = s.file + entry_at(COUNT - 1);

    s.order = FALLING;
    s.length = front + 8 * chunks;
    for (size_t i = 0; i < chunks; i++)
        put32(s.file + front + 8 * i, tag("BINA"));
    for (size_t i = 0; i < COUNT; i++) {
        put32(s.file + entry_at(i), tag("Data"));
        put32(s.file + entry_at(i) + 4, (uint32_t)(COUNT - i));
        put32(s.file + entry_at(i) + 8, (uint32_t)(front + 8 * apart * i));
    }
    if (flaw == PAIR_AGAIN)
        put32(last + 4, 2);
    if (flaw == NO_CHUNK)
        put32(last + 8, (uint32_t)s.length - 4);
    if (flaw == SECOND_INDEX)
        put32(s.file + s.length - 8, tag("RIdx"));
    finish(&s);
    return s;
}

static const struct {
    const char *name;
    size_t count, size;
    enum order order;
} samples[SAMPLES] = {
    {"16 in 1 MB", 16, 65500, RISING},
    {"256 in 4 MB", 256, 16300, RISING},
    {"4,096 of 1 KB", 4096, 1024, RISING},
    {"4 in 15 MB", 4, 3932000, RISING},
    {"4,096 of 1 KB, falling", 4096, 1024, FALLING},
    {"256 in 4 MB, reversed", 256, 16300, REVERSED},
    {"4,096 of 1 KB, reversed", 4096, 1024, REVERSED},
};

struct sample sample(unsigned i)
{
    return make_sample(samples[i].name, samples[i].count, samples[i].size, samples[i].order);
}

struct sample sample_to_add(unsigned i)
{
    size_t count = samples[i].count == BLORB_MAX_ENTRIES ? BLORB_MAX_ENTRIES - 1 : samples[i].count;

    return make_sample(samples[i].name, count, samples[i].size, samples[i].order);
}

void free_sample(struct sample *s)
{
    free(s->file);
}

static struct edit replacing(const char *name, struct resource r, size_t size)
{
    r.size = size;
    return (struct edit){name, REPLACE, r, NULL, NULL, 0};
}

void edits_of(const struct sample *s, struct edit edits[EDITS])
{
    struct resource a = s->first, z = s->last;

    edits[0] = (struct edit){"add 100 bytes", ADD, {"Data", "TEXT", 1000000, 100}, NULL, NULL, 0};
    edits[1] = (struct edit){"add 10 KB", ADD, {"Data", "TEXT", 1000000, 10240}, NULL, NULL, 0};
    edits[2] = replacing("replace front, same size", a, a.size);
    edits[3] = replacing("replace front, 512 more", a, a.size + MORE);
    edits[4] = replacing("replace front, 512 less", a, a.size - MORE);
    edits[5] = replacing("replace back, same size", z, z.size);
    edits[6] = replacing("replace back, 512 more", z, z.size + MORE);
    edits[7] = replacing("replace back, 512 less", z, z.size - MORE);
    edits[8] = (struct edit){"remove front", REMOVE, a, NULL, NULL, 0};
    edits[9] = (struct edit){"remove back", REMOVE, z, NULL, NULL, 0};
    edits[10] = (struct edit){"link middle", LINK, s->middle, NULL, s->middle.usage, 1000000};
    edits[11] = (struct edit){"link back", LINK, z, NULL, z.usage, 1000000};
}

bool adds_entry(const struct edit *e)
{
    return e->kind == ADD || e->kind == LINK;
}

blorb_edit_answer carry_out(const struct library *l, uint8_t *file, size_t room, size_t length, uint8_t *journal,
                            size_t journal_room, size_t used, uint32_t profile, const struct edit *e)
{
    const struct resource *r = &e->what;

    if (e->kind == LINK)
        return l->link(file, room, length, journal, journal_room, used, profile, r->usage, r->number, e->usage, e->number);
    if (e->kind == REMOVE)
        return l->remove(file, room, length, journal, journal_room, used, profile, r->usage, r->number);
    adding *call = e->kind == ADD ? l->add : l->replace;
    const uint8_t *data = e->data != NULL ? e->data : payload() + 1;
    return call(file, room, length, journal, journal_room, used, profile, r->usage, r->number, r->type, data, r->size);
}
