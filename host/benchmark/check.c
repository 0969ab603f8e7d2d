#include "check.h"

#include "files.h"
#include "format.h"

#include <stdio.h>
#include <stdlib.h>

enum { SMALL = 1400, SMALL_JOURNAL = 400, STEPS = 16 };

/* The same state for each of the three. */
struct trio {
    uint8_t *file[LIBRARIES], *journal[LIBRARIES];
    size_t room, journal_room, length, used;
    uint32_t profile;
};

static uint64_t state, seen[200], calls;

/* xorshift; below n. */
static uint32_t below(uint32_t n)
{
    state ^= state << 13;
    state ^= state >> 7;
    state ^= state << 17;
    return (uint32_t)((state >> 33) % n);
}

static bool differ(const char *what, unsigned k)
{
    printf("check: %s and %s differ in %s\n", libraries[0].name, libraries[k].name, what);
    return false;
}

static struct trio trio_of(const uint8_t *file, size_t length, size_t room, size_t journal_room)
{
    struct trio t = {.room = room, .journal_room = journal_room, .length = length};

    for (unsigned k = 0; k < LIBRARIES; k++) {
        t.file[k] = malloc(room + 1);
        t.journal[k] = malloc(journal_room + 1);
        if (t.file[k] == NULL || t.journal[k] == NULL)
            exit(1);
        memset(t.file[k], 0xee, room + 1);
        memset(t.journal[k], 0xdd, journal_room + 1);
        memcpy(t.file[k], file, length < room ? length : room);
    }
    return t;
}

static void free_trio(struct trio *t)
{
    for (unsigned k = 0; k < LIBRARIES; k++) {
        free(t->file[k]);
        free(t->journal[k]);
    }
}

/* The buffers, with the byte behind each, are the same in all three. */
static bool same_bytes(const struct trio *t, const char *what)
{
    for (unsigned k = 1; k < LIBRARIES; k++)
        if (memcmp(t->file[0], t->file[k], t->room + 1) != 0 || memcmp(t->journal[0], t->journal[k], t->journal_room + 1) != 0)
            return differ(what, k);
    return true;
}

static void note(uint64_t refusal)
{
    calls++;
    seen[refusal < 200 ? refusal : 199]++;
}

static bool same_read(const struct trio *t)
{
    blorb_read_answer a = libraries[0].read(t->file[0], t->length, t->profile);

    note(a.refusal);
    for (unsigned k = 1; k < LIBRARIES; k++) {
        blorb_read_answer b = libraries[k].read(t->file[k], t->length, t->profile);
        if (memcmp(&a, &b, sizeof a) != 0)
            return differ("a read", k);
    }
    return true;
}

static bool same_lookup(const struct trio *t, const char *usage, uint32_t number)
{
    blorb_lookup_answer a = libraries[0].lookup(t->file[0], t->length, t->profile, usage, number);

    note(a.refusal);
    for (unsigned k = 1; k < LIBRARIES; k++) {
        blorb_lookup_answer b = libraries[k].lookup(t->file[k], t->length, t->profile, usage, number);
        if (a.refusal != b.refusal || a.place != b.place || a.type != b.type || a.start != b.start || a.length != b.length)
            return differ("a lookup", k);
    }
    return true;
}

/* An edit, or an undo where `e` is null; the lengths go on from its answer. */
static bool same_edit(struct trio *t, const struct edit *e)
{
    blorb_edit_answer a[LIBRARIES];

    for (unsigned k = 0; k < LIBRARIES; k++) {
        const struct library *l = &libraries[k];
        if (e == NULL)
            a[k] = l->undo(t->file[k], t->room, t->length, t->journal[k], t->journal_room, t->used, t->profile);
        else
            a[k] = carry_out(l, t->file[k], t->room, t->length, t->journal[k], t->journal_room, t->used, t->profile, e);
        if (memcmp(&a[0], &a[k], sizeof a[0]) != 0)
            return differ(e == NULL ? "an undo's answer" : "an edit's answer", k);
    }
    note(a[0].refusal);
    t->length = a[0].length;
    t->used = a[0].used;
    return same_bytes(t, e == NULL ? "the bytes after an undo" : "the bytes after an edit");
}

static const char *const usages[] = {"Pict", "Snd ", "Data", "Exec", "pict"};
static const char *const types[] = {"PNG ", "JPEG", "Rect", "OGGV", "FORM", "SONG", "TEXT", "BINA", "ZCOD",
                                    "AGT ", "RelN", "Fspc", "RIdx", "ANNO", "MOD ", "GLUL"};
static const char *const suited[4][4] = {{"PNG ", "JPEG", "Rect", "Rect"}, {"OGGV", "MOD ", "SONG", "FORM"},
                                         {"TEXT", "BINA", "TEXT", "BINA"}, {"ZCOD", "GLUL", "AGT ", "EXEC"}};
static const char *const adrift[2][4] = {{"GIF ", "GIF ", "GIF ", "WAV "}, {"WAV ", "MIDI", "MP3 ", "GIF "}};

static struct resource some_resource(void)
{
    uint32_t u = below(40) == 0 ? 4 : below(4);
    struct resource r = {usages[u], types[below(16)], u == 3 && below(8) != 0 ? 0 : below(6), below(24)};

    if (u < 4 && below(8) != 0)
        r.type = u < 2 && below(12) == 0 ? adrift[u][below(4)] : suited[u][below(4)];
    if (strcmp(r.type, "Rect") == 0 && below(8) != 0)
        r.size = 8;
    return r;
}

/* A chunk at the end of the file that is being made; a 'FORM' holds an 'AIFF' most times. */
static size_t some_chunk(uint8_t *file, size_t at, const char *type, size_t m)
{
    put32(file + at, tag(type));
    put32(file + at + 4, (uint32_t)m);
    for (size_t i = 0; i < m; i++)
        file[at + 8 + i] = (uint8_t)below(256);
    if (m % 2 == 1)
        file[at + 8 + m] = 0;
    if (strcmp(type, "FORM") == 0 && m >= 4 && below(8) != 0)
        memcpy(file + at + 8, "AIFF", 4);
    return at + chunk_size(m);
}

/* An entry for the chunk at `at`; its number is `rise` or a small one. */
static void some_entry(uint8_t *e, struct resource r, size_t at, uint32_t rise)
{
    bool exec = strcmp(r.usage, "Exec") == 0;

    put32(e, tag(r.usage));
    put32(e + 4, exec ? r.number : below(2) == 0 ? rise : r.number);
    put32(e + 8, (uint32_t)at);
}

/* The entry gets another one's chunk, and most times its usage. */
static void share_chunk(uint8_t *file, size_t place, size_t other)
{
    if (below(4) != 0)
        memcpy(file + entry_at(place), file + entry_at(other), 4);
    memcpy(file + entry_at(place) + 8, file + entry_at(other) + 8, 4);
}

/* A file of a few chunks, most of them with one entry, in chunk order or, now and then, not. */
static size_t some_file(uint8_t *file)
{
    size_t count = below(7), at = entry_at(count);
    bool reversed = below(10) == 0;

    for (size_t i = 0; i < count; i++) {
        struct resource r = some_resource();
        size_t place = reversed ? count - 1 - i : i;
        if (below(6) == 0)
            at = some_chunk(file, at, below(2) == 0 ? "ANNO" : "RelN", 2 + below(12) / 11);
        some_entry(file + entry_at(place), r, at, (uint32_t)(10 + i));
        if (i > 0 && below(7) == 0)
            share_chunk(file, place, reversed ? place + 1 : place - 1);
        else
            at = some_chunk(file, at, r.type, r.size);
        if (below(12) == 0) {
            size_t m = below(9) == 0 ? 5 : 4;
            memcpy(file + some_chunk(file, at, "Fspc", m) - chunk_size(m) + 8, file + entry_at(place) + 4, 4);
            at += chunk_size(m);
        }
    }
    memcpy(file, "FORM", 4);
    put32(file + 4, (uint32_t)at - 8);
    memcpy(file + 8, "IFRSRIdx", 8);
    put32(file + 16, (uint32_t)(4 + 12 * count));
    put32(file + 20, (uint32_t)count);
    return at;
}

/* One thing made wrong: a byte, a length, the count, or the end. */
static size_t spoilt(uint8_t *file, size_t length)
{
    switch (below(5)) {
    case 0:
        file[below((uint32_t)length)] ^= (uint8_t)(1 << below(8));
        return length;
    case 1:
        length -= below((uint32_t)length / 2);
        break;
    case 2:
        if (length > 40)
            put32(file + 32, get32(file + 32) + 2 * below(9) - 8);
        return length;
    case 3:
        return length - below(14);
    default:
        file[length - 1] ^= (uint8_t)below(2);
        return length;
    }
    if (length >= 8)
        put32(file + 4, (uint32_t)length - 8);
    return length;
}

/* The journals' last record or its trailer made wrong, the same in all three. */
static void spoil_journals(struct trio *t)
{
    size_t at = t->used == 0 ? 0 : t->used - 1 - below((uint32_t)(t->used < 34 ? t->used : 34));
    uint8_t flip = (uint8_t)(1 << below(8));

    for (unsigned k = 0; k < LIBRARIES; k++)
        t->journal[k][at] ^= flip;
}

/* Most times the edit, or the lookup, is of an entry that is there. */
static void aim(struct edit *e, const struct trio *t)
{
    static char usage[4];
    uint32_t count = t->length >= 24 ? get32(t->file[0] + 20) : 0;

    if (e->kind == ADD || count == 0 || entry_at(count) > t->length || below(4) == 0)
        return;
    const uint8_t *entry = t->file[0] + entry_at(below(count));
    memcpy(usage, entry, 4);
    e->what.usage = usage;
    e->what.number = get32(entry + 4);
}

/* Data of type 'FORM' gets the head of a whole file; one time in four that is wrong, or the file cut or longer. */
static void put_head(struct edit *e)
{
    static uint8_t whole[64];
    size_t m = e->what.size;

    if (strcmp(e->what.type, "FORM") != 0)
        return;
    memcpy(whole, "FORM", 4);
    put32(whole + 4, (uint32_t)m);
    memcpy(whole + 8, payload() + 1, m);
    if (m >= 4 && below(8) != 0)
        memcpy(whole + 8, "AIFF", 4);
    e->what.size = 8 + m;
    switch (below(12)) {
    case 0:
        whole[below(8)] ^= (uint8_t)(1 << below(8));
        break;
    case 1:
        e->what.size = below(8);
        break;
    case 2:
        e->what.size += 1 + m % 2;
    }
    e->data = whole;
}

static bool some_call(struct trio *t)
{
    struct edit e = {"", (enum kind)below(4), some_resource(), NULL, usages[below(5)], below(9)};
    size_t used = t->used, length = t->length;
    uint32_t profile = t->profile;
    bool good;

    aim(&e, t);
    put_head(&e);
    if (below(4) != 0)
        e.usage = e.what.usage;
    switch (below(11)) {
    case 0:
        return same_read(t);
    case 1:
        return same_lookup(t, e.what.usage, e.what.number);
    case 2:
    case 3:
        return same_edit(t, NULL);
    case 4:
        if (below(6) == 0)
            spoil_journals(t);
        return same_edit(t, NULL);
    case 5: /* lengths that are too large or too small, given once */
        t->used = below(3) == 0 ? t->journal_room + 1 : below((uint32_t)t->used + 1);
        t->length = below(3) == 0 ? t->room + 1 : t->length;
        good = same_edit(t, below(2) == 0 ? NULL : &e);
        if (t->length == t->room + 1 || t->used == t->journal_room + 1) {
            t->length = length;
            t->used = used;
        }
        return good;
    case 6: /* another profile, given once */
        t->profile = below(3);
        good = same_edit(t, below(2) == 0 ? NULL : &e);
        t->profile = profile;
        return good;
    default:
        return same_edit(t, &e);
    }
}

/* A generated file and a run of calls on it. */
static bool some_case(void)
{
    uint8_t file[SMALL];
    size_t length = some_file(file);

    if (below(3) == 0)
        length = spoilt(file, length);
    struct trio t = trio_of(file, length, length + below(90), below(SMALL_JOURNAL));
    t.profile = below(8) == 0 ? below(4) : below(2);
    bool good = same_read(&t);
    for (unsigned i = 0; good && i < STEPS; i++)
        good = some_call(&t);
    free_trio(&t);
    return good;
}

/* Refusals 1, 11, 101 and 111, and a file of 4,096 entries. */
static bool limits(void)
{
    struct sample s = make_sample("limits", 2, 8388574, RISING);
    struct trio t = trio_of(s.file, s.length, s.length, 0);
    struct edit e = {"", ADD, {"Data", "TEXT", 77777, 400}, NULL, NULL, 0}, link = {"", LINK, s.middle, NULL, s.middle.usage, 77777};
    bool good = same_read(&t) && same_edit(&t, &e) && same_edit(&t, &link);
    free_trio(&t);
    t = trio_of(payload(), 64, BLORB_MAX_SIZE + 2, 0);
    t.length = BLORB_MAX_SIZE + 1;
    good = good && same_read(&t);
    free_trio(&t);
    free_sample(&s);
    for (size_t count = 4096; good && count <= 4097; count++) {
        s = make_sample("limits", count, 2, RISING);
        t = trio_of(s.file, s.length, s.length + 1000, 1000);
        link.what = s.middle;
        link.usage = s.middle.usage;
        good = same_read(&t) && same_edit(&t, &e) && same_edit(&t, NULL) && same_edit(&t, &link) && same_edit(&t, NULL);
        free_trio(&t);
        free_sample(&s);
    }
    return good;
}

/* An edit and its undo, which leaves the file as it was. */
static bool edit_and_back(struct trio *t, const struct sample *s, const struct edit *e)
{
    return same_edit(t, e) && t->used != 0 && same_edit(t, NULL) && t->used == 0 && t->length == s->length
        && memcmp(t->file[0], s->file, s->length) == 0;
}

/* The readings of the fullest files, one for each flaw, and the number that each is refused with. */
static bool crowded(enum flaw flaw)
{
    static const uint64_t expected[FLAWS] = {0, 16, 13, 9};
    struct sample s = make_crowded(flaw);
    struct trio t = trio_of(s.file, s.length, s.room, JOURNAL_ROOM);
    bool good = same_read(&t) && blorb_read(s.file, s.length, BLORB_PLAIN).refusal == expected[flaw];

    if (!good)
        printf("check: the reading of a full file failed (%u)\n", (unsigned)flaw);
    free_trio(&t);
    free_sample(&s);
    return good;
}

/* The calls that are measured on a sample: adds and links, or all others; of a refused one the questions only. */
static bool measured(struct sample s, bool adds)
{
    struct edit edits[EDITS];
    struct trio t = trio_of(s.file, s.length, s.room, JOURNAL_ROOM);
    bool good = same_read(&t) && same_lookup(&t, s.first.usage, s.first.number)
        && same_lookup(&t, s.last.usage, s.last.number) && same_lookup(&t, "Data", 999999);

    edits_of(&s, edits);
    for (unsigned i = 0; good && i < EDITS && s.order != REVERSED; i++)
        if (adds == adds_entry(&edits[i]))
            good = edit_and_back(&t, &s, &edits[i]);
    if (!good)
        printf("check: a measured call on %s failed\n", s.name);
    free_trio(&t);
    free_sample(&s);
    return good;
}

/* Each refusal that can occur was answered at least once. */
static bool all_seen(void)
{
    static const uint8_t wanted[] = {0,  1,  2,  3,  4,  5,  6,  7,  8,  9,   10,  11,  12,  13,  14,  15,  16, 17,
                                     18, 19, 20, 21, 22, 23, 24, 25, 26, 27,  28,  29,  30, 101, 109, 111, 112, 114, 115,
                                     116, 119, 52};
    bool all = true;

    for (unsigned i = 0; i < sizeof wanted; i++)
        if (seen[wanted[i]] == 0) {
            printf("check: no call was answered with %u\n", wanted[i]);
            all = false;
        }
    return all;
}

bool check_all(uint64_t seed, unsigned cases)
{
    bool good = limits();

    state = seed * 2 + 1;
    for (unsigned i = 0; good && i < cases; i++)
        good = some_case();
    for (unsigned i = 0; good && i < SAMPLES; i++)
        good = measured(sample(i), false) && measured(sample_to_add(i), true);
    for (unsigned i = 0; good && i < FLAWS; i++)
        good = crowded((enum flaw)i);
    good = good && all_seen();
    printf("check: seed %llu, %u generated files, %llu calls on each of the three, %s\n", (unsigned long long)seed, cases,
           (unsigned long long)calls, good ? "the same answers and bytes, every refusal seen" : "FAILED");
    return good;
}
