/* The format as plain.c and fast.c both see it: tags, numbers in four bytes, rule 5, and what a reading tells an edit. */
#ifndef FORMAT_H
#define FORMAT_H

#include "blorb.h"

#include <stdbool.h>
#include <string.h>

#define FORM BLORB_TAG('F', 'O', 'R', 'M')
#define IFRS BLORB_TAG('I', 'F', 'R', 'S')
#define RIDX BLORB_TAG('R', 'I', 'd', 'x')
#define RELN BLORB_TAG('R', 'e', 'l', 'N')
#define FSPC BLORB_TAG('F', 's', 'p', 'c')
#define RECT BLORB_TAG('R', 'e', 'c', 't')
#define AIFF BLORB_TAG('A', 'I', 'F', 'F')

/* A refusal, or 0. */
struct verdict {
    uint64_t refusal, place;
};

/* What an accepted file tells of the entry, the pair and the offset asked about. */
struct facts {
    struct verdict verdict;
    size_t count;
    bool found, shared;           /* the pair has an entry; its chunk has another one */
    size_t place;                 /* that entry's place in the index */
    uint32_t start, type, length; /* its chunk */
    bool fronted;                 /* there is a frontispiece */
    uint32_t front_start, front_number;
    bool begins;                  /* a chunk behind the index begins at the offset */
};

static inline uint32_t get32(const uint8_t *p)
{
    return (uint32_t)p[0] << 24 | (uint32_t)p[1] << 16 | (uint32_t)p[2] << 8 | p[3];
}

static inline void put32(uint8_t *p, uint32_t v)
{
    p[0] = (uint8_t)(v >> 24);
    p[1] = (uint8_t)(v >> 16);
    p[2] = (uint8_t)(v >> 8);
    p[3] = (uint8_t)v;
}

static inline uint32_t tag(const char *four)
{
    return get32((const uint8_t *)four);
}

/* The bytes of a chunk with m data bytes. */
static inline size_t chunk_size(size_t m)
{
    return 8 + m + m % 2;
}

static inline size_t entry_at(size_t i)
{
    return 24 + 12 * i;
}

/* How many bytes of a chunk's front a lookup leaves out: its header, but nothing of a 'FORM'. */
static inline size_t left_out(uint32_t type)
{
    return type == FORM ? 0 : 8;
}

/* Whether data of type 'FORM' is a whole file: 'FORM', its size less 8, and what the chunk holds. */
static inline bool is_whole(const uint8_t *data, size_t n)
{
    return n >= 8 && get32(data) == FORM && get32(data + 4) == n - 8;
}

static inline bool known_usage(uint32_t usage)
{
    return usage == BLORB_PICT || usage == BLORB_SND || usage == BLORB_DATA || usage == BLORB_EXEC;
}

static inline bool exec_type(uint32_t type)
{
    switch (type) {
    case BLORB_TAG('Z', 'C', 'O', 'D'):
    case BLORB_TAG('G', 'L', 'U', 'L'):
    case BLORB_TAG('T', 'A', 'D', '2'):
    case BLORB_TAG('T', 'A', 'D', '3'):
    case BLORB_TAG('H', 'U', 'G', 'O'):
    case BLORB_TAG('A', 'L', 'A', 'N'):
    case BLORB_TAG('A', 'D', 'R', 'I'):
    case BLORB_TAG('L', 'E', 'V', 'E'):
    case BLORB_TAG('A', 'G', 'T', ' '):
    case BLORB_TAG('M', 'A', 'G', 'S'):
    case BLORB_TAG('A', 'D', 'V', 'S'):
    case BLORB_TAG('E', 'X', 'E', 'C'):
        return true;
    default:
        return false;
    }
}

/* What the ADRIFT profile allows besides. */
static inline bool adrift_type(uint32_t usage, uint32_t type)
{
    if (usage == BLORB_PICT)
        return type == BLORB_TAG('G', 'I', 'F', ' ');
    return usage == BLORB_SND
        && (type == BLORB_TAG('W', 'A', 'V', ' ') || type == BLORB_TAG('M', 'I', 'D', 'I') || type == BLORB_TAG('M', 'P', '3', ' '));
}

/* Rule 5. An unknown usage allows nothing. */
static inline bool type_allowed(uint32_t profile, uint32_t usage, uint32_t type, const uint8_t *data, size_t m)
{
    if (profile == BLORB_ADRIFT && adrift_type(usage, type))
        return true;
    switch (usage) {
    case BLORB_PICT:
        return type == BLORB_TAG('J', 'P', 'E', 'G') || type == BLORB_TAG('P', 'N', 'G', ' ') || (type == RECT && m == 8);
    case BLORB_SND:
        if (type == FORM)
            return m >= 4 && get32(data) == AIFF;
        return type == BLORB_TAG('O', 'G', 'G', 'V') || type == BLORB_TAG('M', 'O', 'D', ' ')
            || type == BLORB_TAG('S', 'O', 'N', 'G');
    case BLORB_DATA:
        return type == BLORB_TAG('T', 'E', 'X', 'T') || type == BLORB_TAG('B', 'I', 'N', 'A');
    case BLORB_EXEC:
        return exec_type(type);
    default:
        return false;
    }
}

/* Refusals 52 and 1 to 5. */
static inline struct verdict head(const uint8_t *file, size_t size, uint32_t profile)
{
    if (profile > BLORB_ADRIFT)
        return (struct verdict){BLORB_PROFILE, 0};
    if (size > BLORB_MAX_SIZE)
        return (struct verdict){BLORB_TOO_LONG, 0};
    if (size < 12)
        return (struct verdict){BLORB_TOO_SHORT, 0};
    if (get32(file) != FORM)
        return (struct verdict){BLORB_NO_FORM, 0};
    if (get32(file + 8) != IFRS)
        return (struct verdict){BLORB_NO_IFRS, 8};
    if ((size_t)get32(file + 4) + 8 != size)
        return (struct verdict){BLORB_FORM_LENGTH, 4};
    return (struct verdict){0, 0};
}

/* Refusals 10 and 11 of a file whose first chunk is the index. */
static inline struct verdict index_shape(const uint8_t *file)
{
    uint32_t m = get32(file + 16);

    if (m < 4 || m != 4 + 12 * (uint64_t)get32(file + 20))
        return (struct verdict){BLORB_INDEX_LENGTH, 16};
    if (get32(file + 20) > BLORB_MAX_ENTRIES)
        return (struct verdict){BLORB_TOO_MANY, 20};
    return (struct verdict){0, 0};
}

/* Refusals 6, 28, 29 and 7 of the chunk at `at`, which lies before the end; else where the next one begins. */
static inline struct verdict chunk_whole(const uint8_t *file, size_t size, size_t at, size_t *next)
{
    if (size - at < 8)
        return (struct verdict){BLORB_CHUNK_CUT, at};
    size_t m = get32(file + at + 4);
    *next = at + chunk_size(m);
    if (*next > size)
        return at + 8 + m > size ? (struct verdict){BLORB_CHUNK_LENGTH, at + 4} : (struct verdict){BLORB_NO_PADDING, size};
    if (m % 2 == 1 && file[*next - 1] != 0)
        return (struct verdict){BLORB_PADDING, *next - 1};
    return (struct verdict){0, 0};
}

/* A type that rules 3 and 7 speak of. */
static inline bool special(uint32_t type)
{
    return type == RIDX || type == RELN || type == FSPC;
}

#endif
