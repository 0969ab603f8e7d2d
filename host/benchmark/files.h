/* The benchmark's files, and edits as data. */
#ifndef FILES_H
#define FILES_H

#include "calls.h"

#include <stdbool.h>

/* A resource by its pair, with its type and data length. */
struct resource {
    const char *usage, *type;
    uint32_t number;
    size_t size;
};

/* Entries in chunk order, the numbers of each usage rising or falling; or in reverse order, which is refused with 27; or in chunk order, the numbers
 * in no order. */
enum order { RISING, FALLING, REVERSED, SHUFFLED };

/* A file in a buffer with room for its edits; `first` and `last` by file position, `middle` the last picture: a link of it to a greater number
 * leaves the numbers rising. */
struct sample {
    const char *name;
    enum order order;
    size_t count, length, room;
    uint8_t *file;
    struct resource first, middle, last;
};

enum kind { ADD, REPLACE, REMOVE, LINK };

struct edit {
    const char *name;
    enum kind kind;
    struct resource what; /* of an add or a replacement: what is put in; of a link: the original */
    const uint8_t *data;  /* its data; null for some of the payload */
    const char *usage;    /* of a link: the new name */
    uint32_t number;
};

/* Whether the edit needs room for an entry more: an index of the most entries has none. */
bool adds_entry(const struct edit *e);

enum { EDITS = 12, MORE = 512, JOURNAL_ROOM = BLORB_MAX_SIZE };

enum { SAMPLES = 7 };

/* The files that are measured, reversed ones by their reading only. A full index takes no add and no link: for
 * these such a file has one resource less. */
struct sample sample(unsigned i);
struct sample sample_to_add(unsigned i);

/* A file of `count` resources with `size` data bytes each. */
struct sample make_sample(const char *name, size_t count, size_t size, enum order order);
/* A file of that many entries with rising numbers on fewer chunks, each shared by as many. */
struct sample make_shared(const char *name, size_t count, size_t chunks);
/* A file of two resources with these data lengths. */
struct sample make_pair(const char *name, size_t first, size_t second);
/*
 * A file of the greatest size with as much in it as one can hold: 4,096 entries whose numbers fall, on some of two million chunks without data, the last of
 * them near its end. What is wrong with it shows late: in the last entry or the last chunk.
 */
enum flaw { NO_FLAW, PAIR_AGAIN, NO_CHUNK, SECOND_INDEX, FLAWS };
struct sample make_crowded(enum flaw flaw);
void free_sample(struct sample *s);

/* The edits that are measured on a sample. */
void edits_of(const struct sample *s, struct edit edits[EDITS]);

/* The bytes that every add and replacement takes its data from. */
const uint8_t *payload(void);

blorb_edit_answer carry_out(const struct library *l, uint8_t *file, size_t room, size_t length, uint8_t *journal,
                            size_t journal_room, size_t used, uint32_t profile, const struct edit *e);

#endif
