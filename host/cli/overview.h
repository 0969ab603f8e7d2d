/* What a whole accepted file tells: its chunks in order, the entries on each, cover and release; and all that is known of a resource. */
#ifndef OVERVIEW_H
#define OVERVIEW_H

#include <stddef.h>
#include <stdint.h>

#include "blorb.h"
#include "contents.h"

/* The starts of all entries, which never fall in an accepted file, and the data of the optional chunks, null where there are none. */
typedef struct overview {
    uint32_t *starts;
    const uint8_t *release;
    const uint8_t *frontispiece;
} overview;

/* Gives 0, or -1 and errno. The overview is to be freed. */
int look_over(const contents *c, overview *o);
void free_overview(overview *o);

uint32_t release_in(const overview *o);

/* The data of the first chunk of this type behind the index; null and 0 where there is none. */
bytes chunk_of_type(const contents *c, const char type[4]);

/* Which entries have the chunk that begins there: the first of them, and how many. */
typedef struct run_of_entries {
    size_t first, count;
} run_of_entries;
run_of_entries entries_on(const contents *c, const overview *o, uint32_t start);

int has_entry(const contents *c, const overview *o, uint32_t start);

/* What is known of one resource. */
typedef struct resource {
    entry entry;
    const char *type;
    bytes held; /* as a lookup gives it */
    size_t at;  /* where that begins */
    size_t sharers;
    int is_frontispiece;
    int has_size;
    uint32_t width, height;
    const char *told; /* what the data is by its first bytes, or null */
    int suits;        /* nothing speaks against the type */
    int is_aiff;
    blorb_aiff_answer sound; /* of an AIFF sound */
} resource;

resource resource_at(const contents *c, const overview *o, size_t i);

#endif
