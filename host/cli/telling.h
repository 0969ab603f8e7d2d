/* The word after an edit, for people at a terminal: what was done, or taken back. Scripts get none. */
#ifndef TELLING_H
#define TELLING_H

#include <stdio.h>

#include "blorb_store.h"
#include "commands.h"
#include "contents.h"

/* Whether a word is wanted: standard output is a terminal, and -q was not given. */
int is_told(const request *r);

/* A resource as it is in a file, or is not. */
typedef struct found {
    int is_there;
    char type[4];
    uint64_t length; /* as a lookup gives it */
} found;

/* A file that the library refuses has none. */
found find_resource(const contents *c, const char usage[4], uint32_t number);

/* Such as `added Pict 1 PNG 1392 bytes`: what was done to the resource of the request, by what it was before and is now. */
void tell_edit(const request *r, const char *done, const found *before, const found *after);

/* Such as `took back: added Pict 1`. */
void tell_undone(FILE *to, const blorb_store_edit *e);

#endif
