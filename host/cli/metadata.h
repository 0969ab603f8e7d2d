/* What an 'IFmd' chunk says of a game: an iFiction record, as the Treaty of Babel describes it. */
#ifndef METADATA_H
#define METADATA_H

#include <stddef.h>

#include "files.h"

/* The fields that are told. */
enum { META_TITLE, META_HEADLINE, META_AUTHOR, META_GENRE, META_LANGUAGE, META_FIRST_PUBLISHED, META_IFID, META_FIELDS };

typedef struct metadata {
    char *fields[META_FIELDS]; /* to be freed; null where they are not there. White space within is single spaces */
    const char *fault;         /* what keeps the chunk from being XML, or null */
    size_t place;              /* where in the chunk's data */
} metadata;

/* The fields' names for people and for scripts. */
extern const char *const metadata_labels[META_FIELDS], *const metadata_names[META_FIELDS];

/* Gives 0, or -1 and errno. To be freed in any case. */
int read_metadata(bytes held, metadata *m);
void free_metadata(metadata *m);

#endif
