/* What data is by its first bytes, and whether that is what its type stands for. */
#ifndef KINDS_H
#define KINDS_H

#include <stddef.h>
#include <stdint.h>

#include "files.h"

typedef struct kind {
    const char *type;    /* the type of a resource with such data, four bytes; null where none is for it */
    const char *what;    /* in words */
    const char *instead; /* where no type is for it, what to do with it; else null */
} kind;

/* Null where the first bytes do not tell. */
const kind *kind_of(bytes held);

/* Usages and types may be given in any case: gives a known one its own letters, and leaves any other tag as it is. */
void settle_usage(char tag[4]);
void settle_type_name(char tag[4]);

/* The usage that this type is for, four bytes; null where the type is not known. */
const char *usage_for(const char type[4]);

/* Whether this type suits this usage under the ADRIFT profile and under no other. */
int only_adrift(const char usage[4], const char type[4]);

/* The type that data for this usage has by its first bytes, four bytes; null where they do not tell, or the profile has no such type. */
const char *type_told(uint32_t profile, const char usage[4], bytes held);

/* The usage or type that a word names, in letters of any case and without spaces at the end; null where there is none. */
const char *known_usage(bytes word);
const char *known_type(bytes word);

/* Says in `why` what speaks against data of this type; gives 0 where nothing does. */
enum { WHY_SIZE = 160 };
int contradicts(const char type[4], bytes held, char why[WHY_SIZE]);

/* A picture's width and height by its own bytes. Gives 0 where they are not told. */
int size_told(const char type[4], bytes held, uint32_t *width, uint32_t *height);

/*
 * What to do about an AIFF file whose FORM length is not its own or whose head is missing, or AIFF-C, for a message; gives 0 where it is none.
 * What it says leads to a sound whose length the library tells.
 */
enum { ADVICE_SIZE = 320 };
int aiff_advice(bytes held, char advice[ADVICE_SIZE]);

#endif
