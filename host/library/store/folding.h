/* Names that a card (FAT, exFAT) takes for one: they differ in the case of letters only. */
#ifndef FOLDING_H
#define FOLDING_H

/*
 * Whether two names in UTF-8 are the same but for the case of their letters: Latin, Greek, Cyrillic and Armenian ones, each by itself as
 * Unicode pairs them. Bytes that are no UTF-8 are compared as they are.
 */
int same_but_for_case(const char *one, const char *other);

/* Whether a name ends so, in any case. The ending is ASCII. */
int ends_in_any_case(const char *name, const char *ending);

#endif
