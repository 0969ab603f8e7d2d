/* What the 'RDes' chunk of a file is good for, and how texts and words of a list are shown and read. */
#ifndef DESCRIBING_H
#define DESCRIBING_H

#include <stdint.h>
#include <stdio.h>

#include "contents.h"
#include "files.h"

/* A text from a file, in one line: what could do something to a terminal is shown by an escape. */
void print_shown(FILE *to, bytes text);

/* Four bytes as a word of a list: without spaces at the end, and with an escape for what a word may not have. */
void print_word(FILE *to, const char tag[4]);

/* The other way: one to four bytes, spaces at the end left out. Gives 0, or -1 where it is no such word. */
int read_word(const uint8_t *at, const uint8_t *end, char tag[4]);

/* Warns where the library gives no text of an accepted file although there is a chunk for texts, and of texts for resources that it does not have. */
void warn_of_texts(const contents *c, const char *shown);

/* A text and the resource that it is for. */
typedef struct text {
    uint32_t usage, number;
    bytes held;
} text;

/* Calls with each text in order until one call gives other than 0. Gives -1 where the library gives no text although there is a chunk for texts. */
typedef int each_text(const text *t, void *with);
int go_through_texts(const contents *c, each_text *call, void *with);

/* The list of a file's texts, as `describe` prints it. Gives 0, or -1 where the library gives no text although there is a chunk for texts. */
int write_list(const contents *c, FILE *to);

/* The data of the 'RDes' chunk that holds the texts of such a list at `path`, to be freed in any case. Gives the exit status. */
int load_texts(const char *path, data *d);

#endif
