/* Blurb scripts, as cblorb and iblorb take them. */
#ifndef BLURB_H
#define BLURB_H

#include "lists.h"

/* What the lines so far have said of the file as a whole. */
typedef struct blurb blurb;

/* Null and errno where there is no room. To be freed. */
blurb *begin_blurb(const char *list);
void free_blurb(blurb *b);

/* One line; the word is its first one. Gives what is wrong with it, or null. */
const char *read_blurb_line(blurb *b, items *list, size_t line, bytes word, cursor left);

/* The parts that are made of many lines together: cover, palette, scaling, loops and texts. Of what is wrong `line` tells where. */
const char *finish_blurb(blurb *b, items *list, size_t *line);

/* How many lines were about other things than a Blorb file, as web pages. */
size_t lines_passed_over(const blurb *b);

#endif
