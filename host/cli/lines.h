/* The lines of a list that somebody has written. */
#ifndef LINES_H
#define LINES_H

#include <stddef.h>
#include <stdint.h>

#include "files.h"

typedef struct lines {
    const uint8_t *at, *end;
    size_t number; /* of the line given last, from 1 */
} lines;

/* A byte order mark at the beginning is passed over. */
lines lines_of(bytes held);

/* Without its newline, and without a carriage return before that. Gives 0 where there is no further line. */
int next_line(lines *l, bytes *line);

#endif
