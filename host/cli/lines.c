#include "lines.h"

#include <string.h>

lines lines_of(bytes held)
{
    size_t mark = held.length >= 3 && memcmp(held.at, "\xef\xbb\xbf", 3) == 0 ? 3 : 0;
    return (lines){held.at + mark, held.at + held.length, 0};
}

int next_line(lines *l, bytes *line)
{
    if (l->at == l->end)
        return 0;
    const uint8_t *begun = l->at, *newline = memchr(begun, '\n', (size_t)(l->end - begun)), *stop = newline != NULL ? newline : l->end;
    l->at = newline != NULL ? newline + 1 : l->end;
    l->number++;
    *line = (bytes){begun, (size_t)(stop - begun) - (stop > begun && stop[-1] == '\r')};
    return 1;
}
