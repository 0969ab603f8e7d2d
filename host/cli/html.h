/* Pieces of a web page. Whatever comes from a file goes through these. */
#ifndef HTML_H
#define HTML_H

#include <stddef.h>
#include <stdint.h>
#include <stdio.h>

#include "files.h"

/* Text, in an element or a quoted attribute: nothing in it is a tag, a quote or a reference. What is no character is shown as one that says so. */
void html_text(FILE *to, bytes text);
void html_words(FILE *to, const char *text);

/* A number with commas: 16,777,216. */
void html_number(FILE *to, uint64_t number);

/* An address that is the data itself. `type` is a MIME type of this program's own. */
void html_data(FILE *to, const char *type, bytes held);

#endif
