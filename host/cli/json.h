/* Pieces of JSON on standard output. */
#ifndef JSON_H
#define JSON_H

#include <stdint.h>

#include "files.h"

/* A string. Bytes that are no UTF-8, as a file's name may have, are written as \udc80 to \udcff, which is how Python has them. */
void print_json_text(bytes text);

/* "name": with a string, or null where `text` is null; a text without a length ends with a zero. */
void print_json_bytes(const char *name, const bytes *text);
void print_json_words(const char *name, const char *text);

/* "name": with a number, or null where it is not known. */
void print_json_number(const char *name, int known, uint64_t number);

#endif
