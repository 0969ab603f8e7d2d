/* The list of a game's parts, which `pack` takes: plain lines, or a Blurb script. docs/COMMAND.md describes both. */
#ifndef LISTS_H
#define LISTS_H

#include <stddef.h>
#include <stdint.h>

#include "files.h"

/* PUT_TEXTS is an 'RDes' of a list of texts, PUT_IDENTITY the 'IFhd' of a story. */
typedef enum item_kind { ADD_RESOURCE, LINK_RESOURCE, PUT_CHUNK, PUT_TEXTS, PUT_IDENTITY } item_kind;

/* One part, in the order of the chunks. */
typedef struct item {
    item_kind kind;
    size_t line;
    char usage[4];
    uint32_t number;
    char new_usage[4]; /* of a link */
    uint32_t new_number;
    char type[4];  /* of a resource or chunk; all zeros where the data has to tell it */
    char *path;    /* of its data, to be freed; null where `made` is the data */
    uint8_t *made; /* to be freed */
    size_t length;
    char *constant; /* the name that a Blurb script gives this number, to be freed; or null */
} item;

typedef struct items {
    item *at;
    size_t count, room;
} items;

void free_items(items *list);

/* Gives a new item at the end, or null and errno. */
item *add_item(items *list, item_kind kind, size_t line);

/* A chunk of these bytes, which are copied. Gives 0, or -1 and errno. */
int add_chunk(items *list, size_t line, const char type[4], bytes held);

/* What is left of a line. */
typedef struct cursor {
    const uint8_t *at, *end;
} cursor;

/* The next word, of no bytes at the line's end; what stands between quotes is one word, without them. */
bytes next_word(cursor *c);
int is_quoted(const cursor *c);

/* The whole rest of the line without spaces around it. */
bytes rest_of(cursor *c);
int is_word(bytes word, const char *text);

/* Decimal digits. Gives 0, or -1 where it is no number up to this one. */
int read_amount(bytes word, uint64_t most, uint32_t *number);

/* Gives an item the path of a file in the list's folder. Gives what is wrong with it, or null. */
const char *give_path(item *added, const char *list, bytes name);

/* Said where memory is short. */
#define NO_ROOM "there is no memory left"

/* Reads a list. Paths in it go from the list's folder. Gives the exit status; what is wrong is said. */
int read_items(const char *path, bytes held, items *list);

#endif
