/* A Blorb file in memory, and the data for a resource. */
#ifndef CONTENTS_H
#define CONTENTS_H

#include <stddef.h>
#include <stdint.h>
#include <sys/stat.h>

#include "blorb.h"
#include "files.h"
#include "numbers.h"

typedef struct contents {
    uint8_t *file; /* room for every file that the library takes, and one byte more */
    size_t length;
    struct stat status;
    uint32_t profile; /* that it was judged under */
    blorb_read_answer read;
} contents;

/* Reads an open file, whatever it holds, and closes it. What fails is said. Gives the exit status. `c` is to be freed in any case. */
int load_bytes(contents *c, const char *shown, int fd);

/* The same, and judges it under a profile. */
int load_contents(contents *c, const char *shown, int fd, uint32_t profile);

/* Says why the library refused the file, with number and place or without. Gives REFUSED. */
int say_refused_contents(const contents *c, const char *shown);
int say_reason(const contents *c, const char *shown);

/* Both, for commands that need an accepted file. */
int load_accepted(contents *c, const char *shown, int fd, uint32_t profile);
void free_contents(contents *c);

typedef struct entry {
    char usage[4];
    uint32_t number;
    uint32_t start;
} entry;

/* Entry i of a file with an index of more entries than that. */
entry entry_at(const uint8_t *file, size_t i);

/* The other way round than number_in: a usage or type that is a number, as its four bytes. */
void put_tag(uint32_t number, char tag[4]);

/* Where the first chunk of every file begins, which is the index; and the chunk behind one, or the file's end behind the last. */
enum { FIRST_CHUNK = 12 };
uint32_t next_chunk(const contents *c, uint32_t start);

/* The chunk that begins at `start` in an accepted file: its four bytes of type, and its data. */
const char *type_at(const uint8_t *file, uint32_t start);
bytes data_at(const uint8_t *file, uint32_t start);

/* What a lookup gives of that chunk: its data, or the whole chunk but its padding where it is a FORM. */
bytes found_at(const uint8_t *file, uint32_t start);

typedef struct data {
    uint8_t *room; /* to be freed */
    bytes held;
    int is_cut;    /* there is too much for any file, and this is only the beginning */
} data;

/* Reads the data of a resource; "-" is standard input. Gives the exit status. */
int load_data(data *d, const char *path);

#endif
