/* For the tests of blorb_store.h: checks, a folder to work in, edits in short words, and the files that they lead through. */
#ifndef STORE_KIT_H
#define STORE_KIT_H

#include <stddef.h>
#include <stdint.h>

#include "blorb_store.h"

#define FILE_NAME "game.blb"
#define UNDO_NAME FILE_NAME ".undo"
#define TABLE_NAME FILE_NAME ".table"

extern size_t checks;

/* One check: ends the test where it fails. */
void expect(int right, const char *what, ...);

/* Makes a folder, which is the working one from then on; removes it with all that it holds. */
void enter_folder(void);
void leave_folder(void);
void empty_folder(void);

typedef struct held {
    uint8_t *at; /* null where there is no such file */
    size_t length;
} held;

held read_name(const char *name);
void write_name(const char *name, held h);
int same_bytes(held a, held b);
int is_there(const char *name);

/* How many names in the folder end in .blorb-temp. */
int temporary_names(void);

/* The files that edits lead through, the first one first. */
enum { MOST_FILES = 32 };
typedef struct chain {
    held files[MOST_FILES];
    size_t count;
} chain;

/* The file to begin with: Pict 1, Data 3 and Data 4. */
chain first_chain(void);
void free_chain(chain *c);
held top_of(const chain *c);

/*
 * Edits in words with a space between: a9 adds Data 9, r9 replaces it, s3 puts what Data 3 has into it again, x9 removes it, l8 links Pict 1 as
 * Pict 8, u2 takes two edits back. In memory by blorb.h alone; by a store, up to the first that is not carried out.
 */
void follow(chain *c, const char *edits);
blorb_store_answer apply(blorb_store *s, const char *edits);

/* The same with opening, loading, saving and closing, where all must be carried out. A bar stands between what is saved apart. */
void carry_out(const char *edits);

blorb_store *opened(int how);

/* The file in the folder is the last one of the chain, and undo goes back through all of it. */
void goes_back(const chain *c, const char *what);

#endif
