/* A store of the library, and what is said of its answers. */
#ifndef STORES_H
#define STORES_H

#include "blorb_store.h"
#include "commands.h"
#include "contents.h"

/* Opens the place of a file. What fails is said. Gives the exit status. The store is to be closed in any case. */
int open_store(blorb_store **s, const char *file);

/* The same, and loads FILE. `undoing` is for what is said of its journal. */
int load_store(blorb_store **s, const request *r, int how, int undoing);

/* What is said of a journal that cannot be used: it is never overwritten, and never undone. Gives REFUSED for an undo, else FAILED. */
int say_unusable(const char *file, const blorb_store *s, const blorb_store_answer *a, int undoing);

/* What an edit did, in words and printable letters. */
typedef struct past_edit {
    const char *done; /* "added", "removed" .. */
    char usage[4];
    uint32_t number;
    int has_old;      /* undo brings old data back, of this type and length */
    char type[4];
    uint32_t length;
} past_edit;

past_edit shown_edit(const blorb_store_edit *e);

/* The file in a store, for what looks at contents; it is not to be freed, and not to be changed. */
contents contents_of(const request *r, const blorb_store *s);

/* What came of the table beside an edited file. Gives the exit status. */
int say_table(const char *table_path, const blorb_store_answer *a);

/*
 * Whether a new file may begin there: no file is overwritten without `force`, no journal of an older file of this name is taken for the new one's, and
 * edits find their names. Gives the exit status.
 */
int may_begin(const char *file, const place *p, int force);

/* Puts a new file in place, where it may begin. Gives the exit status. */
int begin_file(const char *file, bytes held);

#endif
