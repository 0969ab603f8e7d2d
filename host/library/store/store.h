/* Inside a store, and what its files share. The calls are those of blorb_store.h. */
#ifndef STORE_H
#define STORE_H

#include <stddef.h>
#include <stdint.h>
#include <sys/stat.h>

#include "blorb_store.h"
#include "files.h"
#include "undo_file.h"
#include "undo_store.h"

/*
 * The file in memory is that of the state `base` of the journal with the edits that are not saved yet. The base is the journal's present state, or where
 * saved edits were taken back, an earlier one. With BLORB_STORE_NO_UNDO there is no base, and only `changed` tells that something is to be saved.
 */
struct blorb_store {
    place p;
    int loaded;       /* a file is in memory and was accepted, and its journal may be gone on with */
    int how;          /* BLORB_STORE_EDIT, _LOOK or _NO_UNDO */
    int changed;      /* edited without undo */
    uint32_t profile;
    uint8_t *file;    /* room for every file that the library takes, and one byte more */
    size_t length;
    struct stat status; /* of the file on the disk */
    file_id on_disk;  /* which that is */
    journal j;
    int knows_journal; /* `j` was loaded since the last save */
    journal_answer found;
    state base;
    int rewound;      /* the base is not the journal's present state */
    uint8_t *room;    /* records of the edits that are not saved, each with room for its state */
    size_t room_size;
    unsaved *edits;
    size_t count;
    size_t edits_size;
};

/* Answers: done, with the present errno, without one, a refusal of blorb.h (or 0), and what came of writing a file. */
blorb_store_answer answer_done(void);
blorb_store_answer failed_with(uint64_t error);
blorb_store_answer failed_without(uint64_t error);
blorb_store_answer refused_with(uint64_t refusal, uint64_t place);
blorb_store_answer came_of(in_place answer, uint64_t old, uint64_t unconfirmed);

/*
 * Whether a new file may begin there: no file is overwritten, but where the caller says so, no journal of an older file of this name is taken for the new
 * one's, and edits find their names.
 */
blorb_store_answer may_begin_at(const place *p, int over_file);

/* What the journal's answer is to a caller. */
blorb_store_answer journal_trouble(journal_answer answer);

/* Whether the file can be edited. The journal is looked at again after a save, whatever came of that. */
blorb_store_answer ready_to_edit(blorb_store *s);

/* Finds the journal, unless that is known. */
void find_journal(blorb_store *s);

/* Which file is in memory; no edit is waiting to be saved any more. */
int is_changed(const blorb_store *s);
void forget_edits(blorb_store *s);

#endif
