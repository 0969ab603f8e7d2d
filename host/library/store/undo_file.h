/*
 * The journal's file, FILE.undo: a head, then steps. Each step is one record of the library's journal and a state, or a state
 * alone; a save adds one step for each edit at the end, or one for all undos. docs/COMMAND.md has the bytes.
 *
 * A state names the file that it belongs to, the record that undo takes back from there, and by their places two earlier states:
 * `below`, which is the one after that undo, and `before`, which held when this step was added. Each state is sealed by its
 * SHA-256 and holds the place where it stands.
 *
 * The present file is that of the last state or, where the last call was not carried out to its end, of the one before it.
 * What stands behind the last whole state was being added when the program was ended.
 */
#ifndef UNDO_FILE_H
#define UNDO_FILE_H

#include <stddef.h>
#include <stdint.h>

#include "files.h"
#include "sha256.h"

enum { JOURNAL_HEAD_SIZE = 16, STATE_SIZE = 160, RECORD_HEAD_SIZE = 25 };

/* Which file it is. Length 0: not known, as for the older steps of a journal of version 1. */
typedef struct file_id {
    uint64_t length;
    uint8_t hash[SHA256_SIZE];
} file_id;

typedef struct state {
    uint64_t at;     /* its place in FILE.undo */
    uint64_t before; /* the state that held before the call; 0 in the first state */
    uint64_t below;  /* the state that undo leads to; 0 where there is nothing to undo */
    uint64_t edits;  /* how many can be undone */
    uint64_t record_at;
    uint64_t record_length; /* 0 where there is nothing to undo */
    uint8_t record_hash[SHA256_SIZE];
    file_id file;
} state;

typedef struct journal {
    int fd;         /* FILE.undo, or -1 where there is none */
    int writable;   /* whether the user may add to it */
    uint8_t *whole; /* a journal that does not lie on the disk in this form yet, from its first byte on; or null */
    uint8_t head[JOURNAL_HEAD_SIZE];
    uint64_t size;  /* all of it; what stands behind `end` is of a call that was not carried out */
    uint64_t end;   /* behind the present state, where the next step goes */
    state now;      /* the present state */
} journal;

typedef enum journal_answer {
    JOURNAL_READY,
    JOURNAL_DAMAGED,
    JOURNAL_NOT_ITS, /* of another file */
    JOURNAL_ADRIFT,  /* the file's, written under the ADRIFT profile where the plain one is asked */
    JOURNAL_PLAIN,   /* and the other way round */
    JOURNAL_NEWER,   /* of a newer version of this program */
    JOURNAL_OTHER,   /* no journal at all */
    JOURNAL_LINK,    /* a symbolic link */
    JOURNAL_FAILED   /* sets errno */
} journal_answer;

file_id id_of(const uint8_t *file, size_t length);
int same_file(const file_id *a, const file_id *b);

/*
 * Finds the journal of the present file, or begins one under this profile where there is no FILE.undo, or nothing to undo in it. It is to be
 * closed after any answer.
 */
journal_answer load_journal(const place *p, const file_id *present, uint32_t profile, journal *j);

/* Whether the journal is the present file's, and could be undone under its own profile. */
int knows_file(journal_answer answer);
void close_journal(journal *j);

/* The record that undo takes back from a state, to be freed after any answer. */
journal_answer load_record(const journal *j, const state *s, uint8_t **record);

/* Only what stands in that record before its old data, which says what the edit did. Damage behind it is not seen. */
journal_answer load_record_head(const journal *j, const state *s, uint8_t head[RECORD_HEAD_SIZE]);

/* The state after that undo. */
journal_answer load_below(const journal *j, const state *s, state *below);

/* Whether an open file begins as a journal of any version does; -1 and errno where that cannot be told. */
int is_journal(int fd);

/* The 160 bytes of a state. */
void put_state(const journal *j, const state *s, uint8_t to[STATE_SIZE]);

/*
 * A journal in memory with these records (none, or those of an older journal), whose last state names the present file, under this
 * profile. Gives JOURNAL_DAMAGED where they are no whole records.
 */
journal_answer begin_journal(journal *j, const file_id *present, uint32_t profile, const uint8_t *records, size_t used);

/* A journal of version 1, read whole from an open file of this size, as one of this version in memory. It is plain. */
journal_answer load_version_1(int fd, size_t size, const file_id *present, journal *j);

/* How long a record is by its own head; 0 where no record begins so. */
uint64_t record_length_in(const uint8_t head[RECORD_HEAD_SIZE]);

#endif
