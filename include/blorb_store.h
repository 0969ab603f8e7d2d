/*
 * blorb_store.h: Blorb files on a disk, edited so that a crash loses nothing, with undo.
 *
 * The calls of blorb.h work on bytes that the caller lends them. A store reads such a file from a disk, edits it in memory by these calls, and puts
 * the new file in the place of the old one, together with the journal that undo needs (FILE.undo) and, where one stands there, the finding table
 * (FILE.table). The command line program `blorb` stands on it: both can work on the same files.
 *
 *     blorb_store *s;
 *     blorb_store_answer a = blorb_store_open(&s, "game.blb", NULL, NULL);
 *     if (a.error == BLORB_STORE_DONE)
 *         a = blorb_store_load(s, BLORB_PLAIN, BLORB_STORE_EDIT);
 *     if (a.error == BLORB_STORE_DONE)
 *         a = blorb_store_replace(s, "Pict", 1, "JPEG", picture, picture_size);
 *     if (a.error == BLORB_STORE_DONE)
 *         a = blorb_store_save(s, NULL);
 *     if (a.error != BLORB_STORE_DONE)
 *         show(blorb_store_sentence(a.error));
 *     blorb_store_close(s);
 *
 * Link with -lblorb_store -lblorb (pkg-config: blorb_store). Unlike libblorb.a, which needs nothing but memmove and memset, this is for POSIX with
 * flock. It is not proved but tested (host/test): each of its system calls and allocations is made to fail, the process is ended at each, and
 * the pairs of files are tried that a loss of power can leave by the order of these calls. docs/HOST-TESTS.md of the source says what is not covered.
 *
 * What is promised of every call:
 *
 *   - It answers. It prints nothing, ends no process, installs no signal handler, changes no setting of the process, and keeps nothing but in the store.
 *     errno may change. Calls on different stores may run at once; one store is for one thread at a time.
 *   - Where the answer's `error` is not 0, the file in memory and the edits in it are as they were before the call, unless the call or its number
 *     says otherwise. A blorb_store_load that fails leaves nothing loaded.
 *   - Nothing on the disk changes but by blorb_store_create, _create_from, _save, _write_table and _forget. (A name that ends in .blorb-temp, which an interrupted
 *     call has left, is removed by the next of these that writes under it.)
 *   - Memory comes from malloc, and all of it goes back with blorb_store_close: 16 MiB for the file; for edits that are not saved yet the old data
 *     that undo needs, and room for one more, as long as the file; during an undo a copy of the file; and all of a journal that is written anew.
 *
 * From blorb_store_open to blorb_store_close a store holds the lock of the file's folder (flock, exclusive, on the folder itself). It is given back
 * when the process ends, however it ends. Others who open a store in this folder wait, also in the same process: so do not open a second one in the
 * same folder before the first is closed, and close a store as soon as it is saved. The lock is a word among those who ask for it: it holds no other
 * program off. (Where files may not grow beyond a limit, RLIMIT_FSIZE, a process that does not ignore SIGXFSZ is ended: a crash like any other.)
 *
 * After a crash
 * -------------
 * Let F be the file before blorb_store_save and G the one in memory. Whenever the process is ended (SIGKILL at any system call, and within a
 * write), when any system call fails, and when the machine loses power, there is afterwards
 *
 *   - FILE as F, whole, and undo goes back from it as it did before the call; or
 *   - FILE as G, whole, and undo goes back from it through all that blorb_store_history listed when it was saved;
 *
 * and nothing between: all edits of one save are there, or none. When blorb_store_save has answered 0, it is G, after a power loss too. Answers
 * say which it is: of BLORB_STORE_NOT_SAVED it is F; of BLORB_STORE_UNCONFIRMED it is G, but after a power loss F or G. These are the steps, and no
 * later one begins before the one before it is done:
 *
 *   1. Where FILE.table stands: the table of G to FILE.table.blorb-temp (unlinkat, openat with O_EXCL, write, fchown and fchmod as FILE has it, fsync,
 *      close).
 *   2. G to FILE.blorb-temp, likewise.
 *   3. What undo needs is added to the end of FILE.undo (lseek, write, fsync; where an interrupted save has left something there, ftruncate and fsync
 *      come first). Where there is no FILE.undo yet, or it cannot be added to (it has a second name, another owner or other permissions than FILE, may
 *      not be written, or is of an older version), all of it is written to FILE.undo.blorb-temp as in step 1, which takes its name (renameat).
 *   4. fsync of the folder. From here on the journal knows F and G.
 *   5. FILE.blorb-temp takes the name FILE (renameat), and then fsync of the folder.
 *   6. Where nothing is left to undo, FILE.undo goes (unlinkat). After an undo what the undone edits have added to it is cut off (ftruncate).
 *   7. FILE.table.blorb-temp takes the name FILE.table (renameat), and then fsync of the folder.
 *
 * With BLORB_STORE_NO_UNDO 3 and 4 are left out, and there is no undo from G. After BLORB_STORE_UNCONFIRMED 6 is left out.
 *
 * The journal names a file by its length and SHA-256, so before step 5 it says of F what it said, and after it, of G. A crash between 5 and 7 leaves
 * the table of F beside G. That does no harm to whoever checks a table before use: blorb_table_check refuses it (35) unless it is G's too, and the
 * next save or blorb_store_write_table puts it right. Where a step up to the first half of 5 fails, what was done is taken back: no temporary file is
 * left, unless it cannot be removed, and FILE.undo is as it was, or knows G besides.
 *
 * What this rests on: a file system that renames atomically and keeps what fsync has confirmed; where a folder cannot be fsynced (EINVAL), one that
 * keeps the order of renames; that nobody else writes FILE, FILE.undo, FILE.table or their temporary names meanwhile. Owner and group are kept where
 * the process may give them. Not kept are access lists, extended attributes, and other hard links to FILE, which keep F. docs/COMMAND.md of the library's
 * source has the journal's bytes.
 */
#ifndef BLORB_STORE_H
#define BLORB_STORE_H

#include <stddef.h>
#include <stdint.h>

#include "blorb.h"

#ifdef __cplusplus
extern "C" {
#endif

/* In the library the calls are seen from outside, and nothing else is. */
#if defined(__GNUC__)
#define BLORB_STORE_CALL __attribute__((visibility("default")))
#else
#define BLORB_STORE_CALL
#endif

/*
 * What a call answers besides BLORB_STORE_DONE and the refusals of blorb.h, which are all below 200. Those marked (errno) have it in the answer's
 * `system`.
 */
enum {
    BLORB_STORE_DONE = 0,

    /* Opening and loading. */
    BLORB_STORE_MEMORY = 200,           /* no memory (errno) */
    BLORB_STORE_REACH = 201,            /* the file's folder cannot be reached or locked (errno; ENOLCK: not locked) */
    BLORB_STORE_BUSY = 202,             /* another has the lock, and the caller's function gave up waiting */
    BLORB_STORE_OWN_NAME = 203,         /* the path ends in .undo, .table or .blorb-temp, in any case, by itself or where its links lead */
    BLORB_STORE_NOT_LOADED = 204,       /* the call needs a file that is loaded */
    BLORB_STORE_LOOKING = 205,          /* the file was loaded with BLORB_STORE_LOOK */
    BLORB_STORE_NOT_PLAIN = 206,        /* a folder, device or pipe */
    BLORB_STORE_OPEN = 207,             /* the file cannot be opened, to edit also: written (errno; ENOENT: there is none) */
    BLORB_STORE_READ = 208,             /* the file cannot be read (errno) */

    /* The journal. Such a one is never overwritten and never undone. */
    BLORB_STORE_JOURNAL_DAMAGED = 210,
    BLORB_STORE_JOURNAL_NOT_ITS = 211,  /* the journal of another file: another program has changed or replaced FILE */
    BLORB_STORE_JOURNAL_ADRIFT = 212,   /* written under BLORB_ADRIFT, where BLORB_PLAIN is given */
    BLORB_STORE_JOURNAL_PLAIN = 213,    /* the other way round */
    BLORB_STORE_JOURNAL_NEWER = 214,    /* of a newer version of this library */
    BLORB_STORE_JOURNAL_OTHER = 215,    /* what is called FILE.undo is no journal */
    BLORB_STORE_JOURNAL_LINK = 216,     /* it is a symbolic link */
    BLORB_STORE_JOURNAL_READ = 217,     /* it cannot be read (errno) */

    /* Saving. */
    BLORB_STORE_NOT_SAVED = 220,        /* FILE is as it was (errno) */
    BLORB_STORE_UNCONFIRMED = 221,      /* the new FILE is in place, but the disk has not confirmed it (errno) */
    BLORB_STORE_UNDO_LEFT = 222,        /* with BLORB_STORE_NO_UNDO: earlier edits can be undone, and could not be any more. FILE is as it was */
    BLORB_STORE_UNSAVED = 223,          /* there are edits that are not saved */

    /* The finding table. */
    BLORB_STORE_TABLE_OLD = 230,        /* FILE is saved, but FILE.table is still the old one (errno) */
    BLORB_STORE_TABLE_UNCONFIRMED = 231, /* the new FILE.table is in place, but the disk has not confirmed it (errno) */
    BLORB_STORE_TABLE_NOT_WRITTEN = 232, /* FILE.table is as it was (errno) */
    BLORB_STORE_NO_TABLE = 233,         /* there is no FILE.table */
    BLORB_STORE_TABLE_READ = 234,       /* it cannot be read (errno) */
    BLORB_STORE_TABLE_OTHER = 235,      /* what is called FILE.table is a folder, device or pipe */

    /* A new file. Of all but the last none was made. */
    BLORB_STORE_TAKEN = 240,            /* FILE is there */
    BLORB_STORE_UNDO_TAKEN = 241,       /* FILE.undo is there, the journal of an older file of this name */
    BLORB_STORE_UNDO_NAME_TAKEN = 242,  /* something else is called FILE.undo */
    BLORB_STORE_UNDO_NAME_READ = 243,   /* something is called FILE.undo and cannot be read (errno) */
    BLORB_STORE_LONG_NAME = 244,        /* the name has no room for the 16 bytes more that FILE.undo.blorb-temp takes (errno) */
    BLORB_STORE_NOT_CREATED = 245,      /* (errno; EEXIST: another program made FILE meanwhile, or a name is taken) */
    BLORB_STORE_NAMED_TWICE = 246,      /* FILE is in place, but FILE.blorb-temp, a second name of it, cannot be removed (errno) */

    /* Dropping the journal. */
    BLORB_STORE_NOT_FORGOTTEN = 250,    /* FILE.undo cannot be removed (errno) */
    BLORB_STORE_FORGOTTEN_UNCONFIRMED = 251 /* it is gone, but the disk has not confirmed it (errno) */
};

typedef struct blorb_store_answer {
    uint64_t error; /* BLORB_STORE_DONE, a refusal of blorb.h, or one of the numbers above */
    uint64_t place; /* of a refusal of blorb.h: its place; else 0 */
    int system;     /* errno, where a number above says so; else 0 */
} blorb_store_answer;

/*
 * What such a number says, in a sentence for people: English, no full stop, static storage, never null. Of a refusal of blorb.h it is
 * blorb_sentence's. Any other number gets a sentence that says so.
 */
BLORB_STORE_CALL const char *blorb_store_sentence(uint64_t error);

typedef struct blorb_store blorb_store;

/*
 * Called once where another has had the lock of the folder for a second: gives 0 to wait for as long as it takes, anything else to give up. `path` is
 * the one given to blorb_store_open.
 */
typedef int blorb_store_waiting(void *context, const char *path);

/*
 * Opens the place where a file is, or is to be: follows symbolic links, once and for all, and takes the lock of its folder. The file itself need not be
 * there and is not looked at. `waiting` may be null: then it waits for as long as it takes. *store is to be closed after any answer; it is null after
 * BLORB_STORE_MEMORY, and after another error good for nothing else.
 * Answers: BLORB_STORE_MEMORY, _OWN_NAME, _REACH, _BUSY.
 */
BLORB_STORE_CALL blorb_store_answer blorb_store_open(blorb_store **store, const char *path, blorb_store_waiting *waiting, void *context);

/* Gives the lock and all memory back. What is not saved is dropped. The store may be null. */
BLORB_STORE_CALL void blorb_store_close(blorb_store *store);

/* FILE.undo and FILE.table with their folder, for messages. They live as long as the store. */
BLORB_STORE_CALL const char *blorb_store_undo_path(const blorb_store *store);
BLORB_STORE_CALL const char *blorb_store_table_path(const blorb_store *store);

/*
 * Makes a blank file, where no file has this name: none is overwritten, also not one that another program makes at this moment (but on a file system
 * without hard links). After a crash there is none or the whole one. It is not loaded.
 * Answers: BLORB_STORE_TAKEN to BLORB_STORE_NAMED_TWICE, BLORB_STORE_UNCONFIRMED.
 */
BLORB_STORE_CALL blorb_store_answer blorb_store_create(blorb_store *store);

/* The same with these bytes in place of a blank file, as they are: they are not judged before blorb_store_load. */
BLORB_STORE_CALL blorb_store_answer blorb_store_create_from(blorb_store *store, const uint8_t *file, size_t size);

/* How a file is loaded. */
enum {
    BLORB_STORE_EDIT = 0,   /* to be edited and undone */
    BLORB_STORE_LOOK = 1,   /* to be looked at: it need not be writable, and its journal is looked at by blorb_store_history only */
    BLORB_STORE_NO_UNDO = 2 /* to be edited without keeping anything for undo. A journal that could not be undone is left alone */
};

/*
 * Reads the file, judges it under a profile of blorb.h, and to edit finds its journal. A journal belongs to one profile as long as it has edits that
 * can be undone. Loading again drops what is not saved.
 * Answers: BLORB_STORE_MEMORY, _NOT_PLAIN, _OPEN, _READ, the file's refusals, and to edit BLORB_STORE_JOURNAL_DAMAGED to _JOURNAL_READ (with
 * BLORB_STORE_NO_UNDO of these _ADRIFT and _PLAIN only: the earlier edits can still be undone, under their own profile).
 */
BLORB_STORE_CALL blorb_store_answer blorb_store_load(blorb_store *store, uint32_t profile, int how);

/*
 * The file in memory, with the edits that are not saved yet; for the reading calls of blorb.h. It stands until the next edit, undo, load or close. Of
 * a file that blorb_store_load refused with a number of blorb.h it is what was read of it. Where nothing was read the length is 0, and the pointer may be
 * null. `length` may be null.
 */
BLORB_STORE_CALL const uint8_t *blorb_store_file(const blorb_store *store, size_t *length);

/*
 * Edits in memory, as those of the same name in blorb.h, with their refusals (20, 24 and 25 do not occur). Before these BLORB_STORE_NOT_LOADED, _LOOKING,
 * _MEMORY, and after a save the journal's numbers: it is looked at again.
 */
BLORB_STORE_CALL blorb_store_answer blorb_store_add(blorb_store *store, const char usage[4], uint32_t number, const char type[4],
                                                    const uint8_t *data, size_t size);
BLORB_STORE_CALL blorb_store_answer blorb_store_replace(blorb_store *store, const char usage[4], uint32_t number, const char type[4],
                                                        const uint8_t *data, size_t size);
BLORB_STORE_CALL blorb_store_answer blorb_store_remove(blorb_store *store, const char usage[4], uint32_t number);
BLORB_STORE_CALL blorb_store_answer blorb_store_link(blorb_store *store, const char usage[4], uint32_t number, const char new_usage[4],
                                                     uint32_t new_number);

/* How many edits can be undone, saved or not. 0 where nothing is loaded to be edited, or with BLORB_STORE_NO_UNDO. */
BLORB_STORE_CALL uint64_t blorb_store_edits(const blorb_store *store);

/*
 * Takes the last `edits` edits back in memory, those that are not saved yet first and then saved ones: all of them or none. Each saved record is
 * checked by its SHA-256, and so is the file that comes of it, where the journal names that: of several edits that were saved at once it names the last.
 * Answers: as an edit; then 26 where there are fewer, BLORB_STORE_JOURNAL_DAMAGED, _JOURNAL_READ, 21.
 */
BLORB_STORE_CALL blorb_store_answer blorb_store_undo(blorb_store *store, uint64_t edits);

/* What an edit did. */
enum {
    BLORB_STORE_ADDED = 1,
    BLORB_STORE_REPLACED = 2,
    BLORB_STORE_REMOVED = 3,      /* with its data */
    BLORB_STORE_REMOVED_NAME = 4, /* another resource has the data too */
    BLORB_STORE_LINKED = 5        /* usage and number are those of the new name */
};

typedef struct blorb_store_edit {
    uint32_t kind;   /* one of these; a newer version may have others */
    uint32_t number;
    char usage[4];
    char type[4];    /* of the old data that undo brings back; zeros where there is none */
    uint32_t length; /* of what the chunk held of it: of a FORM, 8 less than the file */
    int saved;       /* 0 where the edit is not saved yet */
} blorb_store_edit;

/* Is handed the edits one by one; anything but 0 ends the listing. It may make no call on this store but blorb_store_file. */
typedef int blorb_store_visit(void *context, const blorb_store_edit *edit);

/*
 * The edits that can be undone, the last one first. Loaded to look, those of a journal of the other profile too. The old data that a record keeps
 * is not read: damage there is found by blorb_store_undo.
 * Answers: BLORB_STORE_NOT_LOADED, _MEMORY, BLORB_STORE_JOURNAL_DAMAGED to _JOURNAL_READ.
 */
BLORB_STORE_CALL blorb_store_answer blorb_store_history(blorb_store *store, blorb_store_visit *visit, void *context);

/*
 * Puts the file in memory in the place of the one on the disk, with its journal and table, as "After a crash" says. Where nothing was edited, or
 * all was taken back again, nothing is done. `table`, unless it is null, is given what came of the table alone (BLORB_STORE_DONE where none stands
 * there): the answer has it only where the file itself was saved well. After BLORB_STORE_NOT_SAVED the edits are still in memory, and can be saved again;
 * after BLORB_STORE_UNCONFIRMED and the table's numbers they are saved.
 * Answers: BLORB_STORE_NOT_LOADED, _LOOKING, the journal's numbers where it is looked at again, BLORB_STORE_UNDO_LEFT, _NOT_SAVED, _UNCONFIRMED,
 * _TABLE_OLD, _TABLE_UNCONFIRMED.
 */
BLORB_STORE_CALL blorb_store_answer blorb_store_save(blorb_store *store, blorb_store_answer *table);

/*
 * Writes FILE.table: the rows of blorb_table_build as big-endian numbers of 32 bits. From then on every save keeps it up. The file on the disk must be
 * the one in memory.
 * Answers: BLORB_STORE_NOT_LOADED, _UNSAVED, _TABLE_NOT_WRITTEN, _TABLE_UNCONFIRMED.
 */
BLORB_STORE_CALL blorb_store_answer blorb_store_write_table(blorb_store *store);

/* Numbers of the longest table. */
enum { BLORB_STORE_TABLE_NUMBERS = BLORB_ROW_NUMBERS * BLORB_MAX_ENTRIES };

/*
 * Reads the finding table beside the file at `path` (beside the real file, where that is a symbolic link) and checks it against the file, which the
 * caller has read: a player's way, without a store and without the lock. `table` has room for BLORB_STORE_TABLE_NUMBERS; *numbers says how many were
 * read. Then blorb_table_search finds by it.
 * Answers: BLORB_STORE_MEMORY, _NO_TABLE (also where the path has no folder, as a pipe), _TABLE_READ, _TABLE_OTHER, those of
 * blorb_table_check.
 */
BLORB_STORE_CALL blorb_store_answer blorb_store_read_table(const char *path, const uint8_t *file, size_t size, uint32_t profile,
                                                           uint32_t *table, size_t *numbers);

/*
 * Drops FILE.undo, and with it all undoing up to here; FILE stays as it is, and need not be good. What does not begin as a journal is left alone
 * (BLORB_STORE_JOURNAL_OTHER). Where there is none, nothing is done. Whatever the answer is, nothing is loaded any more, and
 * what was not saved is dropped.
 * Answers: BLORB_STORE_JOURNAL_OTHER, _JOURNAL_READ, _NOT_FORGOTTEN, _FORGOTTEN_UNCONFIRMED.
 */
BLORB_STORE_CALL blorb_store_answer blorb_store_forget(blorb_store *store);

#ifdef __cplusplus
}
#endif

#endif
