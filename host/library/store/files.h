/*
 * Reading and writing whole files. A file is written under a temporary name in its own folder, confirmed by the disk, and then
 * renamed: whoever looks finds the old file or the new one, never a part.
 */
#ifndef FILES_H
#define FILES_H

#include <stddef.h>
#include <stdint.h>
#include <sys/stat.h>

/* Where a file is: its folder, held open and locked against others who work so in it, and the names in it. */
typedef struct place {
    int folder;
    char *name;        /* FILE */
    char *temp;        /* FILE.blorb-temp */
    char *undo;        /* FILE.undo */
    char *undo_temp;   /* FILE.undo.blorb-temp */
    char *undo_path;   /* FILE.undo with its folder, for messages */
    char *table;       /* FILE.table */
    char *table_temp;  /* FILE.table.blorb-temp */
    char *table_path;  /* FILE.table with its folder, for messages */
} place;

/* FILE.table, beside the file itself where FILE is a link to it. Gives NULL and errno; ENOENT where FILE has no name, as a pipe. */
char *table_beside(const char *file);

typedef struct bytes {
    const uint8_t *at;
    size_t length;
} bytes;

/* The ending that makes this path one of the store's own names, by itself or where its links lead; or null. */
const char *own_ending(const char *path);

/* Whether the path ends in the ending of a temporary file, in any case: such a file may go at any time. */
int is_temporary(const char *path);

/* Told once where the lock has been waited for a second: gives 0 to wait on, anything else to give up. `tell` may be null. */
typedef struct waiting {
    int (*tell)(void *context, const char *path);
    void *context;
} waiting;

/* All of these give 0, or -1 and errno. */

/*
 * Follows symbolic links; where the file is not there, its folder must be. Waits for the lock; EBUSY where that was given up. The place is to be closed
 * in any case.
 */
int reach_place(place *p, const char *path, const waiting *w);
void close_place(place *p);

/* Whether `path` is where the journal of `file` lies, or would lie. */
int is_undo_of(const char *path, const char *file);

/* Whether `path` is that of `file` but for the case of letters: on a card (FAT, exFAT) that is the same file, under two inode numbers. */
int is_same_but_for_case(const char *path, const char *file);

/* Reads until the end of the file, but no more than `limit` bytes. */
int read_all(int fd, uint8_t *to, size_t limit, size_t *length);

int write_all(int fd, const uint8_t *from, size_t length);

/*
 * Writes a file of these parts under its temporary name, with the permissions and where permitted the owner of `like`, or those
 * of a new file where `like` is null. What an interrupted run has left under that name gives way. On failure nothing is left.
 */
int stage(const place *p, const char *temp, const bytes *parts, size_t count, const struct stat *like);

/* Gives a staged file its name. The disk has confirmed it only after `confirm`. */
int install(const place *p, const char *temp, const char *name);
int confirm(const place *p);

/*
 * Which file is in place after writing. All but the first set errno: no new one; the new one, but the disk has not confirmed it; the new one, but it
 * has its temporary name as well, which cannot be removed.
 */
typedef enum in_place { NEW_IN_PLACE, OLD_IN_PLACE, NEW_UNCONFIRMED, NEW_NAMED_TWICE } in_place;

/*
 * All of it for one file by itself. `make_file` overwrites none (EEXIST). `make_one_of` and `replace_one_of` are for many files in one folder: the
 * disk has confirmed their names only after `confirm_folder`.
 */
in_place make_file(const place *p, bytes new_file);
in_place make_one_of(const place *p, bytes new_file);
in_place replace_file(const place *p, bytes new_file, const struct stat *like);
in_place replace_one_of(const place *p, bytes new_file, const struct stat *like);
int confirm_folder(const char *path);

/* Removes a name, if it is there. Keeps errno. */
void discard(const place *p, const char *name);

#endif
