#define _XOPEN_SOURCE 700
#include "undo_store.h"

#include <errno.h>
#include <stdlib.h>
#include <string.h>
#include <unistd.h>

/*
 * Every state names the present one as the one before, so the present file is found from each of them, wherever the writing of several may be cut
 * short. Those between name no file: none of them is ever that of FILE. Undo leads from one to the one before it, and from the first to the base.
 */
step edit_step(const journal *j, const state *base, uint8_t *room, const unsaved *edits, size_t count, const file_id *new_file)
{
    state at = *base;
    size_t behind = 0;
    for (size_t i = 0; i < count; i++) {
        behind = edits[i].at + edits[i].record;
        at = (state){.at = j->end + behind, .before = j->now.at, .below = at.at, .edits = at.edits + 1,
                     .record_at = j->end + edits[i].at, .record_length = edits[i].record};
        sha256(room + edits[i].at, edits[i].record, at.record_hash);
        if (i + 1 < count)
            put_state(j, &at, room + behind);
    }
    at.file = *new_file;
    return (step){.room = room, .record = behind, .after = at};
}

step undo_step(const journal *j, uint8_t *room, const state *to, const file_id *new_file)
{
    state after = *to;
    after.at = j->end;
    after.before = j->now.at;
    after.file = *new_file;
    return (step){.room = room, .after = after, .kept = to->file.length != 0 ? to->at + STATE_SIZE : 0};
}

/* Shortens FILE.undo to its first `size` bytes. Keeps errno. */
static void cut(const journal *j, uint64_t size)
{
    int error = errno;
    if (ftruncate(j->fd, (off_t)size) != 0) {
        /* What stands behind a state that is not the last one is passed over. */
    }
    errno = error;
}

/*
 * A journal is added to in place where nobody else has the same file under another name, and where it is as open as FILE is. Any other
 * is written anew with the step.
 */
static int can_be_added_to(const journal *j, const struct stat *like)
{
    struct stat now;
    return j->whole == NULL && j->writable && fstat(j->fd, &now) == 0 && now.st_nlink == 1 && now.st_uid == like->st_uid
        && now.st_gid == like->st_gid && (now.st_mode & 0777) == (like->st_mode & 0777);
}

/* The disk forgets what an interrupted call has left before anything stands in its place. */
static int add_in_place(const journal *j, const step *s)
{
    if (j->size > j->end && (ftruncate(j->fd, (off_t)j->end) != 0 || fsync(j->fd) != 0))
        return -1;
    int done = lseek(j->fd, (off_t)j->end, SEEK_SET) < 0 ? -1 : write_all(j->fd, s->room, s->record + STATE_SIZE);
    if (done == 0)
        done = fsync(j->fd);
    if (done != 0)
        cut(j, j->end);
    return done;
}

/* What is kept of the old journal, in memory. */
static int load_whole(journal *j)
{
    size_t length = 0;
    if (j->whole != NULL)
        return 0;
    j->whole = malloc((size_t)j->end);
    if (j->whole == NULL || lseek(j->fd, 0, SEEK_SET) < 0 || read_all(j->fd, j->whole, (size_t)j->end, &length) != 0)
        return -1;
    errno = EIO;
    return length == j->end ? 0 : -1;
}

static int add_in_copy(const place *p, journal *j, const step *s, const struct stat *like)
{
    if (load_whole(j) != 0)
        return -1;
    bytes parts[2] = {{j->whole, (size_t)j->end}, {s->room, s->record + STATE_SIZE}};
    if (stage(p, p->undo_temp, parts, 2, like) != 0)
        return -1;
    if (install(p, p->undo_temp, p->undo) == 0)
        return 0;
    discard(p, p->undo_temp);
    return -1;
}

/* The file is as it was: so is the journal, or it knows this file too. With nothing to undo none is needed. */
static in_place take_back(const place *p, const journal *j, int added)
{
    discard(p, p->temp);
    if (j->now.edits == 0)
        discard(p, p->undo);
    else if (added)
        cut(j, j->end);
    return OLD_IN_PLACE;
}

/* What undone edits have added goes: the state that undo leads to names the file by itself. Of an older journal it does not. */
static void tidy(const place *p, const journal *j, const step *s, int added)
{
    if (s->after.edits == 0)
        discard(p, p->undo);
    else if (added && s->kept != 0)
        cut(j, s->kept);
}

in_place store_pair(const place *p, const struct stat *like, bytes new_file, journal *j, step *s)
{
    int added = can_be_added_to(j, like);
    put_state(j, &s->after, s->room + s->record);
    if (added)
        discard(p, p->undo_temp);
    /* The new file is on the disk before the journal knows it, so a full disk leaves the old pair as it was. */
    if (stage(p, p->temp, &new_file, 1, like) != 0)
        return OLD_IN_PLACE;
    if ((added ? add_in_place(j, s) : add_in_copy(p, j, s, like)) != 0) {
        discard(p, p->temp);
        return OLD_IN_PLACE;
    }
    /* The journal, which knows both files, is there before the new file is, also after a power loss. */
    if (confirm(p) != 0 || install(p, p->temp, p->name) != 0)
        return take_back(p, j, added);
    if (confirm(p) != 0)
        return NEW_UNCONFIRMED;
    tidy(p, j, s, added);
    return NEW_IN_PLACE;
}
