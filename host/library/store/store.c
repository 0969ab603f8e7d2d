/* Opening, making, loading and closing; the journal dropped. */
#define _XOPEN_SOURCE 700
#include "store.h"

#include <errno.h>
#include <fcntl.h>
#include <stdlib.h>
#include <string.h>
#include <unistd.h>

blorb_store_answer answer_done(void)
{
    return (blorb_store_answer){.error = BLORB_STORE_DONE};
}

blorb_store_answer failed_with(uint64_t error)
{
    return (blorb_store_answer){.error = error, .system = errno};
}

blorb_store_answer failed_without(uint64_t error)
{
    return (blorb_store_answer){.error = error};
}

blorb_store_answer refused_with(uint64_t refusal, uint64_t place)
{
    return (blorb_store_answer){.error = refusal, .place = place};
}

blorb_store_answer came_of(in_place answer, uint64_t old, uint64_t unconfirmed)
{
    return answer == NEW_IN_PLACE ? answer_done() : failed_with(answer == OLD_IN_PLACE ? old : unconfirmed);
}

blorb_store_answer journal_trouble(journal_answer answer)
{
    static const uint64_t numbers[] = {
        [JOURNAL_READY] = BLORB_STORE_DONE, [JOURNAL_DAMAGED] = BLORB_STORE_JOURNAL_DAMAGED, [JOURNAL_NOT_ITS] = BLORB_STORE_JOURNAL_NOT_ITS,
        [JOURNAL_ADRIFT] = BLORB_STORE_JOURNAL_ADRIFT, [JOURNAL_PLAIN] = BLORB_STORE_JOURNAL_PLAIN, [JOURNAL_NEWER] = BLORB_STORE_JOURNAL_NEWER,
        [JOURNAL_OTHER] = BLORB_STORE_JOURNAL_OTHER, [JOURNAL_LINK] = BLORB_STORE_JOURNAL_LINK, [JOURNAL_FAILED] = BLORB_STORE_JOURNAL_READ,
    };
    return answer == JOURNAL_FAILED ? failed_with(numbers[answer]) : failed_without(numbers[answer]);
}

/* ---- opening and closing */

blorb_store_answer blorb_store_open(blorb_store **store, const char *path, blorb_store_waiting *tell, void *context)
{
    blorb_store *s = *store = calloc(1, sizeof *s);
    if (s == NULL)
        return failed_with(BLORB_STORE_MEMORY);
    s->p.folder = s->j.fd = -1;
    if (own_ending(path) != NULL)
        return failed_without(BLORB_STORE_OWN_NAME);
    if (reach_place(&s->p, path, &(waiting){tell, context}) == 0)
        return answer_done();
    return errno == EBUSY ? failed_without(BLORB_STORE_BUSY) : failed_with(BLORB_STORE_REACH);
}

void forget_edits(blorb_store *s)
{
    s->count = 0;
    s->rewound = s->changed = 0;
}

/* Nothing is loaded any more. The file's room stays, and what was read. */
static void unload(blorb_store *s)
{
    close_journal(&s->j);
    s->j = (journal){.fd = -1};
    s->loaded = s->knows_journal = 0;
    forget_edits(s);
}

void blorb_store_close(blorb_store *s)
{
    if (s == NULL)
        return;
    unload(s);
    close_place(&s->p);
    free(s->file);
    free(s->room);
    free(s->edits);
    free(s);
}

const char *blorb_store_undo_path(const blorb_store *s)
{
    return s->p.undo_path;
}

const char *blorb_store_table_path(const blorb_store *s)
{
    return s->p.table_path;
}

const uint8_t *blorb_store_file(const blorb_store *s, size_t *length)
{
    if (length != NULL)
        *length = s->length;
    return s->file;
}

/* ---- loading */

/* One byte over the limit is enough to have a longer file refused. */
static int read_file(blorb_store *s, int fd)
{
    if (s->file == NULL)
        s->file = malloc(BLORB_MAX_SIZE + 1);
    int done = s->file == NULL ? -1 : fstat(fd, &s->status);
    if (done == 0)
        done = read_all(fd, s->file, BLORB_MAX_SIZE + 1, &s->length);
    int error = errno;
    close(fd);
    errno = error;
    return done;
}

/* The journal of the file on the disk, and where the edits that are not saved stand on. */
void find_journal(blorb_store *s)
{
    if (s->knows_journal)
        return;
    close_journal(&s->j);
    s->found = load_journal(&s->p, &s->on_disk, s->profile, &s->j);
    s->knows_journal = s->found != JOURNAL_FAILED;
    if (s->found == JOURNAL_READY && !s->rewound)
        s->base = s->j.now;
}

/* Editing without undo gets round a journal that cannot be undone, but not round one that can be under its own profile. */
static blorb_store_answer usable_journal(blorb_store *s)
{
    find_journal(s);
    if (s->found != JOURNAL_READY && (s->how != BLORB_STORE_NO_UNDO || knows_file(s->found)))
        return journal_trouble(s->found);
    return answer_done();
}

/* Opened for writing too where it is to be edited, so that a file which the user may not change is left alone. A pipe holds nobody up. */
static int open_file(const blorb_store *s)
{
    return openat(s->p.folder, s->p.name, (s->how == BLORB_STORE_LOOK ? O_RDONLY : O_RDWR) | O_NONBLOCK | O_CLOEXEC);
}

static int is_no_plain_file(const blorb_store *s)
{
    struct stat status;
    return fstatat(s->p.folder, s->p.name, &status, 0) == 0 && !S_ISREG(status.st_mode);
}

static blorb_store_answer load_file(blorb_store *s)
{
    s->length = 0;
    if (is_no_plain_file(s))
        return failed_without(BLORB_STORE_NOT_PLAIN);
    int fd = open_file(s);
    if (fd < 0)
        return failed_with(BLORB_STORE_OPEN);
    if (read_file(s, fd) != 0)
        return failed_with(s->file == NULL ? BLORB_STORE_MEMORY : BLORB_STORE_READ);
    blorb_read_answer read = blorb_read(s->file, s->length, s->profile);
    return refused_with(read.refusal, read.place);
}

blorb_store_answer blorb_store_load(blorb_store *s, uint32_t profile, int how)
{
    unload(s);
    s->profile = profile;
    s->how = how;
    blorb_store_answer answer = load_file(s);
    if (answer.error != BLORB_STORE_DONE)
        return answer;
    if (how != BLORB_STORE_LOOK) {
        s->on_disk = id_of(s->file, s->length);
        answer = usable_journal(s);
    }
    s->loaded = answer.error == BLORB_STORE_DONE;
    return answer;
}

/* After a save the file on the disk is another one, and its journal is looked at again. */
blorb_store_answer ready_to_edit(blorb_store *s)
{
    if (!s->loaded)
        return failed_without(BLORB_STORE_NOT_LOADED);
    return s->how == BLORB_STORE_LOOK ? failed_without(BLORB_STORE_LOOKING) : usable_journal(s);
}

/* ---- a new file, and the journal dropped */

/* Gives -1 and errno where that cannot be told. */
static int is_there(const place *p, const char *name)
{
    struct stat status;
    if (fstatat(p->folder, name, &status, AT_SYMLINK_NOFOLLOW) == 0)
        return 1;
    return errno == ENOENT ? 0 : -1;
}

/* Whether what has the journal's name begins as a journal does, which no link does; -1 and errno where it cannot be read. */
static int is_journal_there(const place *p)
{
    int fd = openat(p->folder, p->undo, O_RDONLY | O_NOFOLLOW | O_NONBLOCK | O_CLOEXEC);
    if (fd < 0)
        return errno == ELOOP ? 0 : -1;
    int found = is_journal(fd);
    int error = errno;
    close(fd);
    errno = error;
    return found;
}

/* A file that no edit could be made to is of no use. Sets errno where not. */
static int has_room_for_names(const place *p)
{
    long longest = fpathconf(p->folder, _PC_NAME_MAX);
    errno = ENAMETOOLONG;
    return longest < 0 || strlen(p->undo_temp) <= (size_t)longest;
}

/* What stands under the journal's name where no file has FILE's. */
static blorb_store_answer undo_taken(const place *p)
{
    int there = is_there(p, p->undo);
    int found = there > 0 ? is_journal_there(p) : there;
    if (found < 0)
        return failed_with(BLORB_STORE_UNDO_NAME_READ);
    return failed_without(found ? BLORB_STORE_UNDO_TAKEN : there ? BLORB_STORE_UNDO_NAME_TAKEN : BLORB_STORE_DONE);
}

blorb_store_answer may_begin_at(const place *p, int over_file)
{
    int there = over_file ? 0 : is_there(p, p->name);
    if (there != 0)
        return there > 0 ? failed_without(BLORB_STORE_TAKEN) : failed_with(BLORB_STORE_NOT_CREATED);
    blorb_store_answer answer = undo_taken(p);
    return answer.error == BLORB_STORE_DONE && !has_room_for_names(p) ? failed_with(BLORB_STORE_LONG_NAME) : answer;
}

blorb_store_answer blorb_store_create_from(blorb_store *s, const uint8_t *file, size_t size)
{
    blorb_store_answer answer = may_begin_at(&s->p, 0);
    if (answer.error != BLORB_STORE_DONE)
        return answer;
    in_place came = make_file(&s->p, (bytes){file, size});
    return came_of(came, BLORB_STORE_NOT_CREATED, came == NEW_NAMED_TWICE ? BLORB_STORE_NAMED_TWICE : BLORB_STORE_UNCONFIRMED);
}

blorb_store_answer blorb_store_create(blorb_store *s)
{
    uint8_t blank[BLORB_BLANK_SIZE];
    return blorb_store_create_from(s, blank, (size_t)blorb_blank(blank, sizeof blank).length);
}

/* Only what begins as a journal is removed: anything else of this name is not the store's. */
blorb_store_answer blorb_store_forget(blorb_store *s)
{
    unload(s);
    int there = is_there(&s->p, s->p.undo);
    int found = there > 0 ? is_journal_there(&s->p) : there;
    if (found < 0)
        return failed_with(BLORB_STORE_JOURNAL_READ);
    if (!found)
        return failed_without(there ? BLORB_STORE_JOURNAL_OTHER : BLORB_STORE_DONE);
    if (unlinkat(s->p.folder, s->p.undo, 0) != 0)
        return failed_with(BLORB_STORE_NOT_FORGOTTEN);
    return confirm(&s->p) == 0 ? answer_done() : failed_with(BLORB_STORE_FORGOTTEN_UNCONFIRMED);
}
