#define _XOPEN_SOURCE 700
#include "files.h"

#include <errno.h>
#include <fcntl.h>
#include <stdio.h>
#include <stdlib.h>
#include <string.h>
#include <sys/file.h>
#include <time.h>
#include <unistd.h>

#include "folding.h"

/* The store's own names end so, in any case: on a card a.TABLE is a.table. A new kind of file beside FILE gets its ending here. */
#define TEMPORARY ".blorb-temp"
#define JOURNAL ".undo"
#define TABLE ".table"
enum { PRIVATE = 0600 }; /* a temporary file's permissions until it gets the file's */
static const char *const own_endings[] = {TEMPORARY, JOURNAL, TABLE};

static char *joined(const char *a, const char *b)
{
    size_t size = strlen(a) + strlen(b) + 1;
    char *both = malloc(size);
    if (both != NULL)
        snprintf(both, size, "%s%s", a, b);
    return both;
}

/* The path without symbolic links. Of a file that is not there only the folder can be resolved. */
static char *resolved(const char *path)
{
    struct stat link;
    char *real = realpath(path, NULL);
    if (real != NULL || errno != ENOENT || lstat(path, &link) == 0)
        return real;
    const char *slash = strrchr(path, '/');
    const char *name = slash == NULL ? path : slash + 1;
    if (name[0] == '\0' || strcmp(name, ".") == 0 || strcmp(name, "..") == 0) {
        errno = ENOENT;
        return NULL;
    }
    char *folder = joined(path, "/.");
    if (folder == NULL)
        return NULL;
    snprintf(folder + (name - path), 2, ".");
    real = realpath(folder, NULL);
    free(folder);
    char *start = real == NULL ? NULL : joined(real, "/");
    char *whole = start == NULL ? NULL : joined(start, name);
    free(real);
    free(start);
    return whole;
}

int is_temporary(const char *path)
{
    return ends_in_any_case(path, TEMPORARY);
}

const char *own_ending(const char *path)
{
    const char *found = NULL;
    char *real = resolved(path);
    for (size_t i = 0; i < sizeof own_endings / sizeof *own_endings; i++)
        if (ends_in_any_case(path, own_endings[i]) || (real != NULL && ends_in_any_case(real, own_endings[i])))
            found = own_endings[i];
    free(real);
    return found;
}

/* Whether `path` leads to where `file` with this ending lies, or would lie, on a disk that tells no cases apart. */
static int is_beside(const char *path, const char *file, const char *ending)
{
    char *one = resolved(path);
    char *other = resolved(file);
    char *beside = other == NULL ? NULL : joined(other, ending);
    int same = one != NULL && beside != NULL && same_but_for_case(one, beside);
    free(one);
    free(other);
    free(beside);
    return same;
}

int is_undo_of(const char *path, const char *file)
{
    return is_beside(path, file, JOURNAL);
}

int is_same_but_for_case(const char *path, const char *file)
{
    return is_beside(path, file, "");
}

char *table_beside(const char *file)
{
    char *real = resolved(file);
    char *path = real == NULL ? NULL : joined(real, TABLE);
    free(real);
    return path;
}

static int set_names(place *p, const char *path)
{
    const char *name = strrchr(path, '/') + 1;
    p->undo_path = joined(path, JOURNAL);
    p->name = joined(name, "");
    p->temp = joined(name, TEMPORARY);
    p->undo = joined(name, JOURNAL);
    p->undo_temp = joined(name, JOURNAL TEMPORARY);
    p->table_path = joined(path, TABLE);
    p->table = joined(name, TABLE);
    p->table_temp = joined(name, TABLE TEMPORARY);
    return p->undo_path != NULL && p->name != NULL && p->temp != NULL && p->undo != NULL && p->undo_temp != NULL
            && p->table_path != NULL && p->table != NULL && p->table_temp != NULL
        ? 0
        : -1;
}

/* One lock for the folder: the file itself is another one after each edit. It ends with the descriptor. */
static int lock(int folder, const char *path, const waiting *w)
{
    enum { TRIES = 20 };
    const struct timespec pause = {.tv_nsec = 50 * 1000 * 1000};
    for (int i = 0; i < TRIES; i++) {
        if (flock(folder, LOCK_EX | LOCK_NB) == 0)
            return 0;
        if (errno != EWOULDBLOCK && errno != EINTR) {
            errno = ENOLCK;
            return -1;
        }
        nanosleep(&pause, NULL);
    }
    /* Whoever has waited for a second wants to know what for. */
    if (w->tell != NULL && w->tell(w->context, path) != 0) {
        errno = EBUSY;
        return -1;
    }
    int done;
    do
        done = flock(folder, LOCK_EX);
    while (done != 0 && errno == EINTR);
    if (done != 0)
        errno = ENOLCK;
    return done;
}

int reach_place(place *p, const char *path, const waiting *w)
{
    *p = (place){.folder = -1};
    char *real = resolved(path);
    if (real == NULL)
        return -1;
    int done = set_names(p, real);
    if (done == 0) {
        char *slash = strrchr(real, '/');
        slash[slash == real ? 1 : 0] = '\0';
        p->folder = open(real, O_RDONLY | O_DIRECTORY | O_CLOEXEC);
        done = p->folder < 0 ? -1 : lock(p->folder, path, w);
    }
    free(real);
    return done;
}

void close_place(place *p)
{
    if (p->folder >= 0)
        close(p->folder);
    free(p->name);
    free(p->temp);
    free(p->undo);
    free(p->undo_temp);
    free(p->undo_path);
    free(p->table);
    free(p->table_temp);
    free(p->table_path);
}

int read_all(int fd, uint8_t *to, size_t limit, size_t *length)
{
    *length = 0;
    while (*length < limit) {
        ssize_t n = read(fd, to + *length, limit - *length);
        if (n == 0)
            return 0;
        if (n < 0 && errno != EINTR)
            return -1;
        if (n > 0)
            *length += (size_t)n;
    }
    return 0;
}

int write_all(int fd, const uint8_t *from, size_t length)
{
    while (length > 0) {
        ssize_t n = write(fd, from, length);
        if (n < 0 && errno != EINTR)
            return -1;
        if (n > 0) {
            from += n;
            length -= (size_t)n;
        }
    }
    return 0;
}

/*
 * Without its group, the group's permissions are given to no other one. A file system without owners and modes of its own, as a
 * card's, gives every file the same ones and takes no others: more permissions than the file was made with tell it.
 */
static int make_like(int fd, const struct stat *like)
{
    struct stat now;
    if (like == NULL)
        return 0;
    if (fstat(fd, &now) != 0)
        return -1;
    mode_t mode = like->st_mode & 0777;
    int same_owner = now.st_uid == like->st_uid && now.st_gid == like->st_gid;
    if (!same_owner && fchown(fd, like->st_uid, like->st_gid) != 0 && fchown(fd, (uid_t)-1, like->st_gid) != 0)
        mode &= ~(mode_t)S_IRWXG;
    int given = (now.st_mode & 0777 & ~(mode_t)PRIVATE) != 0;
    return (now.st_mode & 0777) == mode || fchmod(fd, mode) == 0 || given ? 0 : -1;
}

static int write_parts(int fd, const bytes *parts, size_t count)
{
    int done = 0;
    for (size_t i = 0; i < count && done == 0; i++)
        done = write_all(fd, parts[i].at, parts[i].length);
    return done;
}

int stage(const place *p, const char *temp, const bytes *parts, size_t count, const struct stat *like)
{
    unlinkat(p->folder, temp, 0);
    int fd = openat(p->folder, temp, O_WRONLY | O_CREAT | O_EXCL | O_CLOEXEC, like == NULL ? 0666 : PRIVATE);
    if (fd < 0)
        return -1;
    int done = write_parts(fd, parts, count);
    if (done == 0)
        done = make_like(fd, like);
    if (done == 0)
        done = fsync(fd);
    int error = errno;
    if (close(fd) != 0 && done == 0) {
        error = errno;
        done = -1;
    }
    if (done != 0)
        discard(p, temp);
    errno = error;
    return done;
}

int install(const place *p, const char *temp, const char *name)
{
    return renameat(p->folder, temp, p->folder, name);
}

/* Some file systems have no such call for folders and keep the order of renames by themselves. */
static int sync_folder(int fd)
{
    return fsync(fd) == 0 || errno == EINVAL ? 0 : -1;
}

int confirm(const place *p)
{
    return sync_folder(p->folder);
}

int confirm_folder(const char *path)
{
    int fd = open(path, O_RDONLY | O_DIRECTORY | O_CLOEXEC);
    int done = fd < 0 ? -1 : sync_folder(fd);
    int error = errno;
    if (fd >= 0)
        close(fd);
    errno = error;
    return done;
}

enum { NAMED_TWICE = 1 };

/*
 * As `install`, where no file has the name: one that another program has made meanwhile is not overwritten. Gives NAMED_TWICE and errno where the
 * temporary name cannot be removed.
 */
static int install_new(const place *p, const char *temp, const char *name)
{
    if (linkat(p->folder, temp, p->folder, name, 0) == 0)
        return unlinkat(p->folder, temp, 0) == 0 || errno == ENOENT ? 0 : NAMED_TWICE;
    /* Some file systems have no hard links. */
    return errno == EPERM || errno == ENOTSUP || errno == ENOSYS ? install(p, temp, name) : -1;
}

typedef int naming(const place *p, const char *temp, const char *name);

static in_place write_file(const place *p, bytes new_file, const struct stat *like, naming *give_name)
{
    if (stage(p, p->temp, &new_file, 1, like) != 0)
        return OLD_IN_PLACE;
    int named = give_name(p, p->temp, p->name);
    if (named >= 0)
        return named == NAMED_TWICE ? NEW_NAMED_TWICE : NEW_IN_PLACE;
    discard(p, p->temp);
    return OLD_IN_PLACE;
}

static in_place confirmed(const place *p, in_place answer)
{
    int error = errno;
    if (answer != OLD_IN_PLACE && confirm(p) != 0)
        return NEW_UNCONFIRMED;
    errno = error;
    return answer;
}

in_place make_one_of(const place *p, bytes new_file)
{
    return write_file(p, new_file, NULL, install_new);
}

in_place make_file(const place *p, bytes new_file)
{
    return confirmed(p, make_one_of(p, new_file));
}

in_place replace_file(const place *p, bytes new_file, const struct stat *like)
{
    return confirmed(p, replace_one_of(p, new_file, like));
}

in_place replace_one_of(const place *p, bytes new_file, const struct stat *like)
{
    return write_file(p, new_file, like, install);
}

void discard(const place *p, const char *name)
{
    int error = errno;
    unlinkat(p->folder, name, 0);
    errno = error;
}
