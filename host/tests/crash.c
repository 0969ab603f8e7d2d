/*
 * Loaded before the C library by host/tests/command, or linked with a test (host/tests/store.c): ends the program at one of its steps, and writes
 * down the steps.
 *
 *   CRASH_AT    the step at which the program ends, counted from 1, before that step is carried out
 *   CRASH_HALF  if set and the step is a write, its first half is carried out
 *   CRASH_FAIL  if set, the step fails with this errno instead of ending the program
 *   CRASH_MAKE  if set, an empty file of this name is made just before the step, as another program might; the step is carried out
 *   CRASH_LOG   the file to which a line is appended for each step carried out
 *   CRASH_READS if set, a line for each read is appended too; a read is no step
 *   CRASH_EVERY if set, calls that change nothing are steps too: opening, reading, seeking, asking for a status; and what else a test reports
 *   CRASH_CARD  if set, files are as on a FAT card that root mounted: all of them root's with every permission, no other owners or
 *               permissions taken, and no hard links
 *
 * A step is a call that can change what lies on the disk or when. Exit status 77 says that the program was ended here.
 */
#define _GNU_SOURCE
#include <errno.h>
#include <fcntl.h>
#include <stdarg.h>
#include <stdio.h>
#include <stdlib.h>
#include <string.h>
#include <sys/file.h>
#include <sys/stat.h>
#include <sys/syscall.h>
#include <unistd.h>

#include "crash.h"

static int steps;
static const char *failed = "";

const char *failed_step(void)
{
    return failed;
}

void count_steps_anew(void)
{
    steps = 0;
}

int steps_counted(void)
{
    return steps;
}

static int setting(const char *name)
{
    const char *text = getenv(name);
    return text == NULL ? 0 : atoi(text);
}

/* The file behind a descriptor, by the last part of its name. */
static const char *name_of(int fd)
{
    static char path[4096];
    char link[64];
    snprintf(link, sizeof link, "/proc/self/fd/%d", fd);
    ssize_t n = readlink(link, path, sizeof path - 1);
    path[n < 0 ? 0 : n] = '\0';
    const char *slash = strrchr(path, '/');
    return slash == NULL ? path : slash + 1;
}

static void note(const char *what, const char *name, const char *other)
{
    const char *log = getenv("CRASH_LOG");
    char line[1024];
    if (log == NULL)
        return;
    int n = snprintf(line, sizeof line, "%s\t%s\t%s\n", what, name, other);
    int fd = (int)syscall(SYS_openat, AT_FDCWD, log, O_WRONLY | O_CREAT | O_APPEND, 0600);
    if (fd < 0 || syscall(SYS_write, fd, line, (size_t)n) != n)
        abort();
    syscall(SYS_close, fd);
}

/* Gives 1 where a file is to be made before the step. */
static int made_before(void)
{
    const char *path = getenv("CRASH_MAKE");
    if (path == NULL)
        return 0;
    int fd = (int)syscall(SYS_openat, AT_FDCWD, path, O_WRONLY | O_CREAT | O_EXCL, 0600);
    if (fd < 0)
        abort();
    syscall(SYS_close, fd);
    return 1;
}

/* Gives 1 where the step is to fail. */
static int step(const char *what, const char *name, const char *other)
{
    if (++steps == setting("CRASH_AT") && !made_before()) {
        int error = setting("CRASH_FAIL");
        if (error == 0)
            _exit(ENDED_HERE);
        failed = what;
        errno = error;
        return 1;
    }
    note(what, name, other);
    return 0;
}

int fails_here(const char *what, const char *name)
{
    return getenv("CRASH_EVERY") != NULL && step(what, name, "");
}

int open(const char *path, int flags, ...)
{
    va_list more;
    va_start(more, flags);
    unsigned mode = flags & O_CREAT ? va_arg(more, unsigned) : 0;
    va_end(more);
    return fails_here("open", path) ? -1 : (int)syscall(SYS_openat, AT_FDCWD, path, flags, mode);
}

off_t lseek(int fd, off_t to, int from)
{
    return fails_here("seek", name_of(fd)) ? -1 : (off_t)syscall(SYS_lseek, fd, to, from);
}

int openat(int folder, const char *path, int flags, ...)
{
    va_list more;
    va_start(more, flags);
    unsigned mode = flags & O_CREAT ? va_arg(more, unsigned) : 0;
    va_end(more);
    if (step(flags & O_CREAT ? "create" : "open", path, ""))
        return -1;
    return (int)syscall(SYS_openat, folder, path, flags, mode);
}

ssize_t write(int fd, const void *from, size_t size)
{
    char length[32];
    if (steps + 1 == setting("CRASH_AT") && getenv("CRASH_HALF") != NULL)
        syscall(SYS_write, fd, from, size / 2);
    snprintf(length, sizeof length, "%zu", size);
    if (step("write", name_of(fd), length))
        return -1;
    return syscall(SYS_write, fd, from, size);
}

ssize_t read(int fd, void *to, size_t size)
{
    char length[32];
    if (fails_here("read", name_of(fd)))
        return -1;
    ssize_t n = syscall(SYS_read, fd, to, size);
    snprintf(length, sizeof length, "%zd", n);
    if (getenv("CRASH_READS") != NULL)
        note("read", name_of(fd), length);
    return n;
}

/* Gives 1 on a card, where a call about owners, permissions and links is not permitted. */
static int not_on_card(void)
{
    if (getenv("CRASH_CARD") == NULL)
        return 0;
    errno = EPERM;
    return 1;
}

/* There even the permissions that are shown can depend on the name. */
static int as_on_card(int done, struct stat *status, const char *name)
{
    const char *temporary = strstr(name, ".blorb-temp");
    if (done == 0 && getenv("CRASH_CARD") != NULL) {
        status->st_mode |= temporary != NULL ? 0666 : 0777;
        status->st_uid = status->st_gid = 0;
    }
    return done;
}

int fstatat(int folder, const char *path, struct stat *status, int flags)
{
    if (fails_here("status", path))
        return -1;
    return as_on_card((int)syscall(SYS_newfstatat, folder, path, status, flags), status, path);
}

int lstat(const char *path, struct stat *status)
{
    return fstatat(AT_FDCWD, path, status, AT_SYMLINK_NOFOLLOW);
}

int fstat(int fd, struct stat *status)
{
    if (fails_here("status", name_of(fd)))
        return -1;
    return as_on_card((int)syscall(SYS_fstat, fd, status), status, name_of(fd));
}

int stat(const char *path, struct stat *status)
{
    return fstatat(AT_FDCWD, path, status, 0);
}

int fsync(int fd)
{
    return step("fsync", name_of(fd), "") ? -1 : (int)syscall(SYS_fsync, fd);
}

int close(int fd)
{
    if (step("close", name_of(fd), "")) {
        syscall(SYS_close, fd);
        return -1;
    }
    return (int)syscall(SYS_close, fd);
}

int fchmod(int fd, mode_t mode)
{
    return step("fchmod", name_of(fd), "") || not_on_card() ? -1 : (int)syscall(SYS_fchmod, fd, mode);
}

int fchown(int fd, uid_t owner, gid_t group)
{
    return step("fchown", name_of(fd), "") || not_on_card() ? -1 : (int)syscall(SYS_fchown, fd, owner, group);
}

int flock(int fd, int how)
{
    return step("flock", name_of(fd), "") ? -1 : (int)syscall(SYS_flock, fd, how);
}

int ftruncate(int fd, off_t size)
{
    char length[32];
    snprintf(length, sizeof length, "%lld", (long long)size);
    return step("truncate", name_of(fd), length) ? -1 : (int)syscall(SYS_ftruncate, fd, size);
}

int renameat(int from, const char *old, int to, const char *new)
{
    return step("rename", old, new) ? -1 : (int)syscall(SYS_renameat, from, old, to, new);
}

int linkat(int from, const char *old, int to, const char *new, int flags)
{
    return step("link", old, new) || not_on_card() ? -1 : (int)syscall(SYS_linkat, from, old, to, new, flags);
}

int unlinkat(int folder, const char *name, int flags)
{
    return step("unlink", name, "") ? -1 : (int)syscall(SYS_unlinkat, folder, name, flags);
}
