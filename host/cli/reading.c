/* get, which changes no Blorb file, and where what was asked for is put. */
#define _XOPEN_SOURCE 700
#include <errno.h>
#include <fcntl.h>
#include <stdio.h>
#include <string.h>
#include <unistd.h>

#include "blorb.h"
#include "commands.h"
#include "contents.h"
#include "files.h"
#include "reading.h"
#include "undo_file.h"
#include "unpacking.h"
#include "words.h"

static int open_to_read(const char *path)
{
    return open(path, O_RDONLY | O_CLOEXEC);
}

static int put_on_output(bytes held)
{
    int done = write_all(STDOUT_FILENO, held.at, held.length);
    return done == 0 ? CARRIED_OUT : say_output_failed("the data cannot be written");
}

/* FILE's own, also where there is none yet: what else stands in its place keeps every edit from FILE. Or any other's. */
static int is_for_journal(const request *r, const char *out, int is_plain)
{
    if (own_ending(out) != NULL || is_undo_of(out, r->file))
        return 1;
    int fd = is_plain ? open_to_read(out) : -1;
    int found = fd >= 0 && is_journal(fd) != 0;
    if (fd >= 0)
        close(fd);
    return found;
}

/* Devices and pipes are written to as they are; only a plain file can be replaced by a new one. */
static int put_in_device(const char *path, bytes held)
{
    int fd = open(path, O_WRONLY | O_CLOEXEC);
    int done = fd < 0 ? -1 : write_all(fd, held.at, held.length);
    if (fd >= 0 && close(fd) != 0)
        done = -1;
    return done == 0 ? CARRIED_OUT : say_failed(path, "the data cannot be written");
}

static int put_in_file(const request *r, const char *path, const struct stat *old, bytes held)
{
    place p;
    in_place answer = OLD_IN_PLACE;
    if (open_place(&p, path) == 0 && r->folder != NULL && !r->force)
        answer = make_one_of(&p, held);
    else if (p.folder >= 0)
        answer = (r->folder != NULL ? replace_one_of : replace_file)(&p, held, old);
    int status = say_stored(path, answer, "the data cannot be written");
    close_place(&p);
    return status;
}

int put_at(const request *r, const char *out, const contents *c, bytes held)
{
    const char *advice = "Give another name.";
    struct stat old;
    int missing = stat(out, &old) != 0;
    if (missing && errno != ENOENT)
        return say_failed(out, "the file cannot be reached");
    if (is_for_journal(r, out, !missing && S_ISREG(old.st_mode)))
        return say_cannot(out, "the data would stand in the place of a journal, or under a name of this program's own", advice);
    if (!missing && old.st_dev == c->status.st_dev && old.st_ino == c->status.st_ino)
        return say_cannot(out, "the data would overwrite FILE itself", advice);
    if (is_same_but_for_case(out, r->file))
        return say_cannot(out, "this is FILE's name but for the case of letters, and on a card (FAT, exFAT) the data would overwrite FILE itself", advice);
    if (missing)
        return put_in_file(r, out, NULL, held);
    if (!S_ISREG(old.st_mode))
        return put_in_device(out, held);
    if (access(out, W_OK) != 0)
        return say_failed(out, "the file may not be overwritten");
    return put_in_file(r, out, &old, held);
}

int put_where_asked(const request *r, const contents *c, bytes held)
{
    if (r->out == NULL && isatty(STDOUT_FILENO))
        return say_cannot("standard output", "this is a terminal, and the data may be anything",
                          "Give -o OUT, or send the data to a file or program. -o - writes it to the terminal all the same.");
    if (r->out == NULL || strcmp(r->out, "-") == 0)
        return put_on_output(held);
    return put_at(r, r->out, c, held);
}

static int get_one(const request *r, const contents *c)
{
    char pair[PAIR_SIZE];
    blorb_lookup_answer found = blorb_lookup(c->file, c->length, c->profile, r->usage, r->number);
    show_pair(r->usage, r->number, pair);
    if (found.refusal != BLORB_DONE)
        return say_refused(r->file, found.refusal, found.place, pair, NULL);
    return put_where_asked(r, c, (bytes){c->file + found.start, (size_t)found.length});
}

int run_get(const request *r)
{
    contents c;
    int status = load_accepted(&c, r->file, open_to_read(r->file), r->profile);
    if (status == CARRIED_OUT)
        status = r->folder != NULL ? get_all(r, &c) : get_one(r, &c);
    free_contents(&c);
    return status;
}
