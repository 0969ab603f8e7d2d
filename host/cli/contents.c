#define _XOPEN_SOURCE 700
#include "contents.h"

#include <fcntl.h>
#include <inttypes.h>
#include <stdio.h>
#include <stdlib.h>
#include <string.h>
#include <unistd.h>

#include "files.h"
#include "kinds.h"
#include "words.h"

/* Where the first entry stands, and its parts in it. */
enum { FIRST_ENTRY = 24, NUMBER_AT = 4, START_AT = 8 };

void put_tag(uint32_t number, char tag[4])
{
    for (int i = 0; i < 4; i++)
        tag[i] = (char)(uint8_t)(number >> (24 - 8 * i));
}

uint32_t next_chunk(const contents *c, uint32_t start)
{
    size_t length = data_at(c->file, start).length;
    return start + BLORB_HEADER_SIZE + (uint32_t)(length + length % 2);
}

entry entry_at(const uint8_t *file, size_t i)
{
    const uint8_t *at = file + FIRST_ENTRY + BLORB_ENTRY_SIZE * i;
    entry e = {.number = number_in(at + NUMBER_AT), .start = number_in(at + START_AT)};
    memcpy(e.usage, at, sizeof e.usage);
    return e;
}

const char *type_at(const uint8_t *file, uint32_t start)
{
    return (const char *)file + start;
}

bytes data_at(const uint8_t *file, uint32_t start)
{
    return (bytes){file + start + BLORB_HEADER_SIZE, number_in(file + start + 4)};
}

bytes found_at(const uint8_t *file, uint32_t start)
{
    bytes held = data_at(file, start);
    size_t head = memcmp(type_at(file, start), "FORM", 4) == 0 ? BLORB_HEADER_SIZE : 0;
    return (bytes){held.at - head, held.length + head};
}

/* A refusal of an entry names it, and its chunk's type where that is the reason. */
enum { ABOUT_SIZE = 120 };
static void tell_entry(const contents *c, char about[ABOUT_SIZE])
{
    char pair[PAIR_SIZE], type[SHOWN_SIZE];
    uint64_t number = c->read.refusal;
    about[0] = '\0';
    if ((number >= BLORB_USAGE && number <= BLORB_REPEATED) || number == BLORB_ORDER) {
        size_t i = (size_t)(c->read.place - FIRST_ENTRY) / BLORB_ENTRY_SIZE;
        entry e = entry_at(c->file, i);
        show_pair(e.usage, e.number, pair);
        int n = snprintf(about, ABOUT_SIZE, "entry %zu, %s, start %" PRIu32, i, pair, e.start);
        if (number == BLORB_TYPE) {
            show_tag(type_at(c->file, e.start), type);
            snprintf(about + n, ABOUT_SIZE - (size_t)n, ", chunk %s", type);
        }
    }
}

/* What to do where the usual advice is not the best: which types the usage takes, or that the type is one of the ADRIFT house. Null elsewhere. */
static const char *advice_for(const contents *c, char advice[ADVICE_SIZE])
{
    if (c->read.refusal != BLORB_TYPE)
        return NULL;
    entry e = entry_at(c->file, (size_t)(c->read.place - FIRST_ENTRY) / BLORB_ENTRY_SIZE);
    if (c->profile == BLORB_PLAIN && only_adrift(e.usage, type_at(c->file, e.start)))
        return USE_ADRIFT;
    snprintf(advice, ADVICE_SIZE, "%s\n  %s", PACK_AGAIN, types_of(e.usage));
    return advice;
}

int say_refused_contents(const contents *c, const char *shown)
{
    char about[ABOUT_SIZE], advice[ADVICE_SIZE];
    tell_entry(c, about);
    return say_refused(shown, c->read.refusal, c->read.place, about, advice_for(c, advice));
}

int say_reason(const contents *c, const char *shown)
{
    char about[ABOUT_SIZE], advice[ADVICE_SIZE];
    tell_entry(c, about);
    return say_meaning(shown, c->read.refusal, about, advice_for(c, advice));
}

int load_bytes(contents *c, const char *shown, int fd)
{
    *c = (contents){.length = 0};
    if (fd < 0)
        return say_failed(shown, "the file cannot be opened");
    c->file = malloc(BLORB_MAX_SIZE + 1);
    /* One byte over the limit is enough to have a longer file refused. */
    int done = c->file == NULL ? -1 : fstat(fd, &c->status);
    if (done == 0)
        done = read_all(fd, c->file, BLORB_MAX_SIZE + 1, &c->length);
    int status = done == 0 ? CARRIED_OUT : say_failed(shown, "the file cannot be read");
    close(fd);
    return status;
}

int load_contents(contents *c, const char *shown, int fd, uint32_t profile)
{
    int status = load_bytes(c, shown, fd);
    if (status != CARRIED_OUT)
        return status;
    c->profile = profile;
    c->read = blorb_read(c->file, c->length, profile);
    return c->read.refusal == BLORB_DONE ? CARRIED_OUT : REFUSED;
}

int load_accepted(contents *c, const char *shown, int fd, uint32_t profile)
{
    int status = load_contents(c, shown, fd, profile);
    return status == REFUSED ? say_refused_contents(c, shown) : status;
}

void free_contents(contents *c)
{
    free(c->file);
}

/* Whether just this many bytes are left to be read. Gives -1 and errno where that cannot be told. */
static int has_left(int fd, uint64_t count)
{
    uint8_t room[16384];
    size_t length = 1;
    while (length > 0) {
        if (read_all(fd, room, sizeof room, &length) != 0)
            return -1;
        if (length > count)
            return 0;
        count -= length;
    }
    return count == 0;
}

/* Longer data makes the file too long, and so does its beginning of this length. */
enum { ENOUGH = BLORB_MAX_SIZE + BLORB_HEADER_SIZE + 1 };

/*
 * The length in the head of a FORM speaks of all the data, of which only the beginning was read. Where it is right, the beginning is given
 * a length that is right for it: so it is refused as too long, like all of it. Gives 0, or -1 and errno.
 */
static int mend_head(int fd, uint8_t *room)
{
    uint64_t stated = (uint64_t)number_in(room + 4) + BLORB_HEADER_SIZE;
    int right = memcmp(room, "FORM", 4) == 0 && stated >= ENOUGH ? has_left(fd, stated - ENOUGH) : 0;
    if (right > 0)
        number_to(room + 4, ENOUGH - BLORB_HEADER_SIZE);
    return right < 0 ? -1 : 0;
}

int load_data(data *d, const char *path)
{
    int input = strcmp(path, "-") == 0;
    int fd = input ? STDIN_FILENO : open(path, O_RDONLY | O_CLOEXEC);
    *d = (data){0};
    if (fd < 0)
        return say_failed(path, "the data cannot be opened");
    d->held.at = d->room = malloc(ENOUGH);
    int done = d->room == NULL ? -1 : read_all(fd, d->room, ENOUGH, &d->held.length);
    d->is_cut = d->held.length == ENOUGH;
    if (done == 0 && d->is_cut)
        done = mend_head(fd, d->room);
    int status = done == 0 ? CARRIED_OUT : say_failed(input ? "standard input" : path, "the data cannot be read");
    if (!input)
        close(fd);
    return status;
}
