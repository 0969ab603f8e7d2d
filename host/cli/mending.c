/* mend: faults of packers that can be put right for certain, to a new file. The library judges after each step. */
#define _XOPEN_SOURCE 700
#include <fcntl.h>
#include <inttypes.h>
#include <stdio.h>
#include <stdlib.h>
#include <string.h>

#include "blorb.h"
#include "commands.h"
#include "contents.h"
#include "files.h"
#include "stores.h"
#include "words.h"

/* Bytes 0 to 11 are the head of the file; the index follows, with its entries. */
enum { HEAD = 12, LENGTH_AT = 4, COUNT_AT = 20, ENTRIES_AT = 24, START_AT = 8 };

static void set_form_length(contents *c)
{
    number_to(c->file + LENGTH_AT, (uint32_t)(c->length - BLORB_HEADER_SIZE));
}

/* How chunks fill the bytes from the head up to `end`: all of them; all, but for the padding of the last; or all but too few for another chunk. */
typedef enum filling { FILLED, LACKS_PADDING, STRAY_BYTES, NOT_FILLED } filling;

static filling walk(const contents *c, uint64_t end)
{
    uint64_t at = HEAD;
    while (at + BLORB_HEADER_SIZE <= end) {
        uint64_t length = number_in(c->file + at + 4);
        at += BLORB_HEADER_SIZE + length;
        if (at == end && length % 2 == 1)
            return LACKS_PADDING;
        at += length % 2;
    }
    return end == HEAD || at > end ? NOT_FILLED : at == end ? FILLED : STRAY_BYTES;
}

/* Chunks without padding, as a packer writes them that knows of none: they fill the file, and chunks with padding do not. */
static int is_unpadded(const contents *c)
{
    uint64_t at = HEAD;
    while (at + BLORB_HEADER_SIZE <= c->length)
        at += BLORB_HEADER_SIZE + (uint64_t)number_in(c->file + at + 4);
    return at == c->length && walk(c, c->length) == NOT_FILLED;
}

/* Whether an entry's chunk begins there or behind. */
static int has_start_from(const contents *c, uint64_t place)
{
    uint64_t count = c->length < ENTRIES_AT ? 0 : number_in(c->file + COUNT_AT);
    for (uint64_t i = 0; i < count && ENTRIES_AT + BLORB_ENTRY_SIZE * (i + 1) <= c->length; i++)
        if (number_in(c->file + ENTRIES_AT + BLORB_ENTRY_SIZE * i + START_AT) >= place)
            return 1;
    return 0;
}

static int is_zero_from(const contents *c, uint64_t place)
{
    for (uint64_t i = place; i < c->length; i++)
        if (c->file[i] != 0)
            return 0;
    return 1;
}

/* ---- the steps: each says what was done and gives 1, or gives 0 and says in `why` what keeps it from that */

static int cut_off(contents *c, uint64_t end)
{
    printf("cut off %zu byte%s that stood behind the last chunk, from %" PRIu64 " on\n", c->length - (size_t)end, plural(c->length - end), end);
    c->length = (size_t)end;
    set_form_length(c);
    return 1;
}

static int add_padding(contents *c)
{
    if (c->length == BLORB_MAX_SIZE)
        return 0;
    printf("put the missing padding byte at %zu\n", c->length);
    c->file[c->length++] = 0;
    set_form_length(c);
    return 1;
}

/* A length that is over the file's: only slips that are known, for else something may be missing. */
static int is_known_slip(uint64_t says, const contents *c, filling whole)
{
    uint64_t field = says - BLORB_HEADER_SIZE;
    return field == UINT32_MAX || field == c->length || (whole == LACKS_PADDING && says == c->length + 1);
}

static int mend_form_length(contents *c, const char **why)
{
    uint64_t says = (uint64_t)number_in(c->file + LENGTH_AT) + BLORB_HEADER_SIZE;
    filling whole = walk(c, c->length);
    int form_filled = says < c->length && says >= HEAD && walk(c, says) == FILLED;
    if (whole > LACKS_PADDING && form_filled)
        return cut_off(c, says);
    if (whole > LACKS_PADDING) {
        *why = "neither the file nor what its FORM length names is filled by whole chunks";
        return 0;
    }
    if (form_filled && !has_start_from(c, says)) {
        if (is_zero_from(c, says))
            return cut_off(c, says);
        *why = "behind the end that its FORM length names stand whole chunks, and whether they belong to it cannot be told";
        return 0;
    }
    if (says > c->length && !is_known_slip(says, c, whole)) {
        *why = "by its FORM length the file should be longer, so something may be missing";
        return 0;
    }
    *why = "there is no room for the missing padding byte";
    if (whole == LACKS_PADDING && !add_padding(c))
        return 0;
    printf("set the FORM length at 4 from %" PRIu64 " to %zu\n", says - BLORB_HEADER_SIZE, c->length - BLORB_HEADER_SIZE);
    set_form_length(c);
    return 1;
}

/* Fewer bytes than a header has can be no chunk. */
static int mend_stray_bytes(contents *c, const char **why)
{
    (void)why;
    return cut_off(c, c->read.place);
}

static int mend_missing_padding(contents *c, const char **why)
{
    *why = "there is no room for the missing padding byte";
    return add_padding(c);
}

/* Starts behind a place move on by one. */
static void move_starts(contents *c, uint64_t place)
{
    uint64_t count = number_in(c->file + COUNT_AT);
    for (uint64_t i = 0; i < count && ENTRIES_AT + BLORB_ENTRY_SIZE * (i + 1) <= c->length; i++) {
        uint8_t *start = c->file + ENTRIES_AT + BLORB_ENTRY_SIZE * i + START_AT;
        if (number_in(start) >= place)
            number_to(start, number_in(start) + 1);
    }
}

/* Puts a zero behind each odd chunk. Whether the entries mean these chunks the library says. */
static int pad_all(contents *c, const char **why)
{
    size_t count = 0;
    for (uint64_t at = HEAD; at + BLORB_HEADER_SIZE <= c->length;) {
        uint64_t length = number_in(c->file + at + 4);
        at += BLORB_HEADER_SIZE + length;
        if (length % 2 == 0)
            continue;
        *why = "there is no room for the missing padding bytes";
        if (c->length == BLORB_MAX_SIZE)
            return 0;
        memmove(c->file + at + 1, c->file + at, c->length - at);
        c->file[at] = 0;
        c->length++;
        move_starts(c, at++);
        count++;
    }
    printf("put %zu missing padding byte%s behind chunks of odd length\n", count, plural(count));
    set_form_length(c);
    return 1;
}

static int mend_padding(contents *c, const char **why)
{
    size_t count = 0;
    if (is_unpadded(c))
        return pad_all(c, why);
    if (walk(c, c->length) == NOT_FILLED) {
        *why = c->read.refusal == BLORB_PADDING ? "whole chunks do not fill the file, so the byte may be no padding" : "what is missing is not in the file";
        return 0;
    }
    for (uint64_t at = HEAD; at < c->length;) {
        uint64_t length = number_in(c->file + at + 4);
        at += BLORB_HEADER_SIZE + length + length % 2;
        if (length % 2 == 1 && at <= c->length && c->file[at - 1] != 0) {
            c->file[at - 1] = 0;
            count++;
        }
    }
    printf("set %zu padding byte%s to zero, the first at %" PRIu64 "\n", count, plural(count), c->read.place);
    return 1;
}

/* Entries on one chunk stay in the order in which they stand. */
static int mend_order(contents *c, const char **why)
{
    size_t count = number_in(c->file + COUNT_AT);
    uint8_t *entries = c->file + ENTRIES_AT, held[BLORB_ENTRY_SIZE];
    (void)why;
    for (size_t i = 1; i < count; i++) {
        size_t to = i;
        memcpy(held, entries + BLORB_ENTRY_SIZE * i, sizeof held);
        while (to > 0 && number_in(entries + BLORB_ENTRY_SIZE * (to - 1) + START_AT) > number_in(held + START_AT))
            to--;
        memmove(entries + BLORB_ENTRY_SIZE * (to + 1), entries + BLORB_ENTRY_SIZE * to, BLORB_ENTRY_SIZE * (i - to));
        memcpy(entries + BLORB_ENTRY_SIZE * to, held, sizeof held);
    }
    printf("sorted the %zu entries of the index by their starts\n", count);
    return 1;
}

typedef int mender(contents *c, const char **why);

static mender *mender_for(uint64_t refusal)
{
    switch (refusal) {
    case BLORB_FORM_LENGTH:
        return mend_form_length;
    case BLORB_CHUNK_CUT:
        return mend_stray_bytes;
    case BLORB_NO_PADDING:
        return mend_missing_padding;
    case BLORB_PADDING: case BLORB_CHUNK_LENGTH:
        return mend_padding;
    case BLORB_ORDER:
        return mend_order;
    default:
        return NULL;
    }
}

/* ---- all of them */

static int say_not_mended(const request *r, const contents *c, const char *why)
{
    char advice[240];
    if (why == NULL) {
        say_refused_contents(c, r->file);
        fputs("  `blorb mend` does not mend this. Nothing was written.\n", stderr);
        return REFUSED;
    }
    snprintf(advice, sizeof advice, "This cannot be mended for certain: %s. Nothing was written.", why);
    return say_refused(r->file, c->read.refusal, c->read.place, "", advice);
}

/* Each fault is put right at once for the whole file, so it comes up once. */
static int mend(const request *r, contents *c)
{
    enum { MOST_STEPS = 8 };
    for (int i = 0; c->read.refusal != BLORB_DONE; i++) {
        const char *why = NULL;
        mender *step = i < MOST_STEPS ? mender_for(c->read.refusal) : NULL;
        if (step == NULL || !step(c, &why))
            return say_not_mended(r, c, why);
        c->read = blorb_read(c->file, c->length, c->profile);
    }
    int status = begin_file(r->out, (bytes){c->file, c->length});
    if (status == CARRIED_OUT)
        printf("accepted %" PRIu64 " bytes %" PRIu64 " resource%s\n", c->read.length, c->read.count, plural(c->read.count));
    return status;
}

int run_mend(const request *r)
{
    contents c;
    int status = own_ending(r->out) != NULL ? say_cannot(r->out, "this name is one of this program's own", "Give another name.") : CARRIED_OUT;
    if (status != CARRIED_OUT)
        return status;
    status = load_contents(&c, r->file, open(r->file, O_RDONLY | O_CLOEXEC), r->profile);
    if (status == CARRIED_OUT)
        puts("nothing to mend: the file keeps every rule, and nothing was written");
    else if (status == REFUSED)
        status = mend(r, &c);
    free_contents(&c);
    return status;
}
