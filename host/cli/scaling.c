/* scale: how large a picture is shown in a window, by the file's 'Reso' chunk. */
#define _XOPEN_SOURCE 700
#include <fcntl.h>
#include <inttypes.h>
#include <stdio.h>
#include <stdlib.h>
#include <string.h>

#include "blorb.h"
#include "commands.h"
#include "contents.h"
#include "kinds.h"
#include "scaling.h"
#include "words.h"

enum { LARGEST = 65535, WINDOWS = 6, ROW = 7, NUMBER_SIZE = 4, HEAD_SIZE = WINDOWS * NUMBER_SIZE, ROW_SIZE = ROW * NUMBER_SIZE, ABOUT_SIZE = 120 };

/* The picture's own size, by its data. */
static int read_size(const request *r, const contents *c, uint64_t size[2])
{
    char pair[PAIR_SIZE];
    uint32_t width, height;
    const char *advice = "Give the picture's width and height as a fourth word, such as 320x200.";
    blorb_lookup_answer found = blorb_lookup(c->file, c->length, c->profile, "Pict", r->number);
    show_pair("Pict", r->number, pair);
    if (found.refusal != BLORB_DONE)
        return say_refused(r->file, found.refusal, found.place, pair,
                           "`blorb list` shows what the file has. Or give the picture's width and height as a fourth word, such as 320x200.");
    char type[4];
    put_tag(found.type, type);
    if (!size_told(type, (bytes){c->file + found.start, (size_t)found.length}, &width, &height))
        return say_cannot(r->file, "the picture's data does not tell its width and height", advice);
    size[0] = width;
    size[1] = height;
    return CARRIED_OUT;
}

/* The data of the file's only 'Reso'. */
static bytes resolution_in(const contents *c)
{
    for (uint32_t at = FIRST_CHUNK; at < c->length; at = next_chunk(c, at))
        if (memcmp(type_at(c->file, at), "Reso", 4) == 0)
            return data_at(c->file, at);
    return (bytes){NULL, 0};
}

static int compare_numbers(const void *a, const void *b)
{
    uint32_t one = *(const uint32_t *)a, other = *(const uint32_t *)b;
    return (one > other) - (one < other);
}

/* Which picture is listed twice, if one is. */
static int find_repeated(const uint8_t *rows, size_t count, uint32_t *repeated)
{
    uint32_t *pictures = malloc(count * sizeof *pictures + 1);
    int found = 0;
    for (size_t i = 0; pictures != NULL && i < count; i++)
        pictures[i] = number_in(rows + ROW_SIZE * i);
    if (pictures != NULL && count > 0)
        qsort(pictures, count, sizeof *pictures, compare_numbers);
    for (size_t i = 1; pictures != NULL && i < count && !found; i++)
        if ((found = pictures[i] == pictures[i - 1]))
            *repeated = pictures[i];
    free(pictures);
    return found;
}

/* What is wrong with a row by itself, or null. */
static const char *wrong_row(const uint8_t *row)
{
    uint64_t n[ROW];
    for (size_t i = 0; i < ROW; i++)
        n[i] = number_in(row + NUMBER_SIZE * i);
    for (size_t i = 1; i < ROW; i++)
        if (n[i] > LARGEST)
            return "a number over 65,535";
    if (n[2] == 0)
        return "the standard ratio has the denominator zero";
    if ((n[3] != 0 && n[4] == 0) || (n[5] != 0 && n[6] == 0))
        return "a limit has the denominator zero";
    return n[3] != 0 && n[5] != 0 && n[3] * n[6] > n[5] * n[4] ? "the least ratio is over the greatest" : NULL;
}

/* Says in `about` which reason 33 has; it was given for this file and these sides. */
static void say_which(const contents *c, const uint64_t sides[4], char about[ABOUT_SIZE])
{
    bytes reso = resolution_in(c);
    size_t count = reso.length < HEAD_SIZE ? 0 : (reso.length - HEAD_SIZE) / ROW_SIZE;
    uint32_t repeated = 0;
    about[0] = '\0';
    for (size_t i = 0; i < WINDOWS && reso.length >= HEAD_SIZE; i++)
        if (number_in(reso.at + NUMBER_SIZE * i) > LARGEST)
            snprintf(about, ABOUT_SIZE, "a window of the 'Reso' has a number over 65,535");
    if (about[0] == '\0' && reso.length >= HEAD_SIZE && (number_in(reso.at) == 0 || number_in(reso.at + NUMBER_SIZE) == 0))
        snprintf(about, ABOUT_SIZE, "the standard window of the 'Reso' has a width or height of zero");
    for (size_t i = 0; i < count && about[0] == '\0'; i++) {
        const uint8_t *row = reso.at + HEAD_SIZE + ROW_SIZE * i;
        const char *why = wrong_row(row);
        if (why != NULL)
            snprintf(about, ABOUT_SIZE, "row %zu of the 'Reso', picture %" PRIu32 ", %s", i, number_in(row), why);
    }
    if (about[0] == '\0' && count > 1 && find_repeated(reso.at + HEAD_SIZE, count, &repeated))
        snprintf(about, ABOUT_SIZE, "the 'Reso' lists picture %" PRIu32 " twice", repeated);
    for (size_t i = 0; i < 4 && about[0] == '\0'; i++)
        if (sides[i] > LARGEST)
            snprintf(about, ABOUT_SIZE, "%s is %" PRIu64, i < 2 ? "a side of the window" : "a side of the picture", sides[i]);
}

void warn_of_scaling(const contents *c, const char *shown)
{
    static const uint64_t sides[4] = {0, 0, 0, 0};
    char about[ABOUT_SIZE] = "", sentence[ABOUT_SIZE + 240];
    blorb_scaled_answer a = blorb_scaled(c->file, c->length, c->profile, 0, 0, 0, 0, 0);
    if (a.refusal == BLORB_DONE)
        return;
    if (a.refusal == BLORB_RESO_NUMBER)
        say_which(c, sides, about);
    snprintf(sentence, sizeof sentence, "no picture can be scaled (refusal %" PRIu64 " at %" PRIu64 "): %s", a.refusal, a.place,
             about[0] != '\0' ? about : blorb_sentence(a.refusal));
    say_warning(shown, "", sentence);
}

static int scale(const request *r, const contents *c)
{
    char about[ABOUT_SIZE] = "";
    uint64_t sides[4] = {r->window[0], r->window[1], r->size[0], r->size[1]};
    int status = r->has_size ? CARRIED_OUT : read_size(r, c, sides + 2);
    if (status != CARRIED_OUT)
        return status;
    blorb_scaled_answer a = blorb_scaled(c->file, c->length, c->profile, sides[0], sides[1], r->number, sides[2], sides[3]);
    if (a.refusal == BLORB_RESO_NUMBER)
        say_which(c, sides, about);
    if (a.refusal != BLORB_DONE)
        return say_refused(r->file, a.refusal, a.place, about, NULL);
    printf("Pict %" PRIu32 " %" PRIu64 "x%" PRIu64 " scaled %" PRIu64 "x%" PRIu64 "\n", r->number, sides[2], sides[3], a.width, a.height);
    return CARRIED_OUT;
}

int run_scale(const request *r)
{
    contents c;
    int status = load_accepted(&c, r->file, open(r->file, O_RDONLY | O_CLOEXEC), r->profile);
    if (status == CARRIED_OUT)
        status = scale(r, &c);
    free_contents(&c);
    return status;
}
