#include "warnings.h"

#include <inttypes.h>
#include <stdio.h>
#include <string.h>

#include "describing.h"
#include "facts.h"
#include "kinds.h"
#include "scaling.h"
#include "words.h"

/* An AIFF sound whose length nobody can tell is likely not to be played either. */
static void warn_of_sound(const contents *c, const char *shown, const entry *e, const char *pair)
{
    bytes sound = found_at(c->file, e->start);
    if (memcmp(type_at(c->file, e->start), "FORM", 4) != 0)
        return;
    blorb_aiff_answer answer = blorb_aiff_length(sound.at, sound.length);
    if (answer.refusal != BLORB_DONE)
        say_doubt(shown, pair, answer.refusal);
}

static void warn_of_entry(const contents *c, const char *shown, const entry *e)
{
    char pair[PAIR_SIZE], why[WHY_SIZE];
    bytes held = data_at(c->file, e->start);
    show_pair(e->usage, e->number, pair);
    if (contradicts(type_at(c->file, e->start), held, why))
        say_warning(shown, pair, why);
    if (held.length == 0)
        say_warning(shown, pair, "it has no data, and ScummVM ends with an error there");
    warn_of_sound(c, shown, e, pair);
}

/*
 * Frotz subtracts numbers of 32 bits with a sign to put the entries in order. With `only` the warning is given where that number is the least or
 * the greatest of its usage.
 */
static void warn_of_numbers(const contents *c, const char *shown, const char usage[4], const uint32_t *only)
{
    uint32_t least = UINT32_MAX, most = 0;
    char pair[PAIR_SIZE];
    for (size_t i = 0; i < c->read.count; i++) {
        entry e = entry_at(c->file, i);
        if (memcmp(e.usage, usage, 4) != 0)
            continue;
        least = e.number < least ? e.number : least;
        most = e.number > most ? e.number : most;
    }
    if (most < least || most - least <= INT32_MAX || (only != NULL && *only != least && *only != most))
        return;
    show_pair(usage, most, pair);
    say_warning(shown, pair, "its number and the least of its usage are more than 2147483647 apart, and Frotz may not find it");
}

/* A story of the Z-machine is what fizmo would be given, and it takes no Data: the first one, or this one where there is one. */
static void warn_of_data(const contents *c, const char *shown, const entry *only)
{
    int story = 0, found = 0;
    char pair[PAIR_SIZE];
    for (size_t i = 0; i < c->read.count; i++) {
        entry e = entry_at(c->file, i);
        story = story || memcmp(type_at(c->file, e.start), "ZCOD", 4) == 0;
        if (!found && memcmp(e.usage, "Data", 4) == 0 && (only == NULL || only->number == e.number)) {
            show_pair(e.usage, e.number, pair);
            found = 1;
        }
    }
    if (story && found)
        say_warning(shown, pair, "fizmo, which plays such stories, ends where a file has a Data resource");
}

void warn_of_resource(const contents *c, const char *shown, const char usage[4], uint32_t number)
{
    for (size_t i = 0; i < c->read.count; i++) {
        entry e = entry_at(c->file, i);
        if (memcmp(e.usage, usage, 4) != 0 || e.number != number)
            continue;
        warn_of_entry(c, shown, &e);
        warn_of_numbers(c, shown, usage, &number);
        if (memcmp(usage, "Data", 4) == 0 || memcmp(type_at(c->file, e.start), "ZCOD", 4) == 0)
            warn_of_data(c, shown, memcmp(usage, "Data", 4) == 0 ? &e : NULL);
    }
}

static void warn_of_metadata(const contents *c, const char *shown)
{
    metadata m;
    if (read_metadata(chunk_of_type(c, "IFmd"), &m) == 0)
        say_metadata_fault(shown, &m);
    free_metadata(&m);
}

void warn_of(const contents *c, const char *shown)
{
    static const char usages[4][4] = {{'P', 'i', 'c', 't'}, {'S', 'n', 'd', ' '}, {'D', 'a', 't', 'a'}, {'E', 'x', 'e', 'c'}};
    for (size_t i = 0; i < c->read.count; i++) {
        entry e = entry_at(c->file, i);
        warn_of_entry(c, shown, &e);
    }
    for (size_t i = 0; i < 4; i++)
        warn_of_numbers(c, shown, usages[i], NULL);
    warn_of_data(c, shown, NULL);
    warn_of_scaling(c, shown);
    warn_of_texts(c, shown);
    warn_of_metadata(c, shown);
}
