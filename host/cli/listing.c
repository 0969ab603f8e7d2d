/* list: the lister's lines, everything for people (--long), and everything for scripts (--json). */
#define _XOPEN_SOURCE 700
#include <fcntl.h>
#include <inttypes.h>
#include <stdio.h>
#include <stdlib.h>
#include <string.h>

#include "blorb.h"
#include "commands.h"
#include "contents.h"
#include "facts.h"
#include "json.h"
#include "overview.h"
#include "words.h"

/* The index and the chunks of an accepted file are read as they lie: blorb_entry would judge the whole file for each line. */
static void list_plainly(const contents *c)
{
    printf("blorb %" PRIu64 " bytes %" PRIu64 " resources\n", c->read.length, c->read.count);
    for (size_t i = 0; i < c->read.count; i++) {
        entry e = entry_at(c->file, i);
        printf("%.4s %" PRIu32 " at %" PRIu32 " %.4s %zu\n", e.usage, e.number, e.start, type_at(c->file, e.start),
               found_at(c->file, e.start).length);
    }
}

/* Rate, channels, bits and the time as minutes and seconds; of a refused sound which refusal it is. */
static void print_sound(const blorb_aiff_answer *s)
{
    if (s->refusal != BLORB_DONE)
        printf(", length not known, refused %" PRIu64 ": %s", s->refusal, blorb_sentence(s->refusal));
    else
        printf(", %" PRIu32 " Hz, %" PRIu32 " channel%s, %" PRIu32 " bit%s, %" PRIu32 ":%02" PRIu32, s->rate, s->channels,
               plural(s->channels), s->sample_size, plural(s->sample_size), s->seconds / 60, s->seconds % 60);
}

static void print_resource(const resource *r)
{
    printf("%.4s %" PRIu32 ": %.4s, %zu byte%s from %zu", r->entry.usage, r->entry.number, r->type, r->held.length, plural(r->held.length), r->at);
    if (r->has_size)
        printf(", %" PRIu32 " by %" PRIu32, r->width, r->height);
    if (r->told != NULL)
        printf(", %s", r->told);
    if (!r->suits)
        fputs(", not what its type stands for", stdout);
    if (r->is_aiff)
        print_sound(&r->sound);
    if (r->sharers > 1)
        printf(", one chunk for %zu resources", r->sharers);
    puts(r->is_frontispiece ? ", frontispiece" : "");
}

static void list_for_people(const contents *c, const overview *o)
{
    char shown[SHOWN_SIZE];
    printf("%" PRIu64 " bytes, %" PRIu64 " resource%s\n", c->read.length, c->read.count, plural(c->read.count));
    if (o->release != NULL)
        printf("release %" PRIu32 "\n", release_in(o));
    for (size_t i = 0; i < c->read.count; i++) {
        resource r = resource_at(c, o, i);
        print_resource(&r);
    }
    for (uint32_t at = next_chunk(c, FIRST_CHUNK); at < c->length; at = next_chunk(c, at))
        if (!has_entry(c, o, at)) {
            show_tag(type_at(c->file, at), shown);
            printf("no entry: %s, %zu byte%s from %" PRIu32 "\n", shown, data_at(c->file, at).length, plural(data_at(c->file, at).length),
                   at + BLORB_HEADER_SIZE);
        }
}

/* Four bytes as a JSON string; each byte is one character. */
static void print_tag(const char *name, const char tag[4])
{
    printf("\"%s\": \"", name);
    for (int i = 0; i < 4; i++) {
        unsigned char byte = (unsigned char)tag[i];
        if (byte >= ' ' && byte <= '~' && byte != '"' && byte != '\\')
            putchar(byte);
        else
            printf("\\u%04x", (unsigned)byte);
    }
    putchar('"');
}

static void print_json_sound(const resource *r)
{
    int known = r->is_aiff && r->sound.refusal == BLORB_DONE;
    const struct {
        const char *name;
        uint32_t number;
    } figures[] = {{"rate", r->sound.rate}, {"channels", r->sound.channels}, {"sample_size", r->sound.sample_size},
                   {"frames", r->sound.frames}, {"seconds", r->sound.seconds}};
    for (size_t i = 0; i < sizeof figures / sizeof *figures; i++) {
        fputs(", ", stdout);
        print_json_number(figures[i].name, known, figures[i].number);
    }
    fputs(", ", stdout);
    print_json_number("sound_refused", r->is_aiff && !known, (uint32_t)r->sound.refusal);
}

static void print_json_resource(const resource *r)
{
    fputs("\n    {", stdout);
    print_tag("usage", r->entry.usage);
    printf(", \"number\": %" PRIu32 ", ", r->entry.number);
    print_tag("type", r->type);
    /* `file_length` is from when a FORM's `length` did not count its head. */
    printf(", \"start\": %" PRIu32 ", \"data_start\": %zu, \"length\": %zu, \"file_length\": %zu", r->entry.start, r->at, r->held.length,
           r->held.length);
    printf(", \"sharers\": %zu, \"frontispiece\": %s, ", r->sharers, r->is_frontispiece ? "true" : "false");
    print_json_number("width", r->has_size, r->width);
    fputs(", ", stdout);
    print_json_number("height", r->has_size, r->height);
    const char *quote = r->told != NULL ? "\"" : "";
    printf(", \"data\": %s%s%s", quote, r->told != NULL ? r->told : "null", quote);
    printf(", \"suits\": %s", r->suits ? "true" : "false");
    print_json_sound(r);
    putchar('}');
}

static void print_other_chunks(const contents *c, const overview *o)
{
    const char *between = "";
    for (uint32_t at = next_chunk(c, FIRST_CHUNK); at < c->length; at = next_chunk(c, at))
        if (!has_entry(c, o, at)) {
            printf("%s\n    {", between);
            print_tag("type", type_at(c->file, at));
            printf(", \"start\": %" PRIu32 ", \"length\": %zu}", at, data_at(c->file, at).length);
            between = ",";
        }
}

static void list_for_scripts(const contents *c, const overview *o, const facts *f)
{
    const char *between = "";
    print_json_facts(c, o, f);
    fputs(",\n  \"resources\": [", stdout);
    for (size_t i = 0; i < c->read.count; i++, between = ",") {
        resource r = resource_at(c, o, i);
        fputs(between, stdout);
        print_json_resource(&r);
    }
    fputs("\n  ],\n  \"other_chunks\": [", stdout);
    print_other_chunks(c, o);
    puts("\n  ]\n}");
}

static int list_accepted(const request *r, const contents *c)
{
    overview o;
    facts f = {0};
    if (!r->json && !r->detailed) {
        list_plainly(c);
        return CARRIED_OUT;
    }
    int done = look_over(c, &o);
    if (done == 0 && r->json)
        done = find_facts(c, &f);
    if (done == 0 && r->json)
        list_for_scripts(c, &o, &f);
    else if (done == 0)
        list_for_people(c, &o);
    int status = done == 0 ? CARRIED_OUT : say_failed(r->file, "the file cannot be listed");
    free_facts(&f);
    free_overview(&o);
    return status;
}

int run_list(const request *r)
{
    contents c;
    int status = load_contents(&c, r->file, open(r->file, O_RDONLY | O_CLOEXEC), r->profile);
    if (status == CARRIED_OUT) {
        status = list_accepted(r, &c);
    } else if (status == REFUSED) {
        /* Number and place once, on standard output; the reason on standard error. */
        if (r->json)
            printf("{\"refused\": %" PRIu64 ", \"place\": %" PRIu64 "}\n", c.read.refusal, c.read.place);
        else
            printf("refused %" PRIu64 " at %" PRIu64 "\n", c.read.refusal, c.read.place);
        say_reason(&c, r->file);
    }
    free_contents(&c);
    return status;
}
