/* info: what a game tells of itself, for people and for scripts. */
#define _XOPEN_SOURCE 700
#include <fcntl.h>
#include <inttypes.h>
#include <stdio.h>
#include <string.h>

#include "blorb.h"
#include "commands.h"
#include "contents.h"
#include "describing.h"
#include "facts.h"
#include "overview.h"
#include "words.h"

static void print_label(const char *label)
{
    printf("%-10s ", label);
}

static void print_field(const char *label, bytes text)
{
    if (text.length == 0)
        return;
    print_label(label);
    print_shown(stdout, text);
    putchar('\n');
}

/* How many resources a usage has, as "4 pictures". */
static void print_count(const contents *c, const char usage[4], const char *one, const char *many)
{
    size_t count = 0;
    for (size_t i = 0; i < c->read.count; i++)
        count += memcmp(entry_at(c->file, i).usage, usage, 4) == 0;
    if (count > 0)
        printf(", %zu %s", count, count == 1 ? one : many);
}

static void print_cover(const contents *c, const overview *o)
{
    for (size_t i = 0; i < c->read.count && o->frontispiece != NULL; i++) {
        resource r = resource_at(c, o, i);
        if (!r.is_frontispiece)
            continue;
        print_label("cover");
        printf("Pict %" PRIu32 ", ", r.entry.number);
        print_word(stdout, r.type);
        printf(", %zu bytes", r.held.length);
        if (r.has_size)
            printf(", %" PRIu32 " by %" PRIu32, r.width, r.height);
        putchar('\n');
    }
}

static void print_others(const facts *f)
{
    if (f->has_texts) {
        print_label("texts");
        if (f->texts_refusal != BLORB_DONE)
            printf("refused %" PRIu64 ": %s\n", f->texts_refusal, blorb_sentence(f->texts_refusal));
        else
            printf("%" PRIu32 "\n", f->texts);
    }
    if (f->has_scaling) {
        print_label("scaling");
        if (f->scaling_refusal != BLORB_DONE)
            printf("refused %" PRIu64 ": %s\n", f->scaling_refusal, blorb_sentence(f->scaling_refusal));
        else
            printf("%" PRIu32 " picture%s, in a standard window of %" PRIu32 " by %" PRIu32 "\n", f->scaled, plural(f->scaled), f->window[0],
                   f->window[1]);
    }
}

static void print_for_people(const contents *c, const overview *o, const facts *f)
{
    char words[STORY_WORDS];
    for (size_t i = 0; i < META_IFID; i++) {
        const char *told = f->about.fields[i];
        print_field(metadata_labels[i], (bytes){(const uint8_t *)told, told == NULL ? 0 : strlen(told)});
    }
    print_field(metadata_labels[META_IFID], ifid_of(f));
    tell_story(f, words);
    print_field("story", (bytes){(const uint8_t *)words, strlen(words)});
    if (o->release != NULL) {
        print_label("release");
        printf("%" PRIu32 "\n", release_in(o));
    }
    print_cover(c, o);
    print_others(f);
    print_label("file");
    printf("%" PRIu64 " bytes", c->read.length);
    print_count(c, "Pict", "picture", "pictures");
    print_count(c, "Snd ", "sound", "sounds");
    print_count(c, "Data", "data file", "data files");
    putchar('\n');
}

static void print_for_scripts(const contents *c, const overview *o, const facts *f)
{
    print_json_facts(c, o, f);
    puts("\n}");
}

static int inform(const request *r, const contents *c)
{
    overview o;
    facts f = {0};
    int status = look_over(c, &o) == 0 && find_facts(c, &f) == 0 ? CARRIED_OUT : say_failed(r->file, "what the file tells cannot be read");
    if (status == CARRIED_OUT)
        (r->json ? print_for_scripts : print_for_people)(c, &o, &f);
    if (status == CARRIED_OUT)
        say_metadata_fault(r->file, &f.about);
    free_facts(&f);
    free_overview(&o);
    return status;
}

int run_info(const request *r)
{
    contents c;
    int status = load_accepted(&c, r->file, open(r->file, O_RDONLY | O_CLOEXEC), r->profile);
    if (status == CARRIED_OUT)
        status = inform(r, &c);
    free_contents(&c);
    return status;
}
