#define _XOPEN_SOURCE 700
#include "telling.h"

#include <inttypes.h>
#include <stdio.h>
#include <string.h>
#include <unistd.h>

#include "stores.h"
#include "words.h"

int is_told(const request *r)
{
    return !r->quiet && isatty(STDOUT_FILENO);
}

found find_resource(const contents *c, const char usage[4], uint32_t number)
{
    blorb_lookup_answer a = blorb_lookup(c->file, c->length, c->profile, usage, number);
    found f = {.is_there = a.refusal == BLORB_DONE, .length = a.length};
    put_tag(a.type, f.type);
    return f;
}

static void print_pair(FILE *to, const char usage[4], uint32_t number)
{
    fprintf(to, "%.*s %" PRIu32, tag_length(usage), usage, number);
}

/* Type and length of data. */
static void print_data(FILE *to, const char type[4], uint64_t length)
{
    fprintf(to, "%.*s %" PRIu64 " byte%s", tag_length(type), type, length, plural(length));
}

void tell_edit(const request *r, const char *done, const found *before, const found *after)
{
    int linked = r->new_usage[0] != '\0';
    const found *shown = after->is_there ? after : before;
    printf("%s ", done);
    print_pair(stdout, linked ? r->new_usage : r->usage, linked ? r->new_number : r->number);
    if (linked) {
        fputs(" to ", stdout);
        print_pair(stdout, r->usage, r->number);
    }
    putchar(' ');
    print_data(stdout, shown->type, shown->length);
    if (before->is_there && after->is_there && !linked) {
        fputs(", was ", stdout);
        print_data(stdout, before->type, before->length);
    }
    putchar('\n');
}

void tell_undone(FILE *to, const blorb_store_edit *edit)
{
    past_edit e = shown_edit(edit);
    fprintf(to, "took back: %s ", e.done);
    print_pair(to, e.usage, e.number);
    if (e.has_old) {
        /* A record has what the chunk held; of a FORM the file has its head besides. */
        fputs(", which is ", to);
        print_data(to, e.type, e.length + (memcmp(e.type, "FORM", 4) == 0 ? BLORB_HEADER_SIZE : 0));
        fputs(" again", to);
    }
    fputc('\n', to);
}
