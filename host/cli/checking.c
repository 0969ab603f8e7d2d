/* check: whether files keep every rule, and what is likely to be wrong with them. One file or many, for people or for scripts. */
#define _XOPEN_SOURCE 700
#include <fcntl.h>
#include <inttypes.h>
#include <stdio.h>
#include <string.h>

#include "blorb.h"
#include "commands.h"
#include "contents.h"
#include "describing.h"
#include "files.h"
#include "json.h"
#include "tables.h"
#include "warnings.h"
#include "words.h"

/* What became of the files so far. */
typedef struct tally {
    size_t files, accepted, refused, not_read, with_warnings;
    int worst; /* the highest exit status */
} tally;

/* The table beside a file. */
typedef struct table_found {
    int status;
    int missing;
    size_t rows;
} table_found;

static int worse(int a, int b)
{
    return a > b ? a : b;
}

/* Opens nothing under a name of the program's own: what stands there is no Blorb file. */
static int load(const request *r, contents *c, const char *file)
{
    *c = (contents){0};
    if (own_ending(file) != NULL)
        return say_cannot(file, "this name is one of this program's own", "Give the name of the Blorb file itself.");
    return load_contents(c, file, open(file, O_RDONLY | O_CLOEXEC), r->profile);
}

/* ---- for people */

static void print_accepted(const contents *c)
{
    printf("accepted %" PRIu64 " bytes %" PRIu64 " resource%s", c->read.length, c->read.count, plural(c->read.count));
}

/* One file by itself: the line comes before the warnings, and the table has a line of its own. */
static int check_one(const request *r, contents *c, tally *t)
{
    table_found table;
    size_t before = warnings_up_to_now();
    int status = load(r, c, r->file);
    if (status == REFUSED)
        return say_refused_contents(c, r->file);
    if (status != CARRIED_OUT)
        return status;
    print_accepted(c);
    putchar('\n');
    warn_of(c, r->file);
    t->with_warnings = warnings_up_to_now() > before;
    status = check_table(c, r->file, &table.missing, &table.rows);
    if (status == CARRIED_OUT && !table.missing)
        printf("table accepted %zu row%s\n", table.rows, plural(table.rows));
    return status;
}

static void print_name(const char *file)
{
    print_shown(stdout, (bytes){(const uint8_t *)file, strlen(file)});
}

/* One of many: a line on standard output, and the rest on standard error. */
static int print_verdict(const char *file, const contents *c, int status, size_t warnings)
{
    table_found table = {.missing = 1};
    if (status == REFUSED)
        say_refused_contents(c, file);
    if (status == CARRIED_OUT)
        table.status = check_table(c, file, &table.missing, &table.rows);
    print_name(file);
    if (status == FAILED)
        fputs(": not read", stdout);
    else if (status == REFUSED)
        printf(": refused %" PRIu64 " at %" PRIu64, c->read.refusal, c->read.place);
    else
        fputs(": ", stdout);
    if (status == CARRIED_OUT)
        print_accepted(c);
    if (warnings > 0)
        printf(", %zu warning%s", warnings, plural(warnings));
    if (!table.missing)
        printf(", table %s", table.status == CARRIED_OUT ? "accepted" : "refused");
    putchar('\n');
    return worse(status, table.status);
}

static void print_summary(const tally *t)
{
    printf("%zu files: %zu accepted, %zu refused, %zu not read; %zu with warnings\n", t->files, t->accepted, t->refused, t->not_read,
           t->with_warnings);
}

/* ---- for scripts */

static void print_json_warning(void *to, const char *about, const char *sentence, const char *advice)
{
    const char **between = to;
    printf("%s{", *between);
    print_json_words("about", about[0] != '\0' ? about : NULL);
    fputs(", ", stdout);
    print_json_words("sentence", sentence);
    fputs(", ", stdout);
    print_json_words("advice", advice);
    putchar('}');
    *between = ", ";
}

static int print_json_verdict(const char *file, const contents *c, int status)
{
    table_found table = {.missing = 1};
    const char *between = "";
    int accepted = status == CARRIED_OUT, refused = status == REFUSED;
    fputs("\n    {", stdout);
    print_json_words("file", file);
    printf(", \"accepted\": %s, ", accepted ? "true" : "false");
    print_json_number("length", accepted, c->read.length);
    fputs(", ", stdout);
    print_json_number("count", accepted, c->read.count);
    fputs(", ", stdout);
    print_json_number("refused", refused, c->read.refusal);
    fputs(", ", stdout);
    print_json_number("place", refused, c->read.place);
    fputs(", ", stdout);
    print_json_words("reason", refused ? blorb_sentence(c->read.refusal) : NULL);
    fputs(", \"warnings\": [", stdout);
    take_warnings(print_json_warning, &between);
    if (accepted)
        warn_of(c, file);
    take_warnings(NULL, NULL);
    if (accepted)
        table.status = check_table(c, file, &table.missing, &table.rows);
    fputs("], ", stdout);
    print_json_words("table", table.missing ? NULL : table.status == CARRIED_OUT ? "accepted" : "refused");
    putchar('}');
    return worse(status, table.status);
}

static void print_json_summary(const tally *t)
{
    printf("\n  ],\n  \"accepted\": %zu,\n  \"refused\": %zu,\n  \"not_read\": %zu,\n  \"with_warnings\": %zu,\n  \"status\": %d\n}\n", t->accepted,
           t->refused, t->not_read, t->with_warnings, t->worst);
}

/* ---- all of them */

static int check_one_of(const request *r, size_t i, tally *t)
{
    contents c;
    const char *file = r->files[i];
    size_t before = warnings_up_to_now();
    int status = load(r, &c, file);
    t->files++;
    t->accepted += status == CARRIED_OUT;
    t->refused += status == REFUSED;
    t->not_read += status == FAILED;
    if (r->json) {
        fputs(i > 0 ? "," : "", stdout);
        status = print_json_verdict(file, &c, status);
    } else {
        if (status == CARRIED_OUT)
            warn_of(&c, file);
        status = print_verdict(file, &c, status, warnings_up_to_now() - before);
    }
    t->with_warnings += warnings_up_to_now() > before;
    free_contents(&c);
    return status;
}

static void check_all(const request *r, tally *t)
{
    if (r->json)
        fputs("{\n  \"files\": [", stdout);
    for (size_t i = 0; i < r->file_count; i++)
        t->worst = worse(t->worst, check_one_of(r, i, t));
    if (r->strict && t->with_warnings > 0)
        t->worst = worse(t->worst, REFUSED);
    (r->json ? print_json_summary : print_summary)(t);
}

int run_check(const request *r)
{
    contents c;
    tally t = {0};
    if (r->file_count > 1 || r->json) {
        check_all(r, &t);
        return t.worst;
    }
    int status = check_one(r, &c, &t);
    free_contents(&c);
    return r->strict && t.with_warnings > 0 ? worse(status, REFUSED) : status;
}
