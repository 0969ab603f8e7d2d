/* table and find, and the table beside a file that is checked. */
#define _XOPEN_SOURCE 700
#include "tables.h"

#include <errno.h>
#include <fcntl.h>
#include <inttypes.h>
#include <stdio.h>
#include <stdlib.h>

#include "arrays.h"
#include "commands.h"
#include "stores.h"
#include "words.h"

int run_table(const request *r)
{
    blorb_store *s;
    if (r->c_array)
        return write_c_array(r);
    int status = load_store(&s, r, BLORB_STORE_LOOK, 0);
    if (status == CARRIED_OUT) {
        blorb_store_answer a = blorb_store_write_table(s);
        in_place answer = a.error == BLORB_STORE_DONE ? NEW_IN_PLACE : a.error == BLORB_STORE_TABLE_NOT_WRITTEN ? OLD_IN_PLACE : NEW_UNCONFIRMED;
        errno = a.system;
        status = say_stored(blorb_store_table_path(s), answer, "the table cannot be written");
    }
    if (status == CARRIED_OUT) {
        uint64_t count = contents_of(r, s).read.count;
        printf("table %" PRIu64 " row%s\n", count, plural(count));
    }
    blorb_store_close(s);
    return status;
}

/* The numbers of a table. */
typedef struct numbers {
    uint32_t at[BLORB_STORE_TABLE_NUMBERS];
    size_t count;
} numbers;

/* What is wrong with the table at this path. */
static int say_bad_table(const char *path, const blorb_store_answer *a)
{
    errno = a->system;
    if (a->error < BLORB_STORE_MEMORY)
        return say_refused(path, a->error, a->place, "", NULL);
    if (a->error == BLORB_STORE_TABLE_OTHER)
        return say_cannot(path, NO_PLAIN_FILE ", so it is no finding table", "Move it away; `blorb table FILE` writes a table.");
    return say_failed(path, "the finding table cannot be read");
}

/* The table beside FILE, which may be a link to the file. `missing` is set where there is none, and nothing is said of that. */
static int load_beside(const contents *c, const char *file, numbers *n, int *missing)
{
    if (n == NULL) {
        errno = ENOMEM;
        return say_failed(file, "its finding table cannot be read");
    }
    blorb_store_answer a = blorb_store_read_table(file, c->file, c->length, c->profile, n->at, &n->count);
    *missing = a.error == BLORB_STORE_NO_TABLE;
    if (*missing || a.error == BLORB_STORE_DONE)
        return CARRIED_OUT;
    char *path = table_beside(file);
    errno = a.system;
    int status = path == NULL ? say_failed(file, "its finding table cannot be reached") : say_bad_table(path, &a);
    free(path);
    return status;
}

int check_table(const contents *c, const char *shown, int *missing, size_t *rows)
{
    *missing = 0;
    numbers *n = malloc(sizeof *n);
    int status = load_beside(c, shown, n, missing);
    *rows = status == CARRIED_OUT && !*missing ? n->count / BLORB_ROW_NUMBERS : 0;
    free(n);
    return status;
}

static int search(const request *r, const numbers *n)
{
    char pair[PAIR_SIZE], about[PAIR_SIZE + 40];
    blorb_search_answer found = blorb_table_search(n->at, n->count, r->usage, r->number);
    show_pair(r->usage, r->number, pair);
    if (found.refusal != BLORB_DONE) {
        snprintf(about, sizeof about, "%s, %" PRIu64 " row%s looked at", pair, found.probes, plural(found.probes));
        return say_refused(r->file, found.refusal, found.place, about, NULL);
    }
    printf("%.4s %" PRIu32 " at %" PRIu64 " probes %" PRIu64 "\n", r->usage, r->number, found.start, found.probes);
    return CARRIED_OUT;
}

int run_find(const request *r)
{
    contents c;
    int missing = 0;
    numbers *n = malloc(sizeof *n);
    int status = load_accepted(&c, r->file, open(r->file, O_RDONLY | O_CLOEXEC), r->profile);
    if (status == CARRIED_OUT)
        status = load_beside(&c, r->file, n, &missing);
    if (status == CARRIED_OUT && missing)
        status = say_cannot(r->file, "there is no finding table beside the file", "`blorb table FILE` writes it.");
    if (status == CARRIED_OUT)
        status = search(r, n);
    free(n);
    free_contents(&c);
    return status;
}
