/* The commands. Each does its work, says what is refused or fails, and gives the exit status. */
#ifndef COMMANDS_H
#define COMMANDS_H

#include <stddef.h>
#include <stdint.h>

/* What the user asked for; what a command does not take or was not given stays zero. */
typedef struct request {
    const char *file;
    const char *const *files; /* of `check`: all of them, the first of which is `file` */
    size_t file_count;
    const char *other;  /* the second file of `diff` */
    uint32_t profile;   /* BLORB_PLAIN, or with --adrift BLORB_ADRIFT */
    char usage[4];
    uint32_t number;
    char new_usage[4]; /* of `link` */
    uint32_t new_number;
    char type[4];
    const char *data;   /* the path of the data, or of the list of `describe --write` or `pack`; "-" for standard input */
    uint32_t edits;     /* how many `undo` takes back */
    int picks_form;     /* `forms` is given a number, this one */
    uint32_t form;
    uint64_t window[2]; /* of `scale`: width and height */
    uint64_t size[2];   /* of `scale`: the picture's */
    int has_size;       /* it was given */
    int has_pair;       /* `describe` was given a usage and number */
    const char *out;    /* where `get`, `forms`, `describe`, `sheet` and `table --c-array` write, null or "-" for standard output; and `mend` */
    const char *folder; /* where `get --all` and `unpack` write */
    int force;          /* what is there is overwritten */
    int strict;         /* of `check`: warnings count */
    int as_is;          /* data that contradicts its type is taken */
    int no_undo;        /* no journal is kept */
    int quiet;          /* -q: no word after an edit */
    int c_array;        /* the table as C */
    int json;
    int detailed;       /* list --long */
} request;

int run_list(const request *r);
int run_info(const request *r);
int run_check(const request *r);
int run_table(const request *r);
int run_find(const request *r);
int run_get(const request *r);
int run_forms(const request *r);
int run_scale(const request *r);
int run_describe(const request *r);
int run_mend(const request *r);
int run_sheet(const request *r);
int run_unpack(const request *r);
int run_pack(const request *r);
int run_diff(const request *r);
int run_explain(const request *r);
int run_new(const request *r);
int run_add(const request *r);
int run_replace(const request *r);
int run_remove(const request *r);
int run_link(const request *r);
int run_undo(const request *r);
int run_history(const request *r);
int run_forget(const request *r);

#endif
