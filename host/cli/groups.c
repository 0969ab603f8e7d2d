/* forms: the FORMs of an artists' group file, listed or taken out. */
#define _XOPEN_SOURCE 700
#include <fcntl.h>
#include <inttypes.h>
#include <stdio.h>
#include <stdlib.h>

#include "blorb.h"
#include "commands.h"
#include "contents.h"
#include "reading.h"
#include "words.h"

/* The row's numbers: the FORM's type, start, length field and depth. Each level is indented by two spaces. */
static void print_form(size_t i, const uint32_t row[BLORB_FORM_NUMBERS])
{
    char type[4], shown[SHOWN_SIZE];
    put_tag(row[0], type);
    show_tag(type, shown);
    printf("%*s%zu: %s at %" PRIu32 " length %" PRIu32 " depth %" PRIu32 "\n", 2 * ((int)row[3] - 1), "", i, shown, row[1], row[2], row[3]);
}

static int refuse(const request *r, uint64_t refusal, uint64_t place)
{
    return say_refused(r->file, refusal, place, "", refusal == BLORB_TOO_LONG ? "Have it saved as several files." : NULL);
}

static int list_forms(const request *r, const contents *c)
{
    size_t numbers = BLORB_FORM_NUMBERS * (c->length / BLORB_FORM_SIZE);
    uint32_t *rows = malloc(numbers * sizeof *rows + 1);
    if (rows == NULL)
        return say_failed(r->file, "its FORMs cannot be listed");
    blorb_build_answer a = blorb_forms_list(c->file, c->length, rows, numbers);
    int status = a.refusal == BLORB_DONE ? CARRIED_OUT : refuse(r, a.refusal, a.place);
    if (status == CARRIED_OUT)
        printf("group %zu bytes %" PRIu64 " form%s\n", c->length, a.rows, plural(a.rows));
    for (size_t i = 0; i < a.rows; i++)
        print_form(i, rows + BLORB_FORM_NUMBERS * i);
    free(rows);
    return status;
}

static int get_form(const request *r, const contents *c)
{
    char what[40];
    blorb_pick_answer a = blorb_forms_pick(c->file, c->length, r->form);
    snprintf(what, sizeof what, "the file has no FORM %" PRIu32, r->form);
    if (a.refusal == BLORB_NOT_THERE)
        return say_refused_as(r->file, a.refusal, what, "`blorb forms FILE` lists its FORMs, from 0.");
    if (a.refusal != BLORB_DONE)
        return refuse(r, a.refusal, a.place);
    return put_where_asked(r, c, (bytes){c->file + a.start, (size_t)a.length});
}

int run_forms(const request *r)
{
    contents c;
    int status = load_bytes(&c, r->file, open(r->file, O_RDONLY | O_CLOEXEC));
    if (status == CARRIED_OUT)
        status = r->picks_form ? get_form(r, &c) : list_forms(r, &c);
    free_contents(&c);
    return status;
}
