/* describe: the spoken descriptions of a file, and the 'RDes' chunk of a list of them. docs/COMMAND.md describes the list. */
#define _XOPEN_SOURCE 700
#include <fcntl.h>
#include <inttypes.h>
#include <stdio.h>
#include <stdlib.h>
#include <string.h>
#include <sys/stat.h>

#include "blorb.h"
#include "commands.h"
#include "contents.h"
#include "describing.h"
#include "kinds.h"
#include "lines.h"
#include "reading.h"
#include "words.h"

/* ---- showing */

void print_shown(FILE *to, bytes text)
{
    for (size_t i = 0; i < text.length;) {
        size_t hidden = dangerous(text.at + i, text.length - i);
        if (text.at[i] == '\n' || text.at[i] == '\t' || text.at[i] == '\\')
            fprintf(to, "\\%c", text.at[i] == '\n' ? 'n' : text.at[i] == '\t' ? 't' : '\\');
        else if (hidden == 0)
            putc(text.at[i], to);
        else
            for (size_t k = 0; k < hidden; k++)
                fprintf(to, "\\x%02x", (unsigned)text.at[i + k]);
        i += hidden > 1 ? hidden : 1;
    }
}

/* A text in one line, as a list has it. */
static void print_text(FILE *to, bytes text)
{
    print_shown(to, text);
    putc('\n', to);
}

void print_word(FILE *to, const char tag[4])
{
    size_t length = (size_t)tag_length(tag);
    char known[4];
    memcpy(known, tag, 4);
    settle_usage(known);
    /* A list takes Pict in any case: another usage of these letters has its first one hidden. */
    int is_other = memcmp(known, tag, 4) != 0;
    for (size_t i = 0; i < length; i++) {
        unsigned char c = (unsigned char)tag[i];
        if (c > ' ' && c <= '~' && c != '\\' && (i > 0 || (c != '#' && !is_other)))
            putc(c, to);
        else
            fprintf(to, "\\x%02x", (unsigned)c);
    }
}

/* ---- the index, and the texts as they lie in a file whose 'RDes' the library has judged */

/* Texts of resources that the index does not have: how many, and the first of them. */
typedef struct strangers {
    uint32_t *table;
    size_t numbers;
    uint64_t count;
    char first[PAIR_SIZE];
} strangers;

/* Gives 0, or -1 and errno. The table is to be freed. */
static int look_for_strangers(strangers *s, const contents *c)
{
    *s = (strangers){.table = malloc(BLORB_ROW_NUMBERS * BLORB_MAX_ENTRIES * sizeof *s->table)};
    if (s->table == NULL)
        return -1;
    s->numbers = BLORB_ROW_NUMBERS * (size_t)blorb_table_build(c->file, c->length, c->profile, s->table, BLORB_ROW_NUMBERS * BLORB_MAX_ENTRIES).rows;
    return 0;
}

static void look_at(strangers *s, uint32_t usage, uint32_t number)
{
    char tag[4];
    put_tag(usage, tag);
    if (blorb_table_search(s->table, s->numbers, tag, number).refusal != BLORB_NOT_THERE)
        return;
    if (s->count++ == 0)
        show_pair(tag, number, s->first);
}

static void warn_of_strangers(const strangers *s, const char *file)
{
    char sentence[PAIR_SIZE + 100];
    snprintf(sentence, sizeof sentence, "%" PRIu64 " of the texts, the first of them %s, are for resources that the file does not have", s->count, s->first);
    if (s->count > 0)
        say_warning(file, "", sentence);
}

/* The first 'RDes'; null where there is none. */
static const uint8_t *descriptions_in(const contents *c)
{
    for (uint32_t at = FIRST_CHUNK; at < c->length; at = next_chunk(c, at))
        if (memcmp(type_at(c->file, at), "RDes", 4) == 0)
            return c->file + at;
    return NULL;
}

/* Entries fill the chunk, or there is no chunk. */
static void go_through(const contents *c, each_text *call, void *with)
{
    const uint8_t *chunk = descriptions_in(c);
    if (chunk == NULL)
        return;
    uint32_t count = number_in(chunk + BLORB_HEADER_SIZE);
    const uint8_t *at = chunk + BLORB_HEADER_SIZE + 4;
    for (uint32_t i = 0; i < count; i++) {
        text t = {number_in(at), number_in(at + 4), {at + 12, number_in(at + 8)}};
        if (call(&t, with) != 0)
            return;
        at = t.held.at + t.held.length;
    }
}

int go_through_texts(const contents *c, each_text *call, void *with)
{
    uint64_t refusal = blorb_text(c->file, c->length, c->profile, 0).refusal;
    if (refusal == BLORB_DONE)
        go_through(c, call, with);
    return refusal == BLORB_DONE || refusal == BLORB_NOT_THERE ? 0 : -1;
}

/* ---- reading */

/* The text that a place in the file belongs to. */
typedef struct sought {
    const uint8_t *place;
    char pair[PAIR_SIZE];
} sought;

static int is_sought(const text *t, void *with)
{
    sought *s = with;
    const uint8_t *entry = t->held.at - 12;
    char tag[4];
    memcpy(tag, entry, 4);
    if (s->place < entry || s->place > t->held.at + t->held.length)
        return 0;
    show_pair(tag, t->number, s->pair);
    return s->place < t->held.at + t->held.length;
}

/* Says why the 'RDes' was refused, and which text it was. */
static int say_refused_text(const request *r, const contents *c, const blorb_text_answer *a)
{
    sought s = {.place = c->file + a->place, .pair = ""};
    if (a->refusal == BLORB_RDES_REPEATED || a->refusal == BLORB_RDES_TEXT)
        go_through(c, is_sought, &s);
    return say_refused(r->file, a->refusal, a->place, s.pair, NULL);
}

static void print_line(FILE *to, const text *t)
{
    char tag[4];
    put_tag(t->usage, tag);
    print_word(to, tag);
    fprintf(to, " %" PRIu32 " ", t->number);
    print_text(to, t->held);
}

static int print_one_of(const text *t, void *with)
{
    look_at(with, t->usage, t->number);
    print_line(stdout, t);
    return 0;
}

static int write_one_of(const text *t, void *with)
{
    print_line(with, t);
    return 0;
}

int write_list(const contents *c, FILE *to)
{
    return go_through_texts(c, write_one_of, to);
}

/* One call judges all; then the texts are read as they lie, for each further call would judge all again. */
static int list_texts(const request *r, const contents *c)
{
    strangers s;
    blorb_text_answer a = blorb_text(c->file, c->length, c->profile, 0);
    if (a.refusal == BLORB_NOT_THERE) {
        puts("# no texts");
        return CARRIED_OUT;
    }
    if (a.refusal != BLORB_DONE)
        return say_refused_text(r, c, &a);
    if (look_for_strangers(&s, c) != 0)
        return say_failed(r->file, "the texts cannot be listed");
    go_through(c, print_one_of, &s);
    warn_of_strangers(&s, r->file);
    free(s.table);
    return CARRIED_OUT;
}

static int look_at_one(const text *t, void *with)
{
    look_at(with, t->usage, t->number);
    return 0;
}

void warn_of_texts(const contents *c, const char *shown)
{
    strangers s;
    char sentence[240];
    blorb_text_answer a = blorb_text(c->file, c->length, c->profile, 0);
    snprintf(sentence, sizeof sentence, "no description can be read (refusal %" PRIu64 " at %" PRIu64 "): %s", a.refusal, a.place, blorb_sentence(a.refusal));
    if (a.refusal != BLORB_DONE && a.refusal != BLORB_NOT_THERE)
        say_warning(shown, "", sentence);
    if (a.refusal != BLORB_DONE || look_for_strangers(&s, c) != 0)
        return;
    go_through(c, look_at_one, &s);
    warn_of_strangers(&s, shown);
    free(s.table);
}

static int print_one(const request *r, const contents *c)
{
    char what[PAIR_SIZE + 20], pair[PAIR_SIZE];
    blorb_text_answer a = blorb_text_of(c->file, c->length, c->profile, r->usage, r->number);
    show_pair(r->usage, r->number, pair);
    snprintf(what, sizeof what, "%s has no text", pair);
    if (a.refusal == BLORB_NOT_THERE && blorb_lookup(c->file, c->length, c->profile, r->usage, r->number).refusal == BLORB_DONE)
        return say_refused_as(r->file, a.refusal, what, "`blorb describe FILE` lists the texts that there are.");
    if (a.refusal == BLORB_NOT_THERE)
        return say_refused(r->file, a.refusal, a.place, pair, NULL);
    if (a.refusal != BLORB_DONE)
        return say_refused_text(r, c, &a);
    bytes held = {c->file + a.start, (size_t)a.length};
    if (r->out != NULL)
        return put_where_asked(r, c, held);
    print_text(stdout, held);
    return CARRIED_OUT;
}

/* ---- writing */

/* A list as it is read: rows for the library, the line that each came from, and the texts without their escapes. */
typedef struct list {
    uint32_t *rows;
    size_t *lines;
    uint8_t *texts;
    size_t count, length;
} list;

static void free_list(list *l)
{
    free(l->rows);
    free(l->lines);
    free(l->texts);
}

/* No line is shorter than `A 0` with its end. Gives 0, or -1 and errno. */
static int make_list(list *l, size_t length)
{
    size_t most = length / 4 + 1;
    *l = (list){0};
    l->rows = malloc(most * BLORB_TEXT_NUMBERS * sizeof *l->rows);
    l->lines = malloc(most * sizeof *l->lines);
    l->texts = malloc(length + 1);
    return l->rows == NULL || l->lines == NULL || l->texts == NULL ? -1 : 0;
}

static int digit_of(uint8_t c)
{
    return c >= '0' && c <= '9' ? c - '0' : c >= 'a' && c <= 'f' ? c - 'a' + 10 : c >= 'A' && c <= 'F' ? c - 'A' + 10 : -1;
}

/* The bytes up to `end` without their escapes; gives how many there are, or -1 where an escape is wrong. `to` has room for as many as there were. */
static long unescape(const uint8_t *at, const uint8_t *end, uint8_t *to)
{
    const uint8_t *begun = to;
    for (; at < end; at++) {
        int high, low;
        if (*at != '\\') {
            *to++ = *at;
        } else if (end - at >= 2 && (at[1] == 'n' || at[1] == 't' || at[1] == '\\')) {
            *to++ = at[1] == 'n' ? '\n' : at[1] == 't' ? '\t' : '\\';
            at++;
        } else if (end - at >= 4 && at[1] == 'x' && (high = digit_of(at[2])) >= 0 && (low = digit_of(at[3])) >= 0) {
            *to++ = (uint8_t)(16 * high + low);
            at += 3;
        } else {
            return -1;
        }
    }
    return (long)(to - begun);
}

int read_word(const uint8_t *at, const uint8_t *end, char tag[4])
{
    uint8_t room[16];
    if (end == at || end - at > 16)
        return -1;
    long length = unescape(at, end, room);
    memset(tag, ' ', 4);
    if (length < 1 || length > 4)
        return -1;
    memcpy(tag, room, (size_t)length);
    return 0;
}

/* The first word of a line. A known usage may have any case, but not where a byte is an escape. */
static const char *read_usage(const uint8_t *at, const uint8_t *end, uint32_t *usage)
{
    char tag[4];
    if (read_word(at, end, tag) != 0)
        return "the line does not begin with a usage of one to four letters";
    if (memchr(at, '\\', (size_t)(end - at)) == NULL)
        settle_usage(tag);
    *usage = number_in((const uint8_t *)tag);
    return NULL;
}

/* The second word. */
static const char *read_line_number(const uint8_t *at, const uint8_t *end, uint32_t *number)
{
    uint64_t n = 0;
    const char *wrong = "behind the usage no number from 0 to 4294967295 follows, with one space between";
    if (at == end || end - at > 10)
        return wrong;
    for (; at < end; at++) {
        if (*at < '0' || *at > '9')
            return wrong;
        n = 10 * n + (uint64_t)(*at - '0');
    }
    *number = (uint32_t)n;
    return n > UINT32_MAX ? wrong : NULL;
}

static const uint8_t *word_end(const uint8_t *at, const uint8_t *end)
{
    while (at < end && *at != ' ')
        at++;
    return at;
}

/* USAGE NUMBER TEXT; gives what is wrong, or null. */
static const char *read_line(list *l, const uint8_t *at, const uint8_t *end)
{
    uint32_t *row = l->rows + BLORB_TEXT_NUMBERS * l->count;
    const uint8_t *behind = word_end(at, end);
    const char *wrong = read_usage(at, behind, &row[0]);
    at = behind < end ? behind + 1 : end;
    behind = word_end(at, end);
    if (wrong == NULL)
        wrong = read_line_number(at, behind, &row[1]);
    at = behind < end ? behind + 1 : end;
    long length = unescape(at, end, l->texts + l->length);
    if (wrong == NULL && length < 0)
        wrong = "in a text \\ begins \\n, \\t, \\\\ or \\x and two hexadecimal digits, and nothing else";
    if (wrong != NULL)
        return wrong;
    row[2] = (uint32_t)l->length;
    row[3] = (uint32_t)length;
    l->length += (size_t)length;
    l->count++;
    return NULL;
}

static int say_wrong_line(const char *path, size_t line, const char *wrong)
{
    char why[160];
    snprintf(why, sizeof why, "line %zu: %s", line, wrong);
    return say_cannot(path, why, "A line of the list is USAGE, NUMBER and the text, with one space between, such as `Pict 1 An eel.`; lines that are empty or\n"
                      "  begin with # are passed over.");
}

static int read_list(const char *path, bytes held, list *l)
{
    bytes line;
    for (lines all = lines_of(held); next_line(&all, &line);) {
        if (line.length == 0 || line.at[0] == '#')
            continue;
        l->lines[l->count] = all.number;
        const char *wrong = read_line(l, line.at, line.at + line.length);
        if (wrong != NULL)
            return say_wrong_line(path, all.number, wrong);
    }
    return CARRIED_OUT;
}

static int say_not_written(const char *path, const list *l, const blorb_write_answer *a)
{
    char about[PAIR_SIZE + 40] = "", pair[PAIR_SIZE];
    if (a->refusal == BLORB_RDES_REPEATED || a->refusal == BLORB_RDES_TEXT) {
        const uint32_t *row = l->rows + BLORB_TEXT_NUMBERS * a->place;
        char tag[4];
        put_tag(row[0], tag);
        show_pair(tag, row[1], pair);
        snprintf(about, sizeof about, "line %zu, %s", l->lines[a->place], pair);
    }
    return say_refused(path, a->refusal, a->place, about, NULL);
}

/* Whether -o names the list itself, by the same file or, as on a card, by its name in other cases. "-" is no name. */
static int is_list(const request *r)
{
    struct stat out, data;
    if (r->out == NULL || strcmp(r->out, "-") == 0)
        return 0;
    if (strcmp(r->data, "-") != 0 && is_same_but_for_case(r->out, r->data))
        return 1;
    return stat(r->out, &out) == 0 && stat(r->data, &data) == 0 && out.st_dev == data.st_dev && out.st_ino == data.st_ino
        && S_ISREG(out.st_mode);
}

static int write_chunk(const request *r, const contents *c, const list *l)
{
    strangers s;
    uint8_t *room = malloc(BLORB_MAX_SIZE);
    if (room == NULL || look_for_strangers(&s, c) != 0) {
        free(room);
        return say_failed(r->data, "the chunk cannot be made");
    }
    blorb_write_answer a = blorb_texts_write(l->rows, BLORB_TEXT_NUMBERS * l->count, l->texts, l->length, room, BLORB_MAX_SIZE);
    for (size_t i = 0; a.refusal == BLORB_DONE && i < l->count; i++)
        look_at(&s, l->rows[BLORB_TEXT_NUMBERS * i], l->rows[BLORB_TEXT_NUMBERS * i + 1]);
    int status = a.refusal == BLORB_DONE ? put_where_asked(r, c, (bytes){room, (size_t)a.length}) : say_not_written(r->data, l, &a);
    if (status == CARRIED_OUT)
        warn_of_strangers(&s, r->data);
    free(s.table);
    free(room);
    return status;
}

/* The list is to be freed in any case. */
static int load_list(list *l, const char *path)
{
    data d;
    *l = (list){0};
    int status = load_data(&d, path);
    if (status == CARRIED_OUT && d.is_cut)
        status = say_cannot(path, "the list is longer than any file may be", "Use shorter texts.");
    if (status == CARRIED_OUT && make_list(l, d.held.length) != 0)
        status = say_failed(path, "the list cannot be read");
    if (status == CARRIED_OUT)
        status = read_list(path, d.held, l);
    free(d.room);
    return status;
}

static int make_chunk(const request *r, const contents *c)
{
    list l;
    if (is_list(r))
        return say_cannot(r->out, "the chunk would overwrite the list itself; on a card (FAT, exFAT) also where only the case of letters differs",
                          "Give another name.");
    int status = load_list(&l, r->data);
    if (status == CARRIED_OUT)
        status = write_chunk(r, c, &l);
    free_list(&l);
    return status;
}

int load_texts(const char *path, data *d)
{
    list l;
    *d = (data){.room = malloc(BLORB_MAX_SIZE)};
    int status = d->room == NULL ? say_failed(path, "the list cannot be read") : load_list(&l, path);
    if (d->room == NULL)
        return status;
    if (status == CARRIED_OUT) {
        blorb_write_answer a = blorb_texts_write(l.rows, BLORB_TEXT_NUMBERS * l.count, l.texts, l.length, d->room, BLORB_MAX_SIZE);
        if (a.refusal == BLORB_DONE)
            d->held = data_at(d->room, 0);
        else
            status = say_not_written(path, &l, &a);
    }
    free_list(&l);
    return status;
}

int run_describe(const request *r)
{
    contents c;
    int status = load_accepted(&c, r->file, open(r->file, O_RDONLY | O_CLOEXEC), r->profile);
    if (status == CARRIED_OUT)
        status = r->data != NULL ? make_chunk(r, &c) : r->has_pair ? print_one(r, &c) : list_texts(r, &c);
    free_contents(&c);
    return status;
}
