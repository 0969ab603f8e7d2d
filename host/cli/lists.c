#define _XOPEN_SOURCE 700
#include "lists.h"

#include <errno.h>
#include <stdio.h>
#include <stdlib.h>
#include <string.h>
#include <strings.h>

#include "blurb.h"
#include "contents.h"
#include "describing.h"
#include "kinds.h"
#include "lines.h"
#include "words.h"

void free_items(items *list)
{
    for (size_t i = 0; i < list->count; i++) {
        free(list->at[i].path);
        free(list->at[i].made);
        free(list->at[i].constant);
    }
    free(list->at);
}

item *add_item(items *list, item_kind kind, size_t line)
{
    if (list->count == list->room) {
        size_t room = 2 * list->room + 64;
        item *more = realloc(list->at, room * sizeof *more);
        if (more == NULL)
            return NULL;
        list->at = more;
        list->room = room;
    }
    item *added = &list->at[list->count++];
    *added = (item){.kind = kind, .line = line};
    return added;
}

int add_chunk(items *list, size_t line, const char type[4], bytes held)
{
    uint8_t *made = malloc(held.length + 1);
    item *added = made == NULL ? NULL : add_item(list, PUT_CHUNK, line);
    if (added == NULL) {
        free(made);
        return -1;
    }
    if (held.length > 0)
        memcpy(made, held.at, held.length);
    memcpy(added->type, type, sizeof added->type);
    added->made = made;
    added->length = held.length;
    return 0;
}

/* ---- words */

static int is_space(uint8_t c)
{
    return c == ' ' || c == '\t';
}

static void pass_spaces(cursor *c)
{
    while (c->at < c->end && is_space(*c->at))
        c->at++;
}

int is_quoted(const cursor *c)
{
    cursor next = *c;
    pass_spaces(&next);
    return next.at < next.end && *next.at == '"';
}

/* Up to the next space, whatever it holds. */
static bytes bare_word(cursor *c)
{
    pass_spaces(c);
    const uint8_t *begun = c->at;
    while (c->at < c->end && !is_space(*c->at))
        c->at++;
    return (bytes){begun, (size_t)(c->at - begun)};
}

bytes next_word(cursor *c)
{
    pass_spaces(c);
    const uint8_t *begun = c->at;
    const uint8_t *quote = begun < c->end && *begun == '"' ? memchr(begun + 1, '"', (size_t)(c->end - begun - 1)) : NULL;
    if (quote == NULL)
        return bare_word(c);
    c->at = quote + 1;
    return (bytes){begun + 1, (size_t)(quote - begun - 1)};
}

bytes rest_of(cursor *c)
{
    cursor left = *c;
    pass_spaces(c);
    bytes rest = {c->at, (size_t)(c->end - c->at)};
    c->at = c->end;
    while (rest.length > 0 && is_space(rest.at[rest.length - 1]))
        rest.length--;
    /* A name in quotes, and nothing behind it. */
    int quoted = rest.length >= 2 && rest.at[0] == '"' && memchr(rest.at + 1, '"', rest.length - 1) == rest.at + rest.length - 1;
    return quoted ? next_word(&left) : rest;
}

int is_word(bytes word, const char *text)
{
    return word.length == strlen(text) && strncasecmp((const char *)word.at, text, word.length) == 0;
}

int read_amount(bytes word, uint64_t most, uint32_t *number)
{
    uint64_t n = 0;
    if (word.length == 0 || word.length > 10)
        return -1;
    for (size_t i = 0; i < word.length; i++) {
        if (word.at[i] < '0' || word.at[i] > '9')
            return -1;
        n = 10 * n + (uint64_t)(word.at[i] - '0');
    }
    *number = (uint32_t)n;
    return n > most ? -1 : 0;
}

/* A path in the list's folder; null and errno. */
static char *path_in(const char *list, bytes name)
{
    const char *slash = strcmp(list, "-") == 0 ? NULL : strrchr(list, '/');
    size_t folder = slash == NULL || (name.length > 0 && name.at[0] == '/') ? 0 : (size_t)(slash - list) + 1;
    char *path = malloc(folder + name.length + 1);
    if (path == NULL)
        return NULL;
    memcpy(path, list, folder);
    memcpy(path + folder, name.at, name.length);
    path[folder + name.length] = '\0';
    return path;
}

/* ---- plain lines; each gives what is wrong, or null */

#define LIKE_RESOURCE "a resource is USAGE, NUMBER, TYPE and FILE"

static int read_usage(bytes word, char usage[4])
{
    const char *found = known_usage(word);
    if (found != NULL)
        memcpy(usage, found, 4);
    return found != NULL ? 0 : -1;
}

const char *give_path(item *added, const char *list, bytes name)
{
    if (name.length == 0)
        return "the name of the file is missing";
    if (memchr(name.at, 0, name.length) != NULL)
        return "there is a zero byte in the name of the file";
    added->path = path_in(list, name);
    return added->path == NULL ? NO_ROOM : NULL;
}

/* TYPE may be left out, so what stands there is one only if it is known and something follows. */
static const char *read_resource(const char *path, items *list, size_t line, const char usage[4], cursor left)
{
    item *added = add_item(list, ADD_RESOURCE, line);
    if (added == NULL)
        return NO_ROOM;
    memcpy(added->usage, usage, sizeof added->usage);
    if (read_amount(next_word(&left), UINT32_MAX, &added->number) != 0)
        return LIKE_RESOURCE ", and the number is 0 to 4294967295";
    cursor behind = left;
    const char *type = is_quoted(&behind) ? NULL : known_type(next_word(&behind));
    cursor further = behind;
    if (type != NULL && next_word(&further).length > 0) {
        memcpy(added->type, type, sizeof added->type);
        left = behind;
    }
    return give_path(added, path, rest_of(&left));
}

static const char *read_link(items *list, size_t line, cursor left)
{
    item *added = add_item(list, LINK_RESOURCE, line);
    if (added == NULL)
        return NO_ROOM;
    int right = read_usage(next_word(&left), added->usage) == 0 && read_amount(next_word(&left), UINT32_MAX, &added->number) == 0
        && read_usage(next_word(&left), added->new_usage) == 0 && read_amount(next_word(&left), UINT32_MAX, &added->new_number) == 0;
    return right && rest_of(&left).length == 0 ? NULL : "a link is `link`, USAGE, NUMBER, NEWUSAGE and NEWNUMBER";
}

static const char *read_chunk(const char *path, items *list, size_t line, cursor left)
{
    item *added = add_item(list, PUT_CHUNK, line);
    if (added == NULL)
        return NO_ROOM;
    bytes type = bare_word(&left);
    if (read_word(type.at, type.at + type.length, added->type) != 0)
        return "a chunk is `chunk`, a type of one to four letters, and FILE";
    return give_path(added, path, rest_of(&left));
}

static const char *read_texts(const char *path, items *list, size_t line, cursor left)
{
    item *added = add_item(list, PUT_TEXTS, line);
    if (added == NULL)
        return NO_ROOM;
    memcpy(added->type, "RDes", sizeof added->type);
    return give_path(added, path, rest_of(&left));
}

/* `cover 3` and `release 2`: the number becomes a chunk of so many bytes. */
static const char *read_numbered(items *list, size_t line, const char type[4], size_t length, cursor left)
{
    uint32_t number = 0;
    uint64_t most = length == 2 ? UINT16_MAX : UINT32_MAX;
    if (read_amount(next_word(&left), most, &number) != 0 || rest_of(&left).length > 0)
        return length == 2 ? "a release is `release` and a number from 0 to 65535" : "a cover is `cover` and the number of a picture";
    uint8_t held[4];
    number_to(held, number);
    return add_chunk(list, line, type, (bytes){held + 4 - length, length}) == 0 ? NULL : NO_ROOM;
}

static const char *read_line(const char *path, blurb *b, items *list, size_t line, cursor left)
{
    char usage[4];
    bytes word = next_word(&left);
    if (read_usage(word, usage) == 0)
        return read_resource(path, list, line, usage, left);
    if (is_word(word, "link"))
        return read_link(list, line, left);
    if (is_word(word, "chunk"))
        return read_chunk(path, list, line, left);
    if (is_word(word, "texts"))
        return read_texts(path, list, line, left);
    if (is_word(word, "cover") && !is_quoted(&left))
        return read_numbered(list, line, "Fspc", 4, left);
    cursor behind = left;
    uint32_t number;
    if (is_word(word, "release") && read_amount(next_word(&behind), UINT32_MAX, &number) == 0)
        return read_numbered(list, line, "RelN", 2, left);
    return read_blurb_line(b, list, line, word, left);
}

/* ---- the whole list */

static int say_wrong_line(const char *path, size_t line, const char *wrong)
{
    char why[240];
    snprintf(why, sizeof why, "line %zu: %s", line, wrong);
    return say_cannot(path, why, "Lines of a list are such as `Pict 1 PNG cover.png`; `blorb unpack` writes one. Lines that are empty or begin with # or !\n"
                      "  are passed over.");
}

static int finish(const char *path, blurb *b, items *list)
{
    size_t line = 0;
    const char *wrong = finish_blurb(b, list, &line);
    if (wrong != NULL)
        return say_wrong_line(path, line, wrong);
    if (lines_passed_over(b) > 0) {
        fputs("blorb: ", stderr);
        say_safely(path);
        fprintf(stderr, ": passed over %zu line%s about web pages and other files, which are no part of a Blorb file.\n", lines_passed_over(b),
                plural(lines_passed_over(b)));
    }
    return CARRIED_OUT;
}

static int read_lines(const char *path, bytes held, blurb *b, items *list)
{
    bytes line;
    for (lines l = lines_of(held); next_line(&l, &line);) {
        cursor left = {line.at, line.at + line.length};
        pass_spaces(&left);
        if (left.at == left.end || *left.at == '#' || *left.at == '!')
            continue;
        const char *wrong = read_line(path, b, list, l.number, left);
        if (wrong != NULL)
            return say_wrong_line(path, l.number, wrong);
    }
    return finish(path, b, list);
}

int read_items(const char *path, bytes held, items *list)
{
    *list = (items){0};
    blurb *b = begin_blurb(path);
    int status = b == NULL ? say_failed(path, "the list cannot be read") : read_lines(path, held, b, list);
    free_blurb(b);
    return status;
}
