#define _XOPEN_SOURCE 700
#include "blurb.h"

#include <stdlib.h>
#include <string.h>

#include "blorb.h"
#include "contents.h"

/* Bytes that grow. */
typedef struct growing {
    uint8_t *at;
    size_t length, room;
} growing;

enum { WINDOW_NUMBERS = 6, FIRST_PICTURE = 1, FIRST_SOUND = 3, COLOUR_DIGITS = 6 };

struct blurb {
    const char *list;
    uint32_t next_picture, next_sound;
    size_t cover_line, palette_line, window_line, scale_line, text_line; /* 0 where there is no such line */
    item cover;         /* only its path */
    int within_palette; /* behind an open brace */
    growing palette, scales, loops;
    uint32_t window[WINDOW_NUMBERS];
    growing texts, rows; /* for the library: rows of BLORB_TEXT_NUMBERS */
    size_t passed_over;
};

blurb *begin_blurb(const char *list)
{
    blurb *b = calloc(1, sizeof *b);
    if (b != NULL) {
        b->list = list;
        b->next_picture = FIRST_PICTURE;
        b->next_sound = FIRST_SOUND; /* the Z-machine has 1 and 2 by itself */
    }
    return b;
}

void free_blurb(blurb *b)
{
    if (b == NULL)
        return;
    free(b->cover.path);
    free(b->palette.at);
    free(b->scales.at);
    free(b->loops.at);
    free(b->texts.at);
    free(b->rows.at);
    free(b);
}

size_t lines_passed_over(const blurb *b)
{
    return b->passed_over;
}

/* ---- pieces; each gives what is wrong, or null */

static const char *grow(growing *g, const void *more, size_t length)
{
    if (g->room - g->length < length) {
        size_t room = 2 * g->room + length + 64;
        uint8_t *at = realloc(g->at, room);
        if (at == NULL)
            return NO_ROOM;
        g->at = at;
        g->room = room;
    }
    if (length > 0)
        memcpy(g->at + g->length, more, length);
    g->length += length;
    return NULL;
}

static const char *grow_number(growing *g, uint32_t number)
{
    uint8_t held[4];
    number_to(held, number);
    return grow(g, held, sizeof held);
}

/* Two numbers with this sign between them. */
static int read_two(bytes word, char between, uint32_t two[2])
{
    const uint8_t *sign = memchr(word.at, between, word.length);
    if (word.length == 0 || sign == NULL)
        return -1;
    size_t first = (size_t)(sign - word.at);
    bytes rest = {sign + 1, word.length - first - 1};
    return read_amount((bytes){word.at, first}, UINT16_MAX, &two[0]) == 0 && read_amount(rest, UINT16_MAX, &two[1]) == 0 ? 0 : -1;
}

/* Up to three pairs: one, `min` one, `max` one. What is left out is zero, which is no limit. */
static int read_limits(cursor *left, char between, uint32_t six[WINDOW_NUMBERS])
{
    memset(six, 0, WINDOW_NUMBERS * sizeof *six);
    if (read_two(next_word(left), between, six) != 0)
        return -1;
    for (bytes word = next_word(left); word.length > 0; word = next_word(left)) {
        uint32_t *to = is_word(word, "min") ? six + 2 : is_word(word, "max") ? six + 4 : NULL;
        if (to == NULL || read_two(next_word(left), between, to) != 0)
            return -1;
    }
    return 0;
}

static const char *keep_text(blurb *b, const item *of, bytes text)
{
    const uint32_t row[BLORB_TEXT_NUMBERS] = {number_in((const uint8_t *)of->usage), of->number, (uint32_t)b->texts.length, (uint32_t)text.length};
    const char *wrong = text.length == 0 ? NULL : grow(&b->rows, row, sizeof row);
    b->text_line = of->line;
    return wrong != NULL ? wrong : grow(&b->texts, text.at, text.length);
}

/* ---- pictures and sounds */

static const char *give_constant(item *added, bytes name)
{
    added->constant = malloc(name.length + 1);
    if (added->constant == NULL)
        return NO_ROOM;
    memcpy(added->constant, name.at, name.length);
    added->constant[name.length] = '\0';
    return NULL;
}

/*
 * A resource of this usage: ID, which is a number or a name, or left out; the file; and maybe a text for those who do not see or hear it. `behind` is
 * the word that follows, if any.
 */
static const char *read_named(blurb *b, item *added, const char usage[4], uint32_t *next, cursor *left, bytes *behind)
{
    const char *wrong = added == NULL ? NO_ROOM : NULL;
    *behind = (bytes){NULL, 0};
    if (wrong != NULL)
        return wrong;
    memcpy(added->usage, usage, sizeof added->usage);
    added->number = *next;
    if (!is_quoted(left)) {
        bytes id = next_word(left);
        if (read_amount(id, UINT32_MAX, &added->number) != 0)
            wrong = give_constant(added, id);
    }
    *next = added->number + 1;
    if (!is_quoted(left))
        return "the name of the file is missing, in quotes";
    if (wrong == NULL)
        wrong = give_path(added, b->list, next_word(left));
    if (wrong == NULL && is_quoted(left))
        wrong = keep_text(b, added, next_word(left));
    *behind = next_word(left);
    return wrong;
}

static const char *read_scale(blurb *b, size_t line, uint32_t number, cursor *left)
{
    uint32_t six[WINDOW_NUMBERS];
    const char *wrong = grow_number(&b->scales, number);
    if (read_limits(left, '/', six) != 0)
        return "behind scale stands a ratio such as 3/2, and maybe min or max with another";
    for (size_t i = 0; i < WINDOW_NUMBERS && wrong == NULL; i++)
        wrong = grow_number(&b->scales, six[i]);
    b->scale_line = line;
    return wrong;
}

static const char *read_picture(blurb *b, items *list, size_t line, cursor left)
{
    bytes word;
    item *added = add_item(list, ADD_RESOURCE, line);
    const char *wrong = read_named(b, added, "Pict", &b->next_picture, &left, &word);
    if (wrong != NULL || word.length == 0)
        return wrong;
    return is_word(word, "scale") ? read_scale(b, line, added->number, &left) : "behind the picture's file only a text in quotes or scale may stand";
}

/* `repeat 1` and `repeat forever` are one flag of a sound that a game of version 3 plays. */
static const char *read_repeat(blurb *b, uint32_t number, bytes times)
{
    uint32_t value = 0;
    if (!is_word(times, "forever") && read_amount(times, UINT32_MAX, &value) != 0)
        return "behind repeat stands a number or forever";
    const char *wrong = grow_number(&b->loops, number);
    return wrong != NULL ? wrong : grow_number(&b->loops, value);
}

static const char *read_sound(blurb *b, items *list, size_t line, cursor left)
{
    bytes word;
    item *added = add_item(list, ADD_RESOURCE, line);
    const char *wrong = read_named(b, added, "Snd ", &b->next_sound, &left, &word);
    if (wrong != NULL || word.length == 0)
        return wrong;
    if (is_word(word, "repeat"))
        return read_repeat(b, added->number, next_word(&left));
    if (!is_word(word, "music") && !is_word(word, "song"))
        return "behind the sound's file only a text in quotes, repeat, music or song may stand";
    memcpy(added->type, is_word(word, "song") ? "SONG" : "MOD ", sizeof added->type);
    return NULL;
}

/* ---- the story and what is told of it */

static const char *read_story(blurb *b, items *list, size_t line, cursor left)
{
    if (!is_quoted(&left)) {
        b->passed_over++; /* storyfile leafname "..", the name of what is made */
        return NULL;
    }
    bytes name = next_word(&left), word = next_word(&left);
    item *added = add_item(list, is_word(word, "include") ? ADD_RESOURCE : PUT_IDENTITY, line);
    if (added == NULL)
        return NO_ROOM;
    memcpy(added->usage, "Exec", sizeof added->usage);
    if (added->kind == PUT_IDENTITY)
        memcpy(added->type, "IFhd", sizeof added->type);
    return give_path(added, b->list, name);
}

static const char *read_metadata(blurb *b, items *list, size_t line, cursor left)
{
    int quoted = is_quoted(&left);
    bytes name = next_word(&left), word = next_word(&left);
    if (!quoted || !is_word(word, "include")) {
        b->passed_over++;
        return NULL;
    }
    item *added = add_item(list, PUT_CHUNK, line);
    if (added == NULL)
        return NO_ROOM;
    memcpy(added->type, "IFmd", sizeof added->type);
    return give_path(added, b->list, name);
}

static const char *read_message(items *list, size_t line, const char type[4], cursor left)
{
    if (!is_quoted(&left))
        return "behind author and copyright stands a text in quotes";
    return add_chunk(list, line, type, next_word(&left)) == 0 ? NULL : NO_ROOM;
}

static const char *read_cover(blurb *b, size_t line, cursor left)
{
    if (b->cover_line != 0)
        return "there is a cover already";
    b->cover_line = line;
    return give_path(&b->cover, b->list, next_word(&left));
}

static const char *read_window(blurb *b, size_t line, cursor left)
{
    if (b->window_line != 0)
        return "there is a resolution already";
    b->window_line = line;
    return read_limits(&left, 'x', b->window) == 0 ? NULL : "behind resolution stands a window such as 640x480, and maybe min or max with another";
}

/* ---- the palette: 16 bit, 32 bit, or colours of six hexadecimal digits between braces, over as many lines as are needed */

static const char *read_colour(blurb *b, bytes word)
{
    uint8_t colour[COLOUR_DIGITS / 2] = {0};
    for (size_t i = 0; i < word.length && i < COLOUR_DIGITS; i++) {
        const char *digits = "0123456789abcdef0123456789ABCDEF";
        const char *found = word.at[i] == 0 ? NULL : strchr(digits, word.at[i]);
        if (found == NULL)
            return "a colour of the palette has six hexadecimal digits";
        colour[i / 2] = (uint8_t)(colour[i / 2] << 4 | ((found - digits) & 15));
    }
    return word.length == COLOUR_DIGITS ? grow(&b->palette, colour, sizeof colour) : "a colour of the palette has six hexadecimal digits";
}

static const char *read_colours(blurb *b, cursor left)
{
    const char *wrong = NULL;
    for (bytes word = next_word(&left); word.length > 0 && wrong == NULL; word = next_word(&left)) {
        if (is_word(word, "}"))
            b->within_palette = 0;
        else
            wrong = b->within_palette ? read_colour(b, word) : "something stands behind the palette";
    }
    return wrong;
}

static const char *read_palette(blurb *b, size_t line, cursor left)
{
    if (b->palette_line != 0)
        return "there is a palette already";
    bytes word = next_word(&left);
    const uint8_t bits = is_word(word, "16") ? 16 : is_word(word, "32") ? 32 : 0;
    b->palette_line = line;
    b->within_palette = is_word(word, "{");
    if (b->within_palette)
        return read_colours(b, left);
    return bits != 0 && is_word(next_word(&left), "bit") ? grow(&b->palette, &bits, 1) : "behind palette stands 16 bit, 32 bit or { with colours and }";
}

/* ---- lines */

/* What cblorb does besides, for web pages and the folder of a release. */
static int is_about_other_files(bytes word, cursor left)
{
    static const char *const words[] = {"auxiliary", "base64", "css", "interpreter", "placeholder", "project", "solution", "source", "status",
                                        "template", "website"};
    for (size_t i = 0; i < sizeof words / sizeof *words; i++)
        if (is_word(word, words[i]))
            return 1;
    bytes next = next_word(&left);
    return is_word(word, "release") && (is_word(next, "file") || is_word(next, "source") || is_word(next, "to"));
}

const char *read_blurb_line(blurb *b, items *list, size_t line, bytes word, cursor left)
{
    cursor whole = {word.at, left.end};
    if (b->within_palette)
        return read_colours(b, whole);
    if (is_word(word, "picture"))
        return read_picture(b, list, line, left);
    if (is_word(word, "sound"))
        return read_sound(b, list, line, left);
    if (is_word(word, "storyfile"))
        return read_story(b, list, line, left);
    if (is_word(word, "ifiction"))
        return read_metadata(b, list, line, left);
    if (is_word(word, "author") || is_word(word, "copyright"))
        return read_message(list, line, is_word(word, "author") ? "AUTH" : "(c) ", left);
    if (is_word(word, "cover"))
        return read_cover(b, line, left);
    if (is_word(word, "resolution"))
        return read_window(b, line, left);
    if (is_word(word, "palette"))
        return read_palette(b, line, left);
    if (!is_about_other_files(word, left))
        return "a line begins with Pict, Snd, Data, Exec, link, chunk, cover, release or texts, or with a word of a Blurb script";
    b->passed_over++;
    return NULL;
}

/* ---- the end */

static const item *picture_with(const items *list, const char *path)
{
    for (size_t i = 0; i < list->count; i++) {
        const item *it = &list->at[i];
        if (it->kind == ADD_RESOURCE && memcmp(it->usage, "Pict", 4) == 0 && strcmp(it->path, path) == 0)
            return it;
    }
    return NULL;
}

static int has_number(const items *list, uint32_t number)
{
    for (size_t i = 0; i < list->count; i++)
        if (list->at[i].kind == ADD_RESOURCE && memcmp(list->at[i].usage, "Pict", 4) == 0 && list->at[i].number == number)
            return 1;
    return 0;
}

/* The picture that a line gives the same file; where none does it is added, as picture 1 if that is free. */
static const char *finish_cover(blurb *b, items *list)
{
    growing held = {0};
    const item *found = picture_with(list, b->cover.path);
    uint32_t number = found != NULL ? found->number : has_number(list, FIRST_PICTURE) ? b->next_picture : FIRST_PICTURE;
    if (found == NULL) {
        item *added = add_item(list, ADD_RESOURCE, b->cover_line);
        if (added == NULL)
            return NO_ROOM;
        memcpy(added->usage, "Pict", sizeof added->usage);
        added->number = number;
        added->path = b->cover.path;
        b->cover.path = NULL;
    }
    const char *wrong = grow_number(&held, number);
    if (wrong == NULL && add_chunk(list, b->cover_line, "Fspc", (bytes){held.at, held.length}) != 0)
        wrong = NO_ROOM;
    free(held.at);
    return wrong;
}

static const char *finish_scaling(blurb *b, items *list)
{
    growing held = {0};
    const char *wrong = NULL;
    for (size_t i = 0; i < WINDOW_NUMBERS && wrong == NULL; i++)
        wrong = grow_number(&held, b->window[i]);
    if (wrong == NULL)
        wrong = grow(&held, b->scales.at, b->scales.length);
    if (wrong == NULL && add_chunk(list, b->window_line, "Reso", (bytes){held.at, held.length}) != 0)
        wrong = NO_ROOM;
    free(held.at);
    return wrong;
}

static const char *finish_texts(blurb *b, items *list)
{
    uint8_t *room = malloc(BLORB_MAX_SIZE);
    const char *wrong = room == NULL ? NO_ROOM : NULL;
    if (wrong == NULL) {
        blorb_write_answer a = blorb_texts_write((const uint32_t *)(const void *)b->rows.at, b->rows.length / sizeof(uint32_t), b->texts.at,
                                                 b->texts.length, room, BLORB_MAX_SIZE);
        wrong = a.refusal == BLORB_DONE ? NULL : blorb_sentence(a.refusal);
    }
    if (wrong == NULL && add_chunk(list, b->text_line, "RDes", data_at(room, 0)) != 0)
        wrong = NO_ROOM;
    free(room);
    return wrong;
}

const char *finish_blurb(blurb *b, items *list, size_t *line)
{
    *line = b->palette_line;
    if (b->within_palette)
        return "the palette has no closing brace";
    if (b->palette_line != 0 && add_chunk(list, b->palette_line, "Plte", (bytes){b->palette.at, b->palette.length}) != 0)
        return NO_ROOM;
    *line = b->scale_line;
    if (b->scale_line != 0 && b->window_line == 0)
        return "scale needs a line with the resolution";
    *line = b->window_line;
    const char *wrong = b->window_line == 0 ? NULL : finish_scaling(b, list);
    if (wrong == NULL && b->loops.length > 0 && add_chunk(list, 0, "Loop", (bytes){b->loops.at, b->loops.length}) != 0)
        wrong = NO_ROOM;
    if (wrong == NULL && b->rows.length > 0) {
        *line = b->text_line;
        wrong = finish_texts(b, list);
    }
    if (wrong == NULL && b->cover_line != 0) {
        *line = b->cover_line;
        wrong = finish_cover(b, list);
    }
    return wrong;
}
