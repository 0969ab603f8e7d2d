#include "metadata.h"

#include <stdlib.h>
#include <string.h>

#include "xml.h"

const char *const metadata_labels[META_FIELDS] = {"title", "headline", "author", "genre", "language", "published", "IFID"};
const char *const metadata_names[META_FIELDS] = {"title", "headline", "author", "genre", "language", "first_published", "ifid"};

/* Where a field stands: ifindex, story, this part, this element. */
static const char *const places[META_FIELDS][2] = {
    {"bibliographic", "title"}, {"bibliographic", "headline"}, {"bibliographic", "author"}, {"bibliographic", "genre"},
    {"bibliographic", "language"}, {"bibliographic", "firstpublished"}, {"identification", "ifid"},
};

enum { LEVELS = 4, STORY_LEVEL = 2 };

typedef struct taking {
    metadata *m;
    bytes open[LEVELS]; /* the outermost elements that are open */
    size_t depth;
    size_t stories;
    char *text; /* of the innermost of them */
    size_t length, room;
    int failed; /* there was no memory */
} taking;

/* A name without its prefix. */
static int is_named(bytes name, const char *wanted)
{
    const uint8_t *colon = memchr(name.at, ':', name.length);
    size_t passed = colon == NULL ? 0 : (size_t)(colon - name.at) + 1;
    return name.length - passed == strlen(wanted) && memcmp(name.at + passed, wanted, name.length - passed) == 0;
}

static void open_element(void *to, bytes name)
{
    taking *t = to;
    if (t->depth < LEVELS)
        t->open[t->depth] = name;
    t->depth++;
    t->stories += t->depth == STORY_LEVEL && is_named(name, "story");
    if (t->depth <= LEVELS)
        t->length = 0;
}

/* White space is one space, and none at the beginning. */
static void take_text(void *to, bytes piece)
{
    taking *t = to;
    if (t->depth < LEVELS || t->failed)
        return;
    if (t->room - t->length < piece.length + 1) {
        size_t room = 2 * t->room + piece.length + 64;
        char *more = realloc(t->text, room);
        t->failed = more == NULL;
        if (t->failed)
            return;
        t->text = more;
        t->room = room;
    }
    for (size_t i = 0; i < piece.length; i++) {
        int space = piece.at[i] == ' ' || piece.at[i] == '\t' || piece.at[i] == '\n';
        if (!space)
            t->text[t->length++] = (char)piece.at[i];
        else if (t->length > 0 && t->text[t->length - 1] != ' ')
            t->text[t->length++] = ' ';
    }
}

static int is_field(const taking *t, size_t i)
{
    return is_named(t->open[0], "ifindex") && is_named(t->open[1], "story") && is_named(t->open[2], places[i][0]) && is_named(t->open[3], places[i][1]);
}

/* The first of each counts, in the first story. */
static void close_element(void *to)
{
    taking *t = to;
    if (t->depth == LEVELS && t->length > 0 && t->text[t->length - 1] == ' ')
        t->length--;
    for (size_t i = 0; i < META_FIELDS && t->depth == LEVELS && t->stories == 1 && t->length > 0; i++) {
        if (!is_field(t, i) || t->m->fields[i] != NULL)
            continue;
        t->m->fields[i] = malloc(t->length + 1);
        t->failed = t->failed || t->m->fields[i] == NULL;
        if (t->failed)
            break;
        memcpy(t->m->fields[i], t->text, t->length);
        t->m->fields[i][t->length] = '\0';
    }
    t->depth--;
}

int read_metadata(bytes held, metadata *m)
{
    taking t = {.m = m};
    const xml_taker taker = {open_element, close_element, take_text, &t};
    *m = (metadata){.fault = NULL};
    if (held.at != NULL)
        m->fault = read_xml(held, &taker, &m->place);
    free(t.text);
    for (size_t i = 0; i < META_FIELDS && m->fault != NULL; i++) {
        free(m->fields[i]);
        m->fields[i] = NULL;
    }
    return t.failed ? -1 : 0;
}

void free_metadata(metadata *m)
{
    for (size_t i = 0; i < META_FIELDS; i++)
        free(m->fields[i]);
}
