#define _XOPEN_SOURCE 700
#include "xml.h"

#include <stdint.h>
#include <string.h>
#include <strings.h>

#include "utf8.h"

/* Documents of this kind have five levels and a few attributes. */
enum { MOST_LEVELS = 200, MOST_ATTRIBUTES = 64 };

typedef struct reader {
    const uint8_t *begin, *at, *end;
    const xml_taker *taker;
    const char *wrong; /* once it is set, reading is over */
    const uint8_t *fault;
    bytes open[MOST_LEVELS]; /* names of the elements that are open */
    size_t depth;
} reader;

/* The first fault counts. Gives 0, so that a caller can hand it on. */
static int fail(reader *r, const char *wrong)
{
    if (r->wrong == NULL) {
        r->wrong = wrong;
        r->fault = r->at;
    }
    return 0;
}

/* ---- characters */

static int is_allowed(uint32_t c)
{
    return c == '\t' || c == '\n' || c == '\r' || (c >= ' ' && c <= 0xd7ff) || (c >= 0xe000 && c <= 0xfffd) || (c >= 0x10000 && c <= 0x10ffff);
}

static int is_space(uint8_t c)
{
    return c == ' ' || c == '\t' || c == '\n' || c == '\r';
}

static int is_name_start(uint32_t c)
{
    static const uint32_t ranges[][2] = {{':', ':'}, {'A', 'Z'}, {'_', '_'}, {'a', 'z'}, {0xc0, 0xd6}, {0xd8, 0xf6}, {0xf8, 0x2ff}, {0x370, 0x37d},
                                         {0x37f, 0x1fff}, {0x200c, 0x200d}, {0x2070, 0x218f}, {0x2c00, 0x2fef}, {0x3001, 0xd7ff}, {0xf900, 0xfdcf},
                                         {0xfdf0, 0xfffd}, {0x10000, 0xeffff}};
    for (size_t i = 0; i < sizeof ranges / sizeof *ranges; i++)
        if (c >= ranges[i][0] && c <= ranges[i][1])
            return 1;
    return 0;
}

static int is_name_part(uint32_t c)
{
    return is_name_start(c) || c == '-' || c == '.' || (c >= '0' && c <= '9') || c == 0xb7 || (c >= 0x300 && c <= 0x36f) || (c >= 0x203f && c <= 0x2040);
}

/* How many bytes the character here has; 0 where it may not be in a document, or where that ends. */
static size_t character(reader *r, uint32_t *c)
{
    size_t length = character_at(r->at, (size_t)(r->end - r->at), c);
    if (length == 0 || !is_allowed(*c)) {
        fail(r, r->at == r->end ? "it ends too early" : length == 0 ? "this is no UTF-8" : "this character may not be in XML");
        return 0;
    }
    return length;
}

static int begins(const reader *r, const char *text)
{
    size_t length = strlen(text);
    return (size_t)(r->end - r->at) >= length && memcmp(r->at, text, length) == 0;
}

/* Passes this text, if it stands here. */
static int passed(reader *r, const char *text)
{
    int found = begins(r, text);
    r->at += found ? strlen(text) : 0;
    return found;
}

static int pass_spaces(reader *r)
{
    const uint8_t *begun = r->at;
    while (r->at < r->end && is_space(*r->at))
        r->at++;
    return r->at > begun;
}

/* All characters up to this text, and the text. */
static int pass_up_to(reader *r, const char *text, bytes *within)
{
    const uint8_t *begun = r->at;
    uint32_t c;
    while (r->wrong == NULL && !begins(r, text))
        r->at += character(r, &c);
    *within = (bytes){begun, (size_t)(r->at - begun)};
    return r->wrong == NULL && passed(r, text);
}

static int name(reader *r, bytes *found)
{
    const uint8_t *begun = r->at;
    uint32_t c = 0;
    size_t length = r->at < r->end ? character(r, &c) : 0;
    if (length == 0 || !is_name_start(c))
        return fail(r, "here a name should stand");
    while (length > 0 && is_name_part(c)) {
        r->at += length;
        length = r->at < r->end ? character(r, &c) : 0;
    }
    *found = (bytes){begun, (size_t)(r->at - begun)};
    return r->wrong == NULL;
}

static int same_name(bytes a, bytes b)
{
    return a.length == b.length && memcmp(a.at, b.at, a.length) == 0;
}

/* ---- text */

static void tell(const reader *r, const void *at, size_t length)
{
    if (length > 0 && r->depth > 0)
        r->taker->text(r->taker->to, (bytes){at, length});
}

/* Text as it stands, but with one kind of line end. */
static void tell_lines(const reader *r, bytes text)
{
    const uint8_t *at = text.at, *end = text.at + text.length;
    while (at < end) {
        const uint8_t *cr = memchr(at, '\r', (size_t)(end - at)), *stop = cr != NULL ? cr : end;
        tell(r, at, (size_t)(stop - at));
        if (cr != NULL && (cr + 1 == end || cr[1] != '\n'))
            tell(r, "\n", 1);
        at = cr != NULL ? cr + 1 : end;
    }
}

static int digit(uint8_t c, uint32_t base)
{
    int value = c >= '0' && c <= '9' ? c - '0' : c >= 'a' && c <= 'f' ? c - 'a' + 10 : c >= 'A' && c <= 'F' ? c - 'A' + 10 : -1;
    return value < (int)base ? value : -1;
}

/* &#233; or &#xe9; behind &# */
static int numbered(reader *r, uint32_t *c)
{
    uint32_t base = passed(r, "x") ? 16 : 10;
    const uint8_t *begun = r->at;
    *c = 0;
    for (; r->at < r->end && digit(*r->at, base) >= 0; r->at++)
        *c = *c > 0x10ffff ? *c : *c * base + (uint32_t)digit(*r->at, base);
    if (r->at == begun || !passed(r, ";"))
        return fail(r, "this is no number of a character");
    return is_allowed(*c) ? 1 : fail(r, "a character of this number may not be in XML");
}

/* A reference, behind its &. In an attribute it is told to nobody. */
static int reference(reader *r, int is_text)
{
    static const char *const entities[][2] = {{"amp;", "&"}, {"lt;", "<"}, {"gt;", ">"}, {"quot;", "\""}, {"apos;", "'"}};
    uint8_t room[CHARACTER_SIZE];
    uint32_t c;
    if (passed(r, "#")) {
        if (!numbered(r, &c))
            return 0;
        if (is_text)
            tell(r, room, put_character(c, room));
        return 1;
    }
    for (size_t i = 0; i < sizeof entities / sizeof *entities; i++)
        if (passed(r, entities[i][0])) {
            if (is_text)
                tell(r, entities[i][1], 1);
            return 1;
        }
    return fail(r, "behind & the name or number of a character should stand, and ;");
}

/* Text up to the next tag or the end. */
static int text(reader *r)
{
    const uint8_t *begun = r->at;
    uint32_t c;
    while (r->wrong == NULL && r->at < r->end && *r->at != '<') {
        if (begins(r, "]]>"))
            return fail(r, "]]> may not be in a text");
        if (*r->at != '&') {
            r->at += character(r, &c);
            continue;
        }
        tell_lines(r, (bytes){begun, (size_t)(r->at - begun)});
        r->at++;
        reference(r, 1);
        begun = r->at;
    }
    if (r->wrong == NULL)
        tell_lines(r, (bytes){begun, (size_t)(r->at - begun)});
    return r->wrong == NULL;
}

/* ---- tags */

static int attribute_value(reader *r)
{
    uint32_t c;
    const char quote = begins(r, "\"") ? '"' : begins(r, "'") ? '\'' : 0;
    if (quote == 0)
        return fail(r, "the value of an attribute stands in quotes");
    for (r->at++; r->wrong == NULL && (r->at == r->end || *r->at != (uint8_t)quote);) {
        if (begins(r, "<"))
            return fail(r, "< may not be in the value of an attribute");
        if (passed(r, "&"))
            reference(r, 0);
        else
            r->at += character(r, &c);
    }
    if (r->wrong == NULL)
        r->at++;
    return r->wrong == NULL;
}

/* Up to the end of the tag, > or />. */
static int attributes(reader *r)
{
    bytes names[MOST_ATTRIBUTES];
    size_t count = 0;
    for (;;) {
        int apart = pass_spaces(r);
        if (begins(r, ">") || begins(r, "/>"))
            return 1;
        if (!apart || count == MOST_ATTRIBUTES)
            return fail(r, count == MOST_ATTRIBUTES ? "there are too many attributes" : "the tag is not closed");
        if (!name(r, &names[count]))
            return 0;
        for (size_t i = 0; i < count; i++)
            if (same_name(names[i], names[count]))
                return fail(r, "the tag has this attribute twice");
        count++;
        pass_spaces(r);
        if (!passed(r, "="))
            return fail(r, "the attribute has no value");
        pass_spaces(r);
        if (!attribute_value(r))
            return 0;
    }
}

/* Behind <. */
static int opening_tag(reader *r)
{
    bytes found;
    if (!name(r, &found) || !attributes(r))
        return 0;
    if (r->depth == MOST_LEVELS)
        return fail(r, "the elements are nested too deep");
    r->open[r->depth++] = found;
    r->taker->open(r->taker->to, found);
    if (passed(r, "/>")) {
        r->depth--;
        r->taker->close(r->taker->to);
        return 1;
    }
    return passed(r, ">");
}

/* Behind </. */
static int closing_tag(reader *r)
{
    bytes found;
    if (!name(r, &found))
        return 0;
    if (r->depth == 0 || !same_name(found, r->open[r->depth - 1]))
        return fail(r, "this closes another element than the one that is open");
    pass_spaces(r);
    if (!passed(r, ">"))
        return fail(r, "the tag is not closed");
    r->depth--;
    r->taker->close(r->taker->to);
    return 1;
}

/* Behind <!--. */
static int comment(reader *r)
{
    bytes within;
    if (!pass_up_to(r, "--", &within))
        return 0;
    return passed(r, ">") ? 1 : fail(r, "-- may not be in a comment");
}

/* Behind <?; what is within is for other programs. */
static int instruction(reader *r)
{
    bytes target, within;
    if (!name(r, &target))
        return 0;
    if (target.length == 3 && strncasecmp((const char *)target.at, "xml", 3) == 0)
        return fail(r, "an XML declaration stands only at the beginning");
    if (!begins(r, "?>") && !pass_spaces(r))
        return fail(r, "here a space or ?> should stand");
    return pass_up_to(r, "?>", &within);
}

/* Behind <![CDATA[. */
static int plain_text(reader *r)
{
    bytes within;
    if (!pass_up_to(r, "]]>", &within))
        return 0;
    tell_lines(r, within);
    return 1;
}

/* ---- the document */

/* ` name = "value"` of the declaration, if it stands here. */
static int declared(reader *r, const char *what, bytes *value)
{
    reader behind = *r;
    if (!pass_spaces(&behind) || !passed(&behind, what))
        return 0;
    pass_spaces(&behind);
    if (!passed(&behind, "="))
        return 0;
    pass_spaces(&behind);
    const char *quote = passed(&behind, "\"") ? "\"" : passed(&behind, "'") ? "'" : NULL;
    if (quote == NULL || !pass_up_to(&behind, quote, value))
        return 0;
    r->at = behind.at;
    return 1;
}

static int is_value(bytes value, const char *text)
{
    return value.length == strlen(text) && strncasecmp((const char *)value.at, text, value.length) == 0;
}

/* 1. and digits. */
static int is_version(bytes value)
{
    int right = value.length >= 3 && memcmp(value.at, "1.", 2) == 0;
    for (size_t i = 2; i < value.length; i++)
        right = right && digit(value.at[i], 10) >= 0;
    return right;
}

/* Behind <?xml and a space: the version, and maybe the encoding and whether it stands alone. */
static int declaration(reader *r)
{
    bytes value;
    if (!declared(r, "version", &value) || !is_version(value))
        return fail(r, "the XML declaration has no version that is known");
    if (declared(r, "encoding", &value) && !is_value(value, "UTF-8") && !is_value(value, "US-ASCII"))
        return fail(r, "the encoding is not UTF-8");
    if (declared(r, "standalone", &value) && !same_name(value, (bytes){(const uint8_t *)"yes", 3}) && !same_name(value, (bytes){(const uint8_t *)"no", 2}))
        return fail(r, "standalone is yes or no");
    pass_spaces(r);
    return passed(r, "?>") ? 1 : fail(r, "the XML declaration is not closed");
}

/* What stands at a <. */
static int markup(reader *r, int roots)
{
    if (passed(r, "<!--"))
        return comment(r);
    if (passed(r, "<?"))
        return instruction(r);
    if (r->depth > 0 && passed(r, "<![CDATA["))
        return plain_text(r);
    if (begins(r, "<!"))
        return fail(r, begins(r, "<!DOCTYPE") ? "it has a document type, which is not read" : "this is no tag");
    if (r->depth > 0 && passed(r, "</"))
        return closing_tag(r);
    if (r->depth == 0 && roots > 0)
        return fail(r, "something stands behind the document");
    r->at++;
    return opening_tag(r);
}

static void document(reader *r)
{
    int roots = 0;
    passed(r, "\xef\xbb\xbf");
    if (begins(r, "<?xml") && r->end - r->at > 5 && is_space(r->at[5])) {
        r->at += 5;
        declaration(r);
    }
    while (r->wrong == NULL && r->at < r->end) {
        size_t before = r->depth;
        if (before == 0)
            pass_spaces(r);
        if (r->at < r->end && *r->at == '<') {
            const uint8_t *tag = r->at;
            markup(r, roots);
            roots += before == 0 && r->wrong == NULL && tag[1] != '!' && tag[1] != '?';
        } else if (before > 0) {
            text(r);
        } else if (r->at < r->end) {
            fail(r, "text stands outside of the document");
        }
    }
    if (r->wrong == NULL && (r->depth > 0 || roots == 0))
        fail(r, roots == 0 ? "there is no element" : "it ends too early");
}

const char *read_xml(bytes held, const xml_taker *taker, size_t *place)
{
    reader r = {.begin = held.at, .at = held.at, .end = held.at + held.length, .taker = taker};
    document(&r);
    *place = r.wrong == NULL ? 0 : (size_t)(r.fault - r.begin);
    return r.wrong;
}
