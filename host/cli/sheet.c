/* sheet: one page that shows all of a file in a browser. It needs no script and nothing from anywhere else; what comes from the file is escaped. */
#define _XOPEN_SOURCE 700
#include <errno.h>
#include <fcntl.h>
#include <inttypes.h>
#include <stdio.h>
#include <stdlib.h>
#include <string.h>

#include "blorb.h"
#include "commands.h"
#include "contents.h"
#include "describing.h"
#include "facts.h"
#include "html.h"
#include "kinds.h"
#include "names.h"
#include "overview.h"
#include "reading.h"
#include "sheet_style.h"
#include "warnings.h"
#include "waves.h"
#include "words.h"

enum { PREVIEW = 2000 }; /* bytes of a text that are shown */

typedef struct sheet {
    const request *r;
    const contents *c;
    overview o;
    facts f;
    text *texts; /* by usage and number */
    size_t texts_count, texts_room;
    size_t *order; /* entries by usage and number */
    FILE *to;
} sheet;

/* ---- order and texts */

typedef struct keyed {
    uint32_t usage, number;
    size_t i;
} keyed;

static int compare_pairs(uint32_t usage, uint32_t number, uint32_t other_usage, uint32_t other_number)
{
    if (usage != other_usage)
        return usage < other_usage ? -1 : 1;
    return (number > other_number) - (number < other_number);
}

static int compare_keyed(const void *a, const void *b)
{
    const keyed *one = a, *other = b;
    return compare_pairs(one->usage, one->number, other->usage, other->number);
}

static int compare_texts(const void *a, const void *b)
{
    const text *one = a, *other = b;
    return compare_pairs(one->usage, one->number, other->usage, other->number);
}

/* Numbers from low to high: the index has the order of the chunks. Gives 0, or -1 and errno. */
static int put_in_order(sheet *s)
{
    size_t count = (size_t)s->c->read.count;
    keyed *keys = malloc(count * sizeof *keys + 1);
    s->order = malloc(count * sizeof *s->order + 1);
    for (size_t i = 0; keys != NULL && s->order != NULL && i < count; i++) {
        entry e = entry_at(s->c->file, i);
        keys[i] = (keyed){number_in((const uint8_t *)e.usage), e.number, i};
    }
    int done = keys == NULL || s->order == NULL ? -1 : 0;
    if (done == 0 && count > 0)
        qsort(keys, count, sizeof *keys, compare_keyed);
    for (size_t i = 0; done == 0 && i < count; i++)
        s->order[i] = keys[i].i;
    free(keys);
    return done;
}

static int keep_text(const text *t, void *with)
{
    sheet *s = with;
    if (s->texts_count == s->texts_room) {
        size_t room = 2 * s->texts_room + 64;
        text *more = realloc(s->texts, room * sizeof *more);
        if (more == NULL)
            return -1;
        s->texts = more;
        s->texts_room = room;
    }
    s->texts[s->texts_count++] = *t;
    return 0;
}

/* The text of a resource, or null. */
static const text *text_of(const sheet *s, const entry *e)
{
    text sought = {.usage = number_in((const uint8_t *)e->usage), .number = e->number};
    return s->texts_count == 0 ? NULL : bsearch(&sought, s->texts, s->texts_count, sizeof sought, compare_texts);
}

/* ---- pieces */

static void put_usage(FILE *to, const char tag[4])
{
    html_text(to, (bytes){(const uint8_t *)tag, (size_t)tag_length(tag)});
}

static void put_pair(FILE *to, const entry *e)
{
    put_usage(to, e->usage);
    fprintf(to, " %" PRIu32, e->number);
}

/* Usages are known ones here, so this is a word. */
static void put_anchor(FILE *to, const entry *e)
{
    put_usage(to, e->usage);
    fprintf(to, "-%" PRIu32, e->number);
}

static void put_link(FILE *to, const entry *e)
{
    fputs("<a href=\"#", to);
    put_anchor(to, e);
    fputs("\">", to);
    put_pair(to, e);
    fputs("</a>", to);
}

static void put_size(FILE *to, uint64_t length)
{
    html_number(to, length);
    fprintf(to, " byte%s", plural(length));
}

/* The first entry on the resource's chunk: there the data is shown. */
static entry first_on(const sheet *s, const resource *r)
{
    return entry_at(s->c->file, entries_on(s->c, &s->o, r->entry.start).first);
}

static int is_first(const sheet *s, const resource *r)
{
    entry first = first_on(s, r);
    return memcmp(first.usage, r->entry.usage, 4) == 0 && first.number == r->entry.number;
}

/* Which others have the same chunk. */
static void put_sharers(const sheet *s, const resource *r)
{
    enum { MOST = 8 };
    run_of_entries on = entries_on(s->c, &s->o, r->entry.start);
    size_t shown = 0;
    if (on.count < 2)
        return;
    fputs("<p class=\"shared\">shared with ", s->to);
    for (size_t i = on.first; i < on.first + on.count && shown < MOST; i++) {
        entry e = entry_at(s->c->file, i);
        if (memcmp(e.usage, r->entry.usage, 4) == 0 && e.number == r->entry.number)
            continue;
        fputs(shown++ > 0 ? ", " : "", s->to);
        put_link(s->to, &e);
    }
    if (on.count - 1 > shown)
        fprintf(s->to, " and %zu more", on.count - 1 - shown);
    fputs("</p>", s->to);
}

/* Number, type, size, marks, and the text for those who do not see or hear it. */
static void put_caption(const sheet *s, const resource *r)
{
    const text *t = text_of(s, &r->entry);
    fputs("<p class=\"name\"><b>", s->to);
    put_pair(s->to, &r->entry);
    fputs("</b>", s->to);
    if (r->is_frontispiece)
        fputs(" <span class=\"cover\">cover</span>", s->to);
    if (!r->suits)
        fputs(" <span class=\"doubt\">not what its type stands for</span>", s->to);
    fputs("</p><p class=\"facts\">", s->to);
    put_usage(s->to, r->type);
    if (r->has_size)
        fprintf(s->to, ", %" PRIu32 " by %" PRIu32, r->width, r->height);
    fputs(", ", s->to);
    put_size(s->to, r->held.length);
    if (r->is_aiff && r->sound.refusal == BLORB_DONE)
        fprintf(s->to, ", %" PRIu32 " Hz, %" PRIu32 " channel%s, %" PRIu32 " bits, %" PRIu32 ":%02" PRIu32, r->sound.rate, r->sound.channels,
                plural(r->sound.channels), r->sound.sample_size, r->sound.seconds / 60, r->sound.seconds % 60);
    fputs("</p>", s->to);
    put_sharers(s, r);
    if (t != NULL) {
        fputs("<p class=\"text\"><bdi>", s->to);
        html_text(s->to, t->held);
        fputs("</bdi></p>", s->to);
    }
}

static void put_same(const sheet *s, const resource *r)
{
    entry first = first_on(s, r);
    fputs("<p class=\"same\">the same as ", s->to);
    put_link(s->to, &first);
    fputs("</p>", s->to);
}

/* ---- pictures */

static const char *picture_type(const char type[4])
{
    return memcmp(type, "PNG ", 4) == 0 ? "image/png" : memcmp(type, "JPEG", 4) == 0 ? "image/jpeg" : memcmp(type, "GIF ", 4) == 0 ? "image/gif" : NULL;
}

static void put_rectangle(const sheet *s, const resource *r)
{
    uint32_t width = r->width > 0 ? r->width : 1, height = r->height > 0 ? r->height : 1;
    fprintf(s->to, "<div class=\"rect\" style=\"width:%" PRIu32 "px;aspect-ratio:%" PRIu32 "/%" PRIu32 "\">%" PRIu32 " by %" PRIu32 "</div>", width, width,
            height, r->width, r->height);
}

static void put_image(const sheet *s, const resource *r)
{
    const text *t = text_of(s, &r->entry);
    fputs("<img alt=\"", s->to);
    if (t != NULL)
        html_text(s->to, t->held);
    else
        put_pair(s->to, &r->entry);
    fputs("\" src=\"", s->to);
    html_data(s->to, picture_type(r->type), r->held);
    fputs("\">", s->to);
}

static void put_picture(const sheet *s, const resource *r)
{
    fputs("<figure id=\"", s->to);
    put_anchor(s->to, &r->entry);
    fputs("\"><div class=\"frame\">", s->to);
    if (!is_first(s, r))
        put_same(s, r);
    else if (memcmp(r->type, "Rect", 4) == 0)
        put_rectangle(s, r);
    else
        put_image(s, r);
    fputs("</div><figcaption>", s->to);
    put_caption(s, r);
    fputs("</figcaption></figure>\n", s->to);
}

/* ---- sounds, data and stories */

static const char *sound_type(const char type[4])
{
    return memcmp(type, "OGGV", 4) == 0 ? "audio/ogg" : memcmp(type, "WAV ", 4) == 0 ? "audio/wav" : memcmp(type, "MP3 ", 4) == 0 ? "audio/mpeg" : NULL;
}

static void put_player(const sheet *s, const char *type, bytes held)
{
    fputs("<audio controls preload=\"metadata\" src=\"", s->to);
    html_data(s->to, type, held);
    fputs("\"></audio>", s->to);
}

static void put_sound(const sheet *s, const resource *r)
{
    uint8_t *room = NULL;
    const char *type = sound_type(r->type);
    bytes wav = r->is_aiff ? wav_of(r->held, &r->sound, &room) : (bytes){NULL, 0};
    if (!is_first(s, r))
        put_same(s, r);
    else if (type != NULL)
        put_player(s, type, r->held);
    else if (wav.length > 0)
        put_player(s, "audio/wav", wav);
    else
        fputs("<p class=\"same\">a browser does not play this</p>", s->to);
    free(room);
}

static void put_data(const sheet *s, const resource *r)
{
    bytes shown = {r->held.at, r->held.length < PREVIEW ? r->held.length : PREVIEW};
    if (!is_first(s, r)) {
        put_same(s, r);
    } else if (memcmp(r->type, "TEXT", 4) == 0) {
        fputs("<pre dir=\"auto\">", s->to);
        html_text(s->to, shown);
        fputs(shown.length < r->held.length ? " ..</pre>" : "</pre>", s->to);
    }
}

static void put_other(const sheet *s, const resource *r)
{
    char words[STORY_WORDS];
    fputs("<article id=\"", s->to);
    put_anchor(s->to, &r->entry);
    fputs("\">", s->to);
    put_caption(s, r);
    if (memcmp(r->entry.usage, "Snd ", 4) == 0)
        put_sound(s, r);
    else if (memcmp(r->entry.usage, "Data", 4) == 0)
        put_data(s, r);
    else {
        tell_story(&s->f, words);
        fputs("<p>", s->to);
        html_words(s->to, words);
        fputs("</p>", s->to);
    }
    fputs("</article>\n", s->to);
}

/* All of one usage, or nothing where there are none. */
static void put_section(const sheet *s, const char usage[4], const char *id, const char *title)
{
    size_t count = 0;
    int pictures = memcmp(usage, "Pict", 4) == 0;
    for (size_t i = 0; i < s->c->read.count; i++)
        count += memcmp(entry_at(s->c->file, i).usage, usage, 4) == 0;
    if (count == 0)
        return;
    fprintf(s->to, "<section id=\"%s\"><h2>%s <small>%zu</small></h2><div class=\"%s\">\n", id, title, count, pictures ? "grid" : "rows");
    for (size_t i = 0; i < s->c->read.count; i++) {
        if (memcmp(entry_at(s->c->file, s->order[i]).usage, usage, 4) != 0)
            continue;
        resource r = resource_at(s->c, &s->o, s->order[i]);
        (pictures ? put_picture : put_other)(s, &r);
    }
    fputs("</div></section>\n", s->to);
}

/* ---- the rest of the file */

static int is_words(const char type[4])
{
    return memcmp(type, "AUTH", 4) == 0 || memcmp(type, "(c) ", 4) == 0 || memcmp(type, "ANNO", 4) == 0;
}

static void put_chunk(const sheet *s, uint32_t at)
{
    char shown[SHOWN_SIZE];
    bytes held = data_at(s->c->file, at);
    show_tag(type_at(s->c->file, at), shown);
    fputs("<tr><td>", s->to);
    html_words(s->to, shown);
    fprintf(s->to, "</td><td class=\"number\">%" PRIu32 "</td><td class=\"number\">", at);
    html_number(s->to, held.length);
    fputs("</td><td>", s->to);
    if (is_words(type_at(s->c->file, at))) {
        fputs("<bdi>", s->to);
        html_text(s->to, (bytes){held.at, held.length < PREVIEW ? held.length : PREVIEW});
        fputs("</bdi>", s->to);
    }
    fputs("</td></tr>\n", s->to);
}

static void put_chunks(const sheet *s)
{
    enum { MOST = 5000 };
    size_t count = 0;
    for (uint32_t at = next_chunk(s->c, FIRST_CHUNK); at < s->c->length; at = next_chunk(s->c, at))
        count += !has_entry(s->c, &s->o, at);
    if (count == 0)
        return;
    fprintf(s->to, "<section id=\"chunks\"><h2>Other chunks <small>%zu</small></h2><table><thead><tr><th>type</th><th>start</th><th>bytes</th><th></th></tr>"
            "</thead><tbody>\n", count);
    size_t shown = 0;
    for (uint32_t at = next_chunk(s->c, FIRST_CHUNK); at < s->c->length && shown < MOST; at = next_chunk(s->c, at))
        if (!has_entry(s->c, &s->o, at)) {
            put_chunk(s, at);
            shown++;
        }
    fprintf(s->to, "</tbody></table>%s</section>\n", shown < count ? "<p>and more</p>" : "");
}

static int has_resource(const sheet *s, uint32_t usage, uint32_t number)
{
    size_t low = 0, high = (size_t)s->c->read.count;
    while (low < high) {
        size_t middle = low + (high - low) / 2;
        entry e = entry_at(s->c->file, s->order[middle]);
        int side = compare_pairs(usage, number, number_in((const uint8_t *)e.usage), e.number);
        if (side == 0)
            return 1;
        if (side < 0)
            high = middle;
        else
            low = middle + 1;
    }
    return 0;
}

/* Texts of resources that the file does not have. */
static void put_strangers(const sheet *s)
{
    size_t count = 0;
    for (size_t i = 0; i < s->texts_count; i++) {
        const text *t = &s->texts[i];
        char pair[PAIR_SIZE], tag[4];
        put_tag(t->usage, tag);
        if (has_resource(s, t->usage, t->number))
            continue;
        if (count++ == 0)
            fputs("<section id=\"strangers\"><h2>Texts for resources that are not there</h2><ul>\n", s->to);
        show_pair(tag, t->number, pair);
        fputs("<li>", s->to);
        html_words(s->to, pair);
        fputs(": <bdi>", s->to);
        html_text(s->to, t->held);
        fputs("</bdi></li>\n", s->to);
    }
    fputs(count > 0 ? "</ul></section>\n" : "", s->to);
}

static void put_warning(void *with, const char *about, const char *sentence, const char *advice)
{
    const sheet *s = with;
    fputs("<li>", s->to);
    if (about[0] != '\0') {
        fputs("<b>", s->to);
        html_words(s->to, about);
        fputs("</b>: ", s->to);
    }
    html_words(s->to, sentence);
    if (advice != NULL) {
        fputs(". <i>", s->to);
        html_words(s->to, advice);
        fputs("</i>", s->to);
    }
    fputs("</li>\n", s->to);
}

/* The list is written aside first: where there is no warning, there is no section. */
static void put_warnings(sheet *s)
{
    size_t before = warnings_up_to_now();
    char *listed = NULL;
    size_t length = 0;
    FILE *page = s->to;
    s->to = open_memstream(&listed, &length);
    if (s->to != NULL) {
        take_warnings(put_warning, s);
        warn_of(s->c, s->r->file);
        take_warnings(NULL, NULL);
        fclose(s->to);
    }
    s->to = page;
    size_t count = warnings_up_to_now() - before;
    if (count > 0 && listed != NULL) {
        fprintf(page, "<section id=\"warnings\"><h2>Warnings <small>%zu</small></h2><ul>\n", count);
        fwrite(listed, 1, length, page);
        fputs("</ul></section>\n", page);
    }
    free(listed);
}

/* ---- the head of the page */

static void put_term(const sheet *s, const char *label, bytes told)
{
    if (told.length == 0)
        return;
    fprintf(s->to, "<dt>%s</dt><dd><bdi>", label);
    html_text(s->to, told);
    fputs("</bdi></dd>", s->to);
}

static bytes words_of(const char *text)
{
    return (bytes){(const uint8_t *)text, text == NULL ? 0 : strlen(text)};
}

static bytes title_of(const sheet *s)
{
    const char *slash = strrchr(s->r->file, '/'), *name = slash == NULL ? s->r->file : slash + 1;
    const char *title = s->f.about.fields[META_TITLE];
    return words_of(title != NULL ? title : name);
}

static void put_top(const sheet *s)
{
    fputs("<!doctype html>\n<html lang=\"en\">\n<head>\n<meta charset=\"utf-8\">\n<meta name=\"viewport\" content=\"width=device-width\">\n"
          "<meta http-equiv=\"Content-Security-Policy\" content=\"default-src 'none'; img-src data:; media-src data:; style-src 'unsafe-inline'\">\n<title>",
          s->to);
    html_text(s->to, title_of(s));
    fputs("</title>\n<style>" SHEET_STYLE "</style>\n</head>\n<body>\n", s->to);
}

static void put_facts(const sheet *s)
{
    char words[STORY_WORDS];
    fputs("<header><h1><bdi>", s->to);
    html_text(s->to, title_of(s));
    fputs("</bdi></h1><dl>", s->to);
    for (size_t i = META_HEADLINE; i < META_IFID; i++)
        put_term(s, metadata_labels[i], words_of(s->f.about.fields[i]));
    put_term(s, metadata_labels[META_IFID], ifid_of(&s->f));
    tell_story(&s->f, words);
    put_term(s, "story", words_of(words));
    if (s->o.release != NULL)
        fprintf(s->to, "<dt>release</dt><dd>%" PRIu32 "</dd>", release_in(&s->o));
    if (s->o.frontispiece != NULL)
        fprintf(s->to, "<dt>cover</dt><dd><a href=\"#Pict-%" PRIu32 "\">Pict %" PRIu32 "</a></dd>", number_in(s->o.frontispiece),
                number_in(s->o.frontispiece));
    fputs("<dt>file</dt><dd><bdi>", s->to);
    html_words(s->to, s->r->file);
    fputs("</bdi>, ", s->to);
    put_size(s->to, s->c->read.length);
    fprintf(s->to, ", %" PRIu64 " resource%s</dd></dl></header>\n", s->c->read.count, plural(s->c->read.count));
}

static int put_page(sheet *s)
{
    put_top(s);
    put_facts(s);
    put_warnings(s);
    put_section(s, "Pict", "pictures", "Pictures");
    put_section(s, "Snd ", "sounds", "Sounds");
    put_section(s, "Data", "data", "Data");
    put_section(s, "Exec", "stories", "Story");
    put_chunks(s);
    put_strangers(s);
    fputs("<footer>made by blorb " BLORB_VERSION_TEXT "</footer>\n</body>\n</html>\n", s->to);
    return ferror(s->to) ? -1 : 0;
}

/* ---- all of it */

/* Gives 0, or -1 and errno. */
static int prepare(sheet *s)
{
    if (look_over(s->c, &s->o) != 0 || find_facts(s->c, &s->f) != 0 || put_in_order(s) != 0)
        return -1;
    go_through_texts(s->c, keep_text, s);
    if (s->texts_count > 0)
        qsort(s->texts, s->texts_count, sizeof *s->texts, compare_texts);
    return 0;
}

static int make_sheet(const request *r, const contents *c)
{
    sheet s = {.r = r, .c = c};
    char *page = NULL;
    size_t length = 0;
    int done = prepare(&s);
    s.to = done == 0 ? open_memstream(&page, &length) : NULL;
    if (s.to == NULL || put_page(&s) != 0)
        done = -1;
    if (s.to != NULL && fclose(s.to) != 0)
        done = -1;
    int status = done == 0 ? put_where_asked(r, c, (bytes){(const uint8_t *)page, length}) : say_failed(r->file, "the page cannot be made");
    free(page);
    free(s.texts);
    free(s.order);
    free_facts(&s.f);
    free_overview(&s.o);
    return status;
}

int run_sheet(const request *r)
{
    contents c;
    int status = load_accepted(&c, r->file, open(r->file, O_RDONLY | O_CLOEXEC), r->profile);
    if (status == CARRIED_OUT)
        status = make_sheet(r, &c);
    free_contents(&c);
    return status;
}
