#define _XOPEN_SOURCE 700
#include "kinds.h"

#include <inttypes.h>
#include <stdio.h>
#include <string.h>
#include <strings.h>

#include "blorb.h"
#include "contents.h"
#include "words.h"

/* Bytes that stand at a place in all data of a kind. */
typedef struct mark {
    size_t at;
    bytes held;
} mark;

typedef struct marked {
    kind kind;
    mark first;
    mark second; /* no bytes where one mark is enough */
} marked;

#define HELD(at, text) {at, {(const uint8_t *)(text), sizeof(text) - 1}}
#define NO_MARK {0, {NULL, 0}}
#define KIND(type, what) {type, what, NULL}
#define MODULE(text) {KIND("MOD ", "a module"), HELD(1080, text), NO_MARK}
#define PICTURE(what) {NULL, what, "Save the picture as PNG or JPEG."}
#define SOUND(what) {NULL, what, "Save the sound as Ogg Vorbis, or as plain AIFF with 16 bits."}

/* The first that holds decides. */
static const marked known[] = {
    {KIND("PNG ", "a PNG picture"), HELD(0, "\x89PNG\r\n\x1a\n"), NO_MARK},
    {KIND("JPEG", "a JPEG picture"), HELD(0, "\xff\xd8\xff"), NO_MARK},
    {KIND("OGGV", "an Ogg Vorbis sound"), HELD(0, "OggS"), HELD(28, "\x01vorbis")},
    {SOUND("an Ogg file, but not Vorbis"), HELD(0, "OggS"), NO_MARK},
    {KIND("FORM", "an AIFF sound"), HELD(0, "FORM"), HELD(8, "AIFF")},
    {SOUND("an AIFF-C sound"), HELD(0, "FORM"), HELD(8, "AIFC")},
    {SOUND("an 8SVX sound"), HELD(0, "FORM"), HELD(8, "8SVX")},
    {PICTURE("an ILBM picture"), HELD(0, "FORM"), HELD(8, "ILBM")},
    {{NULL, "a Blorb file", "Take the resource out of it with `blorb get` first."}, HELD(0, "FORM"), HELD(8, "IFRS")},
    {KIND("WAV ", "a WAV sound"), HELD(0, "RIFF"), HELD(8, "WAVE")},
    {PICTURE("a WebP picture"), HELD(0, "RIFF"), HELD(8, "WEBP")},
    {PICTURE("a BMP picture"), HELD(0, "BM"), HELD(6, "\0\0\0\0")},
    {PICTURE("a TIFF picture"), HELD(0, "II*\0"), NO_MARK},
    {PICTURE("a TIFF picture"), HELD(0, "MM\0*"), NO_MARK},
    {PICTURE("an AVIF picture"), HELD(4, "ftypavif"), NO_MARK},
    {PICTURE("a HEIC picture"), HELD(4, "ftyphei"), NO_MARK},
    {PICTURE("a GIMP picture"), HELD(0, "gimp xcf "), NO_MARK},
    {PICTURE("a Photoshop picture"), HELD(0, "8BPS\0\1"), NO_MARK},
    {KIND("GIF ", "a GIF picture"), HELD(0, "GIF8"), HELD(5, "a")},
    {KIND("MIDI", "a MIDI file"), HELD(0, "MThd"), HELD(4, "\0\0\0\6")},
    {KIND("MP3 ", "an MP3 sound"), HELD(0, "ID3"), NO_MARK},
    {SOUND("a FLAC sound"), HELD(0, "fLaC"), NO_MARK},
    {SOUND("an MPEG-4 file"), HELD(4, "ftyp"), NO_MARK},
    {{NULL, "a ZIP archive", "Unpack it, and give the file that is in it."}, HELD(0, "PK\3\4"), NO_MARK},
    {KIND("GLUL", "a Glulx story"), HELD(0, "Glul"), NO_MARK},
    {KIND("TAD2", "a TADS 2 story"), HELD(0, "TADS2 bin\n\r\x1a"), NO_MARK},
    {KIND("TAD3", "a TADS 3 story"), HELD(0, "T3-image\r\n\x1a"), NO_MARK},
    {KIND("MAGS", "a Magnetic Scrolls story"), HELD(0, "MaSc"), NO_MARK},
    MODULE("M.K."), MODULE("M!K!"), MODULE("FLT4"), MODULE("FLT8"), MODULE("4CHN"), MODULE("6CHN"), MODULE("8CHN"),
};

static int has(bytes held, const mark *m)
{
    return held.length >= m->held.length && m->at <= held.length - m->held.length
        && (m->held.length == 0 || memcmp(held.at + m->at, m->held.at, m->held.length) == 0);
}

const kind *kind_of(bytes held)
{
    for (size_t i = 0; i < sizeof known / sizeof *known; i++)
        if (has(held, &known[i].first) && has(held, &known[i].second))
            return &known[i].kind;
    return NULL;
}

static int is_type(const char a[4], const char b[4])
{
    return memcmp(a, b, 4) == 0;
}

static int is_kind(const kind *k, const char type[4])
{
    return k != NULL && k->type != NULL && is_type(k->type, type);
}

/* The least that a story file of the Z-machine or a module can be. */
enum { STORY_HEAD = 64, LAST_STORY_VERSION = 8, MODULE_HEAD = 600, PNG_SIZE_AT = 16 };

static int may_be_story(bytes held)
{
    return held.length >= STORY_HEAD && held.at[0] >= 1 && held.at[0] <= LAST_STORY_VERSION;
}

/* A first byte of 1 to 8 alone tells little: the six addresses behind it lie in the file too, but not in its head. */
static int is_story(bytes held)
{
    if (!may_be_story(held))
        return 0;
    for (size_t i = 4; i <= 14; i += 2) {
        size_t address = (size_t)held.at[i] << 8 | held.at[i + 1];
        if (address < STORY_HEAD || address > held.length)
            return 0;
    }
    return 1;
}

/* Each usage and a type that it takes; those from `ADRIFT_FROM` on are of the ADRIFT profile only. */
typedef struct pairing {
    char usage[5];
    char type[5];
} pairing;

static const pairing pairings[] = {
    {"Pict", "PNG "}, {"Pict", "JPEG"}, {"Pict", "Rect"}, {"Snd ", "OGGV"}, {"Snd ", "MOD "}, {"Snd ", "SONG"}, {"Snd ", "FORM"}, {"Data", "TEXT"},
    {"Data", "BINA"}, {"Exec", "ZCOD"}, {"Exec", "GLUL"}, {"Exec", "TAD2"}, {"Exec", "TAD3"}, {"Exec", "HUGO"}, {"Exec", "ALAN"}, {"Exec", "ADRI"},
    {"Exec", "LEVE"}, {"Exec", "AGT "}, {"Exec", "MAGS"}, {"Exec", "ADVS"}, {"Exec", "EXEC"}, {"Pict", "GIF "}, {"Snd ", "WAV "}, {"Snd ", "MIDI"},
    {"Snd ", "MP3 "},
};
enum { PAIRINGS = sizeof pairings / sizeof *pairings, ADRIFT_FROM = PAIRINGS - 4 };

void settle_usage(char tag[4])
{
    for (size_t i = 0; i < PAIRINGS; i++)
        if (strncasecmp(pairings[i].usage, tag, 4) == 0)
            memcpy(tag, pairings[i].usage, 4);
}

void settle_type_name(char tag[4])
{
    for (size_t i = 0; i < PAIRINGS; i++)
        if (strncasecmp(pairings[i].type, tag, 4) == 0)
            memcpy(tag, pairings[i].type, 4);
}

const char *usage_for(const char type[4])
{
    for (size_t i = 0; i < PAIRINGS; i++)
        if (is_type(pairings[i].type, type))
            return pairings[i].usage;
    return NULL;
}

int only_adrift(const char usage[4], const char type[4])
{
    for (size_t i = ADRIFT_FROM; i < PAIRINGS; i++)
        if (is_type(pairings[i].usage, usage) && is_type(pairings[i].type, type))
            return 1;
    return 0;
}

/* A type of the ADRIFT profile, whatever its usage. */
static int is_adrift(const char type[4])
{
    return only_adrift("Pict", type) || only_adrift("Snd ", type);
}

/* Without the spaces at the end of the tag. */
static int names(bytes word, const char tag[4])
{
    size_t length = (size_t)tag_length(tag);
    return word.length == length && strncasecmp((const char *)word.at, tag, length) == 0;
}

const char *known_usage(bytes word)
{
    for (size_t i = 0; i < PAIRINGS; i++)
        if (names(word, pairings[i].usage))
            return pairings[i].usage;
    return NULL;
}

const char *known_type(bytes word)
{
    for (size_t i = 0; i < PAIRINGS; i++)
        if (names(word, pairings[i].type))
            return pairings[i].type;
    return NULL;
}

const char *type_told(uint32_t profile, const char usage[4], bytes held)
{
    const kind *k = kind_of(held);
    /* Any data may be a Data resource's, as text or not. */
    if (is_type(usage, "Data"))
        return NULL;
    if (k == NULL && is_type(usage, "Exec") && is_story(held))
        return "ZCOD";
    if (k == NULL || k->type == NULL || (profile != BLORB_ADRIFT && is_adrift(k->type)))
        return NULL;
    return k->type;
}

/* No text has a zero byte; every other kind of file that is known here has one soon. */
static int may_be_text(bytes held)
{
    size_t looked_at = held.length < 64 ? held.length : 64;
    return looked_at == 0 || memchr(held.at, 0, looked_at) == NULL;
}

/* Types that data of any kind may have: what the library asks of them it asks by itself. */
static int takes_anything(const char type[4])
{
    return is_type(type, "BINA") || is_type(type, "Rect") || is_type(type, "FORM") || is_type(type, "EXEC");
}

/* An old module, or an MP3 sound without a tag in front, begins with anything. */
static int has_marks(const char type[4])
{
    for (size_t i = 0; i < sizeof known / sizeof *known; i++)
        if (known[i].kind.type != NULL && is_type(known[i].kind.type, type) && !is_type(type, "MOD ") && !is_type(type, "MP3 "))
            return 1;
    return 0;
}

static int suits(const char type[4], bytes held, const kind *k)
{
    if (takes_anything(type) || is_kind(k, type) || (is_type(type, "SONG") && is_kind(k, "MOD ")))
        return 1;
    if (is_type(type, "TEXT"))
        return k == NULL || may_be_text(held);
    if (k != NULL || has_marks(type))
        return 0;
    if (is_type(type, "ZCOD"))
        return may_be_story(held);
    if (is_type(type, "MOD ") || is_type(type, "SONG"))
        return held.length >= MODULE_HEAD;
    return held.length > 0;
}

int contradicts(const char type[4], bytes held, char why[WHY_SIZE])
{
    char shown[SHOWN_SIZE];
    const kind *k = kind_of(held);
    if (suits(type, held, k))
        return 0;
    show_tag(type, shown);
    if (held.length == 0)
        snprintf(why, WHY_SIZE, "there is no data, which nothing of type %s can be", shown);
    else if (k != NULL)
        snprintf(why, WHY_SIZE, "the data is %s, and not what the type %s stands for", k->what, shown);
    else
        snprintf(why, WHY_SIZE, "the data does not begin as data of type %s does", shown);
    return 1;
}

/* The frame header of a JPEG picture: markers C0 to CF but for C4, C8 and CC. */
static int is_frame(uint8_t marker)
{
    return marker >= 0xc0 && marker <= 0xcf && marker != 0xc4 && marker != 0xc8 && marker != 0xcc;
}

static uint32_t short_number_in(const uint8_t *at)
{
    return (uint32_t)at[0] << 8 | at[1];
}

/* Markers that stand alone, without a length. */
static int stands_alone(uint8_t marker)
{
    return marker == 0x01 || (marker >= 0xd0 && marker <= 0xd7);
}

/* From marker to marker; any number of bytes FF may stand before one. */
static int jpeg_size(bytes held, uint32_t *width, uint32_t *height)
{
    size_t at = 2;
    while (held.length >= at + 9 && held.at[at] == 0xff) {
        uint8_t marker = held.at[at + 1];
        if (is_frame(marker)) {
            *height = short_number_in(held.at + at + 5);
            *width = short_number_in(held.at + at + 7);
            return 1;
        }
        at += marker == 0xff ? 1 : stands_alone(marker) ? 2 : 2 + (size_t)short_number_in(held.at + at + 2);
    }
    return 0;
}

/* A GIF picture has both numbers with the lowest byte first. */
static int gif_size(bytes held, uint32_t *width, uint32_t *height)
{
    if (held.length < 10)
        return 0;
    *width = (uint32_t)held.at[7] << 8 | held.at[6];
    *height = (uint32_t)held.at[9] << 8 | held.at[8];
    return 1;
}

int size_told(const char type[4], bytes held, uint32_t *width, uint32_t *height)
{
    const kind *k = kind_of(held);
    int rectangle = is_type(type, "Rect");
    size_t at = rectangle ? 0 : PNG_SIZE_AT;
    if (is_type(type, "JPEG") && is_kind(k, type))
        return jpeg_size(held, width, height);
    if (is_type(type, "GIF ") && is_kind(k, type))
        return gif_size(held, width, height);
    if (!rectangle && !(is_type(type, "PNG ") && is_kind(k, type)))
        return 0;
    if (held.length < at + 8)
        return 0;
    *width = number_in(held.at + at);
    *height = number_in(held.at + at + 4);
    return 1;
}

/* What stands behind the form is cut off where that leaves a sound, and else the sound is saved anew. */
static void advise_cut(bytes held, uint64_t says, char advice[ADVICE_SIZE])
{
    int padding = says % 2 == 1 && says + 1 == held.length && held.at[says] == 0;
    int broken = blorb_aiff_length(held.at, (size_t)says).refusal == BLORB_NOT_AIFF;
    if (broken && padding)
        snprintf(advice, ADVICE_SIZE, "The AIFF form ends after %" PRIu64 " bytes, without the padding byte of its last chunk, as SoX writes it where\n"
                 "  the samples have an odd number of bytes: with and without the byte behind it `check` would call the sound broken (49).\n"
                 "  Save it with 16 bits.", says);
    else if (broken)
        snprintf(advice, ADVICE_SIZE, "The AIFF form ends after %" PRIu64 " bytes, but the file has %zu, and its chunks do not fill the form: `check` would\n"
                 "  call the sound broken (49) without the rest too. Save it again, with 16 bits.", says, held.length);
    else if (padding)
        snprintf(advice, ADVICE_SIZE, "The last byte is padding behind the AIFF form, which ends after %" PRIu64 " bytes, and no part of it: take it\n"
                 "  off (head -c %" PRIu64 ").", says, says);
    else
        snprintf(advice, ADVICE_SIZE, "The AIFF form ends after %" PRIu64 " bytes, but the file has %zu: cut off what stands\n"
                 "  behind it (head -c %" PRIu64 "), or save the sound again.", says, held.length, says);
}

int aiff_advice(bytes held, char advice[ADVICE_SIZE])
{
    const mark other = HELD(8, "AIFC"), headless = HELD(0, "AIFF");
    int whole = held.length >= 12 && memcmp(held.at, "FORM", 4) == 0;
    uint64_t says = whole ? (uint64_t)number_in(held.at + 4) + BLORB_HEADER_SIZE : 0;
    int plain = whole && is_kind(kind_of(held), "FORM");
    if (has(held, &headless))
        snprintf(advice, ADVICE_SIZE, "This is an AIFF file without its first eight bytes, 'FORM' and a length: give the whole file.");
    else if (whole && has(held, &other))
        snprintf(advice, ADVICE_SIZE, "This is AIFF-C, the kind that may be compressed; Blorb takes plain AIFF. Save the sound as\n"
                 "  AIFF with 16 bits, or as Ogg Vorbis with the type OGGV.");
    else if (plain && says < held.length)
        advise_cut(held, says, advice);
    else if (plain && says > held.length)
        snprintf(advice, ADVICE_SIZE, "By its FORM length the AIFF file has %" PRIu64 " bytes, but there are only %zu: it was\n"
                 "  cut short. Get or save it again.", says, held.length);
    else
        return 0;
    return 1;
}
