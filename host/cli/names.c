#include "names.h"

#include <ctype.h>
#include <inttypes.h>
#include <stdio.h>
#include <string.h>

#include "words.h"

typedef struct ending {
    const char *type;
    const char *text;
} ending;

/* What other programs know such files by; of stories what their interpreters do. */
static const ending endings[] = {
    {"PNG ", "png"}, {"JPEG", "jpg"}, {"GIF ", "gif"}, {"Rect", "rect"}, {"OGGV", "ogg"}, {"FORM", "aiff"}, {"MOD ", "mod"}, {"SONG", "song"},
    {"WAV ", "wav"}, {"MIDI", "mid"}, {"MP3 ", "mp3"}, {"TEXT", "txt"}, {"BINA", "bin"}, {"GLUL", "ulx"}, {"TAD2", "gam"}, {"TAD3", "t3"},
    {"HUGO", "hex"}, {"ALAN", "a3c"}, {"ADRI", "taf"}, {"LEVE", "l9"}, {"AGT ", "agx"}, {"MAGS", "mag"}, {"ADVS", "dat"}, {"EXEC", "exe"},
    {"IFmd", "xml"}, {"AUTH", "txt"}, {"(c) ", "txt"}, {"ANNO", "txt"},
};

static const char *ending_of(const char type[4])
{
    for (size_t i = 0; i < sizeof endings / sizeof *endings; i++)
        if (memcmp(endings[i].type, type, 4) == 0)
            return endings[i].text;
    return "bin";
}

/* Four letters for a file's name: without the spaces at the end, and nothing else but letters and digits. */
static void name_safely(const char tag[4], char name[5])
{
    size_t length = (size_t)tag_length(tag);
    for (size_t i = 0; i < length; i++)
        name[i] = isalnum((unsigned char)tag[i]) ? tag[i] : '_';
    name[length] = '\0';
}

void name_resource(const entry *e, const char type[4], bytes held, char name[NAME_SIZE])
{
    char usage[5];
    int is_story = memcmp(type, "ZCOD", 4) == 0;
    int version = is_story && held.length > 0 ? held.at[0] : 0;
    name_safely(e->usage, usage);
    if (is_story && version >= 1 && version <= 8)
        snprintf(name, NAME_SIZE, "%s-%" PRIu32 ".z%d", usage, e->number, version);
    else
        snprintf(name, NAME_SIZE, "%s-%" PRIu32 ".%s", usage, e->number, is_story ? "zcode" : ending_of(type));
}

void name_chunk(size_t number, const char type[4], char name[NAME_SIZE])
{
    char letters[5];
    name_safely(type, letters);
    snprintf(name, NAME_SIZE, "chunk-%zu-%s.%s", number, letters, ending_of(type));
}
