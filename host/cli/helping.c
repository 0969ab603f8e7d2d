#include "helping.h"

#include <ctype.h>
#include <stdio.h>
#include <string.h>

enum { COLUMNS = 80, OPTION_AT = 2, MEANING_AT = 20 };

typedef struct word {
    const char *name; /* as it stands in a usage */
    const char *argument;
    const char *meaning;
} word;

#define ADRIFT \
    {"--adrift", "", "FILE is one of the ADRIFT house: GIF pictures and WAV, MIDI and MP3 sounds are allowed too. For every command, in front of it or" \
                     " behind it; what was edited with it is undone with it"}

/* Every option that stands in a usage has its row here. */
static const word options[] = {
    {"-o", " OUT", "write to OUT, whole or not at all; - is standard output"},
    {"--all", " FOLDER", "write every resource to FOLDER, which is made if it is not there"},
    {"--write", " LISTFILE", "make the chunk that holds the texts of LISTFILE; - is standard input"},
    {"--long", "", "print all that is known, for people"},
    {"--json", "", "print all that is known, for scripts"},
    {"--strict", "", "have warnings count: the exit status is 1 at least where there is one"},
    {"--force", "", "overwrite files that are there"},
    {"--as-is", "", "put the data in although its first bytes contradict TYPE"},
    {"--no-undo", "", "keep nothing for undo"},
    {"-q", "", "say nothing of what was done; without it that is told where standard output is a terminal"},
    {"--c-array", "", "print the table as C, for firmware, and write no FILE.table"},
};

static const word operands[] = {
    {"USAGE", "", "Pict, Snd, Data or Exec, in any case"},
    {"NUMBER", "", "0 to 4294967295"},
    {"TYPE", "", "one to four letters, in any case; can be left out where the first bytes of the data tell it. Pict takes PNG, JPEG, or Rect with 8 bytes"
                 " of data; Snd takes OGGV (Ogg Vorbis), MOD, SONG, or FORM with a whole AIFF file; Data takes TEXT or BINA; Exec takes ZCOD, GLUL, TAD2,"
                 " TAD3, HUGO, ALAN, ADRI, LEVE, AGT, MAGS, ADVS or EXEC. With --adrift Pict takes GIF too, and Snd takes WAV, MIDI and MP3"},
    {"DATAFILE", "", "the file with the data; - is standard input"},
    {"LIST", "", "the list of files, as `unpack` writes one, or a Blurb script; - is standard input"},
};

static const word general[] = {ADRIFT, {"--", "", "what follows are names, also where they begin with -"}};

void print_wrapped(const char *text, int indent, int begun)
{
    int column = begun, is_first = 1;
    while (*text != '\0') {
        int length = (int)strcspn(text, " \n");
        if (!is_first && column + 1 + length > COLUMNS) {
            putchar('\n');
            column = 0;
        }
        if (column == 0)
            column += printf("%*s", indent, "");
        else if (!is_first)
            column += printf(" ");
        column += printf("%.*s", length, text);
        text += length;
        text += strspn(text, " \n");
        is_first = 0;
    }
    putchar('\n');
}

void print_forms(const char *first, const char *usage)
{
    static const char between[] = ", or ";
    int indent = (int)strlen(first);
    while (usage != NULL) {
        const char *end = strstr(usage, between);
        int length = end != NULL ? (int)(end - usage) : (int)strlen(usage);
        char form[2 * COLUMNS];
        snprintf(form, sizeof form, "blorb %.*s", length, usage);
        print_wrapped(form, indent + 6, printf("%*s", indent, first));
        usage = end != NULL ? end + strlen(between) : NULL;
        first = "";
    }
}

static int is_part_of_word(char c)
{
    return isalnum((unsigned char)c) || c == '-' || c == '_';
}

/* Whether a usage has this word, by itself. */
static int has_word(const char *usage, const char *name)
{
    size_t length = strlen(name);
    for (const char *at = usage; (at = strstr(at, name)) != NULL; at++)
        if ((at == usage || !is_part_of_word(at[-1])) && !is_part_of_word(at[length]))
            return 1;
    return 0;
}

/* Those of the words that the usage has; all of them where there is none. */
static void print_words(const word *words, size_t count, const char *usage)
{
    for (size_t i = 0; i < count; i++) {
        if (usage != NULL && !has_word(usage, words[i].name))
            continue;
        int begun = printf("%*s%s%s ", OPTION_AT, "", words[i].name, words[i].argument);
        begun += printf("%*s", begun < MEANING_AT ? MEANING_AT - begun : 0, "");
        print_wrapped(words[i].meaning, MEANING_AT, begun);
    }
}

#define PRINT_WORDS(words, usage) print_words(words, sizeof words / sizeof *words, usage)

void print_words_of(const char *usage)
{
    PRINT_WORDS(operands, usage);
    PRINT_WORDS(options, usage);
    print_words(general, 1, NULL);
}

void print_all_words(void)
{
    PRINT_WORDS(operands, NULL);
    PRINT_WORDS(options, NULL);
    PRINT_WORDS(general, NULL);
}
