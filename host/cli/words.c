#include "words.h"

#include <errno.h>
#include <inttypes.h>
#include <stdio.h>
#include <string.h>

#include "blorb.h"
#include "utf8.h"

/* What to do about a refusal; the library has a sentence for each. */
typedef struct remedy {
    uint64_t number;
    const char *advice;
} remedy;

#define GET_AGAIN "It was probably cut short on its way: get it again."
#define TRY_MENDING "Or try `blorb mend FILE -o OUT`."
#define SEE_LIST "`blorb list` shows what the file has."
#define USAGES "Use Pict, Snd, Data or Exec."
static const remedy remedies[] = {
    {BLORB_TOO_LONG, "Pack it again with fewer or smaller resources."},
    {BLORB_TOO_SHORT, GET_AGAIN},
    {BLORB_NO_FORM, "Check the file's name."},
    {BLORB_NO_IFRS, "Check the file's name."},
    {BLORB_FORM_LENGTH, "It was probably cut short on its way, or something was put behind it: get it again. " TRY_MENDING},
    {BLORB_CHUNK_CUT, "It was probably cut short on its way, or has stray bytes at its end: get it again. " TRY_MENDING},
    {BLORB_CHUNK_LENGTH,
     "Set the four bytes there to the length of the chunk's data, or pack the file again: a packer wrote them wrong."},
    {BLORB_NO_PADDING,
     "Its packer forgot it: put a zero byte there and add 1 to the FORM length at 4, or pack it again with another packer.\n  " TRY_MENDING},
    {BLORB_PADDING, "Set it to zero, or pack the file again. " TRY_MENDING},
    {BLORB_NO_INDEX, PACK_AGAIN},
    {BLORB_SECOND_INDEX, PACK_AGAIN},
    {BLORB_INDEX_LENGTH, PACK_AGAIN},
    {BLORB_TOO_MANY, "Pack the file again with fewer resources."},
    {BLORB_USAGE, PACK_AGAIN},
    {BLORB_START, PACK_AGAIN},
    {BLORB_TYPE, PACK_AGAIN "\n  " TYPES},
    {BLORB_EXEC_NUMBER, PACK_AGAIN},
    {BLORB_REPEATED, PACK_AGAIN},
    {BLORB_ORDER, "Sort the entries of the index by their starts, or pack the file again with a program that does. " TRY_MENDING},
    {BLORB_SECOND_OPTIONAL, PACK_AGAIN},
    {BLORB_OPTIONAL_LENGTH, PACK_AGAIN},
    {BLORB_FRONTISPIECE, PACK_AGAIN},
    {BLORB_RECORD, OTHER_JOURNAL},
    {BLORB_NOT_THERE, SEE_LIST},
    {BLORB_SHARED, "Remove this resource and add it again: the other one keeps the old data."},
    {BLORB_NOTHING_TO_UNDO,
     "Past edits are kept in FILE.undo. If FILE was moved or renamed, move that along under the same new name."},
    {BLORB_WHOLE_FORM, "Give the whole AIFF file as it was saved, its first eight bytes included and nothing behind its end, or another type."},
    {BLORB_TABLE_STALE, "`blorb table FILE` writes it anew."},
    {BLORB_GROUP_SIZE, "It was cut short on its way, or a program wrote a length wrong: get the file again, or have it saved again."},
    {BLORB_GROUP_DEPTH, "Have the file saved with fewer groups inside of groups."},
    {BLORB_GROUP_MEMBER, "Have the file saved again, as one FORM, LIST or CAT; or check its name: it may be no IFF file."},
    {BLORB_GROUP_PADDING, "Have the file saved again with a program that writes a zero byte behind each chunk of odd length."},
    {BLORB_NOT_AIFF, "Save the sound again as plain AIFF. Some programs (SoX is one) leave out the last padding byte where the samples have an odd\n"
     "  number of bytes: 16 bits to a sample help there."},
    {BLORB_COMMON, "Save the sound again as plain AIFF with another program."},
    {BLORB_RATE, "Convert the sound to a whole number of samples in a second, as 22050 or 44100."},
    {BLORB_SECOND_RESO, "Pack the file again with one of them."},
    {BLORB_RESO_LENGTH, "Its packer wrote it wrong: it has 24 bytes of window sizes and 28 for each picture. Pack the file again."},
    {BLORB_RESO_NUMBER,
     "Give sides of at most 65535. In the 'Reso' all numbers but those of pictures are at most 65535, the standard window's sides and\n"
     "  the denominators are not 0 (a limit with numerator 0 is none), no least ratio is over the greatest, and no picture is listed twice."},
    {BLORB_SECOND_RDES, "Pack the file again with one of them, which has all texts."},
    {BLORB_RDES_LENGTH, "Its packer wrote it wrong: it has a count, and for each text usage, number, length and the bytes. Pack the file again."},
    {BLORB_RDES_REPEATED, "Give each resource one text."},
    {BLORB_RDES_TEXT, "Save the text as UTF-8."},
    {BLORB_RDES_ROOM, "Use fewer or shorter texts."},
    {BLORB_RESULT_TOO_LONG, "Use smaller data, or remove another resource first."},
    {BLORB_RESULT_SECOND_INDEX, TYPES},
    {BLORB_RESULT_TOO_MANY, "Remove another resource first."},
    {BLORB_RESULT_USAGE, USAGES},
    {BLORB_RESULT_TYPE, TYPES},
    {BLORB_RESULT_EXEC_NUMBER, "Use the number 0."},
    {BLORB_RESULT_REPEATED, "Use `blorb replace`, or another number. " SEE_LIST},
    {BLORB_RESULT_FRONTISPIECE, "Replace it by a picture of type PNG or JPEG."},
};

void show_tag(const char tag[4], char shown[SHOWN_SIZE])
{
    size_t n = 0;
    shown[n++] = '\'';
    for (int i = 0; i < 4; i++) {
        unsigned char c = (unsigned char)tag[i];
        if (c >= ' ' && c <= '~')
            shown[n++] = (char)c;
        else
            n += (size_t)snprintf(shown + n, 5, "\\x%02x", (unsigned)c);
    }
    shown[n++] = '\'';
    shown[n] = '\0';
}

int tag_length(const char tag[4])
{
    int length = 4;
    while (length > 1 && tag[length - 1] == ' ')
        length--;
    return length;
}

void show_pair(const char usage[4], uint32_t number, char shown[PAIR_SIZE])
{
    char tag[SHOWN_SIZE];
    show_tag(usage, tag);
    snprintf(shown, PAIR_SIZE, "%s %" PRIu32, tag, number);
}

const char *types_of(const char usage[4])
{
    static const struct {
        char usage[4];
        const char *types;
    } known[] = {{{'P', 'i', 'c', 't'}, PICT_TYPES}, {{'S', 'n', 'd', ' '}, SND_TYPES}, {{'D', 'a', 't', 'a'}, DATA_TYPES}, {{'E', 'x', 'e', 'c'}, EXEC_TYPES}};
    for (size_t i = 0; i < sizeof known / sizeof *known; i++)
        if (memcmp(known[i].usage, usage, 4) == 0)
            return known[i].types;
    return USAGES;
}

const char *plural(uint64_t count)
{
    return count == 1 ? "" : "s";
}

size_t dangerous(const uint8_t *at, size_t left)
{
    if (at[0] < ' ' || at[0] == 0x7f)
        return 1;
    if (left >= 2 && at[0] == 0xc2 && at[1] < 0xa0)
        return 2;
    if (left >= 3 && at[0] == 0xe2 && ((at[1] == 0x80 && at[2] >= 0xa8 && at[2] <= 0xae) || (at[1] == 0x81 && at[2] >= 0xa6 && at[2] <= 0xa9)))
        return 3;
    return 0;
}

void print_safely(FILE *to, const char *text)
{
    const uint8_t *at = (const uint8_t *)text;
    for (size_t left = strlen(text), size; left > 0; at += size, left -= size) {
        uint32_t character;
        size = character_at(at, left, &character);
        if (size == 0 || dangerous(at, left) > 0)
            fputc('?', to);
        else
            fwrite(at, 1, size, to);
        size = size > 0 ? size : 1;
    }
}

void say_safely(const char *text)
{
    print_safely(stderr, text);
}

static void say_file(const char *file)
{
    fputs("blorb: ", stderr);
    say_safely(file);
}

static void say_advice(const char *advice)
{
    if (advice != NULL)
        fprintf(stderr, "  %s\n", advice);
}

const char *remedy_for(uint64_t number)
{
    for (size_t i = 0; i < sizeof remedies / sizeof *remedies; i++)
        if (remedies[i].number == number)
            return remedies[i].advice;
    return NULL;
}

/* The library's sentence. Its 22 is one for resources, texts and FORMs; of the other two say_refused_as tells. */
static const char *sentence_for(uint64_t number)
{
    return number == BLORB_NOT_THERE ? "there is no such resource" : blorb_sentence(number);
}

static int say_sentence(uint64_t number, const char *about, const char *advice)
{
    fprintf(stderr, "%s%s", sentence_for(number), about[0] != '\0' ? ": " : "");
    say_safely(about);
    fputs(".\n", stderr);
    say_advice(advice != NULL ? advice : remedy_for(number));
    return REFUSED;
}

int say_refused(const char *file, uint64_t number, uint64_t place, const char *about, const char *advice)
{
    say_file(file);
    fprintf(stderr, ": refused %" PRIu64 " at %" PRIu64 ": ", number, place);
    return say_sentence(number, about, advice);
}

int say_refused_as(const char *file, uint64_t number, const char *what, const char *advice)
{
    say_file(file);
    fprintf(stderr, ": refused %" PRIu64 " at 0: ", number);
    say_safely(what);
    fputs(".\n", stderr);
    say_advice(advice);
    return REFUSED;
}

int say_meaning(const char *file, uint64_t number, const char *about, const char *advice)
{
    say_file(file);
    fputs(": ", stderr);
    return say_sentence(number, about, advice);
}

static struct {
    warning_taker *taker; /* null where warnings are printed */
    void *to;
    size_t count;
} warnings;

size_t warnings_up_to_now(void)
{
    return warnings.count;
}

void take_warnings(warning_taker *taker, void *to)
{
    warnings.taker = taker;
    warnings.to = to;
}

static void warn(const char *file, const char *about, const char *sentence, const char *advice)
{
    warnings.count++;
    if (warnings.taker != NULL) {
        warnings.taker(warnings.to, about, sentence, advice);
        return;
    }
    say_file(file);
    fprintf(stderr, ": warning: %s%s", about, about[0] != '\0' ? ": " : "");
    say_safely(sentence);
    fputs(".\n", stderr);
    say_advice(advice);
}

void say_warning(const char *file, const char *about, const char *sentence)
{
    warn(file, about, sentence, NULL);
}

void say_doubt(const char *file, const char *about, uint64_t number)
{
    char sentence[240];
    snprintf(sentence, sizeof sentence, "refused %" PRIu64 ": %s", number, blorb_sentence(number));
    warn(file, about, sentence, remedy_for(number));
}

void say_waiting(const char *file)
{
    say_file(file);
    fputs(": waiting for another blorb that works in this folder.\n", stderr);
}

int wait_for_other(void *context, const char *path)
{
    (void)context;
    say_waiting(path);
    return 0;
}

int open_place(place *p, const char *path)
{
    return reach_place(p, path, &(waiting){.tell = wait_for_other});
}

static const char *advice_for(int error)
{
    switch (error) {
    case ENOENT: case ENOTDIR: case EISDIR: case ELOOP:
        return "Check the name.";
    case ENAMETOOLONG:
        return "Use a shorter name: 16 more bytes are needed for the names of the journal and of what is being written.";
    case ENOSPC: case EDQUOT:
        return "Make room on the disk and try again.";
    case EFBIG:
        return "Raise the limit on the size of files (ulimit -f), or use a disk that takes longer ones, and try again.";
    case EACCES: case EPERM: case EROFS:
        return "Change the permissions of the file and its folder, or work on a copy in a folder of your own.";
    case ENOMEM:
        return "There is not enough memory: end other programs, or raise the limit on memory (ulimit -v), and try again.";
    case ENOLCK:
        return "The folder cannot be locked: work on a copy on a local disk.";
    case EEXIST:
        return "Move away what has this name, or this name with .blorb-temp or .undo.blorb-temp at its end.";
    default:
        return "Try again; if it fails again, work on a copy in another place.";
    }
}

int say_error(const char *file, const char *what, int error, const char *advice)
{
    say_file(file);
    fprintf(stderr, ": %s: %s.\n", what, strerror(error));
    say_advice(advice);
    return FAILED;
}

int say_failed(const char *file, const char *what)
{
    int error = errno;
    return say_error(file, what, error, advice_for(error));
}

int say_output_failed(const char *what)
{
    int error = errno;
    int full = error == ENOSPC || error == EDQUOT || error == EFBIG;
    return say_error("standard output", what, error,
                     full ? advice_for(error) : "Send standard output to a file, or to a program that reads it to its end.");
}

int say_stored(const char *file, in_place answer, const char *old)
{
    if (answer == NEW_IN_PLACE)
        return CARRIED_OUT;
    if (answer == NEW_NAMED_TWICE)
        return say_error(file, "the new file is in place, but the name that it was written under, with .blorb-temp at its end, cannot be removed", errno,
                         "That is a second name of the same file: delete it, or the next edit does.");
    return say_failed(file, answer == OLD_IN_PLACE ? old : "the new file is in place, but the disk has not confirmed it");
}

int say_edited(const char *file, in_place answer)
{
    const char *old = "the file is as it was, since the new one cannot be written";
    int error = errno;
    if (answer == OLD_IN_PLACE && (error == ENOSPC || error == EDQUOT))
        return say_error(file, old, error, "Make room on the disk: an edit needs as much as the new file takes, and for undo as much as"
                         " the old data.\n  `blorb forget FILE` gives back what FILE.undo takes; --no-undo keeps nothing.");
    return say_stored(file, answer, old);
}

int say_cannot(const char *file, const char *why, const char *advice)
{
    say_file(file);
    fputs(": ", stderr);
    say_safely(why);
    fputs(".\n", stderr);
    say_advice(advice);
    return FAILED;
}
