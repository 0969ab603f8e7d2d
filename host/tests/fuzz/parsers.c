/*
 * A target for libFuzzer over what the program reads by itself, without the library: what data is by its first bytes and the size of a picture (kinds.c),
 * metadata in XML (metadata.c, xml.c), and lists of a game's parts and Blurb scripts (lists.c, blurb.c), all of host/cli and compiled for the fuzzer. The
 * first byte of an input says which of them reads the rest, and of data its type.
 */
#include <stdio.h>
#include <stdlib.h>
#include <string.h>

#include "blorb.h"
#include "kinds.h"
#include "lists.h"
#include "metadata.h"

static void hold(int right, const char *promise)
{
    if (right)
        return;
    fprintf(stderr, "fuzz: a promise is broken: %s\n", promise);
    abort();
}

static void tell_data(const char usage[4], const char type[4], bytes held)
{
    char why[WHY_SIZE], advice[ADVICE_SIZE];
    uint32_t width = 0, height = 0;
    if (contradicts(type, held, why))
        hold(memchr(why, 0, sizeof why) != NULL && why[0] != 0, "what speaks against data is said");
    if (aiff_advice(held, advice))
        hold(memchr(advice, 0, sizeof advice) != NULL && advice[0] != 0, "what to do about an AIFF is said");
    int told = size_told(type, held, &width, &height);
    hold(told || (width == 0 && height == 0), "a size that is not told is not written");
    const kind *k = kind_of(held);
    hold(k == NULL || k->what != NULL, "a kind has words");
    const char *plain = type_told(BLORB_PLAIN, usage, held), *adrift = type_told(BLORB_ADRIFT, usage, held);
    hold(plain == NULL || (adrift != NULL && memcmp(plain, adrift, 4) == 0), "what is told as plain is told under ADRIFT");
    hold(plain == NULL || !only_adrift(usage, plain), "no type of ADRIFT is told as plain");
}

static void tell_metadata(bytes held)
{
    metadata m;
    if (read_metadata(held, &m) == 0 && m.fault != NULL)
        hold(m.place <= held.length, "the place of a fault is within the document");
    free_metadata(&m);
}

static void tell_list(bytes held)
{
    items list = {NULL, 0, 0};
    int status = read_items("list", held, &list);
    hold(status >= 0 && status <= 2, "a list is read, or what is wrong is told");
    for (size_t i = 0; status == 0 && i < list.count; i++)
        hold(list.at[i].kind == LINK_RESOURCE || list.at[i].kind == PUT_IDENTITY || list.at[i].path != NULL || list.at[i].made != NULL || list.at[i].length == 0,
             "a part has a file, or bytes of its own");
    free_items(&list);
}

static void tell(uint8_t how, bytes held)
{
    static const char *const types[] = {BLORB_TYPE_PNG,  BLORB_TYPE_JPEG, BLORB_TYPE_RECT, BLORB_TYPE_GIF, BLORB_TYPE_OGGV,
                                        BLORB_TYPE_FORM, BLORB_TYPE_MOD,  BLORB_TYPE_SONG, BLORB_TYPE_WAV, BLORB_TYPE_MIDI,
                                        BLORB_TYPE_MP3,  BLORB_TYPE_TEXT, BLORB_TYPE_BINA, BLORB_TYPE_ZCOD, BLORB_TYPE_GLUL};
    static const char *const usages[] = {BLORB_USAGE_PICT, BLORB_USAGE_SND, BLORB_USAGE_DATA, BLORB_USAGE_EXEC};
    if (how / 64 == 3)
        tell_list(held);
    else if (how / 64 == 2)
        tell_metadata(held);
    else
        tell_data(usages[how / 16 % 4], types[how % 16 % (sizeof types / sizeof *types)], held);
}

int LLVMFuzzerTestOneInput(const uint8_t *data, size_t size);
int LLVMFuzzerTestOneInput(const uint8_t *data, size_t size)
{
    if (size == 0)
        return 0;
    /* A copy of just these bytes, so that the address sanitizer sees a byte too many. */
    size_t length = size - 1;
    uint8_t *copy = malloc(length > 0 ? length : 1);
    if (copy == NULL)
        return 0;
    memcpy(copy, data + 1, length);
    tell(data[0], (bytes){copy, length});
    free(copy);
    return 0;
}
