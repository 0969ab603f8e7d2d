/* The sentences of the refusals, the version, and the header's constants. */
#include "interface.h"

/* Every number of the header has a sentence of its own; any other one is said to be none. */
static void test_sentences(void)
{
    static const uint16_t known[] = {0,  1,  2,  3,  4,  5,  6,  7,  8,  9,  10, 11, 12, 13, 14, 15,  16,  17,  18,  19,  20,  21,  22,  23,  24,
                                     25, 26, 27, 28, 29, 30, 31, 32, 33, 34, 35, 36, 37, 38, 39, 40,  41,  42,  43,  44,  45,  49,  50,  51,  52,
                                     101, 109, 111, 112, 114, 115, 116, 119};
    enum { KNOWN = sizeof known / sizeof *known };
    const char *none = blorb_sentence(UINT64_MAX);
    expect(none != NULL && strlen(none) > 10, "a sentence for a number that is none");
    size_t next = 0;
    for (uint64_t n = 0; n < 70000; n++) {
        const char *said = blorb_sentence(n);
        int listed = next < KNOWN && known[next] == n;
        expect(said != NULL && (strcmp(said, none) == 0) == !listed, "which numbers have a sentence");
        expect(!listed || (strlen(said) > 10 && said[strlen(said) - 1] != '.'), "a sentence without a full stop");
        next += (size_t)listed;
    }
    expect(next == KNOWN, "every number of the header has a sentence");
    expect(strstr(blorb_sentence(BLORB_NOT_THERE), "resource") == NULL, "22 is given for rows, texts and FORMs too");
    for (size_t i = 0; i < KNOWN; i++)
        for (size_t k = 0; k < i; k++)
            expect(strcmp(blorb_sentence(known[i]), blorb_sentence(known[k])) != 0, "no sentence stands for two numbers");
    for (int i = 9; i < 64; i++)
        expect(strcmp(blorb_sentence((uint64_t)1 << i), none) == 0 && strcmp(blorb_sentence(((uint64_t)1 << i) + 7), none) == 0,
               "large numbers are not cut");
}

static void test_version(void)
{
    char text[32];
    snprintf(text, sizeof text, "%d.%d.%d", BLORB_VERSION_MAJOR, BLORB_VERSION_MINOR, BLORB_VERSION_PATCH);
    expect(blorb_version() == BLORB_VERSION, "the archive's version is the header's");
    expect(strcmp(text, BLORB_VERSION_TEXT) == 0, "the version's text");
}

/* The four bytes of a usage or type, its number, and the number turned back. */
static void is_tag(const char *four, uint32_t number)
{
    char text[5] = {'?', '?', '?', '?', '?'};
    expect(strlen(four) == 4, "a constant of the header has four bytes");
    expect(BLORB_TAG(four[0], four[1], four[2], four[3]) == number, "its number");
    expect(blorb_tag_text(number, text) == text && memcmp(text, four, 5) == 0, "the number turned back");
}

/* A resource of this type is taken under this usage: with eight bytes of data, which suits a 'Rect', and an AIFF where the type is 'FORM'. */
static void suits(const char *usage, const char *type, uint32_t under)
{
    static const char sound[] = "FORM\0\0\0\4AIFF";
    image empty = {.length = 0}, f = blank();
    pair p = prepared(&f, 100, &empty, 100);
    int whole = strcmp(type, BLORB_TYPE_FORM) == 0;
    profile = under;
    blorb_edit_answer a = add(&p, usage, 0, type, whole ? sound : "12345678", whole ? 12 : 8);
    expect(a.refusal == BLORB_DONE, "a type of the header under its usage");
    expect(under == BLORB_PLAIN || blorb_read(p.file.at, (size_t)a.length, BLORB_PLAIN).refusal == BLORB_TYPE, "a type of ADRIFT alone");
    give_back(&p.file);
    give_back(&p.journal);
}

static void test_tags(void)
{
    is_tag(BLORB_USAGE_PICT, BLORB_PICT);
    is_tag(BLORB_USAGE_SND, BLORB_SND);
    is_tag(BLORB_USAGE_DATA, BLORB_DATA);
    is_tag(BLORB_USAGE_EXEC, BLORB_EXEC);
    is_tag("\x80\xff\x01\x7f", 0x80ff017f);
    static const char *const pictures[] = {BLORB_TYPE_PNG, BLORB_TYPE_JPEG, BLORB_TYPE_RECT}, *const data[] = {BLORB_TYPE_TEXT, BLORB_TYPE_BINA};
    static const char *const sounds[] = {BLORB_TYPE_OGGV, BLORB_TYPE_FORM, BLORB_TYPE_MOD, BLORB_TYPE_SONG};
    static const char *const adrift[] = {BLORB_TYPE_WAV, BLORB_TYPE_MIDI, BLORB_TYPE_MP3};
    static const char *const code[] = {BLORB_TYPE_ZCOD, BLORB_TYPE_GLUL, BLORB_TYPE_TAD2, BLORB_TYPE_TAD3, BLORB_TYPE_HUGO, BLORB_TYPE_ALAN,
                                       BLORB_TYPE_ADRI, BLORB_TYPE_LEVE, BLORB_TYPE_AGT,  BLORB_TYPE_MAGS, BLORB_TYPE_ADVS, BLORB_TYPE_EXEC};
    for (size_t i = 0; i < sizeof pictures / sizeof *pictures; i++)
        suits(BLORB_USAGE_PICT, pictures[i], BLORB_PLAIN);
    for (size_t i = 0; i < sizeof sounds / sizeof *sounds; i++)
        suits(BLORB_USAGE_SND, sounds[i], BLORB_PLAIN);
    for (size_t i = 0; i < sizeof data / sizeof *data; i++)
        suits(BLORB_USAGE_DATA, data[i], BLORB_PLAIN);
    for (size_t i = 0; i < sizeof code / sizeof *code; i++)
        suits(BLORB_USAGE_EXEC, code[i], BLORB_PLAIN);
    for (size_t i = 0; i < sizeof adrift / sizeof *adrift; i++)
        suits(BLORB_USAGE_SND, adrift[i], BLORB_ADRIFT);
    suits(BLORB_USAGE_PICT, BLORB_TYPE_GIF, BLORB_ADRIFT);
}

void test_constants(void)
{
    test_sentences();
    test_version();
    test_tags();
}
