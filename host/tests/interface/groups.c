/* The artists' group files: the list of FORMs, and one FORM (02, P9). */
#include "interface.h"

/* The list in slices with room to spare, just enough and a number too few; every pick; and that nothing else is written. */
static void groups(const image *f, uint64_t refusal, uint64_t place, const uint32_t *rows, size_t count, const char *what)
{
    lent l = lend(f->at, f->length, f->length);
    size_t all = BLORB_FORM_NUMBERS * count, rooms[] = {all + 5, all, all - 1};
    for (int i = 0; i < (all > 0 && refusal == 0 ? 3 : 2); i++) {
        uint64_t wanted = i == 2 ? BLORB_FORMS_ROOM : refusal, told = wanted == 0 ? count : 0;
        lent slice = lend(NULL, 0, sizeof(uint32_t) * rooms[i]);
        blorb_build_answer a = blorb_forms_list(l.at, l.size, numbers_in(&slice), rooms[i]);
        expect(a.refusal == wanted && a.place == (i == 2 ? 0 : place) && a.rows == told, what);
        size_t written = sizeof(uint32_t) * BLORB_FORM_NUMBERS * (size_t)told;
        expect(written == 0 || memcmp(slice.at, rows, written) == 0, what);
        for (size_t k = written; k < slice.size; k++)
            expect(slice.at[k] == FILLER, "numbers behind the last row stay");
        give_back(&slice);
    }
    for (size_t i = 0; i <= count + 1; i++) {
        blorb_pick_answer p = blorb_forms_pick(l.at, l.size, i <= count ? i : SIZE_MAX);
        int there = refusal == 0 && i < count;
        expect(p.refusal == (refusal != 0 ? refusal : there ? 0 : BLORB_NOT_THERE) && p.place == place, what);
        expect(p.start == (there ? rows[4 * i + 1] : 0) && p.length == (there ? rows[4 * i + 2] + 8 : 0), what);
    }
    expect(f->length == 0 || memcmp(l.at, f->at, f->length) == 0, what);
    give_back(&l);
}

static void groups_refused(const char *bytes, size_t n, uint64_t refusal, uint64_t place, const char *what)
{
    image f = {.length = 0};
    append(&f, bytes, n);
    groups(&f, refusal, place, NULL, 0, what);
}

/* A file of `levels` chunks, each in the one before. */
static image nest(const char *name, uint32_t levels)
{
    image f = {.length = 0};
    for (uint32_t i = 0; i < levels; i++) {
        append(&f, name, 4);
        append32(&f, 12 * (levels - i) - 8);
        append(&f, "ILBM", 4);
    }
    return f;
}

#define REFUSED(bytes, refusal, place, what) groups_refused(bytes, sizeof(bytes) - 1, refusal, place, what)
#define ILBM BLORB_TAG('I', 'L', 'B', 'M')

static void test_groups_listed(void)
{
    /* A list with a 'PROP', a FORM with an odd chunk, and a group of a FORM with a FORM in it. */
    static const char list[] = "LIST\0\0\0\x58" "ILBM" "PROP\0\0\0\x0e" "ILBM" "CMAP\0\0\0\1!\0" "FORM\0\0\0\x10" "ILBM" "BODY\0\0\0\3eel\0"
                               "CAT \0\0\0\x1c" "    " "FORM\0\0\0\x10" "8SVX" "FORM\0\0\0\4" "ILBM";
    const uint32_t in_list[] = {ILBM, 34, 16, 2, BLORB_TAG('8', 'S', 'V', 'X'), 70, 16, 3, ILBM, 82, 4, 4};
    uint32_t rows[4 * 16];
    image f = {.length = 0}, a = sample_a();
    append(&f, list, sizeof list - 1);
    put32(f.at + 4, (uint32_t)f.length - 8);
    groups(&f, 0, 0, in_list, 3, "a list");
    for (size_t n = 0; n < f.length; n++) {
        image cut = f;
        cut.length = n;
        groups(&cut, BLORB_GROUP_SIZE, 0, NULL, 0, "a list cut short");
    }
    /* A Blorb file is a FORM. */
    groups(&a, 0, 0, (const uint32_t[]){BLORB_TAG('I', 'F', 'R', 'S'), 0, 40, 1}, 1, "a Blorb file");
    for (uint32_t levels = 1; levels <= 16; levels++) {
        for (uint32_t i = 0; i < levels; i++)
            memcpy(rows + 4 * i, (const uint32_t[]){ILBM, 12 * i, 12 * (levels - i) - 8, i + 1}, 4 * sizeof *rows);
        f = nest("FORM", levels);
        groups(&f, 0, 0, rows, levels, "levels of FORMs");
        f = nest("CAT ", levels);
        groups(&f, 0, 0, NULL, 0, "levels of groups");
    }
    for (uint32_t levels = 17; levels <= 40; levels++) {
        f = nest("FORM", levels);
        groups(&f, BLORB_GROUP_DEPTH, 192, NULL, 0, "a FORM too deep");
        f = nest("LIST", levels);
        groups(&f, BLORB_GROUP_DEPTH, 192, NULL, 0, "a group too deep");
    }
    f = nest("LIST", 17);
    memcpy(f.at + 192, "PROP", 4);
    groups(&f, 0, 0, NULL, 0, "a 'PROP' at depth 17");
}

static void test_groups_refused(void)
{
    REFUSED("", 41, 0, "no bytes");
    REFUSED("FORM\0\0\0", 41, 0, "a header cut short");
    REFUSED("FORM\0\0\0\3ILB\0", 41, 0, "a FORM of three bytes");
    REFUSED("FORM\0\0\0\5ILBM", 41, 0, "a size past the end");
    REFUSED("BODY\0\0\0\4ILBM", 43, 0, "a plain chunk as the top");
    REFUSED("PROP\0\0\0\4ILBM", 43, 0, "a 'PROP' as the top");
    REFUSED("FORM\0\0\0\4ILBM\0", 43, 12, "a byte behind the top");
    REFUSED("FORM\0\0\0\5ILBM\0\1", 44, 0, "the padding of the top, before what is in it");
    REFUSED("FORM\0\0\0\5ILBM\0", 44, 0, "no padding of the top");
    REFUSED("FORM\0\0\0\5ILBM\0\0", 41, 12, "an odd FORM has a fault inside");
    REFUSED("FORM\0\0\0\x0eILBMBODY\0\0\0\1!\1", 44, 12, "padding that is not zero");
    REFUSED("FORM\0\0\0\x0dILBMBODY\0\0\0\1!\0", 44, 12, "padding outside of the FORM");
    REFUSED("FORM\0\0\0\x10ILBMPROP\0\0\0\4ILBM", 43, 12, "a 'PROP' in a FORM");
    REFUSED("CAT \0\0\0\x10ILBMPROP\0\0\0\4ILBM", 43, 12, "a 'PROP' in a 'CAT '");
    REFUSED("LIST\0\0\0\x10ILBMBODY\0\0\0\4ILBM", 43, 12, "a plain chunk in a 'LIST'");
    REFUSED("LIST\0\0\0\x1cILBMFORM\0\0\0\4ILBMPROP\0\0\0\4ILBM", 43, 24, "a 'PROP' behind a FORM");
    REFUSED("LIST\0\0\0\x1cILBMPROP\0\0\0\x10ILBMFORM\0\0\0\4ILBM", 43, 24, "a FORM in a 'PROP'");
    REFUSED("LIST\0\0\0\x10ILBMPROP\0\0\0\2!!!!", 41, 12, "a 'PROP' of two bytes");
    lent l = lend(NULL, 0, (size_t)BLORB_MAX_SIZE + 1);
    expect(blorb_forms_list(l.at, l.size, NULL, 0).refusal == BLORB_TOO_LONG, "a group file too long");
    expect(blorb_forms_pick(l.at, l.size, 0).refusal == BLORB_TOO_LONG, "a group file too long");
    give_back(&l);
    blorb_build_answer a = blorb_forms_list(NULL, 0, NULL, 0);
    expect(a.refusal == BLORB_GROUP_SIZE && a.place == 0 && a.rows == 0, "a list of nothing");
}

/* Group files have no profile. */
void test_groups(void)
{
    test_groups_listed();
    test_groups_refused();
}
