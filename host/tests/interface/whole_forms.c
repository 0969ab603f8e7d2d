/* Whole files of type 'FORM': what a lookup gives of them, and what add and replace take (02, P3). */
#include "interface.h"

/* A sound of type 'FORM', whose chunk holds these n bytes. */
static image with_sound(const char *held, uint32_t n)
{
    image f = blank();
    row(&f, "Snd ", 3, 36);
    chunk(&f, "FORM", held, n);
    return f;
}

#define AIFF_13 "FORM\0\0\0\5AIFF!"

/* A lookup of type 'FORM' gives the whole chunk, and add and replace take it so; records keep what the chunk held (02, P3). */
static void test_whole_forms(void)
{
    image none = {.length = 0}, b = blank(), f = with_sound("AIFF!", 5), even = with_sound("AIFF", 4), song = blank();
    image rec = record(1, "Snd ", 3, 0, 0, "\0\0\0\0", "", 0), old = record(2, "Snd ", 3, 0, 36, "FORM", "AIFF!", 5);
    uint32_t rows[] = {BLORB_SND, 3, 36}, form = BLORB_TAG('F', 'O', 'R', 'M');
    row(&song, "Snd ", 3, 36);
    chunk(&song, "MOD ", "tune", 4);
    finds(&f, 0, "Snd ", 3, 36, form, 13);
    finds(&even, 0, "Snd ", 3, 36, form, 12);
    expect(memcmp(f.at + 36, AIFF_13, 13) == 0, "the whole file stands in the Blorb file");
    builds(&f, 3, 0, 0, rows, 1);
    searches(in_rows, rows, 3, "Snd ", 3, 36, 1);
    pair p = prepared(&b, 50, &none, 29);
    made(&p, add(&p, "Snd ", 3, "FORM", AIFF_13, 13), &f, &rec, 29, "add of a whole file, no byte to spare");
    p = prepared(&b, 49, &none, 29);
    refused(&p, add(&p, "Snd ", 3, "FORM", AIFF_13, 13), 24, 0, "add of a whole file: 24");
    p = prepared(&b, 50, &none, 28);
    refused(&p, add(&p, "Snd ", 3, "FORM", AIFF_13, 13), 25, 0, "add of a whole file: 25");
    p = prepared(&f, 50, &none, 34);
    made(&p, replace(&p, "Snd ", 3, "FORM", "FORM\0\0\0\4AIFF", 12), &even, &old, 34, "replace by a whole file");
    p = prepared(&f, 50, &none, 34);
    made(&p, replace(&p, "Snd ", 3, "MOD ", "tune", 4), &song, &old, 34, "replace of a whole file");
    p = prepared(&song, 50, &old, 34);
    made(&p, undo(&p), &f, NULL, 0, "undo of it, with the data only");
}

/* 30, by the type alone, behind 22 and 23 and before 100 + k, 24 and 25. */
static void test_wrong_heads(void)
{
    image none = {.length = 0}, b = blank(), f = with_sound("AIFF!", 5), a = sample_a(), two = blank();
    row(&two, "Snd ", 1, 48);
    row(&two, "Snd ", 2, 48);
    chunk(&two, "FORM", "AIFF", 4);
    for (size_t n = 0; n < 16; n++) {
        /* Cut within the head and the data, and with bytes behind; 13 bytes are the whole file. */
        if (n == 13)
            continue;
        pair p = prepared(&b, 60, &none, 40);
        refused(&p, add(&p, "Snd ", 3, "FORM", AIFF_13 "\0\0\0", n), 30, 0, "add: 30");
        p = prepared(&f, 60, &none, 40);
        refused(&p, replace(&p, "Snd ", 3, "FORM", AIFF_13 "\0\0\0", n), 30, 0, "replace: 30");
    }
    for (size_t at = 0; at < 8; at++)
        for (int bit = 0; bit < 8; bit++) {
            char head[14] = AIFF_13;
            head[at] = (char)(head[at] ^ 1 << bit);
            pair p = prepared(&b, 50, &none, 29);
            refused(&p, add(&p, "Snd ", 3, "FORM", head, 13), 30, 0, "add: 30, a bit of the head");
        }
    pair p = prepared(&b, 24, &none, 0);
    refused(&p, add(&p, "Snd ", 3, "FORM", NULL, 0), 30, 0, "30 before 24 and 25, no data");
    p = prepared(&b, 60, &none, 40);
    refused(&p, add(&p, "Snd ", 3, "FORM", "FORM\0\0\0\0", 8), 114, 24, "eight good bytes: an empty chunk");
    p = prepared(&a, 90, &none, 40);
    refused(&p, add(&p, "Pict", 3, "FORM", "AIFF!", 5), 30, 0, "30, whatever the usage");
    p = prepared(&a, 90, &none, 40);
    refused(&p, add(&p, "Pict", 3, "FORM", AIFF_13, 13), 114, 36, "114 behind it");
    p = prepared(&a, 90, &none, 40);
    refused(&p, add(&p, "Pics", 3, "FORM", "AIFF!", 5), 30, 0, "30 before 112");
    p = prepared(&f, 90, &none, 40);
    refused(&p, add(&p, "Snd ", 3, "FORM", "AIFF!", 5), 30, 0, "30 before 116");
    p = prepared(&f, 90, &none, 40);
    refused(&p, replace(&p, "Snd ", 4, "FORM", "AIFF!", 5), 22, 0, "22 before 30");
    p = prepared(&two, 90, &none, 40);
    refused(&p, replace(&p, "Snd ", 1, "FORM", "AIFF!", 5), 23, 0, "23 before 30");
    p = prepared(&f, 90, &none, 40);
    p.length = SIZE_MAX;
    refused(&p, replace(&p, "Snd ", 3, "FORM", "AIFF!", 5), 20, 0, "20 before 30");
    f.at[0] = 'G';
    p = prepared(&f, 90, &none, 40);
    refused(&p, add(&p, "Snd ", 4, "FORM", "AIFF!", 5), 3, 0, "the file's refusal before 30");
}

/* Under a known profile. */
void test_forms(void)
{
    test_whole_forms();
    test_wrong_heads();
}
