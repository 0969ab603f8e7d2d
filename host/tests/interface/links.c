/* Links: a second name for a resource (02, P8). */
#include "interface.h"

/* Sample B with Pict 1 as Pict 2 too. */
static image linked(void)
{
    image f = blank();
    row(&f, "Data", 7, 60);
    row(&f, "Pict", 1, 72);
    row(&f, "Pict", 2, 72);
    chunk(&f, "TEXT", "eel", 3);
    chunk(&f, "Rect", "\0\0\1\x40\0\0\0\0", 8);
    return f;
}

static void test_link(void)
{
    image none = {.length = 0}, b = sample_b(), f = linked(), left = blank(), old = {.at = "old", .length = 3};
    image rec = record(5, "Pict", 2, 2, 72, "\0\0\0\0", "", 0), entry = record(4, "Pict", 1, 1, 72, "\0\0\0\0", "", 0);
    row(&left, "Data", 7, 48);
    row(&left, "Pict", 2, 60);
    chunk(&left, "TEXT", "eel", 3);
    chunk(&left, "Rect", "\0\0\1\x40\0\0\0\0", 8);
    pair p = prepared(&b, 88, &none, 29);
    made(&p, linking(&p, "Pict", 1, "Pict", 2), &f, &rec, 29, "link, no byte to spare");
    p = prepared(&b, 100, &old, 50);
    made(&p, linking(&p, "Pict", 1, "Pict", 2), &f, &rec, 32, "link, bytes to spare");
    finds(&f, 1, "Pict", 1, 72, BLORB_TAG('R', 'e', 'c', 't'), 8);
    finds(&f, 2, "Pict", 2, 72, BLORB_TAG('R', 'e', 'c', 't'), 8);
    p = prepared(&f, 88, &rec, 29);
    made(&p, undo(&p), &b, NULL, 0, "undo of a link");
    p = prepared(&f, 88, &none, 29);
    made(&p, removal(&p, "Pict", 1), &left, &entry, 29, "the original removed, the chunk stays");
    p = prepared(&left, 88, &entry, 29);
    made(&p, undo(&p), &f, NULL, 0, "and put back");
    p = prepared(&f, 100, &none, 60);
    refused(&p, replace(&p, "Pict", 1, "Rect", "12345678", 8), 23, 0, "replace of a linked one: 23");
    p = prepared(&f, 100, &none, 60);
    refused(&p, replace(&p, "Pict", 2, "Rect", "12345678", 8), 23, 0, "replace of a link: 23");
    p = prepared(&b, 87, &none, 29);
    refused(&p, linking(&p, "Pict", 1, "Pict", 2), 24, 0, "link: 24");
    p = prepared(&b, 88, &none, 28);
    refused(&p, linking(&p, "Pict", 1, "Pict", 2), 25, 0, "link: 25");
    p = prepared(&b, 87, &none, 28);
    refused(&p, linking(&p, "Pict", 1, "Pict", 2), 24, 0, "link: 24 before 25");
    p = prepared(&b, 88, &none, 0);
    refused(&p, linking(&p, "Pict", 1, "Pict", 2), 25, 0, "link: 25, a null journal");
}

/* Where the entry goes in: behind the last one whose start isn't greater. */
static void test_link_places(void)
{
    image none = {.length = 0}, s = shared(), first = blank();
    image rec = record(5, "Pict", 9, 2, 72, "\0\0\0\0", "", 0);
    row(&first, "Pict", 1, 72);
    row(&first, "Pict", 2, 72);
    row(&first, "Pict", 9, 72);
    row(&first, "Pict", 3, 84);
    chunk(&first, "JPEG", "abcd", 4);
    chunk(&first, "PNG ", "odd", 3);
    chunk(&first, "Fspc", "\0\0\0\3", 4);
    for (uint32_t original = 1; original <= 2; original++) {
        pair p = prepared(&s, s.length + 12, &none, 29);
        made(&p, linking(&p, "Pict", original, "Pict", 9), &first, &rec, 29, "link in the middle of the index");
    }
    pair p = prepared(&first, first.length, &rec, 29);
    made(&p, undo(&p), &s, NULL, 0, "undo of it");
    /* 116 at the later of the two: the new one, or the old one where the new one goes in before it. */
    uint64_t places[][3] = {{1, 2, 48}, {2, 1, 48}, {1, 3, 60}, {3, 1, 60}, {3, 3, 60}};
    for (size_t i = 0; i < sizeof places / sizeof *places; i++) {
        p = prepared(&s, s.length + 12, &none, 29);
        refused(&p, linking(&p, "Pict", (uint32_t)places[i][0], "Pict", (uint32_t)places[i][1]), 116, places[i][2], "link: 116");
    }
}

static void test_link_refused(void)
{
    image none = {.length = 0}, b = sample_b(), bad = sample_b(), story = blank();
    bad.at[59] = 1;
    row(&story, "Exec", 0, 36);
    chunk(&story, "ZCOD", "", 0);
    pair p = prepared(&bad, 100, &none, 30);
    refused(&p, linking(&p, "Pict", 1, "Pict", 2), 7, 59, "link: 7");
    p = prepared(&b, 100, &none, 30);
    refused(&p, linking(&p, "Pict", 2, "Pict", 3), 22, 0, "link: 22");
    p = prepared(&b, 76, &none, 0);
    refused(&p, linking(&p, "pict", 1, "Pict", 1), 22, 0, "link: 22 before 116, 24 and 25");
    p = prepared(&b, 76, &none, 0);
    refused(&p, linking(&p, "Data", 7, "data", 8), 112, 36, "link: 112");
    p = prepared(&b, 76, &none, 0);
    refused(&p, linking(&p, "Data", 7, "Pict", 1), 114, 36, "link: 114, before 116");
    p = prepared(&b, 76, &none, 0);
    refused(&p, linking(&p, "Pict", 1, "Exec", 5), 114, 48, "link: 114, before 115");
    p = prepared(&story, 100, &none, 30);
    refused(&p, linking(&p, "Exec", 0, "Exec", 1), 115, 40, "link: 115");
    p = prepared(&story, 100, &none, 30);
    refused(&p, linking(&p, "Exec", 0, "Exec", 0), 116, 36, "link: 116");
}

/* Records of kind 5 that do not fit, and kinds that there are not. */
static void test_link_records(void)
{
    image f = linked(), b = sample_b(), s = shared(), alone = record(5, "Pict", 1, 1, 60, "\0\0\0\0", "", 0);
    image wrong[] = {
        record(5, "Pict", 2, 2, 60, "\0\0\0\0", "", 0), record(5, "Pict", 2, 2, 84, "\0\0\0\0", "", 0),
        record(5, "Pict", 2, 2, 72, "\0\0\0\0", "\0", 1), record(5, "Pict", 2, 2, 72, "Rect", "", 0),
        record(5, "Pict", 2, 1, 72, "\0\0\0\0", "", 0), record(5, "Pict", 2, 3, 72, "\0\0\0\0", "", 0),
        record(5, "Pict", 3, 2, 72, "\0\0\0\0", "", 0), record(5, "Data", 7, 0, 60, "\0\0\0\0", "", 0),
        record(0, "Pict", 2, 2, 72, "\0\0\0\0", "", 0), record(6, "Pict", 2, 2, 72, "\0\0\0\0", "", 0),
        record(7, "Pict", 2, 2, 72, "\0\0\0\0", "", 0), record(255, "Pict", 2, 2, 72, "\0\0\0\0", "", 0),
    };
    for (size_t i = 0; i < sizeof wrong / sizeof *wrong; i++) {
        pair p = prepared(&f, 88, &wrong[i], wrong[i].length);
        refused(&p, undo(&p), 21, 0, "undo of a link: 21");
    }
    pair p = prepared(&b, 88, &alone, 29);
    refused(&p, undo(&p), 21, 0, "undo of a link: 21, the chunk is not shared");
    /* The frontispiece's picture would go. */
    put32(s.at + s.length - 4, 2);
    image second = record(5, "Pict", 2, 1, 60, "\0\0\0\0", "", 0);
    p = prepared(&s, s.length, &second, 29);
    refused(&p, undo(&p), 21, 0, "undo of a link: 21, the frontispiece's picture");
}

/* Under a known profile. */
void test_links(void)
{
    test_link();
    test_link_places();
    test_link_refused();
    test_link_records();
}
