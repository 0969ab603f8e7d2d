/* Spoken descriptions: the texts of an 'RDes' chunk, and such a chunk written (02, P7). */
#include "interface.h"

/* The data of an 'RDes' as it is being written down. */
static image count_of(uint32_t count)
{
    image d = {.length = 0};
    append32(&d, count);
    return d;
}

static void text(image *d, const char *usage, uint32_t number, const char *bytes, uint32_t n)
{
    append(d, usage, 4);
    append32(d, number);
    append32(d, n);
    append(d, bytes, n);
}

/* The whole 'RDes' chunk of this data, by itself. */
static image bare_chunk(const image *d)
{
    image c = {.length = 0};
    append(&c, "RDes", 4);
    append32(&c, (uint32_t)d->length);
    append(&c, d->at, d->length);
    append(&c, "", d->length % 2);
    return c;
}

/* A file with Pict 1 on a 'Rect' at 36, and then an 'RDes' at 52 of this data. */
enum { RDES_AT = 52, FIRST_ENTRY = RDES_AT + 12 };
static image with_rdes(const image *d)
{
    image f = without_text();
    chunk(&f, "RDes", d->at, (uint32_t)d->length);
    return f;
}

static void is_text(blorb_text_answer a, const char *usage, uint32_t number, uint64_t start, uint64_t length, const char *what)
{
    expect(a.refusal == 0 && a.place == 0 && a.usage == BLORB_TAG(usage[0], usage[1], usage[2], usage[3]), what);
    expect(a.number == number && a.start == start && a.length == length, what);
}

static void is_no_text(blorb_text_answer a, uint64_t refusal, uint64_t place, const char *what)
{
    expect(a.refusal == refusal && a.place == place && a.usage == 0 && a.number == 0 && a.start == 0 && a.length == 0, what);
}

/* Both reading calls refuse the file. */
void no_texts(const image *f, uint64_t refusal, uint64_t place, const char *what)
{
    lent l = lend(f->at, f->length, f->length);
    is_no_text(blorb_text(l.at, l.size, profile, 0), refusal, place, what);
    is_no_text(blorb_text(l.at, l.size, profile, SIZE_MAX), refusal, place, what);
    is_no_text(blorb_text_of(l.at, l.size, profile, "Pict", 1), refusal, place, what);
    is_no_text(blorb_text_of(l.at, l.size, profile, "Pics", 1), refusal, place, what);
    expect(f->length == 0 || memcmp(l.at, f->at, f->length) == 0, what);
    give_back(&l);
}

static void test_texts(void)
{
    image d = count_of(3), f;
    text(&d, "Pict", 1, "an eel", 6);
    text(&d, "Pict", 2, "", 0);
    text(&d, "\xff\0x ", 0xffffffff, "\xc3\xa4", 2);
    f = with_rdes(&d);
    lent l = lend(f.at, f.length, f.length);
    is_text(blorb_text(l.at, l.size, profile, 0), "Pict", 1, FIRST_ENTRY + 12, 6, "the first text");
    is_text(blorb_text(l.at, l.size, profile, 1), "Pict", 2, FIRST_ENTRY + 30, 0, "a text of no bytes");
    is_text(blorb_text(l.at, l.size, profile, 2), "\xff\0x ", 0xffffffff, FIRST_ENTRY + 42, 2, "a text of any usage");
    size_t beyond[] = {3, 4, (size_t)1 << 32, SIZE_MAX};
    for (int i = 0; i < 4; i++)
        is_no_text(blorb_text(l.at, l.size, profile, beyond[i]), 22, 0, "no such text");
    is_text(blorb_text_of(l.at, l.size, profile, "Pict", 1), "Pict", 1, FIRST_ENTRY + 12, 6, "a text by its pair");
    is_no_text(blorb_text_of(l.at, l.size, profile, "Pict", 2), 22, 0, "a text of a resource that is not in the index");
    is_no_text(blorb_text_of(l.at, l.size, profile, "Pict", 3), 22, 0, "no text, and not in the index");
    is_no_text(blorb_text_of(l.at, l.size, profile, "\xff\0x ", 0xffffffff), 22, 0, "a text of any usage is not in the index");
    give_back(&l);
    f = without_text();
    no_texts(&f, 22, 0, "a file without an 'RDes'");
    d = count_of(0);
    f = with_rdes(&d);
    no_texts(&f, 22, 0, "an 'RDes' of no texts");
}

/* One text of these bytes; `good` of them are its longest good beginning. */
static void judges(const char *bytes, uint32_t n, uint32_t good, const char *what)
{
    image d = count_of(1), f;
    text(&d, "Pict", 1, bytes, n);
    f = with_rdes(&d);
    if (good < n) {
        no_texts(&f, 39, FIRST_ENTRY + 12 + good, what);
        return;
    }
    lent l = lend(f.at, f.length, f.length);
    is_text(blorb_text(l.at, l.size, profile, 0), "Pict", 1, FIRST_ENTRY + 12, n, what);
    give_back(&l);
}

static void test_utf8(void)
{
    judges("\x7f", 1, 1, "the last of one byte");
    judges("\xc2\x80\xdf\xbf", 4, 4, "first and last of two bytes");
    judges("\xe0\xa0\x80\xed\x9f\xbf\xee\x80\x80\xef\xbf\xbf", 12, 12, "first and last of three bytes, about the surrogates");
    judges("\xf0\x90\x80\x80\xf4\x8f\xbf\xbf", 8, 8, "first and last of four bytes");
    judges("e\x80", 2, 1, "a byte that no character begins with");
    judges("\xc0\x80", 2, 0, "two bytes for zero");
    judges("\xc1\xbf", 2, 0, "two bytes where one does");
    judges("ee\xe0\x9f\xbf", 5, 2, "three bytes where two do");
    judges("\xed\xa0\x80", 3, 0, "a surrogate");
    judges("\xf0\x8f\xbf\xbf", 4, 0, "four bytes where three do");
    judges("\xf4\x90\x80\x80", 4, 0, "above 10FFFF");
    judges("\xf5\x80\x80\x80", 4, 0, "far above 10FFFF");
    judges("\xe2\x82", 2, 0, "a character cut at the text's end");
    judges("e\xf0\x9f\x98", 4, 1, "another one");
    judges("e\xe2\x82" "e", 4, 1, "a character broken in its middle");
}

static void test_texts_refused(void)
{
    image d, f;
    /* 37: under four bytes; a count too large and too small; a length too large and too small. */
    for (uint32_t n = 0; n < 4; n++) {
        d = count_of(0);
        d.length = n;
        f = with_rdes(&d);
        no_texts(&f, 37, RDES_AT, "37: under four bytes");
    }
    static const uint32_t counts[] = {0, 2, 3, 0xffffffff, 0x15555556};
    for (int i = 0; i < 5; i++) {
        d = count_of(counts[i]);
        text(&d, "Pict", 1, "eel", 3);
        f = with_rdes(&d);
        no_texts(&f, 37, RDES_AT, "37: the count");
    }
    static const uint32_t lengths[] = {0, 2, 4, 0xffffffff, 0xfffffff7};
    for (int i = 0; i < 5; i++) {
        d = count_of(1);
        text(&d, "Pict", 1, "\xff\xff\xff", 3);
        put32(d.at + 12, lengths[i]);
        f = with_rdes(&d);
        no_texts(&f, 37, RDES_AT, "37: a length, before 39");
    }
    /* 38 at the later entry, before its 39 and behind an earlier one's. */
    d = count_of(3);
    text(&d, "Pict", 1, "e", 1);
    text(&d, "Snd ", 1, "", 0);
    text(&d, "Pict", 1, "\xff", 1);
    f = with_rdes(&d);
    no_texts(&f, 38, FIRST_ENTRY + 25, "38 before 39 in one entry");
    chunk(&f, "RDes", "", 0);
    no_texts(&f, 38, FIRST_ENTRY + 25, "38 before 36 of the second chunk");
    d.at[16] = 0xff;
    f = with_rdes(&d);
    no_texts(&f, 39, FIRST_ENTRY + 12, "39 of an earlier entry before 38");
    /* 36, behind all of the first chunk and before all of the second. */
    d = count_of(1);
    text(&d, "Pict", 1, "eel!", 4);
    f = with_rdes(&d);
    uint64_t second = f.length;
    chunk(&f, "RDes", "", 0);
    no_texts(&f, 36, second, "36");
    chunk(&f, "RDes", "", 0);
    no_texts(&f, 36, second, "36 of the second of three");
    d.length--;
    f = with_rdes(&d);
    chunk(&f, "RDes", d.at, (uint32_t)d.length);
    no_texts(&f, 37, RDES_AT, "37 of the first chunk before 36");
    f.at[8] = 'i';
    no_texts(&f, 4, 8, "4 before 37");
}

/* Writing: the chunk, or the refusal; `room` bytes are lent. */
static void writes(const uint32_t *from, size_t numbers, const char *texts, size_t texts_size, size_t room, uint64_t refusal, uint64_t place,
                   const image *made, const char *what)
{
    size_t used = numbers * sizeof *from;
    lent rows = lend((const uint8_t *)from, used, used), t = lend((const uint8_t *)texts, texts_size, texts_size), buffer = lend(NULL, 0, room);
    blorb_write_answer a = blorb_texts_write(numbers_in(&rows), numbers, t.at, t.size, buffer.at, room);
    size_t length = made == NULL ? 0 : made->length;
    expect(a.refusal == refusal && a.place == place && a.length == length, what);
    expect(length == 0 || memcmp(buffer.at, made->at, length) == 0, what);
    for (size_t i = length; i < room; i++)
        expect(buffer.at[i] == FILLER, what);
    expect(used == 0 || memcmp(rows.at, from, used) == 0, what);
    give_back(&rows);
    give_back(&t);
    give_back(&buffer);
}

static void test_write(void)
{
    static const char texts[] = "an eel \xc3\xa4";
    enum { SIZE = sizeof texts - 1 };
    uint32_t rows[] = {BLORB_PICT, 1, 0, 6, BLORB_SND, 7, 7, 2, 0x21212121, 0xffffffff, SIZE, 0, BLORB_PICT, 2, 3, 2, 99};
    image d = count_of(4), made;
    text(&d, "Pict", 1, "an eel", 6);
    text(&d, "Snd ", 7, "\xc3\xa4", 2);
    text(&d, "!!!!", 0xffffffff, "", 0);
    text(&d, "Pict", 2, "ee", 2);
    made = bare_chunk(&d);
    for (size_t more = 0; more < 4; more++)
        writes(rows, 16, texts, SIZE, made.length + more, 0, 0, &made, "a chunk written");
    writes(rows, 17, texts, SIZE, made.length, 0, 0, &made, "a partial row is not looked at");
    for (size_t less = 1; less < 5; less++)
        writes(rows, 16, texts, SIZE, made.length - less, 40, 0, NULL, "40: no room");
    writes(rows, 16, texts, SIZE, 0, 40, 0, NULL, "40: no buffer");
    rows[7] = 1;
    writes(rows, 16, texts, SIZE, 900, 39, 1, NULL, "39: a character is cut");
    rows[13] = 1;
    writes(rows, 16, texts, SIZE, 900, 39, 1, NULL, "39 of an earlier row before 38");
    rows[7] = 2;
    writes(rows, 16, texts, SIZE, 900, 38, 3, NULL, "38 at the row");
    rows[15] = 900;
    writes(rows, 16, texts, SIZE, 0, 38, 3, NULL, "38 before 39 in one row, and before 40");
    rows[13] = 2;
    writes(rows, 16, texts, SIZE, 0, 39, 3, NULL, "39: past the slice, before 40");
    static const uint32_t past[][2] = {{0, SIZE + 1}, {SIZE, 1}, {SIZE + 1, 0}, {0xffffffff, 1}, {1, 0xffffffff}, {0xffffffff, 0xffffffff}};
    for (int i = 0; i < 6; i++) {
        rows[14] = past[i][0];
        rows[15] = past[i][1];
        writes(rows, 16, texts, SIZE, 900, 39, 3, NULL, "39: past the slice");
    }
    d = count_of(0);
    made = bare_chunk(&d);
    writes(NULL, 0, NULL, 0, 12, 0, 0, &made, "no rows");
    writes(rows, 3, NULL, 0, 20, 0, 0, &made, "no whole row");
    d = count_of(1);
    text(&d, "Pict", 1, "eel", 3);
    made = bare_chunk(&d);
    writes((uint32_t[]){BLORB_PICT, 1, 3, 3}, 4, texts, SIZE, made.length, 0, 0, &made, "the padding byte is written");
    writes((uint32_t[]){BLORB_PICT, 1, 3, 3}, 4, texts, SIZE, made.length - 1, 40, 0, NULL, "40: the padding byte has no room");
}

/* Under a known profile. */
void test_descriptions(void)
{
    test_texts();
    test_utf8();
    test_texts_refused();
    test_write();
}
