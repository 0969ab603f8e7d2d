/* Edits and undo: add, replace, remove, their records, what is refused, and what undo gives back. */
#include "interface.h"

pair prepared(const image *f, size_t file_room, const image *records, size_t journal_room)
{
    pair p = {.length = f->length, .used = records->length};
    p.file = lend(f->at, f->length < file_room ? f->length : file_room, file_room);
    p.journal = lend(records->at, records->length < journal_room ? records->length : journal_room, journal_room);
    if (file_room > 0)
        memcpy(p.file_was, p.file.at, file_room);
    if (journal_room > 0)
        memcpy(p.journal_was, p.journal.at, journal_room);
    return p;
}

void refused(pair *p, blorb_edit_answer a, uint64_t refusal, uint64_t place, const char *what)
{
    expect(a.refusal == refusal && a.place == place, what);
    expect(a.length == p->length && a.used == p->used, what);
    expect(p->file.size == 0 || memcmp(p->file.at, p->file_was, p->file.size) == 0, what);
    expect(p->journal.size == 0 || memcmp(p->journal.at, p->journal_was, p->journal.size) == 0, what);
    give_back(&p->file);
    give_back(&p->journal);
}

/* The new file, zeros up to a longer old end, the old bytes behind; the journal with the new record, or as it was. */
void made(pair *p, blorb_edit_answer a, const image *file, const image *rec, size_t used, const char *what)
{
    expect(a.refusal == 0 && a.place == 0 && a.length == file->length && a.used == used, what);
    memcpy(p->file_was, file->at, file->length);
    if (file->length < p->length)
        memset(p->file_was + file->length, 0, p->length - file->length);
    if (rec != NULL)
        memcpy(p->journal_was + p->used, rec->at, rec->length);
    expect(memcmp(p->file.at, p->file_was, p->file.size) == 0, what);
    expect(p->journal.size == 0 || memcmp(p->journal.at, p->journal_was, p->journal.size) == 0, what);
    give_back(&p->file);
    give_back(&p->journal);
}

blorb_edit_answer add(pair *p, const char *usage, uint32_t number, const char *type, const char *data, size_t n)
{
    lent d = lend((const uint8_t *)data, n, n);
    blorb_edit_answer a = blorb_add(p->file.at, p->file.size, p->length, p->journal.at, p->journal.size, p->used, profile, usage,
                                    number, type, d.at, d.size);
    expect(n == 0 || memcmp(d.at, data, n) == 0, "add leaves the data alone");
    give_back(&d);
    return a;
}

blorb_edit_answer replace(pair *p, const char *usage, uint32_t number, const char *type, const char *data, size_t n)
{
    lent d = lend((const uint8_t *)data, n, n);
    blorb_edit_answer a = blorb_replace(p->file.at, p->file.size, p->length, p->journal.at, p->journal.size, p->used, profile,
                                        usage, number, type, d.at, d.size);
    expect(n == 0 || memcmp(d.at, data, n) == 0, "replace leaves the data alone");
    give_back(&d);
    return a;
}

blorb_edit_answer removal(pair *p, const char *usage, uint32_t number)
{
    return blorb_remove(p->file.at, p->file.size, p->length, p->journal.at, p->journal.size, p->used, profile, usage, number);
}

blorb_edit_answer linking(pair *p, const char *usage, uint32_t number, const char *new_usage, uint32_t new_number)
{
    return blorb_link(p->file.at, p->file.size, p->length, p->journal.at, p->journal.size, p->used, profile, usage, number, new_usage, new_number);
}

blorb_edit_answer undo(pair *p)
{
    return blorb_undo(p->file.at, p->file.size, p->length, p->journal.at, p->journal.size, p->used, profile);
}

void test_blank(void)
{
    image b = blank();
    for (size_t size = 0; size < 40; size++) {
        lent l = lend(NULL, 0, size);
        blorb_edit_answer a = blorb_blank(l.at, size);
        int fits = size >= BLORB_BLANK_SIZE;
        expect(a.refusal == (fits ? 0 : BLORB_FILE_ROOM) && a.place == 0, "blank");
        expect(a.length == (fits ? 24 : 0) && a.used == 0, "blank's lengths");
        for (size_t i = 0; i < size; i++)
            expect(l.at[i] == (fits && i < 24 ? b.at[i] : FILLER), "blank's bytes");
        give_back(&l);
    }
}

static void test_add(void)
{
    image none = {.length = 0}, b = blank(), a = sample_a(), two = sample_b(), old = {.at = "old", .length = 3};
    image rec = record(1, "Data", 7, 0, 0, "\0\0\0\0", "", 0), second = record(1, "Pict", 1, 1, 0, "\0\0\0\0", "", 0);
    pair p = prepared(&b, 48, &none, 29);
    made(&p, add(&p, "Data", 7, "TEXT", "eel", 3), &a, &rec, 29, "add, no byte to spare");
    p = prepared(&b, 60, &old, 50);
    made(&p, add(&p, "Data", 7, "TEXT", "eel", 3), &a, &rec, 32, "add, bytes to spare");
    p = prepared(&a, 76, &rec, 58);
    made(&p, add(&p, "Pict", 1, "Rect", "\0\0\1\x40\0\0\0\0", 8), &two, &second, 58, "add of sample B");
    image empty = blank(), empty_rec = record(1, "Data", 0xffffffff, 0, 0, "\0\0\0\0", "", 0);
    row(&empty, "Data", 0xffffffff, 36);
    chunk(&empty, "BINA", "", 0);
    p = prepared(&b, 44, &none, 29);
    made(&p, add(&p, "Data", 0xffffffff, "BINA", NULL, 0), &empty, &empty_rec, 29, "add of no data, a null pointer");
    p = prepared(&b, 47, &none, 29);
    refused(&p, add(&p, "Data", 7, "TEXT", "eel", 3), 24, 0, "add: 24");
    p = prepared(&b, 48, &none, 28);
    refused(&p, add(&p, "Data", 7, "TEXT", "eel", 3), 25, 0, "add: 25");
    p = prepared(&b, 48, &none, 0);
    refused(&p, add(&p, "Data", 7, "TEXT", "eel", 3), 25, 0, "add: 25, a null journal");
}

static void test_add_refused(void)
{
    image none = {.length = 0}, a = sample_a(), bad = sample_a();
    bad.at[47] = 1;
    pair p = prepared(&bad, 90, &none, 30);
    refused(&p, add(&p, "Data", 8, "TEXT", "eel", 3), 7, 47, "add: 7");
    p = prepared(&a, 90, &none, 30);
    refused(&p, add(&p, "Data", 8, "RIdx", "eel", 3), 109, 60, "add: 109");
    p = prepared(&a, 90, &none, 30);
    refused(&p, add(&p, "data", 8, "TEXT", "eel", 3), 112, 36, "add: 112");
    p = prepared(&a, 90, &none, 30);
    refused(&p, add(&p, "Pict", 8, "TEXT", "eel", 3), 114, 36, "add: 114");
    p = prepared(&a, 90, &none, 30);
    refused(&p, add(&p, "Exec", 8, "ZCOD", "eel", 3), 115, 40, "add: 115");
    p = prepared(&a, 90, &none, 30);
    refused(&p, add(&p, "Data", 7, "TEXT", "eel", 3), 116, 36, "add: 116");
}

static void test_replace(void)
{
    image none = {.length = 0}, b = sample_b(), s = shared(), wide = blank(), narrow = blank(), a = sample_a();
    image rec = record(2, "Data", 7, 0, 48, "TEXT", "eel", 3);
    row(&narrow, "Data", 7, 48);
    row(&narrow, "Pict", 1, 56);
    chunk(&narrow, "BINA", "", 0);
    chunk(&narrow, "Rect", "\0\0\1\x40\0\0\0\0", 8);
    row(&wide, "Data", 7, 48);
    row(&wide, "Pict", 1, 64);
    chunk(&wide, "TEXT", "conger e", 8);
    chunk(&wide, "Rect", "\0\0\1\x40\0\0\0\0", 8);
    pair p = prepared(&b, 76, &none, 32);
    made(&p, replace(&p, "Data", 7, "BINA", NULL, 0), &narrow, &rec, 32, "replace by less");
    p = prepared(&b, 80, &none, 40);
    made(&p, replace(&p, "Data", 7, "TEXT", "conger e", 8), &wide, &rec, 32, "replace by more");
    p = prepared(&b, 79, &none, 32);
    refused(&p, replace(&p, "Data", 7, "TEXT", "conger e", 8), 24, 0, "replace: 24");
    p = prepared(&b, 80, &none, 31);
    refused(&p, replace(&p, "Data", 7, "TEXT", "conger e", 8), 25, 0, "replace: 25");
    p = prepared(&b, 80, &none, 40);
    refused(&p, replace(&p, "Snd ", 7, "MOD ", "x", 1), 22, 0, "replace: 22");
    p = prepared(&s, s.length, &none, 40);
    refused(&p, replace(&p, "Pict", 2, "PNG ", "x", 1), 23, 0, "replace: 23");
    p = prepared(&s, s.length, &none, 40);
    refused(&p, replace(&p, "Pict", 3, "Rect", "12345678", 8), 119, 96, "replace: 119");
    p = prepared(&a, 80, &none, 40);
    refused(&p, replace(&p, "Data", 7, "RIdx", "x", 1), 109, 36, "replace: 109");
    p = prepared(&a, 80, &none, 40);
    refused(&p, replace(&p, "Data", 7, "MOD ", "x", 1), 114, 24, "replace: 114");
}

static void test_remove(void)
{
    image none = {.length = 0}, b = sample_b(), s = shared(), left = without_text(), unshared = blank();
    image rec = record(3, "Data", 7, 0, 48, "TEXT", "eel", 3), entry = record(4, "Pict", 1, 0, 60, "\0\0\0\0", "", 0);
    row(&unshared, "Pict", 2, 48);
    row(&unshared, "Pict", 3, 60);
    chunk(&unshared, "JPEG", "abcd", 4);
    chunk(&unshared, "PNG ", "odd", 3);
    chunk(&unshared, "Fspc", "\0\0\0\3", 4);
    pair p = prepared(&b, 76, &none, 32);
    made(&p, removal(&p, "Data", 7), &left, &rec, 32, "remove, no byte to spare");
    p = prepared(&b, 90, &entry, 70);
    made(&p, removal(&p, "Data", 7), &left, &rec, 61, "remove, bytes to spare");
    p = prepared(&s, s.length, &none, 29);
    made(&p, removal(&p, "Pict", 1), &unshared, &entry, 29, "remove of an entry only");
    p = prepared(&b, 76, &none, 31);
    refused(&p, removal(&p, "Data", 7), 25, 0, "remove: 25");
    p = prepared(&b, 76, &none, 40);
    refused(&p, removal(&p, "Data", 8), 22, 0, "remove: 22");
    p = prepared(&s, s.length, &none, 40);
    refused(&p, removal(&p, "Pict", 3), 119, 68, "remove: 119");
}

static void test_undo(void)
{
    image none = {.length = 0}, b = sample_b(), a = sample_a(), left = without_text(), bad = sample_a();
    image other = record(1, "Data", 8, 0, 0, "\0\0\0\0", "", 0);
    image added = record(1, "Pict", 1, 1, 0, "\0\0\0\0", "", 0), gone = record(3, "Data", 7, 0, 48, "TEXT", "eel", 3);
    bad.at[0] = 'G';
    pair p = prepared(&b, 76, &added, 29);
    made(&p, undo(&p), &a, NULL, 0, "undo of an add");
    p = prepared(&left, 76, &gone, 32);
    made(&p, undo(&p), &b, NULL, 0, "undo of a removal");
    p = prepared(&left, 75, &gone, 32);
    refused(&p, undo(&p), 24, 0, "undo: 24");
    p = prepared(&a, 48, &none, 0);
    refused(&p, undo(&p), 26, 0, "undo: 26");
    p = prepared(&a, 48, &other, 29);
    refused(&p, undo(&p), 21, 0, "undo: 21, another file's");
    p = prepared(&bad, 48, &other, 29);
    refused(&p, undo(&p), 3, 0, "undo: 3");
    other.length = 28;
    p = prepared(&a, 48, &other, 29);
    refused(&p, undo(&p), 21, 0, "undo: 21, fewer than 29 bytes");
}

/* The highest bit of each byte of a record turned: only another number or other data can be undone. */
static void test_undo_damaged(void)
{
    enum { NUMBER = 5, PLACE = 9, DATA = 25, TRAILER = 28 };
    image left = without_text(), gone = record(3, "Data", 7, 0, 48, "TEXT", "eel", 3);
    for (size_t at = 0; at < gone.length; at++) {
        image wrong = gone, b = sample_b();
        wrong.at[at] ^= 0x80;
        pair p = prepared(&left, 76, &wrong, 32);
        int number = at >= NUMBER && at < PLACE, data = at >= DATA && at < TRAILER;
        if (number || data) {
            b.at[number ? 28 + at - NUMBER : 56 + at - DATA] ^= 0x80;
            made(&p, undo(&p), &b, NULL, 0, "undo with another number or other data");
        } else {
            refused(&p, undo(&p), 21, 0, "undo: 21, a damaged record");
        }
    }
}

/* One of the calls that change a file. */
blorb_edit_answer any_edit(pair *p, int call)
{
    return call == 0   ? add(p, "Data", 8, "TEXT", "", 0)
           : call == 1 ? replace(p, "Data", 7, "TEXT", "", 0)
           : call == 2 ? removal(p, "Data", 7)
           : call == 3 ? linking(p, "Data", 7, "Data", 8)
                       : undo(p);
}

/* Sample A cut to each length within its chunk, the FORM length right: 6 in its header, 28 in its data, 29 before its padding. */
static void test_broken_off(void)
{
    for (size_t length = 37; length < 48; length++) {
        image none = {.length = 0}, f = sample_a();
        f.length = length;
        put32(f.at + 4, (uint32_t)length - 8);
        uint64_t refusal = length < 44 ? 6 : length < 47 ? 28 : 29, place = length < 44 ? 36 : length < 47 ? 40 : 47;
        reads(&f, refusal, place, 0, "6, 28 or 29");
        for (int call = 0; call < EDITS; call++) {
            pair p = prepared(&f, 90, &none, 40);
            refused(&p, any_edit(&p, call), refusal, place, "an edit or undo: 6, 28 or 29");
        }
    }
}

/* Sample B with its two entries turned, and two names of one chunk. */
static image turned(void)
{
    image f = blank();
    row(&f, "Pict", 1, 60);
    row(&f, "Data", 7, 48);
    chunk(&f, "TEXT", "eel", 3);
    chunk(&f, "Rect", "\0\0\1\x40\0\0\0\0", 8);
    return f;
}

/* 27: entries that are not in the order of their chunks; equal starts are. A record whose place does not suit its start is 21. */
static void test_order(void)
{
    image none = {.length = 0}, f = turned(), left = without_text(), s = shared();
    image gone = record(3, "Data", 7, 1, 48, "TEXT", "eel", 3), last = record(3, "Data", 7, 0, 64, "TEXT", "eel", 3);
    image name = record(4, "Pict", 4, 3, 72, "\0\0\0\0", "", 0);
    reads(&f, 27, 44, 0, "27");
    reads(&s, 0, 0, 3, "equal starts");
    for (int call = 0; call < EDITS; call++) {
        pair p = prepared(&f, 90, &none, 40);
        refused(&p, any_edit(&p, call), 27, 44, "an edit or undo: 27");
    }
    pair p = prepared(&left, 76, &gone, 32);
    refused(&p, undo(&p), 21, 0, "undo: 21, its chunk before that of the entry in front");
    p = prepared(&left, 76, &last, 32);
    refused(&p, undo(&p), 21, 0, "undo: 21, its chunk behind that of the entry it goes before");
    p = prepared(&s, s.length + 12, &name, 29);
    refused(&p, undo(&p), 21, 0, "undo: 21, a name too far back");
}

/* 20: lengths beyond the buffers, null pointers too. */
static void test_lengths(void)
{
    image none = {.length = 0}, a = sample_a();
    size_t wrong[][2] = {{49, 0}, {SIZE_MAX, 0}, {48, 31}, {48, SIZE_MAX}, {SIZE_MAX, SIZE_MAX}};
    for (size_t i = 0; i < sizeof wrong / sizeof *wrong; i++)
        for (int call = 0; call < EDITS; call++) {
            pair p = prepared(&a, 48, &none, 30);
            p.length = wrong[i][0];
            p.used = wrong[i][1];
            refused(&p, any_edit(&p, call), 20, 0, "20");
        }
    for (size_t length = 0; length < 2; length++) {
        blorb_edit_answer r = blorb_undo(NULL, 0, length, NULL, 0, 0, profile);
        expect(r.refusal == (length == 0 ? 2 : 20) && r.length == length && r.used == 0, "undo without buffers");
        r = blorb_remove(NULL, 0, length, NULL, 0, 1, profile, "Data", 7);
        expect(r.refusal == 20 && r.length == length && r.used == 1, "remove without buffers");
    }
}

/* Under a known profile. */
void test_editing(void)
{
    test_add();
    test_add_refused();
    test_replace();
    test_remove();
    test_undo();
    test_undo_damaged();
    test_broken_off();
    test_order();
    test_lengths();
}
