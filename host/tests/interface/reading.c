/* Reading: accepted and refused files, entries and lookups, and the limits. */
#include "interface.h"

void reads(const image *f, uint64_t refusal, uint64_t place, uint64_t count, const char *what)
{
    lent l = lend(f->at, f->length, f->length);
    blorb_read_answer r = blorb_read(l.at, l.size, profile);
    uint64_t length = refusal == 0 ? f->length : 0;
    expect(r.refusal == refusal && r.place == place && r.length == length && r.count == count, what);
    size_t beyond[] = {count, count + 1, SIZE_MAX};
    for (int i = 0; i < 3; i++) {
        blorb_entry_answer e = blorb_entry(l.at, l.size, profile, beyond[i]);
        expect(e.refusal == (refusal != 0 ? refusal : BLORB_NOT_THERE) && e.place == place, what);
        expect(e.usage == 0 && e.number == 0 && e.start == 0, what);
    }
    blorb_lookup_answer k = blorb_lookup(l.at, l.size, profile, "Pics", 1);
    expect(k.refusal == (refusal != 0 ? refusal : BLORB_NOT_THERE) && k.place == place, what);
    expect(k.type == 0 && k.start == 0 && k.length == 0, what);
    expect(f->length == 0 || memcmp(l.at, f->at, f->length) == 0, what);
    give_back(&l);
}

void finds(const image *f, size_t i, const char *usage, uint32_t number, uint64_t start, uint32_t type, uint64_t length)
{
    lent l = lend(f->at, f->length, f->length);
    blorb_entry_answer e = blorb_entry(l.at, l.size, profile, i);
    expect(e.refusal == 0 && e.place == 0 && e.number == number && e.start == start, "entry");
    expect(e.usage == BLORB_TAG(usage[0], usage[1], usage[2], usage[3]), "entry's usage");
    blorb_lookup_answer k = blorb_lookup(l.at, l.size, profile, usage, number);
    uint64_t skipped = type == BLORB_TAG('F', 'O', 'R', 'M') ? 0 : BLORB_HEADER_SIZE;
    expect(k.refusal == 0 && k.place == 0 && k.type == type && k.start == start + skipped && k.length == length, "lookup");
    give_back(&l);
}

static void accepted_files(void)
{
    image a = sample_a(), b = sample_b(), s = shared(), none = blank();
    reads(&none, 0, 0, 0, "blank");
    reads(&a, 0, 0, 1, "sample A");
    reads(&b, 0, 0, 2, "sample B");
    reads(&s, 0, 0, 3, "shared chunk");
    finds(&a, 0, "Data", 7, 36, BLORB_TAG('T', 'E', 'X', 'T'), 3);
    finds(&b, 0, "Data", 7, 48, BLORB_TAG('T', 'E', 'X', 'T'), 3);
    finds(&b, 1, "Pict", 1, 60, BLORB_TAG('R', 'e', 'c', 't'), 8);
    finds(&s, 0, "Pict", 1, 60, BLORB_TAG('J', 'P', 'E', 'G'), 4);
    finds(&s, 1, "Pict", 2, 60, BLORB_TAG('J', 'P', 'E', 'G'), 4);
    finds(&s, 2, "Pict", 3, 72, BLORB_TAG('P', 'N', 'G', ' '), 3);
}

/* Sample A with four other bytes somewhere. */
static void reads_changed(size_t at, const char *bytes, uint64_t refusal, uint64_t place, const char *what)
{
    image f = sample_a();
    memcpy(f.at + at, bytes, 4);
    reads(&f, refusal, place, 0, what);
}

static void refused_files(void)
{
    image none = {.length = 0}, f = sample_a();
    reads(&none, 2, 0, 0, "no bytes, a null pointer");
    f.length = 11;
    reads(&f, 2, 0, 0, "2");
    reads_changed(0, "FORK", 3, 0, "3");
    reads_changed(8, "IFRT", 4, 8, "4");
    reads_changed(4, "\0\0\0\x29", 5, 4, "5");
    reads_changed(40, "\0\0\0\5", 28, 40, "28");
    reads_changed(40, "\xff\xff\xff\xff", 28, 40, "28, a length that wraps");
    reads_changed(16, "\0\0\0\x1d", 28, 16, "28 of the index");
    reads_changed(44, "eel\1", 7, 47, "7");
    reads_changed(12, "RIdy", 8, 12, "8");
    reads_changed(36, "RIdx", 9, 36, "9");
    reads_changed(20, "\x40\0\0\1", 10, 16, "10, a count that wraps");
    reads_changed(24, "Dat\xff", 12, 24, "12");
    reads_changed(32, "\0\0\0\x25", 13, 32, "13");
    reads_changed(32, "\0\0\0\x0c", 13, 32, "13, the index");
    reads_changed(36, "JPEG", 14, 24, "14");
    reads_changed(24, "Exec", 14, 24, "14 before 15");
    f = blank();
    row(&f, "Exec", 1, 36);
    chunk(&f, "ZCOD", "", 0);
    reads(&f, 15, 28, 0, "15");
    f = blank();
    row(&f, "Data", 7, 48);
    row(&f, "Data", 7, 48);
    chunk(&f, "TEXT", "", 0);
    reads(&f, 16, 36, 0, "16");
}

static void refused_optional(void)
{
    image f = blank();
    chunk(&f, "RelN", "ab", 2);
    chunk(&f, "RelN", "ab", 2);
    reads(&f, 17, 34, 0, "17");
    f = sample_a();
    chunk(&f, "Fspc", "abcde", 5);
    reads(&f, 18, 52, 0, "18");
    f = sample_b();
    chunk(&f, "Fspc", "\0\0\0\1", 4);
    reads(&f, 19, 84, 0, "19");
}

/* Refusals 1 and 11 and the largest accepted index need more room than an image has. */
static void large_files(void)
{
    size_t size = (size_t)BLORB_MAX_SIZE + 1;
    lent l = lend(NULL, 0, size);
    expect(blorb_read(l.at, size, profile).refusal == BLORB_TOO_LONG, "1");
    expect(blorb_lookup(l.at, size, profile, "Pict", 1).refusal == BLORB_TOO_LONG, "lookup: 1");
    image f = sample_a();
    memcpy(l.at, f.at, f.length);
    put32(l.at + 4, BLORB_MAX_SIZE - 8);
    memcpy(l.at + 36, "BINA", 4);
    put32(l.at + 40, BLORB_MAX_SIZE - 44);
    blorb_read_answer r = blorb_read(l.at, BLORB_MAX_SIZE, profile);
    expect(r.refusal == 0 && r.length == BLORB_MAX_SIZE && r.count == 1, "exactly the limit");
    blorb_edit_answer a = blorb_add(l.at, size, BLORB_MAX_SIZE, NULL, 0, 0, profile, "Data", 8, "TEXT", NULL, 0);
    expect(a.refusal == BLORB_RESULT_TOO_LONG && a.place == 0 && a.length == BLORB_MAX_SIZE && a.used == 0, "101");
    a = blorb_link(l.at, size, BLORB_MAX_SIZE, NULL, 0, 0, profile, "Data", 7, "Data", 8);
    expect(a.refusal == BLORB_RESULT_TOO_LONG && a.place == 0 && a.length == BLORB_MAX_SIZE && a.used == 0, "link: 101");
    lent small = lend(f.at, f.length, f.length);
    a = blorb_replace(small.at, small.size, f.length, NULL, 0, 0, profile, "Data", 7, "BINA", l.at, size);
    expect(a.refusal == BLORB_RESULT_TOO_LONG && memcmp(small.at, f.at, f.length) == 0, "replace: 101");
    give_back(&small);
    give_back(&l);
}

/* A file of `count` entries on one empty chunk. */
lent many(uint32_t count)
{
    size_t at = 24 + 12 * (size_t)count;
    image b = blank();
    lent l = lend(b.at, b.length, at + 8);
    put32(l.at + 4, (uint32_t)at);
    put32(l.at + 16, 4 + 12 * count);
    put32(l.at + 20, count);
    for (uint32_t i = 0; i < count; i++) {
        memcpy(l.at + 24 + 12 * i, "Data", 4);
        put32(l.at + 28 + 12 * i, i);
        put32(l.at + 32 + 12 * i, (uint32_t)at);
    }
    memcpy(l.at + at, "TEXT\0\0\0\0", 8);
    return l;
}

static void many_entries(void)
{
    lent most = many(BLORB_MAX_ENTRIES), over = many(BLORB_MAX_ENTRIES + 1);
    blorb_read_answer r = blorb_read(most.at, most.size, profile);
    expect(r.refusal == 0 && r.count == BLORB_MAX_ENTRIES, "4,096 entries");
    expect(blorb_entry(most.at, most.size, profile, BLORB_MAX_ENTRIES - 1).number == BLORB_MAX_ENTRIES - 1, "the last entry");
    r = blorb_read(over.at, over.size, profile);
    expect(r.refusal == BLORB_TOO_MANY && r.place == 20, "11");
    blorb_edit_answer a = blorb_add(most.at, most.size, most.size, NULL, 0, 0, profile, "Data", 5000, "TEXT", NULL, 0);
    expect(a.refusal == BLORB_RESULT_TOO_MANY && a.place == 20 && a.length == most.size, "111");
    a = blorb_link(most.at, most.size, most.size, NULL, 0, 0, profile, "Data", 5, "Data", 5000);
    expect(a.refusal == BLORB_RESULT_TOO_MANY && a.place == 20 && a.length == most.size, "link: 111");
    give_back(&most);
    give_back(&over);
}

/* Under a known profile. */
void test_reading(void)
{
    accepted_files();
    refused_files();
    refused_optional();
    large_files();
    many_entries();
}
