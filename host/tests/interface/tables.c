/* The finding table, in rows and in columns: build, check, search, turn. */
#include "interface.h"

uint32_t *numbers_in(const lent *l)
{
    return (uint32_t *)(void *)l->at;
}

/* The slice holds these rows, and filler behind them. */
static void holds_rows(const lent *l, size_t numbers, const uint32_t *rows, uint64_t count, const char *what)
{
    uint32_t filler;
    memset(&filler, FILLER, sizeof filler);
    for (size_t i = 0; i < numbers; i++)
        expect(numbers_in(l)[i] == (i < 3 * count ? rows[i] : filler), what);
}

/* Builds in a slice of that many numbers, which must then hold these rows. */
void builds(const image *f, size_t numbers, uint64_t refusal, uint64_t place, const uint32_t *rows, uint64_t count)
{
    lent l = lend(f->at, f->length, f->length), t = lend(NULL, 0, 4 * numbers);
    blorb_build_answer b = blorb_table_build(l.at, l.size, profile, numbers_in(&t), numbers);
    expect(b.refusal == refusal && b.place == place && b.rows == count, "table: build");
    holds_rows(&t, numbers, rows, count, "table: the slice after build");
    expect(f->length == 0 || memcmp(l.at, f->at, f->length) == 0, "table: build leaves the file");
    give_back(&l);
    give_back(&t);
}

const form_of_table in_rows = {
    blorb_table_check, blorb_table_search, "table: check", "table: check leaves the slice", "table: search", "table: probes"
};
const form_of_table in_columns = {
    blorb_columns_check, blorb_columns_search, "columns: check", "columns: check leaves the slice", "columns: search", "columns: probes"
};

void checks_in(form_of_table form, const image *f, const uint32_t *from, size_t numbers, uint64_t refusal, uint64_t place)
{
    lent l = lend(f->at, f->length, f->length), t = lend((const uint8_t *)from, 4 * numbers, 4 * numbers);
    blorb_check_answer c = form.check(l.at, l.size, profile, numbers_in(&t), numbers);
    expect(c.refusal == refusal && c.place == place, form.checked);
    expect(numbers == 0 || memcmp(t.at, from, 4 * numbers) == 0, form.left);
    give_back(&l);
    give_back(&t);
}

void searches(form_of_table form, const uint32_t *from, size_t numbers, const char *usage, uint32_t number, uint64_t start, uint64_t probes)
{
    lent t = lend((const uint8_t *)from, 4 * numbers, 4 * numbers);
    blorb_search_answer s = form.search(numbers_in(&t), numbers, usage, number);
    expect(s.refusal == (start == 0 ? BLORB_NOT_THERE : BLORB_DONE) && s.place == 0 && s.start == start, form.found);
    expect(s.probes == probes, form.counted);
    give_back(&t);
}

static void test_table(void)
{
    image none = blank(), a = sample_a(), b = sample_b(), s = shared(), empty = {.length = 0};
    uint32_t rows[] = {BLORB_DATA, 7, 48, BLORB_PICT, 1, 60, 5};
    uint32_t on_one[] = {BLORB_PICT, 1, 60, BLORB_PICT, 2, 60, BLORB_PICT, 3, 72};
    builds(&none, 0, 0, 0, rows, 0);
    builds(&b, 6, 0, 0, rows, 2);
    builds(&b, 8, 0, 0, rows, 2);
    builds(&b, 5, 34, 0, rows, 0);
    builds(&b, 0, 34, 0, rows, 0);
    builds(&s, 9, 0, 0, on_one, 3);
    builds(&empty, 9, 2, 0, rows, 0);
    checks_in(in_rows, &none, rows, 0, 0, 0);
    checks_in(in_rows, &none, rows, 1, 35, 0);
    checks_in(in_rows, &b, rows, 6, 0, 0);
    checks_in(in_rows, &b, rows, 7, 35, 2);
    checks_in(in_rows, &b, rows, 5, 35, 1);
    checks_in(in_rows, &b, rows, 0, 35, 0);
    checks_in(in_rows, &a, rows, 6, 35, 0);
    checks_in(in_rows, &empty, rows, 6, 2, 0);
    for (size_t i = 0; i < 6; i++)
        for (int bit = 0; bit < 32; bit++) {
            uint32_t wrong[6];
            memcpy(wrong, rows, sizeof wrong);
            wrong[i] ^= (uint32_t)1 << bit;
            checks_in(in_rows, &b, wrong, 6, 35, i / 3);
        }
    searches(in_rows, rows, 0, "Data", 7, 0, 0);
    searches(in_rows, rows, 2, "Data", 7, 0, 0);
    searches(in_rows, rows, 6, "Data", 7, 48, 2);
    searches(in_rows, rows, 6, "Pict", 1, 60, 1);
    searches(in_rows, rows, 7, "Pict", 2, 0, 1);
    searches(in_rows, rows, 6, "Aaaa", 7, 0, 2);
    searches(in_rows, on_one, 9, "Pict", 2, 60, 1);
    searches(in_rows, on_one, 9, "Pict", 3, 72, 2);
}

typedef blorb_build_answer turning(const uint32_t *, size_t, uint32_t *, size_t);

/* Turns a slice in a second one of that many numbers, which must then hold these numbers and filler behind them. */
static void turns(turning *call, const uint32_t *from, size_t numbers, size_t room, uint64_t refusal, const uint32_t *turned, uint64_t count)
{
    lent t = lend((const uint8_t *)from, 4 * numbers, 4 * numbers), d = lend(NULL, 0, 4 * room);
    blorb_build_answer b = call(numbers_in(&t), numbers, numbers_in(&d), room);
    expect(b.refusal == refusal && b.place == 0 && b.rows == count, "columns: turning");
    holds_rows(&d, room, turned, count, "columns: the second slice");
    expect(numbers == 0 || memcmp(t.at, from, 4 * numbers) == 0, "columns: turning leaves the first slice");
    give_back(&t);
    give_back(&d);
}

static void test_columns(void)
{
    image none = blank(), a = sample_a(), b = sample_b(), empty = {.length = 0};
    uint32_t rows[] = {BLORB_DATA, 7, 48, BLORB_PICT, 1, 60, 5, 6};
    uint32_t columns[] = {BLORB_DATA, BLORB_PICT, 7, 1, 48, 60, 5, 6};
    uint32_t of_three[] = {BLORB_DATA, BLORB_PICT, BLORB_SND, 7, 1, 2, 48, 60, 72};
    for (size_t over = 0; over < 3; over++) { /* a partial row is not carried */
        turns(blorb_table_to_columns, rows, 6 + over, 6, 0, columns, 2);
        turns(blorb_table_to_columns, rows, 6 + over, 9, 0, columns, 2);
        turns(blorb_table_to_columns, rows, 6 + over, 5, 34, columns, 0);
        turns(blorb_table_to_columns, rows, over, 0, 0, columns, 0);
        turns(blorb_table_to_rows, columns, 6 + over, 6, 0, rows, 2);
        turns(blorb_table_to_rows, columns, 6 + over, 9, 0, rows, 2);
        turns(blorb_table_to_rows, columns, 6 + over, 5, 34, rows, 0);
        turns(blorb_table_to_rows, columns, over, 0, 0, rows, 0);
    }
    turns(blorb_table_to_columns, rows, 6, 0, 34, columns, 0);
    checks_in(in_columns, &none, columns, 0, 0, 0);
    checks_in(in_columns, &none, columns, 1, 35, 0);
    checks_in(in_columns, &b, columns, 6, 0, 0);
    checks_in(in_columns, &b, columns, 7, 35, 2);
    checks_in(in_columns, &b, columns, 0, 35, 0);
    checks_in(in_columns, &b, rows, 6, 35, 0);
    checks_in(in_columns, &b, of_three, 9, 35, 2);
    checks_in(in_columns, &a, columns, 6, 35, 0);
    checks_in(in_columns, &empty, columns, 6, 2, 0);
    for (size_t i = 0; i < 6; i++)
        for (int bit = 0; bit < 32; bit++) {
            uint32_t wrong[6];
            memcpy(wrong, columns, sizeof wrong);
            wrong[i] ^= (uint32_t)1 << bit;
            checks_in(in_columns, &b, wrong, 6, 35, i % 2);
        }
    searches(in_columns, columns, 0, "Data", 7, 0, 0);
    searches(in_columns, columns, 2, "Data", 7, 0, 0);
    searches(in_columns, columns, 6, "Data", 7, 48, 2);
    searches(in_columns, columns, 6, "Pict", 1, 60, 1);
    searches(in_columns, columns, 7, "Pict", 2, 0, 1);
    searches(in_columns, columns, 6, "Aaaa", 7, 0, 2);
    searches(in_columns, of_three, 9, "Snd ", 2, 72, 2);
}

/* Under a known profile. */
void test_tables(void)
{
    test_table();
    test_columns();
}
