/* Scaled pictures: the sides by a 'Reso' chunk (02, P4). */
#include "interface.h"

enum { WINDOWS = 6, ROW = 7 };

/* A file without entries and with a 'Reso' of these numbers, its length `more` bytes more than they take. */
static image with_reso(const uint32_t *numbers, size_t count, int more)
{
    uint8_t data[IMAGE_ROOM] = {0};
    image f = blank();
    for (size_t i = 0; i < count; i++)
        put32(data + 4 * i, numbers[i]);
    chunk(&f, "Reso", data, (uint32_t)(4 * (int)count + more));
    return f;
}

void scales(const image *f, const uint64_t window[2], uint32_t picture, const uint64_t size[2], uint64_t refusal, uint64_t place,
                   uint64_t width, uint64_t height, const char *what)
{
    lent l = lend(f->at, f->length, f->length);
    blorb_scaled_answer a = blorb_scaled(l.at, l.size, profile, window[0], window[1], picture, size[0], size[1]);
    expect(a.refusal == refusal && a.place == place && a.width == width && a.height == height, what);
    expect(f->length == 0 || memcmp(l.at, f->at, f->length) == 0, what);
    give_back(&l);
}

/* A picture of 7 by 5 with this row in windows about a standard one of 100 by 50. */
static void scales_row(const uint32_t ratios[6], uint64_t window_width, uint64_t window_height, uint64_t width, uint64_t height, const char *what)
{
    uint32_t numbers[WINDOWS + 2 * ROW] = {100, 50, 0, 0, 0, 0, 70000, 1, 1, 0, 0, 0, 0, 3};
    memcpy(numbers + WINDOWS + ROW + 1, ratios, 6 * sizeof *ratios);
    image f = with_reso(numbers, WINDOWS + 2 * ROW, 0);
    scales(&f, (uint64_t[]){window_width, window_height}, 3, (uint64_t[]){7, 5}, 0, 0, width, height, what);
}

static void test_scaled(void)
{
    scales_row((uint32_t[]){1, 1, 0, 0, 0, 0}, 100, 50, 7, 5, "the standard window");
    scales_row((uint32_t[]){1, 1, 0, 0, 0, 0}, 200, 100, 14, 10, "twice the standard window");
    scales_row((uint32_t[]){1, 1, 0, 0, 0, 0}, 200, 75, 10, 7, "the smaller factor is that of the height");
    scales_row((uint32_t[]){1, 1, 0, 0, 0, 0}, 150, 500, 10, 7, "the smaller factor is that of the width");
    scales_row((uint32_t[]){2, 3, 0, 0, 0, 0}, 150, 75, 7, 5, "rounded once: 3/2 times 2/3 is 1");
    scales_row((uint32_t[]){1, 1, 2, 1, 0, 0}, 100, 50, 14, 10, "raised to the least ratio");
    scales_row((uint32_t[]){1, 1, 0, 0, 1, 2}, 100, 50, 3, 2, "lowered to the greatest ratio");
    scales_row((uint32_t[]){1, 1, 2, 4, 1, 2}, 400, 400, 3, 2, "least and greatest are the same");
    scales_row((uint32_t[]){1, 1, 1, 2, 2, 1}, 0, 50, 3, 2, "a window of no width, raised");
    scales_row((uint32_t[]){1, 1, 0, 65535, 0, 7}, 0, 50, 0, 0, "a limit with numerator zero is none, whatever its denominator");
    scales_row((uint32_t[]){0, 1, 0, 0, 0, 0}, 100, 50, 0, 0, "a standard ratio of zero");
    uint32_t most[WINDOWS + ROW] = {1, 1, 65535, 65535, 65535, 65535, 0xffffffff, 65535, 1, 65535, 65535, 65535, 1};
    image f = with_reso(most, WINDOWS + ROW, 0), none = blank();
    uint64_t large[2] = {65535, 65535}, small[2] = {3, 4};
    scales(&f, large, 0xffffffff, large, 0, 0, 4294836225, 4294836225, "65,535 everywhere, and lowered");
    most[11] = most[12] = 0;
    f = with_reso(most, WINDOWS + ROW, 0);
    scales(&f, large, 0xffffffff, large, 0, 0, 281462092005375, 281462092005375, "65,535 to the power of three");
    scales(&f, large, 0xfffffffe, large, 0, 0, 65535, 65535, "a picture that is not listed");
    scales(&none, large, 1, small, 0, 0, 3, 4, "a file without a 'Reso'");
    for (int i = 0; i < 4; i++) {
        uint64_t sides[4] = {1, 1, 1, 1};
        sides[i] = i % 2 == 0 ? 65536 : UINT64_MAX;
        scales(&f, sides, 0xffffffff, sides + 2, 33, 0, 0, 0, "33: a side given");
        scales(&none, sides, 1, sides + 2, 33, 0, 0, 0, "33: a side given, without a 'Reso'");
    }
}

/* 33 for one number of a good 'Reso' with two rows; the row of the picture asked is not the wrong one. */
static void wrong_number(size_t at, uint32_t value, uint64_t refusal, const char *what)
{
    uint32_t numbers[WINDOWS + 2 * ROW] = {100, 50, 10, 10, 0, 900, 1, 1, 1, 1, 2, 2, 1, 9, 2, 3, 3, 1, 3, 1};
    numbers[at] = value;
    image f = with_reso(numbers, WINDOWS + 2 * ROW, 0);
    scales(&f, (uint64_t[]){100, 50}, 8, (uint64_t[]){6, 4}, refusal, 0, refusal == 0 ? 6 : 0, refusal == 0 ? 4 : 0, what);
}

static void test_scaled_refused(void)
{
    for (size_t i = 0; i < WINDOWS + 2 * ROW; i++) {
        int picture = i == WINDOWS || i == WINDOWS + ROW;
        wrong_number(i, 65536, picture ? 0 : 33, "65,536 in each field");
        wrong_number(i, 0xffffffff, picture ? 0 : 33, "the largest number in each field");
    }
    wrong_number(0, 0, 33, "33: standard width zero");
    wrong_number(1, 0, 33, "33: standard height zero");
    wrong_number(WINDOWS + 2, 0, 33, "33: denominator zero in the standard ratio");
    wrong_number(WINDOWS + 4, 0, 33, "33: denominator zero under the least ratio");
    wrong_number(WINDOWS + ROW + 6, 0, 33, "33: denominator zero under the greatest ratio");
    wrong_number(WINDOWS + 5, 0, 0, "the greatest ratio is none");
    wrong_number(WINDOWS + ROW + 3, 4, 33, "33: least over greatest");
    wrong_number(WINDOWS + ROW + 3, 3, 0, "least and greatest alike");
    wrong_number(WINDOWS + ROW, 1, 33, "33: a repeated picture");
    uint32_t numbers[WINDOWS + ROW] = {100, 50, 0, 0, 0, 0, 1, 1, 1};
    uint64_t window[2] = {100, 50}, size[2] = {6, 4};
    static const int lengths[] = {-1, 1, 27, -27, 4, -4, 24};
    for (int i = 0; i < 7; i++) {
        image f = with_reso(numbers, WINDOWS + ROW, lengths[i]);
        scales(&f, window, 1, size, 32, 24, 0, 0, "32");
    }
    image f = with_reso(numbers, 0, 0);
    scales(&f, window, 1, size, 32, 24, 0, 0, "32: an empty 'Reso'");
    chunk(&f, "ANNO", "odd", 3);
    chunk(&f, "Reso", "", 0);
    scales(&f, window, 1, size, 31, 44, 0, 0, "31 before 32");
    chunk(&f, "Reso", "", 0);
    scales(&f, window, 1, (uint64_t[]){65536, 0}, 31, 44, 0, 0, "31 of the second, before 33");
    f.at[0] = 'f';
    scales(&f, window, 1, size, 3, 0, 0, 0, "3 before 31");
}

/* Under a known profile. */
void test_scaling(void)
{
    test_scaled();
    test_scaled_refused();
}
