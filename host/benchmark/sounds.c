/* The length of an AIFF sound, against the same walk in C, which divides and shifts the rate instead of halving it. */
#include "sounds.h"

#include "format.h"
#include "timing.h"

#include <stdio.h>
#include <stdlib.h>
#include <string.h>

struct sound {
    uint8_t *bytes;
    size_t size;
};

/* A sound with one 'COMM' behind so many other chunks, in front of its samples. */
static struct sound make_sound(size_t others)
{
    static const uint8_t common[26] = "COMM\0\0\0\x12\0\2\0\6\xba\xa8\0\x10\x40\x0e\xac\x44"; /* 441,000 frames at 44,100 */
    enum { OTHER = 8 + 6, SAMPLES = 40000 };
    struct sound s = {NULL, 12 + others * OTHER + sizeof common + 8 + SAMPLES};
    uint8_t *to = s.bytes = calloc(s.size, 1);

    if (to == NULL)
        exit(1);
    memcpy(to, "FORM", 4);
    put32(to + 4, (uint32_t)(s.size - 8));
    memcpy(to + 8, "AIFF", 4);
    to += 12;
    for (size_t i = 0; i < others; i++, to += OTHER)
        memcpy(to, "NAME\0\0\0\6ribbit", OTHER);
    memcpy(to, common, sizeof common);
    memcpy(to + sizeof common, "SSND", 4);
    put32(to + sizeof common + 4, SAMPLES);
    return s;
}

static uint64_t by_archive(const void *given)
{
    const struct sound *s = given;
    blorb_aiff_answer a = blorb_aiff_length(s->bytes, s->size);

    return a.refusal << 32 | a.seconds;
}

/* Gives the rate, 0 where it is none. */
static uint32_t c_rate(const uint8_t *at)
{
    unsigned exponent = (unsigned)at[0] << 8 | at[1];
    uint64_t m = (uint64_t)get32(at + 2) << 32 | get32(at + 6);
    unsigned down = 16383 + 63 - exponent;

    if (exponent > 16383 + 63 || down > 63) /* no file has a rate in that form */
        return 0;
    return m >> down <= UINT32_MAX && m >> down << down == m ? (uint32_t)(m >> down) : 0;
}

static uint64_t by_c(const void *given)
{
    const struct sound *s = given;
    const uint8_t *b = s->bytes, *common = NULL;

    if (s->size < 12 || memcmp(b, "FORM", 4) != 0 || get32(b + 4) != s->size - 8 || memcmp(b + 8, "AIFF", 4) != 0)
        return (uint64_t)BLORB_NOT_AIFF << 32;
    for (size_t at = 12; at < s->size;) {
        size_t m = s->size - at < 8 ? SIZE_MAX : get32(b + at + 4), left = s->size - at;
        if (left < 8 || m > left - 8 || (m % 2 == 1 && (m + 9 > left || b[at + 8 + m] != 0)))
            return (uint64_t)BLORB_NOT_AIFF << 32;
        if (memcmp(b + at, "COMM", 4) == 0) {
            if (common != NULL || m != 18)
                return (uint64_t)BLORB_COMMON << 32;
            common = b + at + 8;
        }
        at += 8 + m + m % 2;
    }
    if (common == NULL)
        return (uint64_t)BLORB_COMMON << 32;
    uint32_t rate = c_rate(common + 8);
    return rate == 0 ? (uint64_t)BLORB_RATE << 32 : get32(common + 2) / rate;
}

void print_sounds(void)
{
    static timed *const both[] = {by_archive, by_c};
    static const size_t counts[] = {0, 10, 1000};
    static struct times t;

    puts("| Chunks besides | Archive ns | C ns | / C |\n|--:|--:|--:|--:|");
    for (unsigned i = 0; i < 3; i++) {
        struct sound s = make_sound(counts[i]);
        if (by_archive(&s) != by_c(&s) || by_c(&s) != 10)
            exit(1);
        time_functions(both, 2, &s, &t);
        printf("| %zu | %.0f | %.0f | %.2f |\n", counts[i], t.median[0], t.median[1], t.median[0] / t.median[1]);
        fflush(stdout);
        free(s.bytes);
    }
}
