#define _XOPEN_SOURCE 700
#include "folding.h"

#include <stddef.h>
#include <stdint.h>
#include <string.h>
#include <strings.h>

/*
 * Unicode's capital letters, and the small ones that share a capital, in the blocks U+0000 to U+017F, U+0370 to U+0587, U+1E00 to U+1EFF and
 * U+FF00 to U+FFEF: each so many characters from `first` to `last`, and how far away the small letter is that stands for both.
 */
static const struct range {
    uint16_t first, last, each;
    int16_t small;
} ranges[] = {
    {0x0041, 0x005a, 1, 32},  {0x00b5, 0x00b5, 1, 775}, {0x00c0, 0x00d6, 1, 32},  {0x00d8, 0x00de, 1, 32},    {0x0100, 0x012e, 2, 1},
    {0x0131, 0x0131, 1, -200}, {0x0132, 0x0136, 2, 1},  {0x0139, 0x0147, 2, 1},   {0x014a, 0x0176, 2, 1},     {0x0178, 0x0178, 1, -121},
    {0x0179, 0x017d, 2, 1},   {0x017f, 0x017f, 1, -268}, {0x0370, 0x0372, 2, 1},  {0x0376, 0x0376, 1, 1},     {0x037f, 0x037f, 1, 116},
    {0x0386, 0x0386, 1, 38},  {0x0388, 0x038a, 1, 37},  {0x038c, 0x038c, 1, 64},  {0x038e, 0x038f, 1, 63},    {0x0391, 0x03a1, 1, 32},
    {0x03a3, 0x03ab, 1, 32},  {0x03c2, 0x03c2, 1, 1},   {0x03cf, 0x03cf, 1, 8},   {0x03d0, 0x03d0, 1, -30},   {0x03d1, 0x03d1, 1, -25},
    {0x03d5, 0x03d5, 1, -15}, {0x03d6, 0x03d6, 1, -22}, {0x03d8, 0x03ee, 2, 1},   {0x03f0, 0x03f0, 1, -54},   {0x03f1, 0x03f1, 1, -48},
    {0x03f4, 0x03f4, 1, -60}, {0x03f5, 0x03f5, 1, -64}, {0x03f7, 0x03f7, 1, 1},   {0x03f9, 0x03f9, 1, -7},    {0x03fa, 0x03fa, 1, 1},
    {0x03fd, 0x03ff, 1, -130}, {0x0400, 0x040f, 1, 80}, {0x0410, 0x042f, 1, 32},  {0x0460, 0x0480, 2, 1},     {0x048a, 0x04be, 2, 1},
    {0x04c0, 0x04c0, 1, 15},  {0x04c1, 0x04cd, 2, 1},   {0x04d0, 0x052e, 2, 1},   {0x0531, 0x0556, 1, 48},    {0x1e00, 0x1e94, 2, 1},
    {0x1e9b, 0x1e9b, 1, -58}, {0x1e9e, 0x1e9e, 1, -7615}, {0x1ea0, 0x1efe, 2, 1}, {0xff21, 0xff3a, 1, 32},
};

static uint32_t folded(uint32_t character)
{
    for (size_t i = 0; i < sizeof ranges / sizeof *ranges; i++)
        if (character >= ranges[i].first && character <= ranges[i].last && (character - ranges[i].first) % ranges[i].each == 0)
            return (uint32_t)((int32_t)character + ranges[i].small);
    return character;
}

/* The next character of up to three bytes, which are all that have cases here; any other byte stands for itself, above all characters. */
static uint32_t next_folded(const unsigned char **at)
{
    const unsigned char *c = *at;
    enum { BYTE = 0x110000 };
    if (c[0] < 0x80) {
        *at += 1;
        return folded(c[0]);
    }
    if (c[0] >= 0xc2 && c[0] <= 0xdf && (c[1] & 0xc0) == 0x80) {
        *at += 2;
        return folded((uint32_t)(c[0] & 0x1f) << 6 | (c[1] & 0x3f));
    }
    if (c[0] >= 0xe1 && c[0] <= 0xef && (c[1] & 0xc0) == 0x80 && (c[2] & 0xc0) == 0x80) {
        *at += 3;
        return folded((uint32_t)(c[0] & 0x0f) << 12 | (uint32_t)(c[1] & 0x3f) << 6 | (c[2] & 0x3f));
    }
    *at += 1;
    return BYTE + (uint32_t)c[0];
}

int same_but_for_case(const char *one, const char *other)
{
    const unsigned char *a = (const unsigned char *)one, *b = (const unsigned char *)other;
    while (*a != '\0' && *b != '\0')
        if (next_folded(&a) != next_folded(&b))
            return 0;
    return *a == *b;
}

int ends_in_any_case(const char *name, const char *ending)
{
    size_t length = strlen(name), more = strlen(ending);
    return length >= more && strcasecmp(name + length - more, ending) == 0;
}
