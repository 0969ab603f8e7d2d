#include "utf8.h"

/* The first byte tells the length, and the least character that may have it: a shorter form is the only right one. */
static size_t length_by(uint8_t first, uint32_t *least)
{
    if (first < 0x80) {
        *least = 0;
        return 1;
    }
    size_t length = first >= 0xf0 && first < 0xf8 ? 4 : first >= 0xe0 && first < 0xf0 ? 3 : first >= 0xc0 && first < 0xe0 ? 2 : 0;
    *least = length == 4 ? 0x10000 : length == 3 ? 0x800 : 0x80;
    return length;
}

size_t character_at(const uint8_t *at, size_t left, uint32_t *character)
{
    uint32_t least = 0;
    size_t length = left == 0 ? 0 : length_by(at[0], &least);
    if (length == 0 || length > left)
        return 0;
    uint32_t found = length == 1 ? at[0] : at[0] & (0x7fu >> length);
    for (size_t i = 1; i < length; i++) {
        if ((at[i] & 0xc0) != 0x80)
            return 0;
        found = found << 6 | (at[i] & 0x3fu);
    }
    if (found < least || found > 0x10ffff || (found >= 0xd800 && found <= 0xdfff))
        return 0;
    *character = found;
    return length;
}

size_t put_character(uint32_t character, uint8_t to[CHARACTER_SIZE])
{
    size_t length = character < 0x80 ? 1 : character < 0x800 ? 2 : character < 0x10000 ? 3 : 4;
    static const uint8_t firsts[] = {0, 0x00, 0xc0, 0xe0, 0xf0};
    for (size_t i = length; i-- > 1; character >>= 6)
        to[i] = (uint8_t)(0x80 | (character & 0x3f));
    to[0] = (uint8_t)(firsts[length] | character);
    return length;
}
