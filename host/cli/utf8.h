/* Characters in UTF-8 (RFC 3629). */
#ifndef UTF8_H
#define UTF8_H

#include <stddef.h>
#include <stdint.h>

/* How many bytes the character that begins there has, and which it is; 0 where no whole character begins there. */
size_t character_at(const uint8_t *at, size_t left, uint32_t *character);

/* The bytes of a character, up to four. Gives how many there are. */
enum { CHARACTER_SIZE = 4 };
size_t put_character(uint32_t character, uint8_t to[CHARACTER_SIZE]);

#endif
