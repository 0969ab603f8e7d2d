/* Numbers as they stand in files: the first byte highest. */
#ifndef NUMBERS_H
#define NUMBERS_H

#include <stdint.h>

/* Four bytes, and eight. */
uint32_t number_in(const uint8_t *at);
uint64_t long_number_in(const uint8_t *from);

void number_to(uint8_t *to, uint32_t n);
void long_number_to(uint8_t *to, uint64_t n);

#endif
