#include "numbers.h"

#include "blorb.h"

uint32_t number_in(const uint8_t *at)
{
    return BLORB_TAG(at[0], at[1], at[2], at[3]);
}

uint64_t long_number_in(const uint8_t *from)
{
    return (uint64_t)number_in(from) << 32 | number_in(from + 4);
}

void number_to(uint8_t *to, uint32_t n)
{
    for (int i = 0; i < 4; i++)
        to[i] = (uint8_t)(n >> (24 - 8 * i));
}

void long_number_to(uint8_t *to, uint64_t n)
{
    number_to(to, (uint32_t)(n >> 32));
    number_to(to + 4, (uint32_t)n);
}
