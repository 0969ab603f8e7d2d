/*
 * The orders in which the entries of a long list come, and the number of an entry in each order that is not crafted against the list's search.
 */
#ifndef ORDERS_H
#define ORDERS_H

#include "repeats.h"

enum order { RISING, FALLING, SHUFFLED, AGAINST, CRAFTED, ORDERS };
static const char *const orders[ORDERS] = {"rising", "falling", "shuffled", "against the hash", "crafted"};

/*
 * The number of entry i; usage is the higher half of its key. Against the hash: all marks of a block lie in one word by the factor that it begins with, and
 * the numbers fall.
 */
static inline uint32_t number_of(size_t i, size_t count, enum order order, uint32_t usage, uint32_t *last)
{
    switch (order) {
    case RISING:
        return (uint32_t)i;
    case FALLING:
        return (uint32_t)(count - i);
    case SHUFFLED:
        return (uint32_t)i * 2654435761u;
    default:
        do
            (*last)--;
        while (mark_word(mixed(first_factor(block_of(i)), (uint64_t)usage << 32 | *last)) != 0);
        return *last;
    }
}

#endif
