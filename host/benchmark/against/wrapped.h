/*
 * The calls of two archives, one of them linked twice, under names of their own: now_, before_ and again_. Each stands behind a function that hands on its
 * arguments, also where none has to be left out. An archive from before version 2.0.0 takes no profile, so there a few arguments are moved, which adds a
 * nanosecond at most to its calls; one from before links has none.
 */
#ifndef WRAPPED_H
#define WRAPPED_H

#include "../calls.h"

typedef blorb_build_answer building(const uint8_t *, size_t, uint32_t *, size_t);
typedef blorb_check_answer checking(const uint8_t *, size_t, const uint32_t *, size_t);
typedef blorb_search_answer searching(const uint32_t *, size_t, const char *, uint32_t);

struct tables {
    building *build;
    checking *check;
    searching *search;
};

#define DECLARE_TABLES(name)                                                                                                 \
    building name##_build;                                                                                                   \
    checking name##_check;                                                                                                   \
    searching name##_search;

DECLARE(now)
DECLARE(before)
DECLARE(again)
DECLARE_TABLES(now)
DECLARE_TABLES(before)
DECLARE_TABLES(again)

#define TABLES(name)                                                                                                         \
    {name##_build, name##_check, name##_search}

#endif
