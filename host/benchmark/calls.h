/* The three that are compared: the archive, plain.c and fast.c. */
#ifndef CALLS_H
#define CALLS_H

#include "blorb.h"

typedef blorb_read_answer reading_call(const uint8_t *, size_t, uint32_t);
typedef blorb_lookup_answer lookup_call(const uint8_t *, size_t, uint32_t, const char *, uint32_t);
typedef blorb_edit_answer adding(uint8_t *, size_t, size_t, uint8_t *, size_t, size_t, uint32_t, const char *, uint32_t, const char *,
                                 const uint8_t *, size_t);
typedef blorb_edit_answer removing(uint8_t *, size_t, size_t, uint8_t *, size_t, size_t, uint32_t, const char *, uint32_t);
typedef blorb_edit_answer linking(uint8_t *, size_t, size_t, uint8_t *, size_t, size_t, uint32_t, const char *, uint32_t, const char *, uint32_t);
typedef blorb_edit_answer undoing(uint8_t *, size_t, size_t, const uint8_t *, size_t, size_t, uint32_t);

struct library {
    const char *name;
    reading_call *read;
    lookup_call *lookup;
    adding *add, *replace;
    removing *remove;
    linking *link;
    undoing *undo;
};

#define DECLARE(name)                                                                                                        \
    reading_call name##_read;                                                                                                \
    lookup_call name##_lookup;                                                                                               \
    adding name##_add, name##_replace;                                                                                       \
    removing name##_remove;                                                                                                  \
    linking name##_link;                                                                                                     \
    undoing name##_undo;

DECLARE(plain)
DECLARE(fast)

#define LIBRARY(name)                                                                                                        \
    {#name, name##_read, name##_lookup, name##_add, name##_replace, name##_remove, name##_link, name##_undo}

enum { LIBRARIES = 3 };
extern const struct library libraries[LIBRARIES];

#endif
