#ifndef CHECK_H
#define CHECK_H

#include <stdbool.h>
#include <stdint.h>

/* The three give the same answers and leave the same bytes: on every call that is measured, on files at the limits, and on
   `cases` generated small files with a run of calls each. False where two differ, or a refusal was never seen. */
bool check_all(uint64_t seed, unsigned cases);

#endif
