/* Timing by turns: in every round each of those compared is called once or in one batch, and each round begins with another one. */
#ifndef TIMING_H
#define TIMING_H

#include "files.h"

enum { MOST_ROUNDS = 40000, COMPARED = 4 }; /* the three libraries, and memmove where a move is measured */

/* Nanoseconds for one call: of each compared, by rounds, and the least and the median of them. */
struct times {
    double all[COMPARED][MOST_ROUNDS];
    double least[COMPARED], median[COMPARED];
};

/* A call that only reads. */
enum question { READ, FIRST, LAST, MISSING, QUESTIONS };
extern const char *const question_names[QUESTIONS];

void ask(const struct library *l, const struct sample *s, enum question q);

/* A buffer of JOURNAL_ROOM bytes. */
uint8_t *journal(void);

/* What two readings of the clock take is measured once, and taken off every time. */
void time_clock(void);

void time_question(const struct sample *s, enum question q, struct times *t);

/* Functions that only read what they are given, in batches by turns: times of the first `count`, at most COMPARED. Each gives a number that depends on
 * what it has done. */
typedef uint64_t timed(const void *given);
void time_functions(timed *const *functions, unsigned count, const void *given, struct times *t);

/* An edit and its undo, which leaves the file as it was; both are timed each by itself. */
void time_edit(const struct sample *s, const struct edit *e, struct times *edit, struct times *undo);

/* The same, and by turns with them memmove of the `moved` bytes at the file's end by `by`, there and back. */
void time_move(const struct sample *s, const struct edit *e, size_t moved, size_t by, struct times *edit, struct times *undo);

#endif
