/*
 * A process of its own in which one step fails, or which is ended there. Steps are here all system calls and allocations (crash.c with CRASH_EVERY; the
 * linker hands over allocations and realpath).
 */
#ifndef STORE_PROCESS_H
#define STORE_PROCESS_H

#include "blorb_store.h"

/* What the process tells of itself. */
typedef struct report {
    uint64_t error;
    int met;       /* the step to fail was come to */
    char step[16]; /* which that was */
} report;

extern report *told;
void share_report(void);

/* The next step to be tried is so many behind the last: for builds that are slow BLORB_TEST_EACH says how many. */
int each_step(void);

/* Nothing fails from here on. */
void calm_down(void);

/* What is done there; `again` where each call that fails is to be made again, after calming down. */
typedef blorb_store_answer acting(const void *context, int again);

/*
 * At this step there is this errno, or with 0 the end, of a write after its first half. Gives the status with which the process ended. No memory and no
 * descriptor may be left behind.
 */
int in_process(acting *act, const void *context, int at, int error, int half, int again);

#endif
