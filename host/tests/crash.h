/* For tests that are linked with crash.c. */
#ifndef CRASH_H
#define CRASH_H

/* The status of a process that was ended at a step. */
enum { ENDED_HERE = 77 };

void count_steps_anew(void);
int steps_counted(void);

/* What the step was that failed last. */
const char *failed_step(void);

/* A step that changes nothing, where all are asked for (CRASH_EVERY). Gives 1 where it is to fail, with errno. */
int fails_here(const char *what, const char *name);

#endif
