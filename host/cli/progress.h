/* How far a long command is, on a terminal that standard error goes to. Nothing is shown of what takes under a second. */
#ifndef PROGRESS_H
#define PROGRESS_H

#include <stddef.h>
#include <time.h>

typedef struct progress {
    const char *what;
    size_t of;
    int shown;   /* how many characters stand there */
    int watched; /* standard error is a terminal */
    struct timespec next; /* when something is shown again */
} progress;

void begin_progress(progress *p, const char *what, size_t of);
void show_progress(progress *p, size_t done);

/* Takes away what stands there, so that messages begin on a line of their own. */
void end_progress(progress *p);

#endif
