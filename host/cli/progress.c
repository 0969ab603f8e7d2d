#define _XOPEN_SOURCE 700
#include "progress.h"

#include <stdio.h>
#include <unistd.h>

enum { FIRST_AFTER = 1000, THEN_EACH = 100, MILLION = 1000 * 1000 }; /* milliseconds; nanoseconds of one */

static void wait_for(progress *p, long milliseconds)
{
    clock_gettime(CLOCK_MONOTONIC, &p->next);
    p->next.tv_nsec += milliseconds % 1000 * MILLION;
    p->next.tv_sec += milliseconds / 1000 + p->next.tv_nsec / (1000L * MILLION);
    p->next.tv_nsec %= 1000L * MILLION;
}

void begin_progress(progress *p, const char *what, size_t of)
{
    *p = (progress){.what = what, .of = of, .watched = isatty(STDERR_FILENO)};
    if (p->watched)
        wait_for(p, FIRST_AFTER);
}

void show_progress(progress *p, size_t done)
{
    struct timespec now;
    if (!p->watched)
        return;
    clock_gettime(CLOCK_MONOTONIC, &now);
    if (now.tv_sec < p->next.tv_sec || (now.tv_sec == p->next.tv_sec && now.tv_nsec < p->next.tv_nsec))
        return;
    p->shown = fprintf(stderr, "\r%s: %zu of %zu", p->what, done, p->of);
    fflush(stderr);
    wait_for(p, THEN_EACH);
}

void end_progress(progress *p)
{
    if (p->shown > 0)
        fprintf(stderr, "\r%*s\r", p->shown, "");
    p->shown = 0;
}
