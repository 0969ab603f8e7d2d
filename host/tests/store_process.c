#define _GNU_SOURCE
#include "store_process.h"

#include <stdio.h>
#include <stdlib.h>
#include <string.h>
#include <sys/mman.h>
#include <sys/wait.h>
#include <unistd.h>

#include "crash.h"
#include "store_kit.h"

/* ---- memory: each allocation is a step, and all of them are counted */

void *__real_malloc(size_t size);
void *__real_calloc(size_t count, size_t size);
void *__real_realloc(void *old, size_t size);
void __real_free(void *old);
char *__real_realpath(const char *path, char *to);
void *__wrap_malloc(size_t size);
void *__wrap_calloc(size_t count, size_t size);
void *__wrap_realloc(void *old, size_t size);
void __wrap_free(void *old);
char *__wrap_realpath(const char *path, char *to);

static long blocks;

static void *counted(void *block)
{
    blocks += block != NULL;
    return block;
}

void *__wrap_malloc(size_t size)
{
    return fails_here("memory", "") ? NULL : counted(__real_malloc(size));
}

void *__wrap_calloc(size_t count, size_t size)
{
    return fails_here("memory", "") ? NULL : counted(__real_calloc(count, size));
}

void *__wrap_realloc(void *old, size_t size)
{
    if (fails_here("memory", ""))
        return NULL;
    void *block = __real_realloc(old, size);
    blocks += old == NULL && block != NULL;
    return block;
}

void __wrap_free(void *old)
{
    blocks -= old != NULL;
    __real_free(old);
}

char *__wrap_realpath(const char *path, char *to)
{
    return fails_here("resolve", path) ? NULL : counted(__real_realpath(path, to));
}

/* ---- processes */

report *told;

void share_report(void)
{
    told = mmap(NULL, sizeof *told, PROT_READ | PROT_WRITE, MAP_SHARED | MAP_ANONYMOUS, -1, 0);
    expect(told != MAP_FAILED, "memory for two processes");
}

int each_step(void)
{
    const char *text = getenv("BLORB_TEST_EACH");
    return text != NULL && atoi(text) > 1 ? atoi(text) : 1;
}

void calm_down(void)
{
    unsetenv("CRASH_AT");
}

/* The lowest descriptor that is free. */
static int free_descriptor(void)
{
    int fd = dup(STDIN_FILENO);
    close(fd);
    return fd;
}

static void fail_in_process(acting *act, const void *context, int at, int error, int half, int again)
{
    char text[16];
    int descriptor = free_descriptor();
    long before = blocks;
    snprintf(text, sizeof text, "%d", at);
    setenv("CRASH_EVERY", "1", 1);
    setenv("CRASH_AT", text, 1);
    snprintf(text, sizeof text, "%d", error);
    if (error != 0)
        setenv("CRASH_FAIL", text, 1);
    if (half)
        setenv("CRASH_HALF", "1", 1);
    count_steps_anew();
    blorb_store_answer a = act(context, again);
    told->met = steps_counted() >= at;
    calm_down();
    told->error = a.error;
    snprintf(told->step, sizeof told->step, "%s", failed_step());
    expect(blocks == before, "no memory is left behind: %ld blocks after %s failed at step %d", blocks - before, failed_step(), at);
    expect(free_descriptor() == descriptor, "no descriptor is left open after %s failed at step %d", failed_step(), at);
    _exit(0);
}

int in_process(acting *act, const void *context, int at, int error, int half, int again)
{
    int status = 0;
    fflush(NULL);
    *told = (report){.met = 1};
    pid_t child = fork();
    if (child == 0)
        fail_in_process(act, context, at, error, half, again);
    expect(child > 0 && waitpid(child, &status, 0) == child && WIFEXITED(status), "a process of its own");
    return WEXITSTATUS(status);
}
