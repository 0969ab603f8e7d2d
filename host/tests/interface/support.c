/* What every family uses: checks, files and records by hand, and buffers of an exact size. */
#include "interface.h"

#include <sys/mman.h>
#include <unistd.h>

enum lending lending;
unsigned long checks;
uint32_t profile;

void expect(int right, const char *what)
{
    checks++;
    if (right)
        return;
    printf("interface: FAILED: %s (buffers: %d)\n", what, (int)lending);
    exit(1);
}

void put32(uint8_t *at, uint32_t n)
{
    for (int i = 0; i < 4; i++)
        at[i] = (uint8_t)(n >> (24 - 8 * i));
}

static uint32_t get32(const uint8_t *at)
{
    return (uint32_t)at[0] << 24 | (uint32_t)at[1] << 16 | (uint32_t)at[2] << 8 | at[3];
}

void append(image *f, const void *from, size_t n)
{
    if (n > 0)
        memcpy(f->at + f->length, from, n);
    f->length += n;
}

void append32(image *f, uint32_t n)
{
    put32(f->at + f->length, n);
    f->length += 4;
}

image blank(void)
{
    image f = {.length = 24};
    memcpy(f.at, "FORM\0\0\0\20IFRSRIdx\0\0\0\4\0\0\0\0", 24);
    return f;
}

/* Rows come before chunks. */
void row(image *f, const char *usage, uint32_t number, uint32_t start)
{
    append(f, usage, 4);
    append32(f, number);
    append32(f, start);
    put32(f->at + 4, (uint32_t)f->length - 8);
    put32(f->at + 16, get32(f->at + 16) + 12);
    put32(f->at + 20, get32(f->at + 20) + 1);
}

void chunk(image *f, const char *type, const void *data, uint32_t n)
{
    append(f, type, 4);
    append32(f, n);
    append(f, data, n);
    append(f, "", n % 2);
    put32(f->at + 4, (uint32_t)f->length - 8);
}

image record(uint8_t kind, const char *usage, uint32_t number, uint32_t place, uint32_t start, const char *type,
                    const void *data, uint32_t n)
{
    image r = {.length = 0};
    append(&r, &kind, 1);
    append(&r, usage, 4);
    append32(&r, number);
    append32(&r, place);
    append32(&r, start);
    append(&r, type, 4);
    append32(&r, n);
    append(&r, data, n);
    append32(&r, 25 + n);
    return r;
}

/* The first two examples of docs/RULES.md. */
image sample_a(void)
{
    image f = blank();
    row(&f, "Data", 7, 36);
    chunk(&f, "TEXT", "eel", 3);
    return f;
}

image sample_b(void)
{
    image f = blank();
    row(&f, "Data", 7, 48);
    row(&f, "Pict", 1, 60);
    chunk(&f, "TEXT", "eel", 3);
    chunk(&f, "Rect", "\0\0\1\x40\0\0\0\0", 8);
    return f;
}

/* Sample B without its text. */
image without_text(void)
{
    image f = blank();
    row(&f, "Pict", 1, 36);
    chunk(&f, "Rect", "\0\0\1\x40\0\0\0\0", 8);
    return f;
}

/* Two pictures on one chunk, and a third that is the frontispiece. */
image shared(void)
{
    image f = blank();
    row(&f, "Pict", 1, 60);
    row(&f, "Pict", 2, 60);
    row(&f, "Pict", 3, 72);
    chunk(&f, "JPEG", "abcd", 4);
    chunk(&f, "PNG ", "odd", 3);
    chunk(&f, "Fspc", "\0\0\0\3", 4);
    return f;
}

lent lend(const uint8_t *from, size_t length, size_t size)
{
    lent l = {.size = size};
    size_t page = (size_t)sysconf(_SC_PAGESIZE), inside = (size + page - 1) / page * page;
    if (size == 0)
        return l;
    if (lending == FROM_MALLOC) {
        l.at = malloc(size);
    } else {
        l.map_size = inside + 2 * page;
        l.map = mmap(NULL, l.map_size, PROT_NONE, MAP_PRIVATE | MAP_ANONYMOUS, -1, 0);
        if (l.map == MAP_FAILED || mprotect(l.map + page, inside, PROT_READ | PROT_WRITE) != 0)
            exit(2);
        l.at = l.map + page + (lending == PAGE_BEHIND ? inside - size : 0);
    }
    if (l.at == NULL)
        exit(2);
    memset(l.at, FILLER, size);
    if (length > 0)
        memcpy(l.at, from, length);
    return l;
}

void give_back(lent *l)
{
    if (l->map != NULL)
        munmap(l->map, l->map_size);
    else
        free(l->at);
}
