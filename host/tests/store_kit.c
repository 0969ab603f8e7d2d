#define _GNU_SOURCE
#include "store_kit.h"

#include <dirent.h>
#include <stdarg.h>
#include <stdio.h>
#include <stdlib.h>
#include <string.h>
#include <sys/stat.h>
#include <unistd.h>

size_t checks;

void expect(int right, const char *what, ...)
{
    va_list more;
    checks++;
    if (right)
        return;
    va_start(more, what);
    fputs("store: FAILED: ", stderr);
    vfprintf(stderr, what, more);
    fputc('\n', stderr);
    va_end(more);
    _exit(1);
}

/* ---- the folder */

static char folder[64];

void enter_folder(void)
{
    /* A file system in memory: waiting for a disk would take minutes. */
    snprintf(folder, sizeof folder, "%s/blorb-store-XXXXXX", access("/dev/shm", W_OK) == 0 ? "/dev/shm" : "/tmp");
    expect(mkdtemp(folder) != NULL && chdir(folder) == 0, "a folder to work in");
}

/* Each name in the folder goes to a function; gives the sum of what that gives. */
static int each_name(int (*take)(const char *name))
{
    int sum = 0;
    DIR *d = opendir(".");
    for (struct dirent *e = readdir(d); e != NULL; e = readdir(d))
        if (strcmp(e->d_name, ".") != 0 && strcmp(e->d_name, "..") != 0)
            sum += take(e->d_name);
    closedir(d);
    return sum;
}

void empty_folder(void)
{
    each_name(remove);
}

void leave_folder(void)
{
    empty_folder();
    expect(chdir("/") == 0 && rmdir(folder) == 0, "the folder is left empty");
}

held read_name(const char *name)
{
    held h = {NULL, 0};
    struct stat status;
    FILE *f = fopen(name, "rb");
    if (f == NULL)
        return h;
    expect(fstat(fileno(f), &status) == 0, "%s is asked for its length", name);
    h.length = (size_t)status.st_size;
    h.at = malloc(h.length + 1);
    expect(fread(h.at, 1, h.length, f) == h.length, "%s is read", name);
    fclose(f);
    return h;
}

void write_name(const char *name, held h)
{
    unlink(name);
    if (h.at == NULL)
        return;
    FILE *f = fopen(name, "wb");
    expect(f != NULL && fwrite(h.at, 1, h.length, f) == h.length, "%s is written", name);
    fclose(f);
}

int same_bytes(held a, held b)
{
    return (a.at == NULL) == (b.at == NULL) && a.length == b.length && (a.length == 0 || memcmp(a.at, b.at, a.length) == 0);
}

int is_there(const char *name)
{
    return access(name, F_OK) == 0;
}

static int is_temporary_name(const char *name)
{
    return strstr(name, ".blorb-temp") != NULL;
}

int temporary_names(void)
{
    return each_name(is_temporary_name);
}

/* ---- edits in words */

typedef struct word {
    char letter;
    uint32_t number;
} word;

static const char *next_word(const char *at, word *w)
{
    char *end;
    while (*at == ' ')
        at++;
    if (*at == '\0')
        return NULL;
    *w = (word){at[0], (uint32_t)strtoul(at + 1, &end, 10)};
    return end;
}

/* Data that differs by letter and number, of some hundred bytes; of s3 it is what a3 has put in. */
static held data_of(word w, char text[600])
{
    size_t length = 0, wanted = 20 + 37 * (w.number % 11);
    while (length < wanted)
        length += (size_t)snprintf(text + length, 600 - length, "%c%u, ", w.letter == 's' ? 'a' : w.letter, (unsigned)w.number);
    return (held){(uint8_t *)text, length};
}

enum { ROOM = 65536 };

static void keep(chain *c, const uint8_t *file, size_t length)
{
    held h = {malloc(length), length};
    memcpy(h.at, file, length);
    expect(c->count < MOST_FILES, "room for the files of a chain");
    c->files[c->count++] = h;
}

chain first_chain(void)
{
    static uint8_t file[ROOM], journal[ROOM];
    chain c = {.count = 0};
    char text[600];
    blorb_editor e;
    blorb_editor_blank(&e, file, sizeof file, journal, sizeof journal, BLORB_PLAIN);
    blorb_editor_add(&e, "Pict", 1, "Rect", (const uint8_t *)"\0\0\0\1\0\0\0\2", 8);
    for (uint32_t n = 3; n <= 4; n++) {
        held d = data_of((word){'a', n}, text);
        expect(blorb_editor_add(&e, "Data", n, "TEXT", d.at, d.length).refusal == BLORB_DONE, "the first file");
    }
    keep(&c, e.file, e.length);
    return c;
}

void free_chain(chain *c)
{
    while (c->count > 0)
        free(c->files[--c->count].at);
}

held top_of(const chain *c)
{
    return c->files[c->count - 1];
}

static void follow_word(chain *c, word w)
{
    static uint8_t file[ROOM], journal[ROOM];
    char text[600];
    held top = top_of(c), d = data_of(w, text);
    blorb_editor e;
    memcpy(file, top.at, top.length);
    expect(blorb_editor_begin(&e, file, sizeof file, top.length, journal, sizeof journal, BLORB_PLAIN).refusal == BLORB_DONE, "a file of a chain");
    blorb_edit_answer a = w.letter == 'a' ? blorb_editor_add(&e, "Data", w.number, "TEXT", d.at, d.length)
        : w.letter == 'x' ? blorb_editor_remove(&e, "Data", w.number)
        : w.letter == 'l' ? blorb_editor_link(&e, "Pict", 1, "Pict", w.number)
                          : blorb_editor_replace(&e, "Data", w.number, "TEXT", d.at, d.length);
    expect(a.refusal == BLORB_DONE, "%c%u in memory: %s", w.letter, (unsigned)w.number, blorb_sentence(a.refusal));
    keep(c, e.file, e.length);
}

void follow(chain *c, const char *edits)
{
    word w;
    for (const char *at = next_word(edits, &w); at != NULL; at = next_word(at, &w))
        if (w.letter != 'u' && w.letter != '|')
            follow_word(c, w);
        else
            for (uint32_t i = 0; i < w.number; i++)
                free(c->files[--c->count].at);
}

blorb_store_answer apply(blorb_store *s, const char *edits)
{
    word w;
    char text[600];
    blorb_store_answer a = {.error = BLORB_STORE_DONE};
    for (const char *at = next_word(edits, &w); at != NULL && a.error == BLORB_STORE_DONE; at = next_word(at, &w)) {
        held d = data_of(w, text);
        a = w.letter == 'a' ? blorb_store_add(s, "Data", w.number, "TEXT", d.at, d.length)
            : w.letter == 'x' ? blorb_store_remove(s, "Data", w.number)
            : w.letter == 'l' ? blorb_store_link(s, "Pict", 1, "Pict", w.number)
            : w.letter == 'u' ? blorb_store_undo(s, w.number)
            : w.letter == '|' ? blorb_store_save(s, NULL)
                              : blorb_store_replace(s, "Data", w.number, "TEXT", d.at, d.length);
    }
    return a;
}

blorb_store *opened(int how)
{
    blorb_store *s;
    blorb_store_answer a = blorb_store_open(&s, FILE_NAME, NULL, NULL);
    if (a.error == BLORB_STORE_DONE)
        a = blorb_store_load(s, BLORB_PLAIN, how);
    expect(a.error == BLORB_STORE_DONE, "the file is opened and loaded: %s", blorb_store_sentence(a.error));
    return s;
}

void carry_out(const char *edits)
{
    blorb_store *s = opened(BLORB_STORE_EDIT);
    blorb_store_answer a = apply(s, edits);
    if (a.error == BLORB_STORE_DONE)
        a = blorb_store_save(s, NULL);
    expect(a.error == BLORB_STORE_DONE, "%s: %s", edits, blorb_store_sentence(a.error));
    blorb_store_close(s);
}

void goes_back(const chain *c, const char *what)
{
    blorb_store *s = opened(BLORB_STORE_EDIT);
    for (size_t i = c->count; i > 0; i--) {
        held now;
        now.at = (uint8_t *)blorb_store_file(s, &now.length);
        expect(same_bytes(now, c->files[i - 1]), "%s: file %zu of %zu", what, i, c->count);
        expect(blorb_store_edits(s) == i - 1, "%s: %zu edits can be undone", what, (size_t)blorb_store_edits(s));
        blorb_store_answer a = blorb_store_undo(s, 1);
        expect(a.error == (i > 1 ? BLORB_DONE : BLORB_NOTHING_TO_UNDO), "%s: undo from file %zu: %s", what, i, blorb_store_sentence(a.error));
    }
    blorb_store_close(s);
}
