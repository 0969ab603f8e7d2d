/*
 * Puts a text into a Blorb file on a disk, or takes the last edit back: blorb_store.h in use. Whenever this program or the machine is stopped, the file
 * is the old one or the new one, and what was done before can still be undone.
 *
 *   cc -o edit_and_save edit_and_save.c $(pkg-config --cflags --libs blorb_store)
 *   ./edit_and_save game.blb 7 "An eel."    Data 7 is this text from now on; game.blb is made if it is not there
 *   ./edit_and_save game.blb                takes the last edit back
 */
#include <blorb_store.h>
#include <stdio.h>
#include <stdlib.h>
#include <string.h>

static int show(const char *path, blorb_store_answer a)
{
    fprintf(stderr, "%s: %s", path, blorb_store_sentence(a.error));
    if (a.system != 0)
        fprintf(stderr, " (%s)", strerror(a.system));
    fputs(".\n", stderr);
    return 1;
}

static int show_edit(void *context, const blorb_store_edit *e)
{
    static const char *const done[] = {"changed", "added", "replaced", "removed", "removed", "linked"};
    (void)context;
    printf("can be undone: %s %.4s %lu\n", done[e->kind <= BLORB_STORE_LINKED ? e->kind : 0], e->usage, (unsigned long)e->number);
    return 0;
}

/* A resource that is there gets other data; otherwise it is added. */
static blorb_store_answer put_text(blorb_store *s, uint32_t number, const char *text)
{
    size_t length;
    const uint8_t *file = blorb_store_file(s, &length);
    int is_there = blorb_lookup(file, length, BLORB_PLAIN, "Data", number).refusal == BLORB_DONE;
    return (is_there ? blorb_store_replace : blorb_store_add)(s, "Data", number, "TEXT", (const uint8_t *)text, strlen(text));
}

/* All of it works on the file in memory, up to blorb_store_save. */
static blorb_store_answer edit(blorb_store *s, int count, char **words)
{
    int puts_text = count == 4;
    blorb_store_answer a = {BLORB_STORE_DONE, 0, 0};
    if (puts_text)
        a = blorb_store_create(s);
    if (a.error == BLORB_STORE_DONE || a.error == BLORB_STORE_TAKEN)
        a = blorb_store_load(s, BLORB_PLAIN, BLORB_STORE_EDIT);
    if (a.error == BLORB_STORE_DONE)
        a = puts_text ? put_text(s, (uint32_t)strtoul(words[2], NULL, 10), words[3]) : blorb_store_undo(s, 1);
    if (a.error == BLORB_STORE_DONE)
        a = blorb_store_save(s, NULL);
    if (a.error == BLORB_STORE_DONE)
        a = blorb_store_history(s, show_edit, NULL);
    return a;
}

int main(int count, char **words)
{
    blorb_store *s;
    if (count != 2 && count != 4) {
        fputs("usage: edit_and_save FILE [NUMBER TEXT]\n", stderr);
        return 2;
    }
    blorb_store_answer a = blorb_store_open(&s, words[1], NULL, NULL);
    if (a.error == BLORB_STORE_DONE)
        a = edit(s, count, words);
    blorb_store_close(s);
    return a.error == BLORB_STORE_DONE ? 0 : show(words[1], a);
}
