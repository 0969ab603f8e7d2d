/*
 * Edits a game in memory: a blank file, a text and a rectangle in place of a cover, a correction, and the correction taken back.
 *
 * Nothing is allocated: the caller lends a buffer for the file and one for the journal. A call that is refused has changed nothing, and says why.
 */
#include <blorb.h>
#include <stdio.h>

static uint8_t file[4096], journal[4096];

/* Tells what became of an edit, and whether it was carried out. */
static int told(const char *what, blorb_edit_answer a)
{
    if (a.refusal == BLORB_DONE)
        printf("%s: %u bytes, %u of them to undo\n", what, (unsigned)a.length, (unsigned)a.used);
    else
        printf("%s: refused, %s (%u at %u)\n", what, blorb_sentence(a.refusal), (unsigned)a.refusal, (unsigned)a.place);
    return a.refusal == BLORB_DONE;
}

static void show(const blorb_editor *e, uint32_t number)
{
    blorb_lookup_answer found = blorb_editor_lookup(e, BLORB_USAGE_DATA, number);
    if (found.refusal == BLORB_DONE)
        printf("  Data %u: %.*s\n", (unsigned)number, (int)found.length, (const char *)e->file + found.start);
}

int main(void)
{
    static const uint8_t wide[8] = {0, 0, 1, 64, 0, 0, 0, 200}; /* 320 by 200 */
    blorb_editor e;
    int good = told("blank", blorb_editor_blank(&e, file, sizeof file, journal, sizeof journal, BLORB_PLAIN));
    good &= told("add", blorb_editor_add(&e, BLORB_USAGE_DATA, 7, BLORB_TYPE_TEXT, (const uint8_t *)"You see an eal.", 15));
    good &= told("add", blorb_editor_add(&e, BLORB_USAGE_PICT, 1, BLORB_TYPE_RECT, wide, sizeof wide));
    show(&e, 7);
    good &= told("replace", blorb_editor_replace(&e, BLORB_USAGE_DATA, 7, BLORB_TYPE_TEXT, (const uint8_t *)"You see an eel.", 15));
    show(&e, 7);
    good &= !told("add again", blorb_editor_add(&e, BLORB_USAGE_DATA, 7, BLORB_TYPE_TEXT, NULL, 0));
    good &= told("undo", blorb_editor_undo(&e));
    show(&e, 7);
    /* To go on another day, keep e.length bytes of the file and e.used bytes of the journal, and give them to blorb_editor_resume. */
    return good ? 0 : 1;
}
