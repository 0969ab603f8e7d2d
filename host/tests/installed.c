/*
 * What a stranger writes first: a blank file, one resource, its data read back, and the edit undone. Built by host/tests/install against an
 * installed copy, as C and as C++.
 */
#include <blorb.h>
#include <stdio.h>

static uint8_t file[100], journal[100];

int main(void)
{
    blorb_editor e;
    if (blorb_version() != BLORB_VERSION)
        return 2;
    blorb_editor_blank(&e, file, sizeof file, journal, sizeof journal, BLORB_PLAIN);
    blorb_edit_answer a = blorb_editor_add(&e, "Data", 7, "TEXT", (const uint8_t *)"eel", 3);
    if (a.refusal != BLORB_DONE) {
        fprintf(stderr, "%s\n", blorb_sentence(a.refusal));
        return 1;
    }
    blorb_lookup_answer eel = blorb_editor_lookup(&e, "Data", 7);
    printf("%.*s\n", (int)eel.length, (const char *)e.file + eel.start);
    blorb_editor_undo(&e);
    printf("%s\n", blorb_sentence(blorb_editor_lookup(&e, "Data", 7).refusal));
    return 0;
}
