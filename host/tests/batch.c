/* Several edits saved at once, for host/tests/command_store.py: store-batch FILE EDITS, the edits in the words of store_kit.h. */
#include <stdio.h>
#include <string.h>

#include "store_kit.h"

int main(int count, char **words)
{
    blorb_store *s;
    if (count != 3)
        return 1;
    blorb_store_answer a = blorb_store_open(&s, words[1], NULL, NULL);
    if (a.error == BLORB_STORE_DONE)
        a = blorb_store_load(s, BLORB_PLAIN, BLORB_STORE_EDIT);
    if (a.error == BLORB_STORE_DONE)
        a = apply(s, words[2]);
    if (a.error == BLORB_STORE_DONE)
        a = blorb_store_save(s, NULL);
    blorb_store_close(s);
    if (a.error != BLORB_STORE_DONE)
        fprintf(stderr, "%s (%s)\n", blorb_store_sentence(a.error), strerror(a.system));
    return a.error == BLORB_STORE_DONE ? 0 : 2;
}
