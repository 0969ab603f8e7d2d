/* The file in memory put in the place of the one on the disk, with its journal and its finding table. */
#define _XOPEN_SOURCE 700
#include "store.h"

#include <errno.h>
#include <fcntl.h>

#include "table_file.h"

static bytes new_file(const blorb_store *s)
{
    return (bytes){s->file, s->length};
}

/* The new file with its journal's step, or alone. Where it is in place, its state is the one that edits stand on. */
static in_place put_file(blorb_store *s, const file_id *id)
{
    uint8_t room[STATE_SIZE];
    if (s->how == BLORB_STORE_NO_UNDO)
        return replace_file(&s->p, new_file(s), &s->status);
    step added = s->count > 0 ? edit_step(&s->j, &s->base, s->room, s->edits, s->count, id) : undo_step(&s->j, room, &s->base, id);
    in_place answer = store_pair(&s->p, &s->status, new_file(s), &s->j, &added);
    if (answer != OLD_IN_PLACE)
        s->base = added.after;
    return answer;
}

/* The file in memory is the one on the disk now. What it was made like is looked at anew. */
static void become_saved(blorb_store *s, const file_id *id)
{
    int error = errno;
    struct stat status;
    if (fstatat(s->p.folder, s->p.name, &status, 0) == 0)
        s->status = status;
    s->on_disk = *id;
    forget_edits(s);
    errno = error;
}

/*
 * The table, if one stands there, is on the disk before the file changes and takes its place right behind it. A journal with nothing to undo goes where
 * none is kept.
 */
static blorb_store_answer put_all(blorb_store *s, blorb_store_answer *table)
{
    file_id id = id_of(s->file, s->length);
    int keeps_table = table_stands(&s->p);
    if (keeps_table < 0 || (keeps_table && stage_table(&s->p, new_file(s), s->profile, &s->status) != 0))
        return failed_with(BLORB_STORE_NOT_SAVED);
    in_place answer = put_file(s, &id);
    blorb_store_answer came = came_of(answer, BLORB_STORE_NOT_SAVED, BLORB_STORE_UNCONFIRMED);
    if (keeps_table)
        *table = came_of(settle_table(&s->p, answer), BLORB_STORE_TABLE_OLD, BLORB_STORE_TABLE_UNCONFIRMED);
    if (s->how == BLORB_STORE_NO_UNDO && answer == NEW_IN_PLACE && s->found == JOURNAL_READY)
        discard(&s->p, s->p.undo);
    if (answer != OLD_IN_PLACE)
        become_saved(s, &id);
    s->knows_journal = 0;
    return came;
}

blorb_store_answer blorb_store_save(blorb_store *s, blorb_store_answer *table)
{
    blorb_store_answer of_table = answer_done();
    blorb_store_answer answer = ready_to_edit(s);
    if (answer.error == BLORB_STORE_DONE && is_changed(s)) {
        /* A journal that knows the present file would not know the new one. */
        int lost = s->how == BLORB_STORE_NO_UNDO && s->found == JOURNAL_READY && s->j.now.edits > 0;
        answer = lost ? failed_without(BLORB_STORE_UNDO_LEFT) : put_all(s, &of_table);
    }
    if (table != NULL)
        *table = of_table;
    return answer.error != BLORB_STORE_DONE ? answer : of_table;
}

blorb_store_answer blorb_store_write_table(blorb_store *s)
{
    if (!s->loaded)
        return failed_without(BLORB_STORE_NOT_LOADED);
    if (is_changed(s))
        return failed_without(BLORB_STORE_UNSAVED);
    if (stage_table(&s->p, new_file(s), s->profile, &s->status) != 0)
        return failed_with(BLORB_STORE_TABLE_NOT_WRITTEN);
    return came_of(put_table(&s->p), BLORB_STORE_TABLE_NOT_WRITTEN, BLORB_STORE_TABLE_UNCONFIRMED);
}
