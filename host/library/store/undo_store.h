/* Putting a new file and its journal in the place of the old pair, so that after a crash at any step there is the old or the new one. */
#ifndef UNDO_STORE_H
#define UNDO_STORE_H

#include "undo_file.h"

/* What a call adds to the journal. */
typedef struct step {
    uint8_t *room; /* the record's bytes, and room for a state behind them */
    size_t record; /* how many they are; 0 for an undo */
    state after;
    uint64_t kept; /* how much of FILE.undo is needed after an undo; 0 for all */
} step;

/* An edit that is to be stored: its record stands at `at` in a room, with room for a state behind it. */
typedef struct unsaved {
    size_t at;
    size_t record; /* how many bytes it has */
} unsaved;

/*
 * The step of these edits, one or more, which stand in `room` without a gap, were made from the state `base` and have led to the new file. All but the
 * last are records with their states, which are put there: as the record's bytes they go before the last state.
 */
step edit_step(const journal *j, const state *base, uint8_t *room, const unsaved *edits, size_t count, const file_id *new_file);

/* The step of an undo which leads to the state `to`. */
step undo_step(const journal *j, uint8_t *room, const state *to, const file_id *new_file);

/* `like` is the status of the old file. Nothing of the journal is left where there is nothing to undo any more. */
in_place store_pair(const place *p, const struct stat *like, bytes new_file, journal *j, step *s);

#endif
