/*
 * The finding table beside a file, FILE.table: the library's rows as big-endian numbers of 32 bits, and nothing else.
 *
 * An edit writes the new table under its temporary name first, then puts the new file in place, and then the table. A crash between
 * the two leaves the table of the old file, which every check finds: a table that passes its check is right.
 */
#ifndef TABLE_FILE_H
#define TABLE_FILE_H

#include "files.h"

/* Whether there is a table to be kept up: a link or a folder of that name is none of ours. Gives -1 and errno where that cannot be told. */
int table_stands(const place *p);

/* The table of a file that is accepted under this profile, under its temporary name. Gives 0, or -1 and errno. */
int stage_table(const place *p, bytes file, uint32_t profile, const struct stat *like);

/* Gives the staged table its name, or discards it where that fails. */
in_place put_table(const place *p);

/* The same by what became of the file: beside the old one the staged table is discarded, and there is nothing to tell (NEW_IN_PLACE). */
in_place settle_table(const place *p, in_place file);

#endif
