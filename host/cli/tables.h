/* What is said of the finding table beside a file, FILE.table. */
#ifndef TABLES_H
#define TABLES_H

#include "contents.h"

/* Checks FILE.table, if it stands, against an accepted file; says what is wrong with it, and gives the rows of a good one. Gives the exit status. */
int check_table(const contents *c, const char *shown, int *missing, size_t *rows);

#endif
