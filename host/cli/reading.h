/* Where what a command has found is written. */
#ifndef READING_H
#define READING_H

#include "commands.h"
#include "contents.h"
#include "files.h"

/* To OUT of the request, safely, but never over FILE or a journal; to standard output where there is none. Gives the exit status. */
int put_where_asked(const request *r, const contents *c, bytes held);

/*
 * The same to this file. Where the request has a folder, which many files go to, the disk has confirmed its name only after `confirm_folder`, and
 * without --force nothing is overwritten.
 */
int put_at(const request *r, const char *out, const contents *c, bytes held);

#endif
