/* The names of files that resources and chunks are written to. */
#ifndef NAMES_H
#define NAMES_H

#include <stddef.h>
#include <stdint.h>

#include "contents.h"
#include "files.h"

enum { NAME_SIZE = 40 };

/* Usage, number and the ending that viewers know: Pict-1.png, Exec-0.z5. `held` is what a lookup gives. */
void name_resource(const entry *e, const char type[4], bytes held, char name[NAME_SIZE]);

/* A number, the type as far as it has letters and digits, and an ending: chunk-2-IFmd.xml. */
void name_chunk(size_t number, const char type[4], char name[NAME_SIZE]);

#endif
