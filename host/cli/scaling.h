/* What the 'Reso' chunk of a file is good for. */
#ifndef SCALING_H
#define SCALING_H

#include "contents.h"

/* Warns where the library scales no picture of an accepted file. */
void warn_of_scaling(const contents *c, const char *shown);

#endif
