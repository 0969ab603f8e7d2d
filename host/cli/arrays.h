/* The finding table as C. */
#ifndef ARRAYS_H
#define ARRAYS_H

#include "commands.h"

/* To OUT of the request, or to standard output. Gives the exit status. */
int write_c_array(const request *r);

#endif
