/* Many files in one folder. */
#ifndef UNPACKING_H
#define UNPACKING_H

#include "commands.h"
#include "contents.h"

/* Every resource to a file of its own in the folder of the request. Gives the exit status. */
int get_all(const request *r, const contents *c);

#endif
