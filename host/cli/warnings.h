/* What no rule forbids and yet is likely to be wrong, or makes other programs stumble. */
#ifndef WARNINGS_H
#define WARNINGS_H

#include "contents.h"

/* Says all of it of an accepted file. */
void warn_of(const contents *c, const char *shown);

/* Of it what concerns this resource, which has just been put in. */
void warn_of_resource(const contents *c, const char *shown, const char usage[4], uint32_t number);

#endif
