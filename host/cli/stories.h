/* What a story tells of itself by its first bytes. */
#ifndef STORIES_H
#define STORIES_H

#include <stddef.h>
#include <stdint.h>

#include "files.h"

/* The data of an 'IFhd' chunk, by which a file of resources names its story: of the Z-machine (13 bytes) or Glulx (128). None for other data. */
enum { IDENTITY_SIZE = 128 };
bytes identity_of(bytes story, uint8_t room[IDENTITY_SIZE]);

/* A story of the Z-machine. Gives 0 where the data is too short to be one, or not by its version. */
typedef struct z_story {
    uint8_t version;
    uint32_t release;
    char serial[7];
    uint32_t checksum;
} z_story;
int read_z_story(bytes story, z_story *s);

/* The version of Glulx that a story needs: three numbers. Gives 0 where it is none. */
int read_glulx(bytes story, uint32_t version[3]);

/* The IFID that a story has inside, as UUID://..//; of no bytes where there is none. */
bytes ifid_in(bytes story);

#endif
