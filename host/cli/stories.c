#include "stories.h"

#include <ctype.h>
#include <string.h>

#include "contents.h"

/* The head of a story of the Z-machine, in version 1 to 8. */
enum { Z_HEAD = 64, Z_RELEASE = 2, Z_SERIAL = 18, Z_CHECKSUM = 28, Z_IDENTITY = 13, LAST_VERSION = 8, SERIAL = 6 };

static uint32_t short_number(const uint8_t *at)
{
    return (uint32_t)at[0] << 8 | at[1];
}

int read_z_story(bytes story, z_story *s)
{
    if (story.length < Z_HEAD || story.at[0] < 1 || story.at[0] > LAST_VERSION)
        return 0;
    *s = (z_story){.version = story.at[0], .release = short_number(story.at + Z_RELEASE), .checksum = short_number(story.at + Z_CHECKSUM)};
    for (size_t i = 0; i < SERIAL; i++)
        s->serial[i] = isgraph(story.at[Z_SERIAL + i]) ? (char)story.at[Z_SERIAL + i] : '?';
    return 1;
}

int read_glulx(bytes story, uint32_t version[3])
{
    if (story.length < 8 || memcmp(story.at, "Glul", 4) != 0)
        return 0;
    version[0] = short_number(story.at + 4);
    version[1] = story.at[6];
    version[2] = story.at[7];
    return 1;
}

/* Release, serial number, checksum, and a place in the story that has no meaning here. */
bytes identity_of(bytes story, uint8_t room[IDENTITY_SIZE])
{
    z_story z;
    uint32_t version[3];
    memset(room, 0, IDENTITY_SIZE);
    if (read_glulx(story, version) && story.length >= IDENTITY_SIZE) {
        memcpy(room, story.at, IDENTITY_SIZE);
        return (bytes){room, IDENTITY_SIZE};
    }
    if (!read_z_story(story, &z))
        return (bytes){room, 0};
    memcpy(room, story.at + Z_RELEASE, 2);
    memcpy(room + 2, story.at + Z_SERIAL, SERIAL);
    memcpy(room + 2 + SERIAL, story.at + Z_CHECKSUM, 2);
    return (bytes){room, Z_IDENTITY};
}

/* The Treaty of Babel, 2.2: capital letters, digits and hyphens. */
static size_t ifid_length(const uint8_t *at, size_t left)
{
    size_t length = 0;
    while (length < left && (isdigit(at[length]) || isupper(at[length]) || at[length] == '-'))
        length++;
    return left - length >= 2 && at[length] == '/' && at[length + 1] == '/' ? length : 0;
}

bytes ifid_in(bytes story)
{
    static const char mark[] = "UUID://";
    size_t size = sizeof mark - 1;
    for (size_t i = 0; i + size <= story.length; i++) {
        const uint8_t *found = memchr(story.at + i, mark[0], story.length - size + 1 - i);
        if (found == NULL)
            break;
        i = (size_t)(found - story.at);
        if (memcmp(found, mark, size) != 0)
            continue;
        size_t length = ifid_length(found + size, story.length - size - i);
        if (length > 0)
            return (bytes){found + size, length};
    }
    return (bytes){NULL, 0};
}
