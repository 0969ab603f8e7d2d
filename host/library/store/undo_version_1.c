/*
 * Journals of version 1, which earlier versions of this program wrote whole at each call:
 *
 *     bytes  what
 *     8      "BLORBUN1"
 *     48     the file before the last call: used (8), length (8), SHA-256 (32)
 *     48     the file after it, likewise
 *     n      the journal's records; `used` says how many bytes of them belong to that file
 *     32     the SHA-256 of all bytes before
 *
 * Where both are the same file, the second counts. The next call makes a journal of the present version of it.
 */
#define _XOPEN_SOURCE 700
#include <stdlib.h>
#include <string.h>
#include <unistd.h>

#include "blorb.h"
#include "numbers.h"
#include "undo_file.h"

enum { NAME_SIZE = 8, ID_SIZE = 16 + SHA256_SIZE, HEAD_SIZE = NAME_SIZE + 2 * ID_SIZE };

static int is_file(const uint8_t *from, const file_id *present)
{
    return long_number_in(from + 8) == present->length && memcmp(from + 16, present->hash, SHA256_SIZE) == 0;
}

static journal_answer judge(const uint8_t *held, size_t size, const file_id *present, journal *j)
{
    uint8_t hash[SHA256_SIZE];
    const uint8_t *before = held + NAME_SIZE, *after = before + ID_SIZE;
    if (size < HEAD_SIZE + SHA256_SIZE)
        return JOURNAL_DAMAGED;
    sha256(held, size - SHA256_SIZE, hash);
    if (memcmp(hash, held + size - SHA256_SIZE, SHA256_SIZE) != 0)
        return JOURNAL_DAMAGED;
    const uint8_t *its = is_file(after, present) ? after : is_file(before, present) ? before : NULL;
    if (its == NULL)
        return JOURNAL_NOT_ITS;
    uint64_t used = long_number_in(its);
    if (used > size - HEAD_SIZE - SHA256_SIZE)
        return JOURNAL_DAMAGED;
    return begin_journal(j, present, BLORB_PLAIN, held + HEAD_SIZE, (size_t)used);
}

/* Whether a file of this size can be a journal with this head: nothing else is read whole. */
static int is_of_size(const uint8_t head[HEAD_SIZE], size_t size)
{
    uint64_t before = long_number_in(head + NAME_SIZE), after = long_number_in(head + NAME_SIZE + ID_SIZE);
    return size >= HEAD_SIZE + SHA256_SIZE && size - HEAD_SIZE - SHA256_SIZE == (before > after ? before : after);
}

journal_answer load_version_1(int fd, size_t size, const file_id *present, journal *j)
{
    uint8_t head[HEAD_SIZE] = {0};
    size_t length;
    if (lseek(fd, 0, SEEK_SET) != 0 || read_all(fd, head, HEAD_SIZE, &length) != 0)
        return JOURNAL_FAILED;
    if (length < HEAD_SIZE || !is_of_size(head, size))
        return JOURNAL_DAMAGED;
    uint8_t *held = malloc(size);
    journal_answer answer = JOURNAL_FAILED;
    if (held != NULL && lseek(fd, 0, SEEK_SET) == 0 && read_all(fd, held, size, &length) == 0)
        answer = judge(held, length, present, j);
    free(held);
    return answer;
}
