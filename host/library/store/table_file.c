#define _XOPEN_SOURCE 700
#include "table_file.h"

#include <errno.h>
#include <fcntl.h>
#include <stdlib.h>
#include <unistd.h>

#include "blorb_store.h"
#include "numbers.h"
#include "store.h"

enum { NUMBER_SIZE = 4, MOST_BYTES = NUMBER_SIZE * BLORB_STORE_TABLE_NUMBERS };

int table_stands(const place *p)
{
    struct stat status;
    if (fstatat(p->folder, p->table, &status, AT_SYMLINK_NOFOLLOW) != 0)
        return errno == ENOENT ? 0 : -1;
    return S_ISREG(status.st_mode) ? 1 : 0;
}

int stage_table(const place *p, bytes file, uint32_t profile, const struct stat *like)
{
    uint32_t *numbers = malloc(BLORB_STORE_TABLE_NUMBERS * sizeof *numbers);
    uint8_t *room = malloc(MOST_BYTES);
    int done = -1;
    if (numbers != NULL && room != NULL) {
        blorb_build_answer built = blorb_table_build(file.at, file.length, profile, numbers, BLORB_STORE_TABLE_NUMBERS);
        size_t count = BLORB_ROW_NUMBERS * (size_t)built.rows;
        for (size_t i = 0; i < count; i++)
            number_to(room + NUMBER_SIZE * i, numbers[i]);
        bytes whole = {room, NUMBER_SIZE * count};
        done = stage(p, p->table_temp, &whole, 1, like);
    }
    free(room);
    free(numbers);
    return done;
}

in_place put_table(const place *p)
{
    if (install(p, p->table_temp, p->table) == 0)
        return confirm(p) == 0 ? NEW_IN_PLACE : NEW_UNCONFIRMED;
    discard(p, p->table_temp);
    return OLD_IN_PLACE;
}

in_place settle_table(const place *p, in_place file)
{
    if (file != OLD_IN_PLACE)
        return put_table(p);
    discard(p, p->table_temp);
    return NEW_IN_PLACE;
}

/* Gives 0, or -1 and errno. One byte more than a table can have shows a longer one. */
static int read_numbers(int fd, uint32_t *table, size_t *count, size_t *length)
{
    uint8_t *room = malloc(MOST_BYTES + 1);
    int done = room == NULL ? -1 : read_all(fd, room, MOST_BYTES + 1, length);
    for (size_t at = 0; done == 0 && at + NUMBER_SIZE <= *length && *count < BLORB_STORE_TABLE_NUMBERS; at += NUMBER_SIZE)
        table[(*count)++] = number_in(room + at);
    free(room);
    return done;
}

/* The library's check; a number that is cut, or one too many, is "more" than the rows. */
static blorb_store_answer judge(bytes file, uint32_t profile, const uint32_t *table, size_t count, size_t length)
{
    blorb_check_answer answer = blorb_table_check(file.at, file.length, profile, table, count);
    if (answer.refusal == BLORB_DONE && length != NUMBER_SIZE * count)
        answer = (blorb_check_answer){BLORB_TABLE_STALE, count / BLORB_ROW_NUMBERS};
    return refused_with(answer.refusal, answer.place);
}

/* The table at this path, read and checked. A pipe of this name holds nobody up. */
static blorb_store_answer read_at(const char *path, bytes file, uint32_t profile, uint32_t *table, size_t *numbers)
{
    struct stat status;
    size_t length = 0;
    int fd = open(path, O_RDONLY | O_NONBLOCK | O_CLOEXEC);
    if (fd < 0)
        return errno == ENOENT ? failed_without(BLORB_STORE_NO_TABLE) : failed_with(BLORB_STORE_TABLE_READ);
    int plain = fstat(fd, &status) != 0 ? -1 : S_ISREG(status.st_mode) != 0;
    int read = plain > 0 ? read_numbers(fd, table, numbers, &length) : -1;
    blorb_store_answer answer = plain == 0 ? failed_without(BLORB_STORE_TABLE_OTHER) : failed_with(BLORB_STORE_TABLE_READ);
    close(fd);
    return read == 0 ? judge(file, profile, table, *numbers, length) : answer;
}

blorb_store_answer blorb_store_read_table(const char *path, const uint8_t *file, size_t size, uint32_t profile, uint32_t *table, size_t *numbers)
{
    *numbers = 0;
    char *beside = table_beside(path);
    if (beside == NULL)
        return errno == ENOENT ? failed_without(BLORB_STORE_NO_TABLE) : failed_with(errno == ENOMEM ? BLORB_STORE_MEMORY : BLORB_STORE_TABLE_READ);
    blorb_store_answer answer = read_at(beside, (bytes){file, size}, profile, table, numbers);
    free(beside);
    return answer;
}
