#define _XOPEN_SOURCE 700
#include "undo_file.h"

#include <errno.h>
#include <fcntl.h>
#include <stdlib.h>
#include <string.h>
#include <unistd.h>

#include "blorb.h"
#include "numbers.h"

/* The head: a name, the version, the profile that the edits were made under (its lowest byte last), and four bytes for later. */
enum { NAME_SIZE = 7, VERSION_AT = 7, VERSION_1 = '1', PROFILE_AT = 8, PROFILE_LAST = 11 };

static const uint8_t plain_head[JOURNAL_HEAD_SIZE] = "BLORBUN2";

/* The head under a profile: those that are known fit into its last byte. */
static void make_head(uint8_t head[JOURNAL_HEAD_SIZE], uint32_t profile)
{
    memcpy(head, plain_head, JOURNAL_HEAD_SIZE);
    head[PROFILE_LAST] = (uint8_t)profile;
}

int knows_file(journal_answer answer)
{
    return answer == JOURNAL_READY || answer == JOURNAL_ADRIFT || answer == JOURNAL_PLAIN;
}

/* A state begins so; a record begins with its kind. */
static const uint8_t state_name[8] = "STATE";
enum { SEAL_AT = STATE_SIZE - SHA256_SIZE, LENGTH_AT = 21, LAST_KIND = 31 };

file_id id_of(const uint8_t *file, size_t length)
{
    file_id id = {.length = length};
    sha256(file, length, id.hash);
    return id;
}

int same_file(const file_id *a, const file_id *b)
{
    return a->length == b->length && memcmp(a->hash, b->hash, SHA256_SIZE) == 0;
}

static uint8_t *put_next(uint8_t *to, uint64_t n)
{
    long_number_to(to, n);
    return to + 8;
}

static uint8_t *put_bytes(uint8_t *to, const uint8_t *from, size_t length)
{
    memcpy(to, from, length);
    return to + length;
}

/* The head is sealed with every state: a journal under another head is another one. */
static void make_seal(const journal *j, const uint8_t *state_bytes, uint8_t seal[SHA256_SIZE])
{
    uint8_t sealed[JOURNAL_HEAD_SIZE + SEAL_AT];
    put_bytes(put_bytes(sealed, j->head, JOURNAL_HEAD_SIZE), state_bytes, SEAL_AT);
    sha256(sealed, sizeof sealed, seal);
}

void put_state(const journal *j, const state *s, uint8_t to[STATE_SIZE])
{
    uint8_t *at = put_bytes(to, state_name, sizeof state_name);
    at = put_next(at, s->at);
    at = put_next(at, s->before);
    at = put_next(at, s->below);
    at = put_next(at, s->edits);
    at = put_next(at, s->record_at);
    at = put_next(at, s->record_length);
    at = put_bytes(at, s->record_hash, SHA256_SIZE);
    at = put_next(at, s->file.length);
    at = put_bytes(at, s->file.hash, SHA256_SIZE);
    make_seal(j, to, at);
}

static state state_in(const uint8_t *from)
{
    state s = {.at = long_number_in(from + 8), .before = long_number_in(from + 16), .below = long_number_in(from + 24),
               .edits = long_number_in(from + 32), .record_at = long_number_in(from + 40),
               .record_length = long_number_in(from + 48), .file = {.length = long_number_in(from + 88)}};
    memcpy(s.record_hash, from + 56, SHA256_SIZE);
    memcpy(s.file.hash, from + 96, SHA256_SIZE);
    return s;
}

/* Bytes of the journal; JOURNAL_DAMAGED where it ends before them. */
static journal_answer fetch(const journal *j, uint64_t at, uint8_t *to, size_t length)
{
    size_t got = 0;
    if (at > j->size || length > j->size - at)
        return JOURNAL_DAMAGED;
    if (j->whole != NULL) {
        memcpy(to, j->whole + at, length);
        return JOURNAL_READY;
    }
    if (lseek(j->fd, (off_t)at, SEEK_SET) < 0 || read_all(j->fd, to, length, &got) != 0)
        return JOURNAL_FAILED;
    return got == length ? JOURNAL_READY : JOURNAL_DAMAGED;
}

/* What a sealed state says of itself is true, or it was not written by this program. */
static int makes_sense(const state *s, uint64_t at)
{
    if (s->at != at || s->before >= at)
        return 0;
    if (s->edits == 0)
        return s->below == 0 && s->record_length == 0;
    return s->below >= JOURNAL_HEAD_SIZE && s->below < at && s->record_at < at && s->record_length >= BLORB_RECORD_SIZE
        && s->record_length <= BLORB_RECORD_SIZE + BLORB_MAX_SIZE;
}

static journal_answer load_state(const journal *j, uint64_t at, state *s)
{
    uint8_t held[STATE_SIZE], seal[SHA256_SIZE];
    journal_answer answer = fetch(j, at, held, sizeof held);
    if (answer != JOURNAL_READY)
        return answer;
    make_seal(j, held, seal);
    *s = state_in(held);
    int right = memcmp(held, state_name, sizeof state_name) == 0 && memcmp(held + SEAL_AT, seal, sizeof seal) == 0;
    return right && makes_sense(s, at) ? JOURNAL_READY : JOURNAL_DAMAGED;
}

uint64_t record_length_in(const uint8_t head[RECORD_HEAD_SIZE])
{
    return head[0] >= 1 && head[0] <= LAST_KIND ? BLORB_RECORD_SIZE + (uint64_t)number_in(head + LENGTH_AT) : 0;
}

/* The last whole state, from the first one on: where the end of the journal is none, since the program was ended adding to it. */
static journal_answer walk_to_last(const journal *j, state *last)
{
    journal_answer found = JOURNAL_DAMAGED;
    uint64_t at = JOURNAL_HEAD_SIZE;
    for (;;) {
        state next;
        uint8_t first[RECORD_HEAD_SIZE];
        journal_answer answer = fetch(j, at, first, sizeof first);
        if (answer == JOURNAL_READY)
            answer = load_state(j, at + record_length_in(first), &next);
        if (answer == JOURNAL_FAILED)
            return answer;
        if (answer != JOURNAL_READY)
            return found;
        *last = next;
        found = JOURNAL_READY;
        at = next.at + STATE_SIZE;
    }
}

static journal_answer load_last(const journal *j, state *last)
{
    journal_answer answer = JOURNAL_DAMAGED;
    if (j->size >= JOURNAL_HEAD_SIZE + STATE_SIZE)
        answer = load_state(j, j->size - STATE_SIZE, last);
    return answer == JOURNAL_DAMAGED ? walk_to_last(j, last) : answer;
}

/* Whether what the last call has added is whole: its records, one or several, and the states that undo leads through. */
static journal_answer check_last_call(const journal *j, const state *last)
{
    state s = *last;
    for (;;) {
        uint8_t *record = NULL;
        state from = s;
        journal_answer answer = load_record(j, &from, &record);
        free(record);
        if (answer != JOURNAL_READY || from.below <= last->before)
            return answer;
        answer = load_below(j, &from, &s);
        if (answer != JOURNAL_READY)
            return answer;
    }
}

/*
 * The state of the present file: the last one or the one before it. Where both name it, the last call put the same bytes in
 * again; after a power loss its state may be there without its record, and then that call was not carried out.
 */
static journal_answer find_present(journal *j, const file_id *present)
{
    state last, before;
    journal_answer answer = load_last(j, &last);
    if (answer != JOURNAL_READY)
        return answer;
    int torn = last.at + STATE_SIZE != j->size;
    int is_last = same_file(&last.file, present);
    answer = last.before != 0 ? load_state(j, last.before, &before) : JOURNAL_DAMAGED;
    int is_before = answer == JOURNAL_READY && same_file(&before.file, present);
    if (is_last && is_before) {
        answer = check_last_call(j, &last);
        is_last = answer == JOURNAL_READY;
    }
    /* What cannot be read now is neither damaged nor another file's. */
    if (answer == JOURNAL_FAILED)
        return answer;
    if (!is_last && !is_before)
        return torn ? JOURNAL_DAMAGED : JOURNAL_NOT_ITS;
    j->now = is_last ? last : before;
    j->end = j->now.at + STATE_SIZE;
    return JOURNAL_READY;
}

journal_answer load_record(const journal *j, const state *s, uint8_t **record)
{
    uint8_t hash[SHA256_SIZE];
    size_t length = (size_t)s->record_length;
    *record = malloc(length + 1);
    if (*record == NULL)
        return JOURNAL_FAILED;
    journal_answer answer = fetch(j, s->record_at, *record, length);
    if (answer == JOURNAL_READY && length > 0) {
        sha256(*record, length, hash);
        answer = memcmp(hash, s->record_hash, sizeof hash) == 0 ? JOURNAL_READY : JOURNAL_DAMAGED;
    }
    return answer;
}

journal_answer load_record_head(const journal *j, const state *s, uint8_t head[RECORD_HEAD_SIZE])
{
    journal_answer answer = fetch(j, s->record_at, head, RECORD_HEAD_SIZE);
    return answer == JOURNAL_READY && record_length_in(head) != s->record_length ? JOURNAL_DAMAGED : answer;
}

journal_answer load_below(const journal *j, const state *s, state *below)
{
    journal_answer answer = load_state(j, s->below, below);
    return answer == JOURNAL_READY && below->edits + 1 != s->edits ? JOURNAL_DAMAGED : answer;
}

/* Room for the head, a first state and each record with its state. */
static journal_answer make_room(journal *j, const uint8_t *records, size_t used)
{
    uint64_t size = JOURNAL_HEAD_SIZE + STATE_SIZE;
    for (size_t at = 0; at < used;) {
        uint64_t length = used - at < BLORB_RECORD_SIZE ? 0 : record_length_in(records + at);
        if (length == 0 || length > used - at)
            return JOURNAL_DAMAGED;
        size += length + STATE_SIZE;
        at += (size_t)length;
    }
    j->size = j->end = size;
    j->whole = malloc((size_t)size);
    return j->whole != NULL ? JOURNAL_READY : JOURNAL_FAILED;
}

journal_answer begin_journal(journal *j, const file_id *present, uint32_t profile, const uint8_t *records, size_t used)
{
    journal_answer answer = make_room(j, records, used);
    if (answer != JOURNAL_READY)
        return answer;
    make_head(j->head, profile);
    memcpy(j->whole, j->head, JOURNAL_HEAD_SIZE);
    state s = {.at = JOURNAL_HEAD_SIZE};
    for (size_t at = 0; at < used; at += (size_t)s.record_length) {
        put_state(j, &s, j->whole + s.at);
        s.before = s.below = s.at;
        s.edits++;
        s.record_at = s.at + STATE_SIZE;
        s.record_length = record_length_in(records + at);
        memcpy(j->whole + s.record_at, records + at, (size_t)s.record_length);
        sha256(records + at, (size_t)s.record_length, s.record_hash);
        s.at = s.record_at + s.record_length;
    }
    s.file = *present;
    put_state(j, &s, j->whole + s.at);
    j->now = s;
    return JOURNAL_READY;
}

int is_journal(int fd)
{
    struct stat status;
    uint8_t name[NAME_SIZE];
    size_t length;
    if (fstat(fd, &status) != 0)
        return -1;
    if (!S_ISREG(status.st_mode))
        return 0;
    if (read_all(fd, name, NAME_SIZE, &length) != 0)
        return -1;
    return length == NAME_SIZE && memcmp(name, plain_head, NAME_SIZE) == 0;
}

/* The first bytes decide what is read of the rest, and how. */
static journal_answer load_open(const file_id *present, journal *j)
{
    size_t length;
    memset(j->head, 0, sizeof j->head);
    if (read_all(j->fd, j->head, sizeof j->head, &length) != 0)
        return JOURNAL_FAILED;
    if (length < NAME_SIZE || memcmp(j->head, plain_head, NAME_SIZE) != 0)
        return JOURNAL_OTHER;
    if (j->head[VERSION_AT] == VERSION_1)
        return load_version_1(j->fd, (size_t)j->size, present, j);
    if (length < sizeof j->head)
        return JOURNAL_DAMAGED;
    uint8_t known[JOURNAL_HEAD_SIZE];
    make_head(known, number_in(j->head + PROFILE_AT) == BLORB_ADRIFT ? BLORB_ADRIFT : BLORB_PLAIN);
    if (memcmp(j->head, known, sizeof j->head) != 0)
        return JOURNAL_NEWER;
    return find_present(j, present);
}

/* A journal of another profile is not gone on with, unless there is nothing to undo in it. */
static journal_answer under_profile(journal *j, const file_id *present, uint32_t profile)
{
    uint32_t its = number_in(j->head + PROFILE_AT);
    if (its == profile)
        return JOURNAL_READY;
    if (j->now.edits > 0)
        return its == BLORB_ADRIFT ? JOURNAL_ADRIFT : JOURNAL_PLAIN;
    free(j->whole);
    return begin_journal(j, present, profile, NULL, 0);
}

journal_answer load_journal(const place *p, const file_id *present, uint32_t profile, journal *j)
{
    struct stat status;
    *j = (journal){.fd = -1};
    if (fstatat(p->folder, p->undo, &status, AT_SYMLINK_NOFOLLOW) != 0)
        return errno == ENOENT ? begin_journal(j, present, profile, NULL, 0) : JOURNAL_FAILED;
    if (S_ISLNK(status.st_mode))
        return JOURNAL_LINK;
    if (!S_ISREG(status.st_mode))
        return JOURNAL_OTHER;
    /* A pipe that another program puts there meanwhile does not hold this one up. */
    j->fd = openat(p->folder, p->undo, O_RDWR | O_NOFOLLOW | O_NONBLOCK | O_CLOEXEC);
    j->writable = j->fd >= 0;
    if (j->fd < 0)
        j->fd = openat(p->folder, p->undo, O_RDONLY | O_NOFOLLOW | O_NONBLOCK | O_CLOEXEC);
    if (j->fd < 0)
        return JOURNAL_FAILED;
    j->size = (uint64_t)status.st_size;
    journal_answer answer = load_open(present, j);
    return answer == JOURNAL_READY ? under_profile(j, present, profile) : answer;
}

void close_journal(journal *j)
{
    int error = errno;
    if (j->fd >= 0)
        close(j->fd);
    free(j->whole);
    errno = error;
}
