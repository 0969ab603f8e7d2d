/*
 * The edits and the undo, for plain.c and fast.c. Before this is included, each of them has its own
 *   inspect(file, size, profile, usage, number, at): verdict and facts,
 *   find(file, count, usage, number): the place of that entry in an accepted file, `count` where there is none, and
 *   move_starts(file, count, limit, behind, other): starts above `limit` move by `behind`, all others by `other`;
 * and CALL(name) is the name that the call gets there.
 */
struct record {
    uint32_t kind, usage, number, place, start, type, length;
};

static blorb_edit_answer answer(uint64_t refusal, uint64_t place, size_t length, size_t used)
{
    return (blorb_edit_answer){refusal, place, length, used};
}

/* FORM length, index length and count. */
static void put_lengths(uint8_t *file, size_t length, size_t count)
{
    put32(file + 4, (uint32_t)length - 8);
    put32(file + 16, (uint32_t)(4 + 12 * count));
    put32(file + 20, (uint32_t)count);
}

static void put_chunk(uint8_t *to, uint32_t type, const uint8_t *data, size_t m)
{
    put32(to, type);
    put32(to + 4, (uint32_t)m);
    if (m > 0)
        memcpy(to + 8, data, m);
    if (m % 2 == 1)
        to[8 + m] = 0;
}

static void put_record(uint8_t *to, struct record r, const uint8_t *data)
{
    to[0] = (uint8_t)r.kind;
    put32(to + 1, r.usage);
    put32(to + 5, r.number);
    put32(to + 9, r.place);
    put32(to + 13, r.start);
    put32(to + 17, r.type);
    put32(to + 21, r.length);
    if (r.length > 0)
        memcpy(to + 25, data, r.length);
    put32(to + 25 + r.length, 25 + r.length);
}

/* Room for an entry at `place` and for `size` bytes of a chunk at `at`; the entry is written, the chunk is not. */
static void open_gaps(uint8_t *file, size_t length, size_t count, size_t place, size_t at, size_t size, uint32_t usage,
                      uint32_t number)
{
    uint8_t *entry = file + entry_at(place);

    move_starts(file, count, (uint32_t)at - 1, (uint32_t)(12 + size), 12);
    memmove(file + at + 12 + size, file + at, length - at);
    memmove(entry + 12, entry, (size_t)(file + at - entry));
    put32(entry, usage);
    put32(entry + 4, number);
    put32(entry + 8, (uint32_t)at + 12);
    put_lengths(file, length + 12 + size, count + 1);
}

/* Entry `place` goes, and with it the `size` bytes at `start`. */
static void close_gaps(uint8_t *file, size_t length, size_t count, size_t place, size_t start, size_t size)
{
    uint8_t *entry = file + entry_at(place);
    size_t gone = 12 + size;

    move_starts(file, count, (uint32_t)start, (uint32_t)-gone, (uint32_t)-12);
    memmove(entry, entry + 12, (size_t)(file + start - (entry + 12)));
    memmove(file + start - 12, file + start + size, length - (start + size));
    memset(file + length - gone, 0, gone);
    put_lengths(file, length - gone, count - 1);
}

/* The chunk of `old` bytes at `start` gets another type and other data. */
static void exchange(uint8_t *file, size_t length, size_t count, size_t start, size_t old, uint32_t type,
                     const uint8_t *data, size_t m)
{
    size_t new = chunk_size(m), end = length - old + new;

    if (new != old)
        memmove(file + start + new, file + start + old, length - (start + old));
    if (end < length)
        memset(file + end, 0, length - end);
    if (new != old)
        move_starts(file, count, (uint32_t)start, (uint32_t)(new - old), 0);
    put_lengths(file, end, count);
    put_chunk(file + start, type, data, m);
}

static struct facts opened(const uint8_t *file, size_t size, size_t length, size_t journal_size, size_t used, uint32_t profile,
                           uint32_t usage, uint32_t number, size_t at)
{
    if (profile > BLORB_ADRIFT)
        return (struct facts){.verdict = {BLORB_PROFILE, 0}};
    if (length > size || used > journal_size)
        return (struct facts){.verdict = {BLORB_LENGTHS, 0}};
    return inspect(file, length, profile, usage, number, at);
}

/* 100 + k of an add. */
static struct verdict add_fault(const struct facts *f, size_t length, uint32_t profile, uint32_t usage, uint32_t number, uint32_t type,
                                const uint8_t *data, size_t m)
{
    size_t at = entry_at(f->count);

    if (length + 12 + chunk_size(m) > BLORB_MAX_SIZE)
        return (struct verdict){BLORB_RESULT_TOO_LONG, 0};
    if (type == RIDX)
        return (struct verdict){BLORB_RESULT_SECOND_INDEX, length + 12};
    if (f->count + 1 > BLORB_MAX_ENTRIES)
        return (struct verdict){BLORB_RESULT_TOO_MANY, 20};
    if (!known_usage(usage))
        return (struct verdict){BLORB_RESULT_USAGE, at};
    if (!type_allowed(profile, usage, type, data, m))
        return (struct verdict){BLORB_RESULT_TYPE, at};
    if (usage == BLORB_EXEC && number != 0)
        return (struct verdict){BLORB_RESULT_EXEC_NUMBER, at + 4};
    if (f->found)
        return (struct verdict){BLORB_RESULT_REPEATED, at};
    return (struct verdict){0, 0};
}

blorb_edit_answer CALL(add)(uint8_t *file, size_t size, size_t length, uint8_t *journal, size_t journal_size, size_t used,
                            uint32_t profile, const char *usage, uint32_t number, const char *type, const uint8_t *data, size_t m)
{
    uint32_t u = tag(usage), t = tag(type);
    struct facts f = opened(file, size, length, journal_size, used, profile, u, number, 0);

    if (f.verdict.refusal != 0)
        return answer(f.verdict.refusal, f.verdict.place, length, used);
    if (t == FORM && !is_whole(data, m))
        return answer(BLORB_WHOLE_FORM, 0, length, used);
    data += 8 - left_out(t);
    m -= 8 - left_out(t);
    size_t more = 12 + chunk_size(m);
    struct verdict v = add_fault(&f, length, profile, u, number, t, data, m);
    if (v.refusal != 0)
        return answer(v.refusal, v.place, length, used);
    if (length + more > size)
        return answer(BLORB_FILE_ROOM, 0, length, used);
    if (BLORB_RECORD_SIZE > journal_size - used)
        return answer(BLORB_JOURNAL_ROOM, 0, length, used);
    open_gaps(file, length, f.count, f.count, length, chunk_size(m), u, number);
    put_chunk(file + length + 12, t, data, m);
    put_record(journal + used, (struct record){1, u, number, (uint32_t)f.count, 0, 0, 0}, NULL);
    return answer(0, 0, length + more, used + BLORB_RECORD_SIZE);
}

static bool is_front(const struct facts *f, uint32_t usage, uint32_t number)
{
    return f->fronted && usage == BLORB_PICT && number == f->front_number;
}

/* 100 + k of a replacement; `end` is the new file's length. */
static struct verdict replace_fault(const struct facts *f, size_t end, uint32_t profile, uint32_t usage, uint32_t number, uint32_t type,
                                    const uint8_t *data, size_t m)
{
    if (end > BLORB_MAX_SIZE)
        return (struct verdict){BLORB_RESULT_TOO_LONG, 0};
    if (type == RIDX)
        return (struct verdict){BLORB_RESULT_SECOND_INDEX, f->start};
    if (!type_allowed(profile, usage, type, data, m))
        return (struct verdict){BLORB_RESULT_TYPE, entry_at(f->place)};
    if (type == RECT && is_front(f, usage, number)) {
        size_t front = f->front_start;
        if (front > f->start)
            front += chunk_size(m) - chunk_size(f->length);
        return (struct verdict){BLORB_RESULT_FRONTISPIECE, front + 8};
    }
    return (struct verdict){0, 0};
}

blorb_edit_answer CALL(replace)(uint8_t *file, size_t size, size_t length, uint8_t *journal, size_t journal_size,
                                size_t used, uint32_t profile, const char *usage, uint32_t number, const char *type,
                                const uint8_t *data, size_t m)
{
    uint32_t u = tag(usage), t = tag(type);
    struct facts f = opened(file, size, length, journal_size, used, profile, u, number, 0);

    if (f.verdict.refusal != 0)
        return answer(f.verdict.refusal, f.verdict.place, length, used);
    if (!f.found)
        return answer(BLORB_NOT_THERE, 0, length, used);
    if (f.shared)
        return answer(BLORB_SHARED, 0, length, used);
    if (t == FORM && !is_whole(data, m))
        return answer(BLORB_WHOLE_FORM, 0, length, used);
    data += 8 - left_out(t);
    m -= 8 - left_out(t);
    size_t end = length - chunk_size(f.length) + chunk_size(m);
    struct verdict v = replace_fault(&f, end, profile, u, number, t, data, m);
    if (v.refusal != 0)
        return answer(v.refusal, v.place, length, used);
    if (end > size)
        return answer(BLORB_FILE_ROOM, 0, length, used);
    if (BLORB_RECORD_SIZE + (size_t)f.length > journal_size - used)
        return answer(BLORB_JOURNAL_ROOM, 0, length, used);
    put_record(journal + used, (struct record){2, u, number, (uint32_t)f.place, f.start, f.type, f.length},
               file + f.start + 8);
    exchange(file, length, f.count, f.start, chunk_size(f.length), t, data, m);
    return answer(0, 0, end, used + BLORB_RECORD_SIZE + f.length);
}

blorb_edit_answer CALL(remove)(uint8_t *file, size_t size, size_t length, uint8_t *journal, size_t journal_size,
                               size_t used, uint32_t profile, const char *usage, uint32_t number)
{
    uint32_t u = tag(usage);
    struct facts f = opened(file, size, length, journal_size, used, profile, u, number, 0);

    if (f.verdict.refusal != 0)
        return answer(f.verdict.refusal, f.verdict.place, length, used);
    if (!f.found)
        return answer(BLORB_NOT_THERE, 0, length, used);
    size_t gone = f.shared ? 0 : chunk_size(f.length);
    if (is_front(&f, u, number)) {
        size_t front = f.front_start - 12 - (f.front_start > f.start ? gone : 0);
        return answer(BLORB_RESULT_FRONTISPIECE, front + 8, length, used);
    }
    uint32_t kept = f.shared ? 0 : f.length;
    if (BLORB_RECORD_SIZE + (size_t)kept > journal_size - used)
        return answer(BLORB_JOURNAL_ROOM, 0, length, used);
    put_record(journal + used,
               (struct record){f.shared ? 4 : 3, u, number, (uint32_t)f.place, f.start, f.shared ? 0 : f.type, kept},
               file + f.start + 8);
    close_gaps(file, length, f.count, f.place, f.start, gone);
    return answer(0, 0, length - 12 - gone, used + BLORB_RECORD_SIZE + kept);
}

/* 100 + k of a link whose entry goes in at `place`. */
static struct verdict link_fault(const struct facts *f, const uint8_t *file, size_t length, uint32_t profile, size_t place, uint32_t usage,
                                 uint32_t number)
{
    size_t at = entry_at(place);

    if (length + 12 > BLORB_MAX_SIZE)
        return (struct verdict){BLORB_RESULT_TOO_LONG, 0};
    if (f->count + 1 > BLORB_MAX_ENTRIES)
        return (struct verdict){BLORB_RESULT_TOO_MANY, 20};
    if (!known_usage(usage))
        return (struct verdict){BLORB_RESULT_USAGE, at};
    if (!type_allowed(profile, usage, f->type, file + f->start + 8, f->length))
        return (struct verdict){BLORB_RESULT_TYPE, at};
    if (usage == BLORB_EXEC && number != 0)
        return (struct verdict){BLORB_RESULT_EXEC_NUMBER, at + 4};
    size_t old = find(file, f->count, usage, number);
    if (old < f->count)
        return (struct verdict){BLORB_RESULT_REPEATED, old < place ? at : entry_at(old + 1)};
    return (struct verdict){0, 0};
}

blorb_edit_answer CALL(link)(uint8_t *file, size_t size, size_t length, uint8_t *journal, size_t journal_size, size_t used,
                             uint32_t profile, const char *usage, uint32_t number, const char *new_usage, uint32_t new_number)
{
    uint32_t u = tag(new_usage);
    struct facts f = opened(file, size, length, journal_size, used, profile, tag(usage), number, 0);

    if (f.verdict.refusal != 0)
        return answer(f.verdict.refusal, f.verdict.place, length, used);
    if (!f.found)
        return answer(BLORB_NOT_THERE, 0, length, used);
    size_t place = f.place + 1;
    while (place < f.count && get32(file + entry_at(place) + 8) == f.start)
        place++;
    struct verdict v = link_fault(&f, file, length, profile, place, u, new_number);
    if (v.refusal != 0)
        return answer(v.refusal, v.place, length, used);
    if (length + 12 > size)
        return answer(BLORB_FILE_ROOM, 0, length, used);
    if (BLORB_RECORD_SIZE > journal_size - used)
        return answer(BLORB_JOURNAL_ROOM, 0, length, used);
    open_gaps(file, length, f.count, place, f.start, 0, u, new_number);
    put_record(journal + used, (struct record){5, u, new_number, (uint32_t)place, f.start + 12, 0, 0}, NULL);
    return answer(0, 0, length + 12, used + BLORB_RECORD_SIZE);
}

/* The last record; kind 0 where it is not well formed. */
static struct record last_record(const uint8_t *journal, size_t used)
{
    struct record none = {0, 0, 0, 0, 0, 0, 0};

    if (used < BLORB_RECORD_SIZE)
        return none;
    size_t before = get32(journal + used - 4);
    if (before < 25 || before > used - 4)
        return none;
    const uint8_t *p = journal + used - 4 - before;
    struct record r = {p[0], get32(p + 1), get32(p + 5), get32(p + 9), get32(p + 13), get32(p + 17), get32(p + 21)};
    if (25 + (size_t)r.length != before || r.kind < 1 || r.kind > 5)
        return none;
    if ((r.kind == 1 || r.kind >= 4) && (r.type != 0 || r.length != 0))
        return none;
    if (r.kind == 1 && r.start != 0)
        return none;
    return r;
}

/* Whether an entry for a chunk that is at `at`, or goes in there, may stand at `place`: its neighbours are in chunk order then. */
static bool in_order(const struct facts *f, const struct record *r, const uint8_t *file, size_t at)
{
    const uint8_t *e = file + entry_at(r->place);

    return (r->place == 0 || get32(e - 4) < at + (r->kind == 4)) && (r->place == f->count || get32(e + 8) >= at);
}

/* Whether the entry of a removal's record may go in again at `at`, with a chunk of this type and data. */
static bool goes_in(const struct facts *f, const struct record *r, uint32_t profile, const uint8_t *file, size_t at, uint32_t type,
                    const uint8_t *data, size_t m)
{
    return r->place <= f->count && f->count < BLORB_MAX_ENTRIES && !f->found && type_allowed(profile, r->usage, type, data, m)
        && (r->usage != BLORB_EXEC || r->number == 0) && in_order(f, r, file, at);
}

/* Whether the record fits the file and leads to an accepted one; `to` becomes that one's length. */
static bool fits(const struct facts *f, const struct record *r, uint32_t profile, const uint8_t *file, size_t length, const uint8_t *data,
                 size_t *to)
{
    size_t own = chunk_size(f->length), old = chunk_size(r->length), at = r->start - (size_t)12;

    switch (r->kind) {
    case 1:
        *to = length - 12 - own;
        return f->found && f->place == r->place && f->count == (size_t)r->place + 1 && f->start + own == length && !f->shared
            && !is_front(f, r->usage, r->number);
    case 2:
        *to = length - own + old;
        return f->found && f->place == r->place && f->start == r->start && !f->shared && *to <= BLORB_MAX_SIZE
            && type_allowed(profile, r->usage, r->type, data, r->length)
            && !(r->type == RECT && is_front(f, r->usage, r->number));
    case 3:
        *to = length + 12 + old;
        return (f->begins || at == length) && *to <= BLORB_MAX_SIZE && goes_in(f, r, profile, file, at, r->type, data, r->length);
    case 5:
        *to = length - 12;
        return f->found && f->place == r->place && f->start == r->start && f->shared && !is_front(f, r->usage, r->number);
    default:
        *to = length + 12;
        return f->begins && *to <= BLORB_MAX_SIZE
            && goes_in(f, r, profile, file, at, get32(file + at), file + at + 8, get32(file + at + 4));
    }
}

/* The file before the record's edit. */
static void take_back(uint8_t *file, size_t length, const struct facts *f, const struct record *r, const uint8_t *data)
{
    size_t old = r->kind == 3 ? chunk_size(r->length) : 0, at = r->start - (size_t)12;

    if (r->kind == 1 || r->kind == 5) {
        close_gaps(file, length, f->count, f->place, f->start, r->kind == 1 ? chunk_size(f->length) : 0);
    } else if (r->kind == 2) {
        exchange(file, length, f->count, f->start, chunk_size(f->length), r->type, data, r->length);
    } else {
        open_gaps(file, length, f->count, r->place, at, old, r->usage, r->number);
        if (r->kind == 3)
            put_chunk(file + at + 12, r->type, data, r->length);
    }
}

blorb_edit_answer CALL(undo)(uint8_t *file, size_t size, size_t length, const uint8_t *journal, size_t journal_size,
                             size_t used, uint32_t profile)
{
    struct record r = {0, 0, 0, 0, 0, 0, 0};

    if (used <= journal_size)
        r = last_record(journal, used);
    /* Only what was removed goes in where a chunk begins. */
    size_t asked = (r.kind != 3 && r.kind != 4) || r.start < 12 ? 0 : r.start - 12;
    struct facts f = opened(file, size, length, journal_size, used, profile, r.usage, r.number, asked);
    if (f.verdict.refusal != 0)
        return answer(f.verdict.refusal, f.verdict.place, length, used);
    if (used == 0)
        return answer(BLORB_NOTHING_TO_UNDO, 0, length, used);
    if (r.kind == 0)
        return answer(BLORB_RECORD, 0, length, used);
    size_t to;
    const uint8_t *data = journal + used - 4 - r.length;
    if (!fits(&f, &r, profile, file, length, data, &to))
        return answer(BLORB_RECORD, 0, length, used);
    if (to > size)
        return answer(BLORB_FILE_ROOM, 0, length, used);
    take_back(file, length, &f, &r, data);
    return answer(0, 0, to, used - BLORB_RECORD_SIZE - r.length);
}
