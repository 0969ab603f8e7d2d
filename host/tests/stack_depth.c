/*
 * The stack that each call takes, measured: the call runs on a painted stack, and afterwards the paint tells how deep it has written.
 * Files: accepted ones, one for each refusal, 4,096 entries, 16,777,216 bytes; every call on each of them, under both profiles, with arguments for
 * every refusal of the call. Prints each call's figure, and fails where a call has not given a refusal that it can give. Counted are the bytes below
 * the caller's stack pointer, from the return address on. memmove and memset are here ones that take no stack but their return address: what those
 * of a C library take is its own.
 */
#define _DEFAULT_SOURCE
#include <stdbool.h>
#include <stdio.h>
#include <stdlib.h>
#include <string.h>
#include <sys/mman.h>

#include "blorb.h"

/*
 * The refusals of a call that takes a file are 52, 1 to 19 and 27 to 29; `more` are its other ones, up to a 0. The calls from VERSION on give none.
 * In stack_calls.py stand the same calls.
 */
enum call {
    READ, ENTRY, LOOKUP, AIFF, FORMS, PICK, CHECK, SEARCH, COLUMNS_CHECK, COLUMNS_SEARCH, SCALED, TEXT, TEXT_OF, TEXTS_WRITE, BUILD, TO_COLUMNS, TO_ROWS, BLANK,
    ADD, REPLACE, REMOVE, LINK, UNDO, VERSION, SENTENCE, CALLS
};
typedef void any(void);
static struct row {
    const char *name;
    any *function;
    bool in_registers; /* an answer of one or two numbers comes back in registers */
    bool takes_file;
    int more[16];
    size_t deepest;
    bool seen[128];
} rows[CALLS] = {
    [READ] = {"blorb_read", (any *)blorb_read, false, true, {0}, 0, {0}},
    [ENTRY] = {"blorb_entry", (any *)blorb_entry, false, true, {22}, 0, {0}},
    [LOOKUP] = {"blorb_lookup", (any *)blorb_lookup, false, true, {22}, 0, {0}},
    [AIFF] = {"blorb_aiff_length", (any *)blorb_aiff_length, false, false, {49, 50, 51}, 0, {0}},
    [FORMS] = {"blorb_forms_list", (any *)blorb_forms_list, false, false, {1, 41, 42, 43, 44, 45}, 0, {0}},
    [PICK] = {"blorb_forms_pick", (any *)blorb_forms_pick, false, false, {1, 22, 41, 42, 43, 44}, 0, {0}},
    [CHECK] = {"blorb_table_check", (any *)blorb_table_check, true, true, {35}, 0, {0}},
    [SEARCH] = {"blorb_table_search", (any *)blorb_table_search, false, false, {22}, 0, {0}},
    [COLUMNS_CHECK] = {"blorb_columns_check", (any *)blorb_columns_check, true, true, {35}, 0, {0}},
    [COLUMNS_SEARCH] = {"blorb_columns_search", (any *)blorb_columns_search, false, false, {22}, 0, {0}},
    [SCALED] = {"blorb_scaled", (any *)blorb_scaled, false, true, {31, 32, 33}, 0, {0}},
    [TEXT] = {"blorb_text", (any *)blorb_text, false, true, {22, 36, 37, 38, 39}, 0, {0}},
    [TEXT_OF] = {"blorb_text_of", (any *)blorb_text_of, false, true, {22, 36, 37, 38, 39}, 0, {0}},
    [TEXTS_WRITE] = {"blorb_texts_write", (any *)blorb_texts_write, false, false, {38, 39, 40}, 0, {0}},
    [BUILD] = {"blorb_table_build", (any *)blorb_table_build, false, true, {34}, 0, {0}},
    [TO_COLUMNS] = {"blorb_table_to_columns", (any *)blorb_table_to_columns, false, false, {34}, 0, {0}},
    [TO_ROWS] = {"blorb_table_to_rows", (any *)blorb_table_to_rows, false, false, {34}, 0, {0}},
    [BLANK] = {"blorb_blank", (any *)blorb_blank, false, false, {24}, 0, {0}},
    [ADD] = {"blorb_add", (any *)blorb_add, false, true, {20, 30, 24, 25, 101, 109, 111, 112, 114, 115, 116}, 0, {0}},
    [REPLACE] = {"blorb_replace", (any *)blorb_replace, false, true, {20, 22, 23, 30, 24, 25, 101, 109, 114, 119}, 0, {0}},
    [REMOVE] = {"blorb_remove", (any *)blorb_remove, false, true, {20, 22, 25, 119}, 0, {0}},
    [LINK] = {"blorb_link", (any *)blorb_link, false, true, {20, 22, 24, 25, 101, 111, 112, 114, 115, 116}, 0, {0}},
    [UNDO] = {"blorb_undo", (any *)blorb_undo, false, true, {20, 21, 24, 26}, 0, {0}},
    [VERSION] = {"blorb_version", (any *)blorb_version, true, false, {0}, 0, {0}},
    [SENTENCE] = {"blorb_sentence", (any *)blorb_sentence, true, false, {0}, 0, {0}},
};

/*
 * on_stack(function, arguments, top, answer): calls the function on the stack that ends at `top`. Six of the arguments go into registers, ten
 * onto the stack, of which a call looks at as many as it has. answer[0] and answer[1] get rax and rdx.
 */
enum { IN_REGISTERS = 6, ON_STACK = 10, SLOTS = IN_REGISTERS + ON_STACK };
void on_stack(any *function, const uint64_t arguments[SLOTS], void *top, uint64_t answer[2]);
__asm__(".text\n"
        "on_stack:\n"
        "    push %rbp\n    push %rbx\n    mov %rsp, %rbp\n    mov %rcx, %rbx\n"
        "    mov %rdi, %rax\n    mov %rsi, %r10\n    mov %rdx, %rsp\n    mov $15, %r11\n"
        "1:  push (%r10,%r11,8)\n    dec %r11\n    cmp $6, %r11\n    jae 1b\n"
        "    mov (%r10), %rdi\n    mov 8(%r10), %rsi\n    mov 16(%r10), %rdx\n"
        "    mov 24(%r10), %rcx\n    mov 32(%r10), %r8\n    mov 40(%r10), %r9\n"
        "    call *%rax\n"
        "    mov %rax, (%rbx)\n    mov %rdx, 8(%rbx)\n    mov %rbp, %rsp\n    pop %rbx\n    pop %rbp\n    ret\n"
        ".globl memmove\n"
        "memmove:\n"
        "    mov %rdi, %rax\n    mov %rdx, %rcx\n    cmp %rsi, %rdi\n    ja 1f\n    rep movsb\n    ret\n"
        "1:  lea -1(%rdi,%rdx), %rdi\n    lea -1(%rsi,%rdx), %rsi\n    std\n    rep movsb\n    cld\n    ret\n"
        ".globl memset\n"
        "memset:\n"
        "    mov %rdi, %r8\n    mov %esi, %eax\n    mov %rdx, %rcx\n    rep stosb\n    mov %r8, %rax\n    ret\n");

enum { PAGE = 4096, STACK = 16 * PAGE, PAINT = 0x5a };
enum { ROOM = BLORB_MAX_SIZE + 4096, NUMBERS = BLORB_ROW_NUMBERS * (BLORB_MAX_ENTRIES + 1), DATA = 70001 };
static uint8_t *painted;                        /* the lowest byte of the painted stack; a page before it may not be touched */
static uint8_t file[ROOM], wrong[ROOM], kept[ROOM], journal[ROOM], data[DATA], whole[DATA];
static uint32_t table[NUMBERS], columns[NUMBERS], turned[NUMBERS];
static uint32_t profile;
static uint64_t answer[8];
static unsigned calls;

static void fail(const char *what)
{
    fprintf(stderr, "stack_depth: %s\n", what);
    exit(1);
}

/* One call, with its arguments in order. */
static void measured(struct row *r, const uint64_t *arguments, size_t count)
{
    uint64_t slots[SLOTS] = {0}, registers[2];
    size_t first = r->in_registers ? 0 : 1, depth = STACK - 8 * ON_STACK;
    uint8_t *low = painted;

    slots[0] = (uint64_t)(uintptr_t)answer;
    memcpy(slots + first, arguments, count * sizeof *slots);
    memset(painted, PAINT, STACK);
    on_stack(r->function, slots, painted + STACK, registers);
    for (; *low == PAINT; low++)
        depth--;
    if (r->in_registers)
        memcpy(answer, registers, sizeof registers);
    if (depth > r->deepest)
        r->deepest = depth;
    calls++;
}

/* The same of a call that can refuse; gives the refusal. */
static uint64_t run(enum call c, const uint64_t *arguments, size_t count)
{
    struct row *r = &rows[c];

    measured(r, arguments, count);
    if (answer[0] >= sizeof r->seen)
        fail("a refusal of 128 or more");
    r->seen[answer[0]] = true;
    return answer[0];
}

#define P(pointer) ((uint64_t)(uintptr_t)(pointer))
#define RUN(c, ...) run(c, (uint64_t[]){__VA_ARGS__}, sizeof((uint64_t[]){__VA_ARGS__}) / sizeof(uint64_t))

static uint64_t read_it(const uint8_t *f, size_t n) { return RUN(READ, P(f), n, profile); }
static uint64_t entry(const uint8_t *f, size_t n, size_t i) { return RUN(ENTRY, P(f), n, profile, i); }
static uint64_t lookup(const uint8_t *f, size_t n, const char *usage, uint32_t number) { return RUN(LOOKUP, P(f), n, profile, P(usage), number); }
static uint64_t scaled(const uint8_t *f, size_t n, size_t side, uint32_t picture) { return RUN(SCALED, P(f), n, profile, side, 480, picture, 9, 7); }
static uint64_t text(const uint8_t *f, size_t n, size_t i) { return RUN(TEXT, P(f), n, profile, i); }
static uint64_t text_of(const uint8_t *f, size_t n, const char *usage, uint32_t number) { return RUN(TEXT_OF, P(f), n, profile, P(usage), number); }
static uint64_t build(const uint8_t *f, size_t n, size_t numbers) { return RUN(BUILD, P(f), n, profile, P(table), numbers); }
static uint64_t to_columns(size_t numbers, size_t room) { return RUN(TO_COLUMNS, P(table), numbers, P(columns), room); }
static uint64_t to_rows(size_t numbers, size_t room) { return RUN(TO_ROWS, P(columns), numbers, P(turned), room); }
static uint64_t aiff(const uint8_t *sound, size_t n) { return RUN(AIFF, P(sound), n); }
static uint64_t forms(const uint8_t *f, size_t n, size_t numbers) { return RUN(FORMS, P(f), n, P(table), numbers); }
static uint64_t pick(const uint8_t *f, size_t n, size_t i) { return RUN(PICK, P(f), n, i); }
static uint64_t blank(uint8_t *f, size_t size) { return RUN(BLANK, P(f), size); }

/* A table's check and search; `c` tells its form. */
static uint64_t check(enum call c, const uint8_t *f, size_t n, const uint32_t *t, size_t numbers) { return RUN(c, P(f), n, profile, P(t), numbers); }
static uint64_t search(enum call c, const uint32_t *t, size_t numbers, const char *usage, uint32_t number)
{
    return RUN(c, P(t), numbers, P(usage), number);
}

static void put32(uint8_t *to, size_t v)
{
    for (int i = 0; i < 4; i++)
        to[i] = (uint8_t)(v >> (24 - 8 * i));
}

static uint32_t get32(const uint8_t *from)
{
    return (uint32_t)from[0] << 24 | (uint32_t)from[1] << 16 | (uint32_t)from[2] << 8 | from[3];
}

/* A file under edit: `length` and `used` are those of the last answer. */
struct edited {
    uint8_t *bytes;
    size_t size, length, journal_size, used;
};

static uint64_t took(struct edited *e, uint64_t refusal)
{
    e->length = answer[2];
    e->used = answer[3];
    return refusal;
}

/* An edit; what follows are the arguments behind the profile. */
#define EDIT(c, e, ...) took(e, RUN(c, P((e)->bytes), (e)->size, (e)->length, P(journal), (e)->journal_size, (e)->used, profile, __VA_ARGS__))

/* Data of `n` bytes that suits the type: of a 'FORM' a whole file. */
static const uint8_t *given(const char *type, size_t n)
{
    if (memcmp(type, "FORM", 4) != 0 || n < 12)
        return data;
    memcpy(whole, "FORM", 4);
    put32(whole + 4, n - 8);
    memcpy(whole + 8, "AIFF", 4);
    return whole;
}

static uint64_t add(struct edited *e, const char *usage, uint32_t number, const char *type, size_t n)
{
    return EDIT(ADD, e, P(usage), number, P(type), P(given(type, n)), n);
}

static uint64_t replace(struct edited *e, const char *usage, uint32_t number, const char *type, size_t n)
{
    return EDIT(REPLACE, e, P(usage), number, P(type), P(given(type, n)), n);
}

static uint64_t removed(struct edited *e, const char *usage, uint32_t number)
{
    return EDIT(REMOVE, e, P(usage), number);
}

static uint64_t linked(struct edited *e, const char *usage, uint32_t number, const char *new_usage, uint32_t new_number)
{
    return EDIT(LINK, e, P(usage), number, P(new_usage), new_number);
}

static uint64_t undo(struct edited *e)
{
    return took(e, RUN(UNDO, P(e->bytes), e->size, e->length, P(journal), e->journal_size, e->used, profile));
}

static void wants(uint64_t found, uint64_t wanted, const char *what)
{
    if (found != wanted) {
        fprintf(stderr, "stack_depth: %s gives %llu, not %llu\n", what, (unsigned long long)found, (unsigned long long)wanted);
        exit(1);
    }
}

/* Files. */

struct resource {
    const char *usage, *type;
    uint32_t number;
    size_t size;
    bool shares; /* the chunk of the entry before it */
};

static size_t put_chunk(uint8_t *f, size_t at, const char *type, size_t size)
{
    memcpy(f + at, type, 4);
    put32(f + at + 4, size);
    memcpy(f + at + 8, data, size < DATA ? size : DATA);
    if (memcmp(type, "FORM", 4) == 0)
        memcpy(f + at + 8, "AIFF", 4);
    if (size % 2 == 1)
        f[at + 8 + size] = 0;
    return at + 8 + size + size % 2;
}

static size_t finish(uint8_t *f, size_t length)
{
    memcpy(f, "FORM", 4);
    put32(f + 4, length - 8);
    memcpy(f + 8, "IFRS", 4);
    return length;
}

/* The file of these resources; gives its length. */
static size_t write_file(uint8_t *f, const struct resource *r, size_t count)
{
    size_t at = 24 + BLORB_ENTRY_SIZE * count, start = at;

    memcpy(f + 12, "RIdx", 4);
    put32(f + 16, 4 + BLORB_ENTRY_SIZE * count);
    put32(f + 20, count);
    for (size_t i = 0; i < count; i++) {
        uint8_t *e = f + 24 + BLORB_ENTRY_SIZE * i;
        if (!r[i].shares) {
            start = at;
            at = put_chunk(f, at, r[i].type, r[i].size);
        }
        memcpy(e, r[i].usage, 4);
        put32(e + 4, r[i].number);
        put32(e + 8, start);
    }
    return finish(f, at);
}

static const struct resource few[] = {
    {"Exec", "ZCOD", 0, 7, false},  {"Pict", "PNG ", 1, 10, false}, {"Pict", "PNG ", 9, 0, true},   {"Pict", "Rect", 2, 8, false},
    {"Data", "TEXT", 4, 33, false}, {"Snd ", "OGGV", 3, 40, false}, {"Data", "BINA", 2, 21, false}, {"Snd ", "FORM", 5, 31, false},
};
static const struct resource house[] = {
    {"Pict", "GIF ", 1, 10, false}, {"Snd ", "WAV ", 2, 9, false}, {"Snd ", "MIDI", 3, 8, false}, {"Snd ", "MP3 ", 4, 7, false},
};
enum { FEW = sizeof few / sizeof few[0], HOUSE = sizeof house / sizeof house[0] };

/* The few resources, a 'RelN', an 'Fspc' that names Pict 1, and a chunk without an entry, of an odd length. */
static size_t write_few(uint8_t *f)
{
    size_t at = write_file(f, few, FEW);

    at = put_chunk(f, at, "RelN", 2);
    at = put_chunk(f, at, "Fspc", 4);
    put32(f + at - 4, 1);
    return finish(f, put_chunk(f, at, "ANNO", 5));
}

/* `count` resources of one chunk each; their numbers rise or fall. */
static size_t write_many(uint8_t *f, size_t count, bool falling)
{
    static struct resource many[BLORB_MAX_ENTRIES + 1];

    for (size_t i = 0; i < count; i++)
        many[i] = (struct resource){"Data", "TEXT", (uint32_t)(falling ? count - i : i), i % 5, false};
    return write_file(f, many, count);
}

/* Two pictures, 16,777,216 bytes in all. */
static size_t write_large(uint8_t *f)
{
    const struct resource two[] = {{"Pict", "PNG ", 1, 100, false}, {"Pict", "JPEG", 2, BLORB_MAX_SIZE - 24 - 24 - 108 - 8, false}};

    return write_file(f, two, 2);
}

/* A table's check and searches, also of a table that differs; `numbers` of an accepted file are just its table's. */
static void finding(enum call checks, enum call searches, const uint8_t *f, size_t n, uint32_t *t, size_t numbers, uint64_t refusal)
{
    wants(check(checks, f, n, t, numbers), refusal, "check");
    for (uint32_t i = 0; i < 4; i++)
        search(searches, t, numbers, "Data", i);
    for (size_t i = 0; i < numbers && i < 60; i += 7) {
        t[i] ^= 1;
        check(checks, f, n, t, numbers);
        t[i] ^= 1;
    }
    if (refusal == 0 && numbers > 0)
        wants(check(checks, f, n, t, numbers - 1), BLORB_TABLE_STALE, "a check of a short table");
}

/* The table turned and back. */
static void turning(size_t numbers)
{
    wants(to_columns(numbers, NUMBERS), BLORB_DONE, "to columns");
    wants(to_rows(numbers, numbers), BLORB_DONE, "to rows");
    if (memcmp(table, turned, numbers * sizeof *table) != 0)
        fail("a table turned and back is another one");
    if (numbers == 0)
        return;
    wants(to_columns(numbers, numbers - 1), BLORB_TABLE_ROOM, "to columns with no room");
    wants(to_rows(numbers, numbers - 1), BLORB_TABLE_ROOM, "to rows with no room");
}

/* Every reading call on the file, and that each gives its refusal; 0 for an accepted file. */
static void reading(const uint8_t *f, size_t n, uint64_t refusal)
{
    static const char *const usages[] = {"Pict", "Snd ", "Data", "Exec", "Song"};
    size_t numbers = NUMBERS;

    wants(read_it(f, n), refusal, "read");
    for (size_t i = 0; i < 3; i++)
        entry(f, n, i);
    entry(f, n, BLORB_MAX_ENTRIES);
    for (size_t u = 0; u < 5; u++)
        for (uint32_t i = 0; i < 6; i++)
            lookup(f, n, usages[u], i);
    wants(scaled(f, n, 640, 1), refusal, "scaled");
    wants(text(f, n, 0), refusal == 0 ? (uint64_t)BLORB_NOT_THERE : refusal, "text");
    wants(text_of(f, n, "Pict", 1), refusal == 0 ? (uint64_t)BLORB_NOT_THERE : refusal, "text by pair");
    wants(build(f, n, NUMBERS), refusal, "build");
    if (refusal == 0) {
        numbers = BLORB_ROW_NUMBERS * answer[2];
        turning(numbers);
    }
    finding(CHECK, SEARCH, f, n, table, numbers, refusal);
    finding(COLUMNS_CHECK, COLUMNS_SEARCH, f, n, columns, numbers, refusal);
    if (refusal == 0 && numbers > 0)
        wants(build(f, n, numbers - 1), BLORB_TABLE_ROOM, "a build with no room");
}

/* Every call that takes a file, on one that is refused. */
static void refused(uint8_t *f, size_t n, uint64_t refusal)
{
    struct edited e = {f, ROOM, n, ROOM, 0};

    reading(f, n, refusal);
    wants(add(&e, "Data", 77, "TEXT", 10), refusal, "add");
    wants(replace(&e, "Pict", 1, "PNG ", 10), refusal, "replace");
    wants(removed(&e, "Pict", 1), refusal, "remove");
    wants(linked(&e, "Pict", 1, "Pict", 77), refusal, "link");
    wants(undo(&e), refusal, "undo");
}

/* An accepted file under profiles that there are not. */
static void unknown_profiles(void)
{
    size_t n = write_few(file);
    uint32_t known = profile;

    for (int i = 0; i < 32; i++) {
        profile = BLORB_ADRIFT + (1u << i);
        refused(file, n, BLORB_PROFILE);
    }
    profile = known;
}

/* `length` bytes of `file` with the few bytes of `with` at `at`. */
static void spoiled(size_t length, size_t at, const char *with, size_t n, uint64_t refusal)
{
    memcpy(wrong, file, length);
    memcpy(wrong + at, with, n);
    refused(wrong, length, refusal);
}

/* The same with a number; the FORM length is right for `length` bytes. */
static void spoiled32(size_t length, size_t at, size_t v, uint64_t refusal)
{
    uint8_t bytes[4];

    put32(bytes, v);
    finish(file, length);
    spoiled(length, at, (const char *)bytes, 4, refusal);
}

/* One file for each refusal, made of the few resources. */
static void each_refusal(void)
{
    size_t n = write_few(file), optional = n - 14 - 22, entries = 24, chunk = get32(file + 32);

    spoiled(11, 0, "", 0, BLORB_TOO_SHORT);
    spoiled(n, 0, "form", 4, BLORB_NO_FORM);
    spoiled(n, 8, "IFZS", 4, BLORB_NO_IFRS);
    spoiled32(n, 4, n, BLORB_FORM_LENGTH);
    put32(file + n, 0);
    spoiled32(n + 4, n, 0, BLORB_CHUNK_CUT);
    spoiled32(n, n - 10, 900, BLORB_CHUNK_LENGTH);
    spoiled32(n - 1, 0, get32(file), BLORB_NO_PADDING);
    spoiled32(n, n - 4, get32(file + n - 4) | 1, BLORB_PADDING);
    spoiled(n, 12, "RIdy", 4, BLORB_NO_INDEX);
    spoiled(n, n - 14, "RIdx", 4, BLORB_SECOND_INDEX);
    spoiled32(n, 20, FEW + 1, BLORB_INDEX_LENGTH);
    spoiled(n, entries + 24, "pict", 4, BLORB_USAGE);
    spoiled32(n, entries + 20, get32(file + entries + 20) + 2, BLORB_START);
    spoiled(n, chunk, "PNG ", 4, BLORB_TYPE);
    spoiled(n, get32(file + entries + 92) + 8, "8SVX", 4, BLORB_TYPE);
    spoiled32(n, entries + 4, 5, BLORB_EXEC_NUMBER);
    spoiled32(n, entries + 28, 1, BLORB_REPEATED);
    spoiled32(n, entries + 80, get32(file + entries + 56), BLORB_ORDER);
    spoiled(n, n - 14, "RelN", 4, BLORB_SECOND_OPTIONAL);
    spoiled(n, optional, "Fspc", 4, BLORB_OPTIONAL_LENGTH);
    spoiled32(n, optional + 18, 3, BLORB_FRONTISPIECE);
    n = write_many(wrong, BLORB_MAX_ENTRIES + 1, false);
    refused(wrong, n, BLORB_TOO_MANY);
    n = write_large(wrong);
    refused(wrong, n + 1, BLORB_TOO_LONG);
    finish(wrong, n - 2);
    refused(wrong, n - 2, BLORB_CHUNK_LENGTH);
}

/* All edits back again; the file is as it was. */
static void undone(struct edited *e)
{
    while (e->used > 0)
        wants(undo(e), BLORB_DONE, "undo");
}

/* Edits that are carried out, with moves to both sides, and their undos. Pict 1 is the frontispiece's if there is one. */
static void carried_out(uint8_t *f, size_t n, const struct resource *r, size_t count)
{
    struct edited e = {f, ROOM, n, ROOM, 0};

    memcpy(kept, f, n);
    for (size_t i = 0; i < count; i++) {
        if (i > 0 && (r[i].shares || (i + 1 < count && r[i + 1].shares)))
            continue;
        for (size_t k = 0; k < 3; k++)
            if (r[i].type[0] != 'R')
                wants(replace(&e, r[i].usage, r[i].number, r[i].type, k == 0 ? r[i].size : k == 1 ? 5001 : 14), BLORB_DONE, "replace");
    }
    if (get32(f + 20) < BLORB_MAX_ENTRIES)
        wants(add(&e, "Data", 70, "BINA", DATA), BLORB_DONE, "add");
    for (size_t i = count; i-- > 0;)
        if (removed(&e, r[i].usage, r[i].number) != BLORB_FRONTISPIECE + BLORB_RESULT)
            wants(answer[0], BLORB_DONE, "remove");
    undone(&e);
    if (e.length != n || memcmp(kept, f, n) != 0)
        fail("the edits and their undos leave another file");
}

/* Second names, with the first ones removed, then the second ones, as far as the frontispiece and Exec let. */
static void second_names(uint8_t *f, size_t n, const struct resource *r, size_t count)
{
    struct edited e = {f, ROOM, n, ROOM, 0};

    memcpy(kept, f, n);
    for (uint32_t i = 0; i < count; i++)
        wants(linked(&e, r[i].usage, r[i].number, r[i].usage, 1000 + i), r[i].usage[0] == 'E' ? BLORB_RESULT_EXEC_NUMBER : BLORB_DONE, "link");
    for (uint32_t i = 0; i < count; i++)
        removed(&e, r[i].usage, r[i].number), removed(&e, r[i].usage, 1000 + i);
    undone(&e);
    if (e.length != n || memcmp(kept, f, n) != 0)
        fail("links and their undos leave another file");
}

/* Edits that are refused, on the few resources: all numbers of the call but the file's, 101 and 111. */
static void refused_edits(void)
{
    size_t n = write_few(file), tight = n + 30;
    struct edited e = {file, ROOM, n, ROOM, 0}, long_file = {file, n - 1, n, ROOM, 0}, narrow = {file, tight, n, ROOM, 0},
                  narrowest = {file, n + 11, n, ROOM, 0}, short_journal = {file, ROOM, n, 28, 0}, bad_journal = {file, ROOM, n, ROOM, 40};

    add(&long_file, "Data", 70, "TEXT", 1), replace(&long_file, "Pict", 1, "PNG ", 1), removed(&long_file, "Pict", 1), undo(&long_file);
    replace(&e, "Pict", 8, "PNG ", 1), removed(&e, "Pict", 8), replace(&e, "Pict", 9, "PNG ", 1);
    add(&e, "Data", 70, "RIdx", 1), add(&e, "pict", 70, "TEXT", 1), add(&e, "Data", 70, "JUNK", 1);
    add(&e, "Exec", 1, "ZCOD", 1), add(&e, "Data", 4, "TEXT", 1);
    replace(&e, "Data", 4, "RIdx", 1), replace(&e, "Data", 4, "JUNK", 1), removed(&e, "Pict", 1);
    add(&narrow, "Data", 70, "TEXT", 100), replace(&narrow, "Data", 4, "TEXT", 300);
    add(&short_journal, "Data", 70, "TEXT", 1), replace(&short_journal, "Data", 4, "TEXT", 1), removed(&short_journal, "Data", 4);
    linked(&long_file, "Pict", 1, "Pict", 70), linked(&e, "Pict", 8, "Pict", 70), linked(&e, "Pict", 1, "pict", 70);
    linked(&e, "Pict", 1, "Data", 70), linked(&e, "Exec", 0, "Exec", 1), linked(&e, "Pict", 1, "Pict", 2), linked(&e, "Pict", 2, "Pict", 1);
    linked(&narrowest, "Pict", 1, "Pict", 70), linked(&short_journal, "Pict", 1, "Pict", 70);
    wants(add(&e, "Snd ", 70, "FORM", 11), BLORB_WHOLE_FORM, "add"), wants(replace(&e, "Snd ", 5, "FORM", 7), BLORB_WHOLE_FORM, "replace");
    undo(&e);
    memset(journal, 7, 40);
    undo(&bad_journal);
    wants(removed(&e, "Data", 4), BLORB_DONE, "remove");
    e.size = e.length;
    wants(undo(&e), BLORB_FILE_ROOM, "an undo with no room");
    e.size = ROOM;
    undone(&e);
    wants(removed(&e, "Pict", 9), BLORB_DONE, "remove");
    wants(replace(&e, "Pict", 1, "Rect", 8), BLORB_RESULT_FRONTISPIECE, "a frontispiece made a Rect");
    undone(&e);
    blank(wrong, ROOM), blank(wrong, BLORB_BLANK_SIZE - 1);
}

/* 4,096 entries, and 16,777,216 bytes. */
static void large(void)
{
    static struct resource last = {"Data", "TEXT", BLORB_MAX_ENTRIES - 1, (BLORB_MAX_ENTRIES - 1) % 5, false};
    const struct resource two[] = {{"Pict", "PNG ", 1, 100, false}, {"Pict", "JPEG", 2, 0, false}};
    struct edited e = {file, ROOM, 0, ROOM, 0};

    e.length = write_many(file, BLORB_MAX_ENTRIES, false);
    reading(file, e.length, BLORB_DONE);
    wants(add(&e, "Data", 70000, "TEXT", 1), BLORB_RESULT_TOO_MANY, "add");
    wants(linked(&e, "Data", 1, "Data", 70000), BLORB_RESULT_TOO_MANY, "link");
    carried_out(file, e.length, &last, 1);
    reading(file, write_many(file, BLORB_MAX_ENTRIES, true), BLORB_DONE);
    e.length = write_large(file);
    reading(file, e.length, BLORB_DONE);
    wants(add(&e, "Data", 1, "TEXT", 1), BLORB_RESULT_TOO_LONG, "add");
    wants(linked(&e, "Pict", 1, "Pict", 3), BLORB_RESULT_TOO_LONG, "link");
    wants(replace(&e, "Pict", 1, "PNG ", 99), BLORB_DONE, "replace");
    wants(replace(&e, "Pict", 1, "PNG ", 101), BLORB_RESULT_TOO_LONG, "replace");
    wants(replace(&e, "Pict", 1, "PNG ", 50), BLORB_DONE, "replace");
    wants(removed(&e, two[0].usage, two[0].number), BLORB_DONE, "remove");
    undone(&e);
}

/* A sound of `n` bytes whose 'COMM' stands last, behind empty chunks: one channel, 16,000 frames, the rate's first two bytes and next eight. */
static size_t write_sound(uint8_t *f, size_t n, unsigned head, uint64_t significand)
{
    uint8_t *common = f + n - 18;

    finish(f, n);
    memcpy(f + 8, "AIFF", 4);
    for (size_t at = 12; at < n - 26; at += 8)
        memcpy(f + at, "NAME\0\0\0", 8);
    memcpy(common - 8, "COMM\0\0\0\x12\0\1\0\0\x3e\x80\0\x08", 16);
    common[8] = (uint8_t)(head >> 8), common[9] = (uint8_t)head;
    put32(common + 10, significand >> 32), put32(common + 14, significand & 0xffffffff);
    return n;
}

/* Sounds of two sizes: every refusal, and rates that take the most and the fewest steps. */
static void sounds(size_t n)
{
    const uint64_t top = (uint64_t)1 << 63;

    wants(aiff(file, write_sound(file, n, 16383, top)), BLORB_DONE, "a rate of 1");
    wants(aiff(file, write_sound(file, n, 16383 + 63, 1)), BLORB_DONE, "a rate of 1, unnormalised");
    wants(aiff(file, write_sound(file, n, 16383 + 63 + 31, 1)), BLORB_DONE, "a rate of 2,147,483,648, unnormalised");
    wants(aiff(file, write_sound(file, n, 16383 + 12, (uint64_t)0xfa << 56)), BLORB_DONE, "a rate of 8,000");
    wants(aiff(file, write_sound(file, n, 16383 + 31, (uint64_t)0xffffffff << 32)), BLORB_DONE, "the largest rate");
    wants(aiff(file, write_sound(file, n, 16383 + 32, top)), BLORB_RATE, "a rate too large");
    wants(aiff(file, write_sound(file, n, 0x7fff, top)), BLORB_RATE, "the largest exponent");
    wants(aiff(file, write_sound(file, n, 0, top)), BLORB_RATE, "the smallest exponent");
    wants(aiff(file, write_sound(file, n, 16383, 0)), BLORB_RATE, "a rate of 0");
    wants(aiff(file, write_sound(file, n, 0x8000 + 16383, top)), BLORB_RATE, "a negative rate");
    memcpy(file + 12, "COMM\0\0\0", 8);
    wants(aiff(file, n), BLORB_COMMON, "a second 'COMM'");
    memcpy(file + n - 26, "comm", 4);
    wants(aiff(file, n), BLORB_COMMON, "a 'COMM' of no bytes");
    wants(aiff(file, n - 1), BLORB_NOT_AIFF, "a sound cut short");
    wants(aiff(file, 11), BLORB_NOT_AIFF, "no sound");
}

/* `levels` chunks, each in the one before, `names` by turns; `inside` bytes of room in the last. Gives the file's length. */
static size_t write_nested(uint8_t *f, const char *const names[2], size_t levels, size_t inside)
{
    for (size_t i = 0; i < levels; i++) {
        memcpy(f + BLORB_FORM_SIZE * i, names[i % 2], 4);
        put32(f + BLORB_FORM_SIZE * i + 4, BLORB_FORM_SIZE * (levels - i) - BLORB_HEADER_SIZE + inside);
        memcpy(f + BLORB_FORM_SIZE * i + 8, "ILBM", 4);
    }
    return BLORB_FORM_SIZE * levels + inside;
}

/* Both calls on `n` bytes of the file. */
static void grouping(size_t n, uint64_t refusal, const char *what)
{
    wants(forms(file, n, NUMBERS), refusal, what);
    for (size_t i = 0; i < 20; i++)
        if (pick(file, n, i) != BLORB_NOT_THERE)
            wants(answer[0], refusal, what);
}

/* A file of so many levels: good, and with each fault in the innermost chunk that has room for a member. */
static void grouped(const char *const names[2], size_t levels)
{
    static const struct {
        const char *header; /* of a chunk of 12 bytes */
        uint64_t in_form, in_group;
    } members[] = {
        {"BODY\0\0\0\4", 0, 43}, {"BODY\0\0\0\5", 41, 41}, {"BODY\0\0\0\3", 44, 43}, {"FORM\0\0\0\3", 41, 41}, {"FORM\0\0\0\4", 0, 0},
        {"LIST\0\0\0\4", 0, 0}, {"CAT \0\0\0\4", 0, 0}, {"PROP\0\0\0\4", 43, 43}, {"BODY\0\0\0\1", 44, 43},
    };
    size_t n = write_nested(file, names, levels, 12), at = n - 12;
    int last = names[(levels - 1) % 2][0];

    for (size_t i = 0; i < sizeof members / sizeof *members; i++) {
        const char *header = members[i].header;
        uint64_t wanted = last == 'F' ? members[i].in_form : members[i].in_group;
        if (last == 'L' && header[0] == 'P')
            wanted = 0;
        if (wanted != 41 && levels == BLORB_MAX_DEPTH && strchr("FLC", header[0]) != NULL)
            wanted = 42;
        memcpy(file + at, header, 8);
        memcpy(file + at + 8, "ILB\1", 4);
        grouping(n, wanted, header);
    }
}

/* Group files by their levels, by what is wrong with the innermost chunk, and at the limits. */
static void groups(void)
{
    static const char *const names[][2] = {{"FORM", "FORM"}, {"LIST", "LIST"}, {"CAT ", "CAT "}, {"FORM", "LIST"}, {"CAT ", "FORM"}, {"LIST", "CAT "}};

    for (size_t i = 0; i < sizeof names / sizeof *names; i++) {
        for (size_t levels = 1; levels <= BLORB_MAX_DEPTH; levels++)
            grouped(names[i], levels);
        grouping(write_nested(file, names[i], BLORB_MAX_DEPTH, 0), BLORB_DONE, "16 levels");
        grouping(write_nested(file, names[i], BLORB_MAX_SIZE / BLORB_FORM_SIZE, 4), BLORB_GROUP_DEPTH, "1,398,101 levels");
    }
    grouping((size_t)BLORB_MAX_SIZE + 1, BLORB_TOO_LONG, "a file too long");
    grouping(7, BLORB_GROUP_SIZE, "a header cut short");
    grouping(write_nested(file, names[0], 1, 0) + 1, BLORB_GROUP_MEMBER, "a byte behind the top");
    wants(forms(file, 12, BLORB_FORM_NUMBERS - 1), BLORB_FORMS_ROOM, "a list with no room");
    wants(pick(file, 12, 1), BLORB_NOT_THERE, "a FORM that there is not");
    /* A list that begins with 'PROP's at level 17, each with an odd chunk. */
    size_t n = write_nested(file, names[1], BLORB_MAX_DEPTH, 48);
    for (size_t at = n - 48; at < n; at += 24)
        memcpy(file + at, "PROP\0\0\0\x10ILBMBODY\0\0\0\3eel", 24);
    grouping(n, BLORB_DONE, "'PROP's at level 17");
    memcpy(file + n - 12, "FORM\0\0\0\4", 8);
    grouping(n, BLORB_GROUP_DEPTH, "a FORM in a 'PROP' at level 17");
}

/* A 'Reso' of so many rows behind the few resources; the number of picture i is i * by. */
static size_t write_reso(uint8_t *f, size_t count, uint32_t by)
{
    size_t at = write_few(f), size = 24 + 28 * count;
    uint8_t *reso = f + at + 8;

    memcpy(f + at, "Reso", 4);
    put32(f + at + 4, size);
    memset(reso, 0, size);
    put32(reso, 640);
    put32(reso + 4, 480);
    for (size_t i = 0; i < count; i++) {
        put32(reso + 24 + 28 * i, (uint32_t)i * by);
        for (size_t k = 1; k < 7; k++)
            put32(reso + 24 + 28 * i + 4 * k, 1 + k / 5);
    }
    return finish(f, at + 8 + size);
}

/* Scaled pictures: few rows and many, rising, falling and in no order, listed and not; each reason for a refusal. */
static void scaling(void)
{
    static const uint32_t steps[] = {1, 0xffffffff, 2654435761u};
    static const size_t counts[] = {0, 1, 2, 30, 6000};

    for (size_t i = 0; i < 5; i++)
        for (size_t k = 0; k < 3; k++) {
            size_t n = write_reso(file, counts[i], steps[k]), last = n - 28;
            wants(scaled(file, n, 640, 0), BLORB_DONE, "scaled");
            wants(scaled(file, n, 12, steps[k] * 3), BLORB_DONE, "scaled");
            wants(scaled(file, n, 65535, (uint32_t)counts[i] * steps[k]), BLORB_DONE, "a picture that is not listed");
            wants(scaled(file, n, 65536, 1), BLORB_RESO_NUMBER, "a window too wide");
            if (counts[i] < 2)
                continue;
            put32(file + last, 0);
            wants(scaled(file, n, 640, 1), BLORB_RESO_NUMBER, "a repeated picture");
            put32(file + last, get32(file + last - 28));
            wants(scaled(file, n, 640, 1), BLORB_RESO_NUMBER, "a repeated picture");
            put32(file + last, 7000);
            put32(file + last + 4, 65536);
            wants(scaled(file, n, 640, 1), BLORB_RESO_NUMBER, "a large number");
            memcpy(file + n, "Reso\0\0\0\0", 8);
            wants(scaled(file, finish(file, n + 8), 640, 1), BLORB_SECOND_RESO, "a second 'Reso'");
            n = write_few(file);
            memcpy(file + n, "Reso\0\0\0\0", 8);
            wants(scaled(file, finish(file, n + 8), 640, 1), BLORB_RESO_LENGTH, "an empty 'Reso'");
        }
}

/* Rows of texts of `size` bytes from 0 on, and the same texts as an 'RDes' behind the few resources; the number of text i is i * by. */
enum { TEXTS = 6000 };
static uint32_t text_rows[BLORB_TEXT_NUMBERS * TEXTS];
static size_t write_rdes(uint8_t *f, size_t count, size_t size, uint32_t by)
{
    size_t at = write_few(f), end = at + 12;

    for (size_t i = 0; i < count; i++, end += 12 + size) {
        uint32_t *row = text_rows + BLORB_TEXT_NUMBERS * i;
        memcpy(row, (uint32_t[]){BLORB_PICT, (uint32_t)i * by, 0, (uint32_t)size}, sizeof(uint32_t[BLORB_TEXT_NUMBERS]));
        for (size_t k = 0; k < 4; k++)
            put32(f + end + 4 * k, k < 2 ? row[k] : size);
        memcpy(f + end + 12, whole, size);
    }
    memcpy(f + at, "RDes", 4);
    put32(f + at + 4, end - at - 8);
    put32(f + at + 8, count);
    f[end] = 0;
    return finish(f, end + end % 2);
}

/* Both reading calls refuse the file of `n` bytes in `file`. */
static void no_texts(size_t n, uint64_t refusal)
{
    wants(text(file, n, 0), refusal, "text");
    wants(text_of(file, n, "Pict", 1), refusal, "text by pair");
}

static uint64_t texts_write(size_t count, size_t texts_size, size_t room)
{
    return RUN(TEXTS_WRITE, P(text_rows), BLORB_TEXT_NUMBERS * count, P(whole), texts_size, P(wrong), room);
}

/* Spoken descriptions: few texts and many, rising, falling and in no order; each reason for a refusal, of reading and of writing. */
static void describing(void)
{
    static const uint32_t steps[] = {1, 0xffffffff, 2654435761u};
    static const size_t counts[] = {0, 1, 2, 30, TEXTS}, sizes[] = {0, 7};

    memcpy(whole, "\xf0\x9f\x90\x9f\xc3\xa4" "e", 7);
    for (size_t i = 0; i < 5; i++)
        for (size_t k = 0; k < 6; k++) {
            size_t count = counts[i], size = sizes[k % 2], n = write_rdes(file, count, size, steps[k / 2]), start = write_few(wrong), last;
            wants(text(file, n, 0), count > 0 ? BLORB_DONE : BLORB_NOT_THERE, "text");
            wants(text(file, n, count), BLORB_NOT_THERE, "no such text");
            text_of(file, n, "Pict", 1);
            wants(texts_write(count, 7, ROOM), BLORB_DONE, "write");
            wants(texts_write(count, 7, answer[2] - 1), BLORB_RDES_ROOM, "write with no room");
            put32(file + start + 8, count + 1);
            no_texts(n, BLORB_RDES_LENGTH);
            put32(file + start + 8, count);
            memcpy(file + n, "RDes\0\0\0\0", 8);
            finish(file, n + 8);
            no_texts(n + 8, BLORB_SECOND_RDES);
            finish(file, n);
            if (count < 2)
                continue;
            last = start + 12 + (count - 1) * (12 + size);
            put32(file + last + 4, get32(file + start + 16));
            no_texts(n, BLORB_RDES_REPEATED);
            put32(file + last + 4, get32(file + last - size - 8));
            no_texts(n, BLORB_RDES_REPEATED);
            text_rows[BLORB_TEXT_NUMBERS * count - 3] = text_rows[1];
            wants(texts_write(count, 7, ROOM), BLORB_RDES_REPEATED, "a pair twice");
            text_rows[BLORB_TEXT_NUMBERS * count - 3] = 7000;
            text_rows[BLORB_TEXT_NUMBERS * count - 1] = 8;
            wants(texts_write(count, 7, ROOM), BLORB_RDES_TEXT, "a text past its slice");
            if (size == 0)
                continue;
            put32(file + last + 4, 7000);
            file[last + 13] = 'e';
            no_texts(n, BLORB_RDES_TEXT);
        }
}

/* The two calls that take no buffer. */
static void plain_calls(void)
{
    uint64_t refusal = 0;

    measured(&rows[VERSION], &refusal, 0);
    if ((uint32_t)answer[0] != BLORB_VERSION)
        fail("the version is another one");
    for (uint64_t k = 0; k <= 256; k++) {
        refusal = k < 256 ? k : UINT64_MAX;
        measured(&rows[SENTENCE], &refusal, 1);
        if (answer[0] != P(blorb_sentence(refusal)))
            fail("the sentence is another one");
    }
}

/* Each call has given all of its refusals, and no other. */
static void check_seen(void)
{
    for (enum call c = 0; c < VERSION; c++) {
        bool can[128] = {[0] = true};
        for (int k = 1; k < 30; k++)
            can[k] = rows[c].takes_file && (k <= 19 || k >= 27);
        can[BLORB_PROFILE] = rows[c].takes_file;
        for (const int *k = rows[c].more; *k != 0; k++)
            can[*k] = true;
        for (int k = 0; k < 128; k++)
            if (can[k] != rows[c].seen[k]) {
                fprintf(stderr, "stack_depth: %s: refusal %d %s\n", rows[c].name, k, can[k] ? "was not seen" : "was seen");
                exit(1);
            }
    }
}

static void under_profile(void)
{
    size_t n;

    reading(file, write_file(file, few, 0), BLORB_DONE);
    reading(file, write_few(file), BLORB_DONE);
    each_refusal();
    unknown_profiles();
    carried_out(file, write_few(file), few, FEW);
    second_names(file, write_few(file), few, FEW);
    refused_edits();
    scaling();
    describing();
    n = write_file(file, house, HOUSE);
    if (profile == BLORB_PLAIN) {
        refused(file, n, BLORB_TYPE);
    } else {
        reading(file, n, BLORB_DONE);
        carried_out(file, n, house, HOUSE);
        second_names(file, n, house, HOUSE);
    }
    large();
}

int main(void)
{
    uint8_t *pages = mmap(NULL, PAGE + STACK, PROT_READ | PROT_WRITE, MAP_PRIVATE | MAP_ANONYMOUS, -1, 0);

    if (pages == MAP_FAILED || mprotect(pages, PAGE, PROT_NONE) != 0)
        return 2;
    painted = pages + PAGE;
    for (size_t i = 0; i < DATA; i++)
        data[i] = (uint8_t)(i * 7 + i / 251);
    for (profile = BLORB_PLAIN; profile <= BLORB_ADRIFT; profile++)
        under_profile();
    sounds(46);
    sounds(BLORB_MAX_SIZE + 6);
    groups();
    plain_calls();
    check_seen();
    for (enum call c = 0; c < CALLS; c++)
        printf("%s %zu\n", rows[c].name, rows[c].deepest);
    fprintf(stderr, "stack_depth: ok, %u calls\n", calls);
    return 0;
}
