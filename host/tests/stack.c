/*
 * Every call on a stack of 8 KB, the smallest device's, with a page before it that may not be touched, and the C library's own memmove
 * and memset; those on lists, which may take all of that, on one of 12 KB. What each call takes by itself: stack_depth.c.
 */
#define _DEFAULT_SOURCE
#include <stdio.h>
#include <stdlib.h>
#include <string.h>
#include <sys/mman.h>
#include <ucontext.h>

#include "blorb.h"

enum { PAGE = 4096, STACK = 2 * PAGE, LARGER = 3 * PAGE, ROOM = 200000, DATA = 40001, WHOLE = 10000 };
static uint8_t file[ROOM], wrong[ROOM], journal[ROOM], data[DATA], whole[WHOLE];
enum { MANY = 2000000 };
static uint8_t nested[BLORB_FORM_SIZE * MANY];
enum { ROWS = BLORB_FORM_NUMBERS * BLORB_MAX_DEPTH };
static uint32_t table[6], columns[6], rows[ROWS];
static ucontext_t outside, inside;
static int calls;
static uint32_t profile;

static void gives(uint64_t refusal, uint64_t wanted)
{
    if (refusal != wanted)
        exit(1);
    calls++;
}

static void done(uint64_t refusal)
{
    gives(refusal, BLORB_DONE);
}

/* Every call refuses the file in `wrong`. */
static void refused(size_t length, size_t used, uint64_t refusal)
{
    gives(blorb_read(wrong, length, profile).refusal, refusal);
    gives(blorb_entry(wrong, length, profile, 1).refusal, refusal);
    gives(blorb_lookup(wrong, length, profile, "Data", 2).refusal, refusal);
    gives(blorb_table_build(wrong, length, profile, table, 6).refusal, refusal);
    gives(blorb_table_check(wrong, length, profile, table, 6).refusal, refusal);
    gives(blorb_columns_check(wrong, length, profile, columns, 6).refusal, refusal);
    gives(blorb_add(wrong, ROOM, length, journal, ROOM, used, profile, "Data", 9, "BINA", data, 1).refusal, refusal);
    gives(blorb_replace(wrong, ROOM, length, journal, ROOM, used, profile, "Data", 2, "BINA", data, 1).refusal, refusal);
    gives(blorb_remove(wrong, ROOM, length, journal, ROOM, used, profile, "Data", 2).refusal, refusal);
    gives(blorb_link(wrong, ROOM, length, journal, ROOM, used, profile, "Data", 2, "Data", 9).refusal, refusal);
    gives(blorb_undo(wrong, ROOM, length, journal, ROOM, used, profile).refusal, refusal);
}

/* Every call refuses an unknown profile before it looks at the file. */
static void unknown(size_t length, size_t used)
{
    uint32_t known = profile;

    memcpy(wrong, file, length);
    profile = 2;
    refused(length, used, BLORB_PROFILE);
    profile = known;
}

/* The file of `length` bytes cut short, its FORM length right: every call finds the broken chunk. */
static void broken(size_t length, size_t cut, size_t used, uint64_t refusal)
{
    memcpy(wrong, file, length - cut);
    for (int i = 0; i < 4; i++)
        wrong[4 + i] = (uint8_t)((length - cut - 8) >> (24 - 8 * i));
    refused(length - cut, used, refusal);
}

/* The first two entries exchanged. */
static void turned(size_t length, size_t used)
{
    memcpy(wrong, file, length);
    memcpy(wrong + 24, file + 24 + BLORB_ENTRY_SIZE, BLORB_ENTRY_SIZE);
    memcpy(wrong + 24 + BLORB_ENTRY_SIZE, file + 24, BLORB_ENTRY_SIZE);
    refused(length, used, BLORB_ORDER);
}

/* A sound: refused without its 'COMM', with a rate of 0, and told. */
static void sound(void)
{
    uint8_t bytes[38] = "FORM\0\0\0\x1e" "AIFFCOMM\0\0\0\x12\0\1\0\0\x3e\x80\0\x08\x40\x0b\xfa"; /* one channel, 16,000 frames at 8,000 */

    gives(blorb_aiff_length(bytes, 37).refusal, BLORB_NOT_AIFF);
    gives(blorb_aiff_length(bytes, 38).seconds, 2);
    bytes[30] = 0;
    gives(blorb_aiff_length(bytes, 38).refusal, BLORB_RATE);
    bytes[12] = 'c';
    gives(blorb_aiff_length(bytes, 38).refusal, BLORB_COMMON);
}

/* `count` headers, each chunk in the one before: `name` and `other` by turns, `apart` bytes from each other. Gives the file's length. */
static size_t nest_apart(const char *name, const char *other, size_t count, size_t apart)
{
    for (size_t i = 0; i < count; i++) {
        uint8_t *to = nested + apart * i;
        size_t size = apart * (count - i) - BLORB_HEADER_SIZE;
        memcpy(to, i % 2 == 0 ? name : other, 4);
        for (int k = 0; k < 4; k++)
            to[4 + k] = (uint8_t)(size >> (24 - 8 * k));
        memcpy(to + 8, "ILBM", apart - 8);
    }
    return apart * count;
}

static size_t nest(const char *name, const char *other, size_t count)
{
    return nest_apart(name, other, count, BLORB_FORM_SIZE);
}

/* Group files of 16 levels, which take the most stack, of 17, of as many as there can be, and two million headers, with and without their types. */
static void groups(void)
{
    static const char *const names[][2] = {{"FORM", "FORM"}, {"LIST", "FORM"}, {"FORM", "CAT "}, {"CAT ", "LIST"}};

    for (size_t i = 0; i < 4; i++) {
        size_t n = nest(names[i][0], names[i][1], BLORB_MAX_DEPTH);
        done(blorb_forms_list(nested, n, rows, ROWS).refusal);
        gives(blorb_forms_pick(nested, n, ROWS).refusal, BLORB_NOT_THERE);
        memcpy(nested + n - 12, "PROP", 4);
        gives(blorb_forms_list(nested, n, rows, ROWS).refusal, i == 1 ? BLORB_DONE : BLORB_GROUP_MEMBER); /* in a LIST it may stand */
        n = nest(names[i][0], names[i][1], BLORB_MAX_DEPTH + 1);
        gives(blorb_forms_list(nested, n, rows, ROWS).refusal, BLORB_GROUP_DEPTH);
        n = nest(names[i][0], names[i][1], BLORB_MAX_SIZE / BLORB_FORM_SIZE);
        gives(blorb_forms_list(nested, n, rows, ROWS).refusal, BLORB_GROUP_DEPTH);
        gives(blorb_forms_pick(nested, n, 0).place, BLORB_FORM_SIZE * BLORB_MAX_DEPTH);
        n = nest(names[i][0], names[i][1], MANY);
        gives(blorb_forms_list(nested, n, rows, ROWS).refusal, BLORB_TOO_LONG);
        n = nest_apart(names[i][0], names[i][1], MANY, BLORB_HEADER_SIZE);
        gives(blorb_forms_list(nested, n, rows, ROWS).refusal, BLORB_GROUP_SIZE);
    }
}

static void every_call(void)
{
    gives(blorb_version(), BLORB_VERSION);
    gives(blorb_sentence(BLORB_DONE) == NULL, 0);
    sound();
    groups();
    blorb_edit_answer a = blorb_blank(file, ROOM);
    done(a.refusal);
    for (uint32_t i = 0; i < 3; i++) {
        a = blorb_add(file, ROOM, a.length, journal, ROOM, a.used, profile, "Data", i, "BINA", data, DATA - i);
        done(a.refusal);
    }
    a = blorb_replace(file, ROOM, a.length, journal, ROOM, a.used, profile, "Data", 0, "TEXT", data, DATA / 2);
    done(a.refusal);
    a = blorb_replace(file, ROOM, a.length, journal, ROOM, a.used, profile, "Data", 0, "TEXT", data, DATA);
    done(a.refusal);
    a = blorb_remove(file, ROOM, a.length, journal, ROOM, a.used, profile, "Data", 1);
    done(a.refusal);
    a = blorb_link(file, ROOM, a.length, journal, ROOM, a.used, profile, "Data", 0, "Data", 9);
    done(a.refusal);
    gives(blorb_link(file, ROOM, a.length, journal, ROOM, a.used, profile, "Data", 0, "Data", 2).refusal, BLORB_RESULT_REPEATED);
    a = blorb_remove(file, ROOM, a.length, journal, ROOM, a.used, profile, "Data", 9);
    done(a.refusal);
    memcpy(whole + 8, "AIFF", 4);
    a = blorb_replace(file, ROOM, a.length, journal, ROOM, a.used, profile, "Data", 0, "FORM", whole, WHOLE);
    gives(a.refusal, BLORB_WHOLE_FORM);
    memcpy(whole, "FORM\0\0\x27\x08", 8); /* 9,992 */
    a = blorb_add(file, ROOM, a.length, journal, ROOM, a.used, profile, "Snd ", 3, "FORM", whole, WHOLE);
    done(a.refusal);
    gives(blorb_lookup(file, a.length, profile, "Snd ", 3).length, WHOLE);
    a = blorb_replace(file, ROOM, a.length, journal, ROOM, a.used, profile, "Snd ", 3, "FORM", whole, WHOLE);
    done(a.refusal);
    a = blorb_remove(file, ROOM, a.length, journal, ROOM, a.used, profile, "Snd ", 3);
    done(a.refusal);
    memset(whole, 0, WHOLE);
    done(blorb_read(file, a.length, profile).refusal);
    done(blorb_entry(file, a.length, profile, 1).refusal);
    done(blorb_lookup(file, a.length, profile, "Data", 2).refusal);
    done(blorb_table_build(file, a.length, profile, table, 6).refusal);
    done(blorb_table_check(file, a.length, profile, table, 6).refusal);
    done(blorb_table_search(table, 6, "Data", 2).refusal);
    done(blorb_table_to_columns(table, 6, columns, 6).refusal);
    done(blorb_columns_check(file, a.length, profile, columns, 6).refusal);
    done(blorb_columns_search(columns, 6, "Data", 2).refusal);
    done(blorb_table_to_rows(columns, 6, table, 6).refusal);
    broken(a.length, 1, a.used, BLORB_NO_PADDING); /* Data 2 is last, with an odd length */
    broken(a.length, 2, a.used, BLORB_CHUNK_LENGTH);
    broken(a.length, DATA, a.used, BLORB_CHUNK_CUT);
    turned(a.length, a.used);
    unknown(a.length, a.used);
    while (a.used > 0) {
        a = blorb_undo(file, ROOM, a.length, journal, ROOM, a.used, profile);
        done(a.refusal);
    }
}

static void put32(uint8_t *to, size_t v)
{
    for (int i = 0; i < 4; i++)
        to[i] = (uint8_t)(v >> (24 - 8 * i));
}

/* The file in `wrong` with a 'Reso' of 5,000 rows whose pictures fall. */
static size_t with_reso(void)
{
    enum { ROWS = 5000, SIZE = 24 + 28 * ROWS };
    size_t at = blorb_blank(wrong, ROOM).length;

    memcpy(wrong + at, "Reso", 4);
    put32(wrong + at + 4, SIZE);
    memset(wrong + at + 8, 0, SIZE);
    put32(wrong + at + 8, 640);
    put32(wrong + at + 12, 480);
    for (size_t i = 0; i < ROWS; i++) {
        uint8_t *row = wrong + at + 32 + 28 * i;
        put32(row, ROWS - i);
        put32(row + 4, 3);
        put32(row + 8, 2);
    }
    put32(wrong + 4, at + SIZE);
    return at + 8 + SIZE;
}

/* 5,000 texts whose numbers fall, written and read. */
static void texts(void)
{
    enum { TEXTS = 5000 };
    static uint32_t rows[BLORB_TEXT_NUMBERS * TEXTS];
    size_t at = blorb_blank(wrong, ROOM).length;

    for (uint32_t i = 0; i < TEXTS; i++)
        memcpy(rows + BLORB_TEXT_NUMBERS * i, (uint32_t[]){BLORB_PICT, TEXTS - i, 0, i % 4}, sizeof(uint32_t[BLORB_TEXT_NUMBERS]));
    blorb_write_answer a = blorb_texts_write(rows, BLORB_TEXT_NUMBERS * TEXTS, (const uint8_t *)"eel", 3, wrong + at, ROOM - at);
    done(a.refusal);
    size_t n = at + a.length;
    put32(wrong + 4, n - 8);
    done(blorb_text(wrong, n, profile, TEXTS - 1).refusal);
    gives(blorb_text(wrong, n, profile, 3).length, 3);
    gives(blorb_text_of(wrong, n, profile, "Pict", 5).refusal, BLORB_NOT_THERE);
    wrong[n - 1] = 0xff; /* the last text */
    gives(blorb_text(wrong, n, profile, 3).refusal, BLORB_RDES_TEXT);
    rows[BLORB_TEXT_NUMBERS * TEXTS - 3] = 4;
    gives(blorb_texts_write(rows, BLORB_TEXT_NUMBERS * TEXTS, (const uint8_t *)"eel", 3, wrong, ROOM).refusal, BLORB_RDES_REPEATED);
}

static void lists(void)
{
    size_t n = with_reso();

    done(blorb_scaled(wrong, n, profile, 640, 480, 7, 320, 200).refusal);
    gives(blorb_scaled(wrong, n, profile, 640, 480, 7, 320, 200).width, 480);
    put32(wrong + n - 28, 5000);
    gives(blorb_scaled(wrong, n, profile, 640, 480, 7, 320, 200).refusal, BLORB_RESO_NUMBER);
    gives(blorb_scaled(wrong, n - 28, profile, 640, 480, 7, 320, 200).refusal, BLORB_FORM_LENGTH);
    gives(blorb_scaled(wrong, n, 2, 640, 480, 7, 320, 200).refusal, BLORB_PROFILE);
    texts();
}

static void both_profiles(void)
{
    for (profile = BLORB_PLAIN; profile <= BLORB_ADRIFT; profile++)
        every_call();
}

static void lists_under_both(void)
{
    for (profile = BLORB_PLAIN; profile <= BLORB_ADRIFT; profile++)
        lists();
}

/* Runs it on a stack of so many bytes. */
static void on_stack(void (*run)(void), size_t size)
{
    uint8_t *pages = mmap(NULL, PAGE + size, PROT_READ | PROT_WRITE, MAP_PRIVATE | MAP_ANONYMOUS, -1, 0);

    if (pages == MAP_FAILED || mprotect(pages, PAGE, PROT_NONE) != 0 || getcontext(&inside) != 0)
        exit(2);
    inside.uc_stack.ss_sp = pages + PAGE;
    inside.uc_stack.ss_size = size;
    inside.uc_link = &outside;
    makecontext(&inside, run, 0);
    if (swapcontext(&outside, &inside) != 0)
        exit(2);
}

int main(void)
{
    /* Once outside: the C library then has found its functions, for which it needs a stack of its own. */
    both_profiles();
    lists_under_both();
    calls = 0;
    on_stack(both_profiles, STACK);
    printf("stack: ok, %d calls on %d bytes\n", calls, (int)STACK);
    calls = 0;
    on_stack(lists_under_both, LARGER);
    printf("stack: ok, %d calls on %d bytes\n", calls, (int)LARGER);
    return 0;
}
