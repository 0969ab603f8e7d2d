/*
 * The C interface, every call: each answer in full and each byte of every buffer afterwards, against files written down by hand. A file of this folder
 * for each family of calls; main.c runs them all.
 *
 * Everything runs three times, on buffers of exactly the size that is named: from malloc (the address sanitizer then sees the C
 * library's moves), with a page behind that may not be touched, and with such a page before. The pages catch the library's own
 * reads and writes too, which no sanitizer has compiled. All but the profiles' own tests run under each known profile, with the same answers.
 */
#ifndef INTERFACE_H
#define INTERFACE_H

#define _DEFAULT_SOURCE
#include <inttypes.h>
#include <stdio.h>
#include <stdlib.h>
#include <string.h>

#include "blorb.h"

/* ---- the families: with a profile that main.c sets, or once */

void test_reading(void);
void test_editing(void);
void test_blank(void);
void test_tables(void);
void test_forms(void);
void test_links(void);
void test_scaling(void);
void test_descriptions(void);
void test_profiles(void);
void test_sound_found(void);
void test_sounds(void);
void test_groups(void);
void test_constants(void);

/* ---- support.c */

enum { FILLER = 0xee, IMAGE_ROOM = 512 };

/* How buffers are lent. */
enum lending { FROM_MALLOC, PAGE_BEHIND, PAGE_BEFORE, LENDINGS };
extern enum lending lending;
extern uint32_t profile; /* that of every call where nothing else is said */
extern unsigned long checks;

void expect(int right, const char *what);

/* A file, a record or a chunk by hand. */
typedef struct image {
    uint8_t at[IMAGE_ROOM];
    size_t length;
} image;

void put32(uint8_t *at, uint32_t n);
void append(image *f, const void *from, size_t n);
void append32(image *f, uint32_t n);
image blank(void);
void row(image *f, const char *usage, uint32_t number, uint32_t start); /* rows come before chunks */
void chunk(image *f, const char *type, const void *data, uint32_t n);
image record(uint8_t kind, const char *usage, uint32_t number, uint32_t place, uint32_t start, const char *type, const void *data, uint32_t n);
image sample_a(void);
image sample_b(void);
image without_text(void);
image shared(void);

/* A buffer of an exact size, filled with FILLER behind the first `length` bytes. */
typedef struct lent {
    uint8_t *at;
    size_t size;
    uint8_t *map;
    size_t map_size;
} lent;

lent lend(const uint8_t *from, size_t length, size_t size);
void give_back(lent *l);

/* ---- reading.c */

void reads(const image *f, uint64_t refusal, uint64_t place, uint64_t count, const char *what);
void finds(const image *f, size_t i, const char *usage, uint32_t number, uint64_t start, uint32_t type, uint64_t length);
lent many(uint32_t count);

/* ---- editing.c */

/* Two buffers with a file and records at their beginning, and copies of both. */
typedef struct pair {
    lent file, journal;
    uint8_t file_was[IMAGE_ROOM], journal_was[IMAGE_ROOM];
    size_t length, used;
} pair;

pair prepared(const image *f, size_t file_room, const image *records, size_t journal_room);
void refused(pair *p, blorb_edit_answer a, uint64_t refusal, uint64_t place, const char *what);
void made(pair *p, blorb_edit_answer a, const image *file, const image *rec, size_t used, const char *what);
blorb_edit_answer add(pair *p, const char *usage, uint32_t number, const char *type, const char *data, size_t n);
blorb_edit_answer replace(pair *p, const char *usage, uint32_t number, const char *type, const char *data, size_t n);
blorb_edit_answer removal(pair *p, const char *usage, uint32_t number);
blorb_edit_answer linking(pair *p, const char *usage, uint32_t number, const char *new_usage, uint32_t new_number);
blorb_edit_answer undo(pair *p);

enum { EDITS = 5 };
blorb_edit_answer any_edit(pair *p, int call);

/* ---- tables.c */

/* A table in one of its forms, rows or columns. */
typedef struct {
    blorb_check_answer (*check)(const uint8_t *, size_t, uint32_t, const uint32_t *, size_t);
    blorb_search_answer (*search)(const uint32_t *, size_t, const char *, uint32_t);
    const char *checked, *left, *found, *counted;
} form_of_table;

extern const form_of_table in_rows, in_columns;

uint32_t *numbers_in(const lent *l);
void builds(const image *f, size_t numbers, uint64_t refusal, uint64_t place, const uint32_t *rows, uint64_t count);
void checks_in(form_of_table form, const image *f, const uint32_t *from, size_t numbers, uint64_t refusal, uint64_t place);
void searches(form_of_table form, const uint32_t *from, size_t numbers, const char *usage, uint32_t number, uint64_t start, uint64_t probes);

/* ---- scaling.c and texts.c */

void scales(const image *f, const uint64_t window[2], uint32_t picture, const uint64_t size[2], uint64_t refusal, uint64_t place,
            uint64_t width, uint64_t height, const char *what);
void no_texts(const image *f, uint64_t refusal, uint64_t place, const char *what);

#endif
