/* explain: what a refusal's number means, what its place is, and what helps. */
#include <inttypes.h>
#include <stdio.h>
#include <string.h>

#include "blorb.h"
#include "commands.h"
#include "helping.h"
#include "words.h"

/* What the place of a refusal is, and what helps where the program has no advice of its own, since it cannot meet that refusal. */
typedef struct explanation {
    uint64_t number;
    const char *place;
    const char *helps;
} explanation;

#define NO_PLACE "none; it is told as 0"
#define ENTRY "the first byte of the entry in the index"
#define ENTRY_START "the start in the entry, 8 bytes behind the entry's first byte"
#define GROUP_CHUNK "where the faulty chunk starts in the group file"
#define LARGER_BUFFER "Only a C program meets this one: lend the call a larger buffer. "

static const explanation explanations[] = {
    {BLORB_TOO_LONG, NO_PLACE, NULL},
    {BLORB_TOO_SHORT, NO_PLACE, NULL},
    {BLORB_NO_FORM, "0, where 'FORM' should stand", NULL},
    {BLORB_NO_IFRS, "8, where 'IFRS' should stand", NULL},
    {BLORB_FORM_LENGTH, "4, where the FORM length stands", NULL},
    {BLORB_CHUNK_CUT, "the start of the chunk that is cut", NULL},
    {BLORB_CHUNK_LENGTH, "the chunk's length field, 4 bytes behind its start", NULL},
    {BLORB_NO_PADDING, "the file's end, where the byte should stand", NULL},
    {BLORB_PADDING, "that byte", NULL},
    {BLORB_NO_INDEX, "12, where the index should begin", NULL},
    {BLORB_SECOND_INDEX, "the start of the second one", NULL},
    {BLORB_INDEX_LENGTH, "16, where the index's length stands", NULL},
    {BLORB_TOO_MANY, "20, where the count of entries stands", NULL},
    {BLORB_USAGE, ENTRY, NULL},
    {BLORB_START, ENTRY_START, NULL},
    {BLORB_TYPE, ENTRY, NULL},
    {BLORB_EXEC_NUMBER, "the number in the entry, 4 bytes behind the entry's first byte", NULL},
    {BLORB_REPEATED, ENTRY, NULL},
    {BLORB_ORDER, ENTRY_START, NULL},
    {BLORB_SECOND_OPTIONAL, "the start of the second one", NULL},
    {BLORB_OPTIONAL_LENGTH, "the chunk's length field, 4 bytes behind its start", NULL},
    {BLORB_FRONTISPIECE, "the picture's number in the 'Fspc', 8 bytes behind its start", NULL},
    {BLORB_PROFILE, NO_PLACE, "Only a C program meets this one: give BLORB_PLAIN or BLORB_ADRIFT."},
    {BLORB_LENGTHS, NO_PLACE, "Only a C program meets this one: give a length that is no larger than its buffer."},
    {BLORB_RECORD, NO_PLACE, NULL},
    {BLORB_NOT_THERE, NO_PLACE, NULL},
    {BLORB_SHARED, NO_PLACE, NULL},
    {BLORB_FILE_ROOM, NO_PLACE, LARGER_BUFFER "BLORB_MAX_SIZE bytes hold every file."},
    {BLORB_JOURNAL_ROOM, NO_PLACE, LARGER_BUFFER "A record takes BLORB_RECORD_SIZE bytes and the old data."},
    {BLORB_NOTHING_TO_UNDO, NO_PLACE, NULL},
    {BLORB_WHOLE_FORM, NO_PLACE, NULL},
    {BLORB_TABLE_ROOM, NO_PLACE, LARGER_BUFFER "A table has BLORB_ROW_NUMBERS numbers for each entry."},
    {BLORB_TABLE_STALE, "the first row of the table that differs, from 0, or the smaller row count", NULL},
    {BLORB_GROUP_SIZE, GROUP_CHUNK, NULL},
    {BLORB_GROUP_DEPTH, GROUP_CHUNK, NULL},
    {BLORB_GROUP_MEMBER, GROUP_CHUNK ", or the first byte behind the top", NULL},
    {BLORB_GROUP_PADDING, GROUP_CHUNK, NULL},
    {BLORB_FORMS_ROOM, NO_PLACE, LARGER_BUFFER "The list has BLORB_FORM_NUMBERS numbers for each FORM."},
    {BLORB_NOT_AIFF, NO_PLACE, NULL},
    {BLORB_COMMON, NO_PLACE, NULL},
    {BLORB_RATE, NO_PLACE, NULL},
    {BLORB_SECOND_RESO, "the start of the second one", NULL},
    {BLORB_RESO_LENGTH, "the start of the 'Reso'", NULL},
    {BLORB_RESO_NUMBER, NO_PLACE, NULL},
    {BLORB_SECOND_RDES, "the start of the second one", NULL},
    {BLORB_RDES_LENGTH, "the start of the 'RDes'", NULL},
    {BLORB_RDES_REPEATED, "the later text's entry in the 'RDes'; of a list its row, from 0", NULL},
    {BLORB_RDES_TEXT, "the first byte of the first broken character; of a list its row, from 0", NULL},
    {BLORB_RDES_ROOM, NO_PLACE, NULL},
};

static const explanation *find_explanation(uint64_t number)
{
    for (size_t i = 0; i < sizeof explanations / sizeof *explanations; i++)
        if (explanations[i].number == number)
            return &explanations[i];
    return NULL;
}

/* The library says of any other number that it is none of its own. */
static int has_sentence(uint64_t number)
{
    return number != BLORB_DONE && strcmp(blorb_sentence(number), blorb_sentence(UINT64_MAX)) != 0;
}

static void print_line(const char *what, const char *meaning)
{
    if (meaning != NULL)
        print_wrapped(meaning, 4, printf("  %s: ", what));
}

static void print_sentence(uint64_t number, const char *sentence)
{
    print_wrapped(sentence, 4, printf("%" PRIu64 ": ", number));
}

static void explain(uint64_t number)
{
    const explanation *e = find_explanation(number);
    const char *usual = remedy_for(number);
    print_sentence(number, blorb_sentence(number));
    print_line("Place", e != NULL ? e->place : NULL);
    print_line("What helps", usual != NULL ? usual : e != NULL ? e->helps : NULL);
}

/* 100 + k: what the result would be refused with. Not every one of them can occur. */
static void explain_result(uint64_t number)
{
    char text[240];
    uint64_t k = number - BLORB_RESULT;
    const explanation *e = find_explanation(k);
    print_sentence(number, has_sentence(number) ? blorb_sentence(number) : "no edit ends so: of an accepted file none makes such a file");
    int has_place = e != NULL && strcmp(e->place, NO_PLACE) != 0;
    snprintf(text, sizeof text, "%s%s", has_place ? "in the file that the edit would make, " : "", has_place ? e->place : NO_PLACE);
    print_line("Place", text);
    print_line("What helps", remedy_for(number));
    snprintf(text, sizeof text, "the file that the edit would make would be refused with %" PRIu64 ", %s", k, blorb_sentence(k));
    print_line("100 + k", text);
}

/* Those of a file are 1 to 19 and 27 to 29: of others there is no 100 + k. */
static int is_of_result(uint64_t number)
{
    uint64_t k = number - BLORB_RESULT;
    return number > BLORB_RESULT && ((k >= BLORB_TOO_LONG && k <= BLORB_FRONTISPIECE) || (k >= BLORB_ORDER && k <= BLORB_NO_PADDING));
}

int run_explain(const request *r)
{
    char shown[16];
    if (is_of_result(r->number)) {
        explain_result(r->number);
    } else if (has_sentence(r->number)) {
        explain(r->number);
    } else {
        snprintf(shown, sizeof shown, "%" PRIu32, r->number);
        return say_cannot(shown, blorb_sentence(UINT64_MAX), "Refusals are told as `refused 14 at 24`: give the first number, here 14.");
    }
    return CARRIED_OUT;
}
