/* The header's numbers, by docs/RULES.md, and the layout of its answers. This file has no code: it compiles, or it does not. */
#include "interface.h"

#define IS(name, number) _Static_assert((name) == (number), "docs/RULES.md has " #number " for " #name)

/* Sizes. Before a chunk's data stand type and length (rule 2); a record has 25 bytes before its data and a trailer behind. */
IS(BLORB_MAX_SIZE, 16777216);
IS(BLORB_MAX_ENTRIES, 4096);
IS(BLORB_BLANK_SIZE, 24);
IS(BLORB_ENTRY_SIZE, 12);
IS(BLORB_HEADER_SIZE, 4 + 4);
IS(BLORB_RECORD_SIZE, 25 + 4);
IS(BLORB_ROW_NUMBERS, 3);
IS(BLORB_FORM_NUMBERS, 4);
IS(BLORB_FORM_SIZE, 8 + 4);
IS(BLORB_MAX_DEPTH, 16);
IS(BLORB_TEXT_NUMBERS, 4);

/* Profiles (02, P12): 0 plain and 1 ADRIFT. The version is one number. */
IS(BLORB_PLAIN, 0);
IS(BLORB_ADRIFT, 1);
IS(BLORB_VERSION, 2006000);
IS(BLORB_VERSION, BLORB_VERSION_MAJOR * 1000000 + BLORB_VERSION_MINOR * 1000 + BLORB_VERSION_PATCH);

/* Usages as numbers: four bytes, big-endian. */
IS(BLORB_PICT, 0x50696374);
IS(BLORB_SND, 0x536e6420);
IS(BLORB_DATA, 0x44617461);
IS(BLORB_EXEC, 0x45786563);

/* The table of refusals, beside each its reason there. */
IS(BLORB_DONE, 0);
IS(BLORB_TOO_LONG, 1);         /* longer than the limit */
IS(BLORB_TOO_SHORT, 2);        /* fewer than 12 bytes */
IS(BLORB_NO_FORM, 3);          /* no 'FORM' */
IS(BLORB_NO_IFRS, 4);          /* no 'IFRS' */
IS(BLORB_FORM_LENGTH, 5);      /* FORM length differs */
IS(BLORB_CHUNK_CUT, 6);        /* fewer than 8 header bytes (02, P1) */
IS(BLORB_CHUNK_LENGTH, 28);    /* a length running past the end */
IS(BLORB_NO_PADDING, 29);      /* a missing padding byte */
IS(BLORB_PADDING, 7);          /* padding byte not zero */
IS(BLORB_NO_INDEX, 8);         /* no chunk, or the first isn't 'RIdx' */
IS(BLORB_SECOND_INDEX, 9);     /* a second 'RIdx' */
IS(BLORB_INDEX_LENGTH, 10);    /* index shorter than 4 or not 4 + 12 x count */
IS(BLORB_TOO_MANY, 11);        /* more than 4,096 entries */
IS(BLORB_USAGE, 12);           /* unknown usage */
IS(BLORB_START, 13);           /* start not as in rule 4 */
IS(BLORB_TYPE, 14);            /* type not as in rule 5 */
IS(BLORB_EXEC_NUMBER, 15);     /* Exec with a number other than 0 */
IS(BLORB_REPEATED, 16);        /* pair used by an earlier entry */
IS(BLORB_ORDER, 27);           /* a start lower than the entry's before it (02, P5) */
IS(BLORB_SECOND_OPTIONAL, 17); /* a second 'RelN' or 'Fspc' */
IS(BLORB_OPTIONAL_LENGTH, 18); /* its length wrong */
IS(BLORB_FRONTISPIECE, 19);    /* a frontispiece whose picture isn't in the index, or is a 'Rect' */

/* The refusals that lookup and editor add. */
IS(BLORB_LENGTHS, 20);         /* L or U exceeds its buffer */
IS(BLORB_RECORD, 21);          /* the last journal record isn't well formed or doesn't fit this file */
IS(BLORB_NOT_THERE, 22);       /* no such entry */
IS(BLORB_SHARED, 23);          /* the chunk to be replaced is shared */
IS(BLORB_FILE_ROOM, 24);       /* no room in the file buffer */
IS(BLORB_JOURNAL_ROOM, 25);    /* no room in the journal */
IS(BLORB_NOTHING_TO_UNDO, 26); /* U is 0, nothing to undo */
IS(BLORB_WHOLE_FORM, 30);      /* data of type 'FORM' under 8 bytes, or its head disagrees (02, P3) */

/* The refusals of the finding table (02, P2). */
IS(BLORB_TABLE_ROOM, 34);      /* slice too small */
IS(BLORB_TABLE_STALE, 35);     /* table isn't this file's */

/* The refusals of a group file (02, P9). */
IS(BLORB_GROUP_SIZE, 41);      /* a header cut short, a size running past its parent, or a group, FORM or PROP of under 4 data bytes */
IS(BLORB_GROUP_DEPTH, 42);     /* a FORM or group deeper than 16 */
IS(BLORB_GROUP_MEMBER, 43);    /* a member that its parent may not have, another kind of top, or bytes after the top */
IS(BLORB_GROUP_PADDING, 44);   /* a nonzero or missing padding byte */
IS(BLORB_FORMS_ROOM, 45);      /* list buffer too small */

/* The refusals of a sound (02, P11). */
IS(BLORB_NOT_AIFF, 49);        /* not a single 'FORM' of type 'AIFF' filled by chunks of rule 2 */
IS(BLORB_COMMON, 50);          /* no 'COMM' or more than one or not 18 bytes */
IS(BLORB_RATE, 51);            /* rate not a whole number from 1 to 4,294,967,295 */

/* The refusals of a scaled picture (02, P4). */
IS(BLORB_SECOND_RESO, 31);     /* a second 'Reso' */
IS(BLORB_RESO_LENGTH, 32);     /* length not 24 plus a multiple of 28 */
IS(BLORB_RESO_NUMBER, 33);     /* a number over 65,535 other than a picture number, and so on */

/* The refusals of spoken descriptions (02, P7). */
IS(BLORB_SECOND_RDES, 36);     /* a second 'RDes' */
IS(BLORB_RDES_LENGTH, 37);     /* entries don't fill it exactly */
IS(BLORB_RDES_REPEATED, 38);   /* a repeated pair */
IS(BLORB_RDES_TEXT, 39);       /* bad text */
IS(BLORB_RDES_ROOM, 40);       /* buffer too small or a chunk over the file limit */

/* The refusal of the profile (02, P12). */
IS(BLORB_PROFILE, 52);         /* an unknown profile */

/* 100 + k: the reader would refuse the resulting file with k. */
IS(BLORB_RESULT, 100);
IS(BLORB_RESULT_TOO_LONG, 101);
IS(BLORB_RESULT_SECOND_INDEX, 109);
IS(BLORB_RESULT_TOO_MANY, 111);
IS(BLORB_RESULT_USAGE, 112);
IS(BLORB_RESULT_TYPE, 114);
IS(BLORB_RESULT_EXEC_NUMBER, 115);
IS(BLORB_RESULT_REPEATED, 116);
IS(BLORB_RESULT_FRONTISPIECE, 119);

/* The answers as the archive hands them back: programs are compiled against these layouts. */
#define LIES_AT(answer, field, at, type) \
    _Static_assert(offsetof(answer, field) == (at) && _Generic(((answer *)0)->field, type: 1, default: 0), #answer "." #field)

_Static_assert(sizeof(blorb_read_answer) == 32, "blorb_read_answer");
LIES_AT(blorb_read_answer, refusal, 0, uint64_t);
LIES_AT(blorb_read_answer, place, 8, uint64_t);
LIES_AT(blorb_read_answer, length, 16, uint64_t);
LIES_AT(blorb_read_answer, count, 24, uint64_t);

_Static_assert(sizeof(blorb_entry_answer) == 32, "blorb_entry_answer");
LIES_AT(blorb_entry_answer, refusal, 0, uint64_t);
LIES_AT(blorb_entry_answer, place, 8, uint64_t);
LIES_AT(blorb_entry_answer, usage, 16, uint32_t);
LIES_AT(blorb_entry_answer, number, 20, uint32_t);
LIES_AT(blorb_entry_answer, start, 24, uint64_t);

_Static_assert(sizeof(blorb_lookup_answer) == 40, "blorb_lookup_answer");
LIES_AT(blorb_lookup_answer, refusal, 0, uint64_t);
LIES_AT(blorb_lookup_answer, place, 8, uint64_t);
LIES_AT(blorb_lookup_answer, type, 16, uint32_t);
LIES_AT(blorb_lookup_answer, start, 24, uint64_t);
LIES_AT(blorb_lookup_answer, length, 32, uint64_t);

_Static_assert(sizeof(blorb_edit_answer) == 32, "blorb_edit_answer");
LIES_AT(blorb_edit_answer, refusal, 0, uint64_t);
LIES_AT(blorb_edit_answer, place, 8, uint64_t);
LIES_AT(blorb_edit_answer, length, 16, uint64_t);
LIES_AT(blorb_edit_answer, used, 24, uint64_t);

_Static_assert(sizeof(blorb_build_answer) == 24, "blorb_build_answer");
LIES_AT(blorb_build_answer, refusal, 0, uint64_t);
LIES_AT(blorb_build_answer, place, 8, uint64_t);
LIES_AT(blorb_build_answer, rows, 16, uint64_t);

_Static_assert(sizeof(blorb_check_answer) == 16, "blorb_check_answer");
LIES_AT(blorb_check_answer, refusal, 0, uint64_t);
LIES_AT(blorb_check_answer, place, 8, uint64_t);

_Static_assert(sizeof(blorb_search_answer) == 32, "blorb_search_answer");
LIES_AT(blorb_search_answer, refusal, 0, uint64_t);
LIES_AT(blorb_search_answer, place, 8, uint64_t);
LIES_AT(blorb_search_answer, start, 16, uint64_t);
LIES_AT(blorb_search_answer, probes, 24, uint64_t);

_Static_assert(sizeof(blorb_pick_answer) == 32, "blorb_pick_answer");
LIES_AT(blorb_pick_answer, refusal, 0, uint64_t);
LIES_AT(blorb_pick_answer, place, 8, uint64_t);
LIES_AT(blorb_pick_answer, start, 16, uint64_t);
LIES_AT(blorb_pick_answer, length, 24, uint64_t);

_Static_assert(sizeof(blorb_aiff_answer) == 40, "blorb_aiff_answer");
LIES_AT(blorb_aiff_answer, refusal, 0, uint64_t);
LIES_AT(blorb_aiff_answer, place, 8, uint64_t);
LIES_AT(blorb_aiff_answer, channels, 16, uint32_t);
LIES_AT(blorb_aiff_answer, frames, 20, uint32_t);
LIES_AT(blorb_aiff_answer, sample_size, 24, uint32_t);
LIES_AT(blorb_aiff_answer, rate, 28, uint32_t);
LIES_AT(blorb_aiff_answer, seconds, 32, uint32_t);

_Static_assert(sizeof(blorb_scaled_answer) == 32, "blorb_scaled_answer");
LIES_AT(blorb_scaled_answer, refusal, 0, uint64_t);
LIES_AT(blorb_scaled_answer, place, 8, uint64_t);
LIES_AT(blorb_scaled_answer, width, 16, uint64_t);
LIES_AT(blorb_scaled_answer, height, 24, uint64_t);

_Static_assert(sizeof(blorb_text_answer) == 40, "blorb_text_answer");
LIES_AT(blorb_text_answer, refusal, 0, uint64_t);
LIES_AT(blorb_text_answer, place, 8, uint64_t);
LIES_AT(blorb_text_answer, usage, 16, uint32_t);
LIES_AT(blorb_text_answer, number, 20, uint32_t);
LIES_AT(blorb_text_answer, start, 24, uint64_t);
LIES_AT(blorb_text_answer, length, 32, uint64_t);

_Static_assert(sizeof(blorb_write_answer) == 24, "blorb_write_answer");
LIES_AT(blorb_write_answer, refusal, 0, uint64_t);
LIES_AT(blorb_write_answer, place, 8, uint64_t);
LIES_AT(blorb_write_answer, length, 16, uint64_t);
