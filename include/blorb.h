/*
 * blorb.h: the C interface of the Blorb library.
 *
 * A Blorb file is one IFF file with the pictures, sounds, data and code of a text adventure. These calls read it, look a resource up, tell how
 * long a sound plays and how large a picture is shown, read and write spoken descriptions, keep a finding table beside the file, edit it in place,
 * and take edits back. Two more read the artists' group files, IFF files of another kind. docs/RULES.md of the library's source says what a file
 * must keep and what each call makes of it.
 *
 * Each call that takes a Blorb file takes a profile as well: BLORB_PLAIN, or BLORB_ADRIFT for files of the ADRIFT house, which may have a few
 * types more. Whoever edits in C is best served by the functions over blorb_editor at the end, which keep the lengths and the profile.
 *
 * What is promised of every call, for all bytes, lengths and numbers that can be given to it:
 *
 *   - It answers. Nothing is allocated, nothing is kept between calls, no lock is taken, and nothing is printed.
 *   - It takes little stack: at most BLORB_STACK_EDITING bytes where it stands under "Editing", BLORB_STACK_GROUPS under "Group files",
 *     BLORB_STACK_LISTS under "Scaled pictures" or "Spoken descriptions", and BLORB_STACK_READING elsewhere (this is checked in the
 *     machine code and measured, not proved). The calls on group files recurse, once for each level of nesting and never deeper than 16
 *     levels, whatever the file says; no other call recurses.
 *   - The answer's `refusal` is 0 where the call was carried out; else it is one of the numbers below, and `place` is where the reason lies:
 *     an offset in the file, of 100 + k in the file that the edit would make; of 35, and in blorb_texts_write, a row, counted from 0. It is 0
 *     where a number has no place.
 *   - A refused call has written nothing: every lent byte is as it was. The `length` and `used` that a refused edit or undo hands
 *     back are those given.
 *   - No byte outside the lent buffers is read or written.
 *
 * These promises are proved of the library's code. That this header declares that code is not proved but tested (host/test), and so are
 * blorb_sentence and the functions over blorb_editor, which are plain C. The library is made for x86-64 only, for processors of the level
 * x86-64-v2 or above, and the header for machines where size_t has 64 bits. It is written in C99, and C++11 reads it too. The promises rest on what the caller lends:
 *
 *   - A pointer and the size_t that follows it name one array of that many bytes (of a table: of that many numbers of 32 bits), which
 *     nothing else writes during the call. A pointer may be null where its size is 0 (this is tested, not proved).
 *   - Buffers that a call may write (no const) overlap no other buffer of the same call.
 *   - `usage` and `type` point at four bytes, such as "Pict" or "TEXT"; no closing zero is needed. Some end in spaces: "Snd" has three letters and
 *     a zero, and is found nowhere. BLORB_USAGE_SND and its like, below, have all four. Compilers warn of fewer than four bytes where they can
 *     see them, and clang also of three letters and a zero.
 *
 * Every call that takes a profile judges the whole file each time, unless 52 or 20 comes before that. Of a chunk other than the index it looks
 * at four bytes of data at most, so the time does not depend on the size of the resources. It is proportional to entries + chunks where the
 * numbers of each usage rise from entry to entry. Where they do not, earlier pairs are looked through as well, and the time can grow to chunks +
 * entries * entries. This holds for refused files too. An edit besides moves the bytes behind what it changes, once. What finding tables, scaled
 * pictures and spoken descriptions take besides stands with them.
 *
 * To go through an index, call blorb_read once: in an accepted file entry i stands at 24 + BLORB_ENTRY_SIZE * i, as usage, number and
 * start of its chunk, each of four bytes, the first one highest. Starts never fall from entry to entry, so a file can be played from front
 * to back.
 *
 * Answers come back by value, so there is no result area that could be too small. Each call below lists its refusals in the order
 * in which they are looked for. The archive needs nothing but memmove and memset.
 */
#ifndef BLORB_H
#define BLORB_H

#if !defined(__cplusplus) && (!defined(__STDC_VERSION__) || __STDC_VERSION__ < 199901L)
#error "blorb.h is written in C99: compile with -std=c99 or later"
#endif

#include <stddef.h>
#include <stdint.h>

#if SIZE_MAX != UINT64_MAX
#error "blorb.h is written for machines whose size_t has 64 bits"
#endif

/* Inside: an argument of at least four bytes, so that a compiler can warn of fewer. C++ has no such declaration. */
#ifdef __cplusplus
#define BLORB_FOUR 4
#else
#define BLORB_FOUR static 4
#endif

/* Inside: clang warns besides where it knows that the fourth byte is zero. */
#ifdef __clang__
#pragma clang diagnostic push
#pragma clang diagnostic ignored "-Wgcc-compat"
#define BLORB_NO_ZERO(name) __attribute__((diagnose_if(name[3] == 0, "four bytes are wanted, spaces among them, as in \"Snd \"", "warning")))
#else
#define BLORB_NO_ZERO(name)
#endif

#ifdef __cplusplus
extern "C" {
#endif

/* The version of this header, as one number major * 1000000 + minor * 1000 + patch. A major version may change what a call takes. */
#define BLORB_VERSION_MAJOR 2
#define BLORB_VERSION_MINOR 6
#define BLORB_VERSION_PATCH 0
#define BLORB_VERSION (BLORB_VERSION_MAJOR * 1000000 + BLORB_VERSION_MINOR * 1000 + BLORB_VERSION_PATCH)
#define BLORB_VERSION_TEXT "2.6.0"

/* The version of the archive that the program is linked with: BLORB_VERSION, where header and archive belong together. */
uint32_t blorb_version(void);

/* Sizes. */
enum {
    BLORB_MAX_SIZE = 16777216, /* bytes in a file, at most */
    BLORB_MAX_ENTRIES = 4096,  /* entries in its index, at most */
    BLORB_BLANK_SIZE = 24,     /* bytes in a blank file */
    BLORB_ENTRY_SIZE = 12,     /* bytes that an entry takes in the index */
    BLORB_HEADER_SIZE = 8,     /* bytes before a chunk's data */
    BLORB_RECORD_SIZE = 29,    /* bytes of a journal record besides the old data that it keeps */
    BLORB_ROW_NUMBERS = 3,     /* numbers of 32 bits in a row of a finding table */
    BLORB_FORM_NUMBERS = 4,    /* numbers of 32 bits in a row of the list of FORMs */
    BLORB_FORM_SIZE = 12,      /* bytes that a FORM has at least: header and type */
    BLORB_MAX_DEPTH = 16,      /* the deepest level of a FORM or group in a group file; a 'PROP' may stand one deeper */
    BLORB_TEXT_NUMBERS = 4     /* numbers of 32 bits in a row of texts to be written: usage, number, place, length */
};

/*
 * Stack: bytes below the caller's stack pointer at the call, its return address among them. Not counted are arguments that the caller
 * puts on the stack, and what memmove and memset of the C library take by themselves. docs/ARCHITECTURE.md of the library's source has
 * the figure of each call.
 */
enum {
    BLORB_STACK_READING = 768,  /* at most, for every call but those below; 584 as compiled */
    BLORB_STACK_EDITING = 1024, /* at most, for editing; 696 as compiled */
    BLORB_STACK_GROUPS = 6144,  /* at most, for group files of 16 levels; 4432 as compiled */
    BLORB_STACK_LISTS = 8192    /* at most, for scaled pictures and spoken descriptions, which mark the rows of a list; 8168 as compiled */
};

/* Usages as the calls take them: four bytes, a space among them. */
#define BLORB_USAGE_PICT "Pict" /* a picture */
#define BLORB_USAGE_SND "Snd "  /* a sound */
#define BLORB_USAGE_DATA "Data" /* data of the game */
#define BLORB_USAGE_EXEC "Exec" /* the game's code; its number is 0 */

/* Types that suit each usage (docs/RULES.md, rule 5), as the calls take them. */
#define BLORB_TYPE_PNG "PNG "
#define BLORB_TYPE_JPEG "JPEG"
#define BLORB_TYPE_RECT "Rect" /* a rectangle in place of a picture: width and height */
#define BLORB_TYPE_GIF "GIF "  /* ADRIFT */

#define BLORB_TYPE_OGGV "OGGV"
#define BLORB_TYPE_FORM "FORM" /* an AIFF sound, the whole of it */
#define BLORB_TYPE_MOD "MOD "
#define BLORB_TYPE_SONG "SONG"
#define BLORB_TYPE_WAV "WAV "  /* ADRIFT, and the two below */
#define BLORB_TYPE_MIDI "MIDI"
#define BLORB_TYPE_MP3 "MP3 "

#define BLORB_TYPE_TEXT "TEXT"
#define BLORB_TYPE_BINA "BINA"

#define BLORB_TYPE_ZCOD "ZCOD"
#define BLORB_TYPE_GLUL "GLUL"
#define BLORB_TYPE_TAD2 "TAD2"
#define BLORB_TYPE_TAD3 "TAD3"
#define BLORB_TYPE_HUGO "HUGO"
#define BLORB_TYPE_ALAN "ALAN"
#define BLORB_TYPE_ADRI "ADRI"
#define BLORB_TYPE_LEVE "LEVE"
#define BLORB_TYPE_AGT "AGT "
#define BLORB_TYPE_MAGS "MAGS"
#define BLORB_TYPE_ADVS "ADVS"
#define BLORB_TYPE_EXEC "EXEC"

/* Usages and types as numbers, as answers and tables have them: the four bytes, the first one highest. */
#define BLORB_TAG(a, b, c, d) \
    ((uint32_t)(uint8_t)(a) << 24 | (uint32_t)(uint8_t)(b) << 16 | (uint32_t)(uint8_t)(c) << 8 | (uint32_t)(uint8_t)(d))
#define BLORB_PICT BLORB_TAG('P', 'i', 'c', 't')
#define BLORB_SND BLORB_TAG('S', 'n', 'd', ' ')
#define BLORB_DATA BLORB_TAG('D', 'a', 't', 'a')
#define BLORB_EXEC BLORB_TAG('E', 'x', 'e', 'c')

/* The four bytes of such a number, as the calls take them, and a closing zero for whoever prints them. The answer is `text`. */
static inline char *blorb_tag_text(uint32_t tag, char text[5])
{
    text[0] = (char)(uint8_t)(tag >> 24);
    text[1] = (char)(uint8_t)(tag >> 16);
    text[2] = (char)(uint8_t)(tag >> 8);
    text[3] = (char)(uint8_t)tag;
    text[4] = 0;
    return text;
}

/* Profiles: which types a resource may have. Every other number is refused with BLORB_PROFILE by each call that takes one. */
enum {
    BLORB_PLAIN = 0,
    BLORB_ADRIFT = 1 /* besides, 'GIF ' under Pict and 'WAV ', 'MIDI', 'MP3 ' under Snd; what is accepted as plain is accepted here too */
};

/*
 * Refusals. Those of the file are looked for in the order in which they stand here, but 6, 28, 29 and 7 chunk by
 * chunk, 12 to 16 and 27 entry by entry, and 17 to 19 chunk by chunk again: the first faulty chunk or entry decides.
 */
enum {
    BLORB_DONE = 0,

    /* The profile, before everything else. */
    BLORB_PROFILE = 52,         /* unknown profile; place 0 */

    /* The file. "Entry" is the entry's first byte in the index. */
    BLORB_TOO_LONG = 1,         /* longer than BLORB_MAX_SIZE; place 0 */
    BLORB_TOO_SHORT = 2,        /* fewer than 12 bytes; place 0 */
    BLORB_NO_FORM = 3,          /* no 'FORM'; place 0 */
    BLORB_NO_IFRS = 4,          /* no 'IFRS'; place 8 */
    BLORB_FORM_LENGTH = 5,      /* the FORM length is not the file's length less 8; place 4 */
    BLORB_CHUNK_CUT = 6,        /* the file ends within a chunk's header of 8 bytes; place: the chunk */
    BLORB_CHUNK_LENGTH = 28,    /* a chunk's length runs past the end; place: the length field, the chunk's start + 4 */
    BLORB_NO_PADDING = 29,      /* the file ends where the padding byte of an odd chunk should be; place: the file's end */
    BLORB_PADDING = 7,          /* a padding byte is not zero; place: that byte */
    BLORB_NO_INDEX = 8,         /* no chunk, or the first is not 'RIdx'; place 12 */
    BLORB_SECOND_INDEX = 9,     /* a second 'RIdx'; place: its start */
    BLORB_INDEX_LENGTH = 10,    /* the index's length is not 4 + 12 * count; place 16 */
    BLORB_TOO_MANY = 11,        /* more than BLORB_MAX_ENTRIES entries; place 20 */
    BLORB_USAGE = 12,           /* unknown usage; place: entry */
    BLORB_START = 13,           /* no chunk other than the index begins at the start; place: entry + 8 */
    BLORB_TYPE = 14,            /* the chunk's type does not suit the usage, under this profile; place: entry */
    BLORB_EXEC_NUMBER = 15,     /* an Exec with a number other than 0; place: entry + 4 */
    BLORB_REPEATED = 16,        /* an earlier entry has this usage and number; place: entry */
    BLORB_ORDER = 27,           /* the start is lower than that of the entry before it; place: entry + 8 */
    BLORB_SECOND_OPTIONAL = 17, /* a second 'RelN' or 'Fspc'; place: its start */
    BLORB_OPTIONAL_LENGTH = 18, /* the length of 'RelN' is not 2, or that of 'Fspc' not 4; place: its start + 4 */
    BLORB_FRONTISPIECE = 19,    /* the frontispiece's picture is not in the index, or a 'Rect'; place: its start + 8 */

    /* The call; place 0. */
    BLORB_LENGTHS = 20,         /* `length` or `used` exceeds its buffer */
    BLORB_RECORD = 21,          /* the journal's last record is not well formed, or does not fit this file */
    BLORB_NOT_THERE = 22,       /* no such entry, row, FORM or text */
    BLORB_SHARED = 23,          /* the chunk to be replaced has another entry too */
    BLORB_FILE_ROOM = 24,       /* the file buffer is too small for the resulting file */
    BLORB_JOURNAL_ROOM = 25,    /* the journal is too small for the record */
    BLORB_NOTHING_TO_UNDO = 26, /* `used` is 0 */
    BLORB_WHOLE_FORM = 30,      /* data of type 'FORM' has under 8 bytes, or does not begin with 'FORM' and its own size less 8 */

    /* The finding table. */
    BLORB_TABLE_ROOM = 34,      /* the slice is too small for the table, or for the table turned; place 0 */
    BLORB_TABLE_STALE = 35,     /* the table is not this file's; place: the first differing row from 0, or the smaller row count */

    /*
     * The group file; place: the chunk's start, but of bytes behind the top the first of them. The first place in the file decides, and at one
     * place the first of these. BLORB_TOO_LONG comes before them.
     */
    BLORB_GROUP_SIZE = 41,      /* a header cut short, a size running past what holds the chunk, or a FORM, group or 'PROP' of under 4 data bytes */
    BLORB_GROUP_DEPTH = 42,     /* a FORM or group deeper than BLORB_MAX_DEPTH */
    BLORB_GROUP_MEMBER = 43,    /* a chunk that may not stand there, another kind of top, or bytes behind the top */
    BLORB_GROUP_PADDING = 44,   /* the padding byte of an odd chunk is missing or not zero */
    BLORB_FORMS_ROOM = 45,      /* the slice is too small for the list of FORMs; place 0 */

    /* The sound; place 0. */
    BLORB_NOT_AIFF = 49,        /* not one 'FORM' of type 'AIFF' and of just these bytes, filled by whole chunks with their padding */
    BLORB_COMMON = 50,          /* no 'COMM' chunk, more than one, or one whose length is not 18 */
    BLORB_RATE = 51,            /* the rate is not a whole number from 1 to 4,294,967,295 */

    /* The 'Reso' chunk. */
    BLORB_SECOND_RESO = 31,     /* a second 'Reso'; place: its start */
    BLORB_RESO_LENGTH = 32,     /* the length of the 'Reso' is not 24 plus a multiple of 28; place: its start */
    BLORB_RESO_NUMBER = 33,     /* a number of the 'Reso', or a side given, is not allowed; blorb_scaled says which are not; place 0 */

    /* The 'RDes' chunk. What stands in brackets is of blorb_texts_write. */
    BLORB_SECOND_RDES = 36,     /* a second 'RDes'; place: its start */
    BLORB_RDES_LENGTH = 37,     /* the entries do not fill the 'RDes' exactly; place: its start */
    BLORB_RDES_REPEATED = 38,   /* an earlier text has this usage and number; place: the text's entry [the row from 0] */
    BLORB_RDES_TEXT = 39,       /* a text is no UTF-8 [or runs past its slice]; place: the first byte behind its longest good beginning [the row] */
    BLORB_RDES_ROOM = 40,       /* the buffer is too small for the chunk, or the chunk longer than BLORB_MAX_SIZE; place 0 */

    /* The file that the edit would make; place as in that file. */
    BLORB_RESULT = 100,         /* 100 + k: it would be refused with k. These can occur: */
    BLORB_RESULT_TOO_LONG = BLORB_RESULT + BLORB_TOO_LONG,
    BLORB_RESULT_SECOND_INDEX = BLORB_RESULT + BLORB_SECOND_INDEX,
    BLORB_RESULT_TOO_MANY = BLORB_RESULT + BLORB_TOO_MANY,
    BLORB_RESULT_USAGE = BLORB_RESULT + BLORB_USAGE,
    BLORB_RESULT_TYPE = BLORB_RESULT + BLORB_TYPE,
    BLORB_RESULT_EXEC_NUMBER = BLORB_RESULT + BLORB_EXEC_NUMBER,
    BLORB_RESULT_REPEATED = BLORB_RESULT + BLORB_REPEATED,
    BLORB_RESULT_FRONTISPIECE = BLORB_RESULT + BLORB_FRONTISPIECE
};

/*
 * What a refusal says, in a sentence for people: English, no full stop, static storage, never null. BLORB_DONE and every number listed above
 * (of 100 + k those that can occur) has its own; any other number gets a sentence that says so. This one call of the archive is not proved but
 * tested.
 */
const char *blorb_sentence(uint64_t refusal);

/* Reading. The file is the whole array of `size` bytes; it is only read. "The file's refusals" are 52, then those under "The file." above. */

/* Of a refused file: length and count 0. */
typedef struct blorb_read_answer {
    uint64_t refusal;
    uint64_t place;
    uint64_t length; /* the file's bytes */
    uint64_t count;  /* entries in its index */
} blorb_read_answer;

/*
 * Is this an accepted file, and how many entries has it? The file's refusals. The time is proportional to the chunks, of which 16 MiB can hold two million,
 * and to the square of the entries where their numbers do not rise. The longest readings found take 8 ms of an accepted file and 23 ms of one that is
 * refused at its end (docs/BENCHMARK.md). Every call that takes a Blorb file begins with such a reading, and none judges it twice.
 */
blorb_read_answer blorb_read(const uint8_t *file, size_t size, uint32_t profile);

/* Of a refused call: usage, number and start 0. */
typedef struct blorb_entry_answer {
    uint64_t refusal;
    uint64_t place;
    uint32_t usage;  /* as a number: BLORB_PICT .. BLORB_EXEC */
    uint32_t number;
    uint64_t start;  /* where its chunk begins */
} blorb_entry_answer;

/* Entry i of the index, counted from 0. The file's refusals, then 22 where i is not below the count. */
blorb_entry_answer blorb_entry(const uint8_t *file, size_t size, uint32_t profile, size_t i);

/* Of a refused call: type, start and length 0. */
typedef struct blorb_lookup_answer {
    uint64_t refusal;
    uint64_t place;
    uint32_t type;   /* the chunk's type as a number */
    uint64_t start;  /* where the resource begins: file + start */
    uint64_t length; /* its bytes, without padding */
} blorb_lookup_answer;

/*
 * The resource with this usage and number. It is the chunk's data, which begins BLORB_HEADER_SIZE bytes behind the chunk's start; but of type
 * 'FORM' it is the whole chunk, header included, for an AIFF sound is an IFF file of its own, and that is one 'FORM' chunk. No padding in either
 * case. So blorb_lookup gives what blorb_add and blorb_replace were given, byte for byte.
 * The file's refusals, then 22 exactly where the index has no such entry.
 */
blorb_lookup_answer blorb_lookup(const uint8_t *file, size_t size, uint32_t profile, const char usage[BLORB_FOUR], uint32_t number) BLORB_NO_ZERO(usage);

/* Of a refused call: all but the refusal 0. */
typedef struct blorb_aiff_answer {
    uint64_t refusal;
    uint64_t place;
    uint32_t channels;
    uint32_t frames;      /* a frame has one sample for each channel */
    uint32_t sample_size; /* bits of a sample */
    uint32_t rate;        /* frames in a second, exactly */
    uint32_t seconds;     /* frames / rate, rounded down */
} blorb_aiff_answer;

/*
 * What the 'COMM' chunk of an AIFF sound says, and how long the sound plays. `bytes` are the whole sound as blorb_lookup gives it for type 'FORM':
 * its first byte to its last, without the padding behind it. A sound from anywhere else will do as well, of any size; no Blorb file is needed. AIFF-C is
 * refused with 49. The rate is a number of 80 bits in the file; one that is no whole number, as 22,254.54 of old sounds, is refused with 51.
 * Channels, frames and sample size are not judged. The time is proportional to the sound's chunks, of which there are few; no sample is looked at.
 * Refusals 49, 50, 51.
 */
blorb_aiff_answer blorb_aiff_length(const uint8_t *bytes, size_t size);

/*
 * The finding table. Three numbers of 32 bits to a row: usage (BLORB_PICT .. BLORB_EXEC), number, start of the chunk; a row for each
 * entry, rising by usage, then number. A file of n entries has a table of BLORB_ROW_NUMBERS * n numbers. `table` points at
 * `numbers` numbers, aligned as uint32_t.
 *
 * A program that looks up much checks its table once, when it opens the file, and then searches: blorb_table_search finds in
 * an accepted table just what blorb_lookup finds in the file, and reads nothing but the table. Every edit or undo makes the
 * old table stale, unless it is a replacement, or the undo of one, that moves no start: one whose chunk keeps its size, padding counted, or has
 * no entry's chunk behind it. A table is refused with 35 for every file with other entries.
 *
 * Measured times (docs/BENCHMARK.md), of 4,096 entries of one usage: where their numbers rise from entry to entry, blorb_read takes 9 us, and
 * besides that a build takes 5 us, the check of a good table 13 us and a check that refuses with 35 up to 0.1 ms. Where the numbers do not rise it
 * is 1.8 ms for blorb_read, and besides that 0.2 ms, 0.3 ms and up to 0.5 ms.
 */

/* Of a refused call: rows 0. */
typedef struct blorb_build_answer {
    uint64_t refusal;
    uint64_t place;
    uint64_t rows; /* rows at the front of the slice */
} blorb_build_answer;

/* The file's table at the front of the slice; the numbers behind its last row stay. The file's refusals, then 34. */
blorb_build_answer blorb_table_build(const uint8_t *file, size_t size, uint32_t profile, uint32_t *table, size_t numbers);

typedef struct blorb_check_answer {
    uint64_t refusal;
    uint64_t place;
} blorb_check_answer;

/* Is the whole slice just this file's table, with nothing behind the last row? The file's refusals, then 35. */
blorb_check_answer blorb_table_check(const uint8_t *file, size_t size, uint32_t profile, const uint32_t *table, size_t numbers);

/* Of a refused call: start 0; probes are told in both cases. */
typedef struct blorb_search_answer {
    uint64_t refusal;
    uint64_t place;
    uint64_t start;  /* where the resource's chunk begins: BLORB_HEADER_SIZE bytes before the resource; of a 'FORM' that is the resource itself */
    uint64_t probes; /* rows looked at: at most 13 in a table of BLORB_MAX_ENTRIES rows, 0 in an empty one */
} blorb_search_answer;

/* The row with this usage and number, by halving. Any slice will do, checked or not; a partial last row is not looked at. Refusal 22. */
blorb_search_answer blorb_table_search(const uint32_t *table, size_t numbers, const char usage[BLORB_FOUR], uint32_t number) BLORB_NO_ZERO(usage);

/*
 * The same table in three columns: in a slice of n whole rows (numbers / BLORB_ROW_NUMBERS, rounded down) row i is columns[i], columns[n + i],
 * columns[2 * n + i], so all usages come first, then all numbers, then all starts. blorb_table_build writes rows; these two calls turn one form
 * into the other. They carry whole rows, judge none, and only read the first slice; the numbers behind the last row of the second one stay. Both
 * forms hold the same entries and give every search the same answer and probes, and turning back changes no row. To check or search what was
 * written give just that part: BLORB_ROW_NUMBERS * rows as its numbers. Refusal 34 where the second slice, of `room` numbers, is too small.
 */
blorb_build_answer blorb_table_to_columns(const uint32_t *table, size_t numbers, uint32_t *columns, size_t room);
blorb_build_answer blorb_table_to_rows(const uint32_t *columns, size_t numbers, uint32_t *table, size_t room);

/* As blorb_table_check and blorb_table_search, of a table in columns. A search reads usages and numbers, and one start. */
blorb_check_answer blorb_columns_check(const uint8_t *file, size_t size, uint32_t profile, const uint32_t *columns, size_t numbers);
blorb_search_answer blorb_columns_search(const uint32_t *columns, size_t numbers, const char usage[BLORB_FOUR], uint32_t number) BLORB_NO_ZERO(usage);

/*
 * Group files (EA IFF 85). Artists send many pictures in one file: 'LIST' and 'CAT ' groups that hold FORMs. The file is the whole array of `size`
 * bytes; it is only read, and no profile is asked for. It is one chunk, the top, which is a FORM or a group at depth 1, with its padding; whatever stands
 * in a FORM, a group or a 'PROP' is one level deeper. A FORM holds plain chunks, FORMs and groups. A group holds FORMs and groups, and a 'LIST' may
 * begin with 'PROP's, which hold plain chunks. Every FORM, group and 'PROP' has four bytes of type before what it holds; these are not judged.
 * The file has at most BLORB_MAX_SIZE bytes. FORMs and groups stand at most BLORB_MAX_DEPTH levels deep; a 'PROP' may stand one deeper. A Blorb file
 * and an AIFF sound are FORMs, and can be given to these calls too.
 *
 * The time is proportional to the file's chunks, down to the first fault; the data of plain chunks is not looked at.
 */

/*
 * The FORMs in the order of the file, at the front of the slice of `numbers` numbers; the numbers behind the last row stay. Four to a row: the FORM's
 * type (BLORB_TAG), where it starts, its length field, and its depth. FORMs inside of FORMs have rows too, and a top that is a FORM is row 0. A file of
 * `size` bytes has at most size / BLORB_FORM_SIZE FORMs. The file is walked twice. Refusals 1, 41 to 44, 45.
 */
blorb_build_answer blorb_forms_list(const uint8_t *file, size_t size, uint32_t *rows, size_t numbers);

/* Of a refused call: start and length 0. */
typedef struct blorb_pick_answer {
    uint64_t refusal;
    uint64_t place;
    uint64_t start;  /* where the FORM begins: file + start */
    uint64_t length; /* its bytes, header in and padding out: the length field + BLORB_HEADER_SIZE */
} blorb_pick_answer;

/* FORM number i of the list, counted from 0; no list is needed. Refusals 1, 41 to 44, then 22 where i is not below the number of rows. */
blorb_pick_answer blorb_forms_pick(const uint8_t *file, size_t size, size_t i);

/*
 * Scaled pictures. A 'Reso' chunk (Blorb 2.0.4, section 11.2) says how large the pictures of a Z-code game are shown in a window of any size: it
 * has a standard window, and a row for each picture that is scaled, with its number and three ratios: standard, least and greatest.
 */

/* Of a refused call: width and height 0. */
typedef struct blorb_scaled_answer {
    uint64_t refusal;
    uint64_t place;
    uint64_t width;
    uint64_t height;
} blorb_scaled_answer;

/*
 * How large a picture of this number, `width` by `height` pixels by its own data, is shown in a window of window_width by window_height pixels.
 * The smaller of window over standard window, in width and in height, times the standard ratio is raised to the least ratio and lowered to the
 * greatest one (one with numerator zero is no limit). Each side is multiplied by that exactly and rounded down once, at the end. Where the file
 * has no 'Reso', or that no row for this number, the picture keeps its size. Sides can be as large as 281,462,092,005,375 (65,535 to the power
 * of three), so they have 64 bits.
 *
 * The index is not asked: the number may be that of any picture, also of one that the file does not have. The whole 'Reso' is judged by each
 * call, the rows of other pictures too. Refused with 33 are, in the 'Reso', a number over 65,535 that is no picture's, a standard window of
 * width or height zero, a denominator zero in a standard ratio or under a numerator that is not zero, a least ratio over the greatest where both
 * are limits, and a picture with two rows; and window_width, window_height, width or height over 65,535, also in a file without a 'Reso'.
 *
 * Beside the judging of the file it takes a few passes over the 'Reso' where the picture numbers rise from row to row. Where they do not, a
 * repeated one is looked for among the earlier rows, and the time grows with the square of the rows. Nothing limits them but the file's size:
 * 599,184 rows at most. The worst 'Reso' found, one of that many rows made against this search, took 0.7 s (docs/BENCHMARK.md).
 *
 * The file's refusals, then 31, 32, 33.
 */
blorb_scaled_answer blorb_scaled(const uint8_t *file, size_t size, uint32_t profile, uint64_t window_width, uint64_t window_height,
                                 uint32_t picture, uint64_t width, uint64_t height);

/*
 * Spoken descriptions. An 'RDes' chunk (Blorb 2.0.4, section 9) has texts for those who do not see the pictures or hear the sounds: a count, and for
 * each text the usage and number of its resource, its length and its bytes, in UTF-8 (RFC 3629), without a closing zero.
 *
 * Each call that reads judges the whole file, and then the whole 'RDes', its other texts too: 37, then text by text 38 before 39, then 36. A text may
 * be of no bytes, of a resource that the index does not have, and of any usage. A file without an 'RDes' has no texts.
 *
 * Beside the judging of the file they take a few passes over the 'RDes' where the pairs of usage and number rise from text to text. Where they
 * do not, a repeated pair is looked for among the earlier texts, and the time grows with the square of the texts. Nothing limits them but the
 * file's size: 1,398,098 texts of no bytes at most. The worst 'RDes' of that many texts that was made against this search took 4.2 s
 * (docs/BENCHMARK.md).
 */

/* Of a refused call: usage, number, start and length 0. */
typedef struct blorb_text_answer {
    uint64_t refusal;
    uint64_t place;
    uint32_t usage;  /* as a number */
    uint32_t number;
    uint64_t start;  /* where the text begins: file + start */
    uint64_t length; /* its bytes */
} blorb_text_answer;

/* Text i, counted from 0, with the usage and number of its resource. The file's refusals, then 37, 38, 39, 36, and 22 where there is none. */
blorb_text_answer blorb_text(const uint8_t *file, size_t size, uint32_t profile, size_t i);

/*
 * The text of the resource with this usage and number, which the answer has again. The file's refusals, then 37, 38, 39, 36, and 22 where there is
 * no such text, or where the index has no such resource.
 */
blorb_text_answer blorb_text_of(const uint8_t *file, size_t size, uint32_t profile, const char usage[BLORB_FOUR], uint32_t number) BLORB_NO_ZERO(usage);

/* Of a refused call: length 0. */
typedef struct blorb_write_answer {
    uint64_t refusal;
    uint64_t place;
    uint64_t length; /* the chunk's bytes in the buffer, header and padding among them */
} blorb_write_answer;

/*
 * The whole 'RDes' chunk of these texts at the front of the buffer, header and padding included; the bytes behind it stay. `rows` are `numbers`
 * numbers, aligned as uint32_t, BLORB_TEXT_NUMBERS to a row: usage (BLORB_PICT .. BLORB_EXEC, or any other), number, and where in `texts` the text
 * begins and how many bytes it has. A partial last row is not looked at. Texts may overlap or be the same bytes. Put into a file as its only
 * 'RDes', behind the index, the chunk gives back the same pairs and texts in the same order.
 *
 * The time is as with reading, and besides proportional to the bytes of `texts` that the rows name and to the rows: a byte that many rows share is
 * judged a few times, not once for each, so a million rows over one text of 16 MB take a second or two. The list is judged before its size, so this
 * holds of refused lists too, also of those with more rows than any chunk has room for: with ten million rows whose pairs do not rise it is minutes.
 * Refusals, row by row 38 before 39, then 40.
 */
blorb_write_answer blorb_texts_write(const uint32_t *rows, size_t numbers, const uint8_t *texts, size_t texts_size, uint8_t *buffer, size_t size);

/*
 * Editing. The file is the first `length` bytes of a buffer of `size` bytes; the journal's records are the first `used` bytes of
 * a buffer of `journal_size` bytes. Begin with a file that blorb_read accepts and used = 0, lend the same two buffers to every
 * call, under the same profile, and give each call the length and used that the last one handed back: blorb_undo then takes back edit
 * after edit, the last one first, down to the file begun with, byte for byte. The file after an edit or undo is judged under the profile
 * of that call.
 *
 * Of a call that was carried out, length and used are the new ones. Bytes between a shorter new end and the old end become zero;
 * bytes past both ends stay. An edit writes its record at `used` and no other byte of the journal; an undo writes none.
 */
typedef struct blorb_edit_answer {
    uint64_t refusal;
    uint64_t place;
    uint64_t length;
    uint64_t used;
} blorb_edit_answer;

/* The blank file in the buffer's first 24 bytes: length 24, used 0. Refusal 24, with length and used 0. */
blorb_edit_answer blorb_blank(uint8_t *file, size_t size);

/*
 * Data of type 'FORM' is a whole file, as blorb_lookup gives it: it begins with 'FORM' and a length of its size less 8, or it is refused with 30,
 * whatever the usage. These BLORB_HEADER_SIZE bytes become the chunk's header, and the chunk holds what follows them. Of every other type the
 * chunk holds the data as it is given. Sizes of the file (24, 101) and of journal records (25) go by what the chunk holds.
 */

/*
 * Add a resource: an entry at the end of the index, a chunk at the end of the file. It takes 20 bytes and what the chunk holds, rounded up
 * to even, in the file, and BLORB_RECORD_SIZE in the journal.
 * Refusals: 52, 20, those of the present file, 30, 101, 109, 111, 112, 114, 115, 116, 24, 25.
 */
blorb_edit_answer blorb_add(uint8_t *file, size_t size, size_t length,
                            uint8_t *journal, size_t journal_size, size_t used, uint32_t profile,
                            const char usage[BLORB_FOUR], uint32_t number, const char type[BLORB_FOUR],
                            const uint8_t *data, size_t data_size) BLORB_NO_ZERO(usage) BLORB_NO_ZERO(type);

/*
 * Give a resource another type and other data, in the same position. What the chunk held goes to the journal: BLORB_RECORD_SIZE and
 * these bytes.
 * Refusals: 52, 20, those of the present file, 22, 23, 30, 101, 109, 114, 119, 24, 25.
 */
blorb_edit_answer blorb_replace(uint8_t *file, size_t size, size_t length,
                                uint8_t *journal, size_t journal_size, size_t used, uint32_t profile,
                                const char usage[BLORB_FOUR], uint32_t number, const char type[BLORB_FOUR],
                                const uint8_t *data, size_t data_size) BLORB_NO_ZERO(usage) BLORB_NO_ZERO(type);

/*
 * Remove a resource: its entry, and its chunk unless another entry has it too. The journal takes BLORB_RECORD_SIZE and, where the
 * chunk goes, the bytes that it held.
 * Refusals: 52, 20, those of the present file, 22, 119, 25.
 */
blorb_edit_answer blorb_remove(uint8_t *file, size_t size, size_t length,
                               uint8_t *journal, size_t journal_size, size_t used, uint32_t profile,
                               const char usage[BLORB_FOUR], uint32_t number) BLORB_NO_ZERO(usage);

/*
 * Give a resource a second name: a new entry, with the new usage and number, on the chunk of the one with this usage and number. It stands behind
 * the last entry whose chunk begins no later, so right behind the others on that chunk. No data is copied: it takes BLORB_ENTRY_SIZE bytes in the file, and
 * BLORB_RECORD_SIZE in the journal. Both names then find the same bytes; blorb_replace of either is refused with 23, and blorb_remove of one
 * leaves the chunk to the other. With a new number that is not above those before it of its usage, or not below those behind it, the numbers no
 * longer rise from entry to entry, and reading takes longer (see the beginning).
 * Refusals: 52, 20, those of the present file, 22 (the original), 101, 111, 112, 114, 115, 116 (place: the later of the two entries), 24, 25.
 */
blorb_edit_answer blorb_link(uint8_t *file, size_t size, size_t length,
                             uint8_t *journal, size_t journal_size, size_t used, uint32_t profile,
                             const char usage[BLORB_FOUR], uint32_t number, const char new_usage[BLORB_FOUR], uint32_t new_number)
    BLORB_NO_ZERO(usage) BLORB_NO_ZERO(new_usage);

/*
 * Take back the edit of the journal's last record. A record that does not fit this file is refused, never applied.
 * Refusals: 52, 20, those of the present file, 26, 21, 24.
 */
blorb_edit_answer blorb_undo(uint8_t *file, size_t size, size_t length,
                             const uint8_t *journal, size_t journal_size, size_t used, uint32_t profile);

/*
 * An editor: both buffers, the two lengths and the profile in one place. The functions over it hand them to the calls above and store the
 * lengths that these hand back, so that no call is ever given the lengths of another one. Begin with blorb_editor_begin, blorb_editor_blank or
 * blorb_editor_resume, and change no member by hand but to lend a larger buffer that holds the same bytes.
 *
 *     blorb_editor e;
 *     blorb_read_answer r = blorb_editor_begin(&e, file, sizeof file, length, journal, sizeof journal, BLORB_PLAIN);
 *     blorb_edit_answer a = blorb_editor_replace(&e, "Pict", 1, "JPEG", picture, picture_size);
 *     if (a.refusal != BLORB_DONE)
 *         show(blorb_sentence(a.refusal));
 *     save(e.file, e.length);
 *
 * To go on later, keep the file's `length` bytes, the journal's `used` bytes and the profile, and give them to blorb_editor_resume: undo then goes
 * on where it was. A file that no longer keeps the rules is refused at once; each undo judges the record that it takes back.
 */
typedef struct blorb_editor {
    uint8_t *file;       /* the file buffer */
    size_t size;
    size_t length;       /* the file is its first `length` bytes */
    uint8_t *journal;    /* the journal's buffer */
    size_t journal_size;
    size_t used;         /* the records are its first `used` bytes; 0 where there is nothing to undo */
    uint32_t profile;    /* BLORB_PLAIN or BLORB_ADRIFT */
} blorb_editor;

/* Inside: whether both lengths are within their buffers. */
static inline int blorb_editor_within(const blorb_editor *e)
{
    return e->length <= e->size && e->used <= e->journal_size;
}

/* Inside: how much of the file is lent to a call that only reads. With a length beyond its buffer that is nothing, and blorb_editor_refusal answers 20. */
static inline size_t blorb_editor_lent(const blorb_editor *e)
{
    return blorb_editor_within(e) ? e->length : 0;
}

/* Inside: the refusal of a call that only reads. */
static inline uint64_t blorb_editor_refusal(const blorb_editor *e, uint64_t refusal)
{
    return blorb_editor_within(e) || refusal == BLORB_PROFILE ? refusal : (uint64_t)BLORB_LENGTHS;
}

/* Inside: what an edit or undo hands back is what the next call is given. */
static inline blorb_edit_answer blorb_editor_stored(blorb_editor *e, blorb_edit_answer a)
{
    e->length = (size_t)a.length;
    e->used = (size_t)a.used;
    return a;
}

/* As blorb_read, of the editor's file; 20, after 52, where `length` or `used` exceeds its buffer. The others that only read answer likewise. */
static inline blorb_read_answer blorb_editor_read(const blorb_editor *e)
{
    blorb_read_answer a = blorb_read(e->file, blorb_editor_lent(e), e->profile);
    a.refusal = blorb_editor_refusal(e, a.refusal);
    return a;
}

static inline blorb_entry_answer blorb_editor_entry(const blorb_editor *e, size_t i)
{
    blorb_entry_answer a = blorb_entry(e->file, blorb_editor_lent(e), e->profile, i);
    a.refusal = blorb_editor_refusal(e, a.refusal);
    return a;
}

/* The resource is at e->file + start, until the next edit or undo. */
static inline blorb_lookup_answer blorb_editor_lookup(const blorb_editor *e, const char usage[BLORB_FOUR], uint32_t number) BLORB_NO_ZERO(usage)
{
    blorb_lookup_answer a = blorb_lookup(e->file, blorb_editor_lent(e), e->profile, usage, number);
    a.refusal = blorb_editor_refusal(e, a.refusal);
    return a;
}

static inline blorb_build_answer blorb_editor_table_build(const blorb_editor *e, uint32_t *table, size_t numbers)
{
    blorb_build_answer a = blorb_table_build(e->file, blorb_editor_lent(e), e->profile, table, numbers);
    a.refusal = blorb_editor_refusal(e, a.refusal);
    return a;
}

static inline blorb_check_answer blorb_editor_table_check(const blorb_editor *e, const uint32_t *table, size_t numbers)
{
    blorb_check_answer a = blorb_table_check(e->file, blorb_editor_lent(e), e->profile, table, numbers);
    a.refusal = blorb_editor_refusal(e, a.refusal);
    return a;
}

static inline blorb_check_answer blorb_editor_columns_check(const blorb_editor *e, const uint32_t *columns, size_t numbers)
{
    blorb_check_answer a = blorb_columns_check(e->file, blorb_editor_lent(e), e->profile, columns, numbers);
    a.refusal = blorb_editor_refusal(e, a.refusal);
    return a;
}

static inline blorb_scaled_answer blorb_editor_scaled(const blorb_editor *e, uint64_t window_width, uint64_t window_height,
                                                      uint32_t picture, uint64_t width, uint64_t height)
{
    blorb_scaled_answer a = blorb_scaled(e->file, blorb_editor_lent(e), e->profile, window_width, window_height, picture, width, height);
    a.refusal = blorb_editor_refusal(e, a.refusal);
    return a;
}

/* The text is at e->file + start, until the next edit or undo. */
static inline blorb_text_answer blorb_editor_text(const blorb_editor *e, size_t i)
{
    blorb_text_answer a = blorb_text(e->file, blorb_editor_lent(e), e->profile, i);
    a.refusal = blorb_editor_refusal(e, a.refusal);
    return a;
}

static inline blorb_text_answer blorb_editor_text_of(const blorb_editor *e, const char usage[BLORB_FOUR], uint32_t number) BLORB_NO_ZERO(usage)
{
    blorb_text_answer a = blorb_text_of(e->file, blorb_editor_lent(e), e->profile, usage, number);
    a.refusal = blorb_editor_refusal(e, a.refusal);
    return a;
}

/*
 * Goes on with a file and a journal that were kept: sets all members, and judges the file in the first `length` bytes. The answer is that of
 * blorb_editor_read: 20, after 52, where `length` or `used` exceeds its buffer. The journal's records are not looked at yet.
 */
static inline blorb_read_answer blorb_editor_resume(blorb_editor *e, uint8_t *file, size_t size, size_t length,
                                                    uint8_t *journal, size_t journal_size, size_t used, uint32_t profile)
{
    e->file = file;
    e->size = size;
    e->length = length;
    e->journal = journal;
    e->journal_size = journal_size;
    e->used = used;
    e->profile = profile;
    return blorb_editor_read(e);
}

/* Begins with a file that is there, and with nothing to undo: blorb_editor_resume with an empty journal. */
static inline blorb_read_answer blorb_editor_begin(blorb_editor *e, uint8_t *file, size_t size, size_t length,
                                                   uint8_t *journal, size_t journal_size, uint32_t profile)
{
    return blorb_editor_resume(e, file, size, length, journal, journal_size, 0, profile);
}

/* Sets all members and makes the blank file, with nothing to undo. The answer is that of blorb_blank, which knows no profile. */
static inline blorb_edit_answer blorb_editor_blank(blorb_editor *e, uint8_t *file, size_t size,
                                                   uint8_t *journal, size_t journal_size, uint32_t profile)
{
    e->file = file;
    e->size = size;
    e->journal = journal;
    e->journal_size = journal_size;
    e->profile = profile;
    return blorb_editor_stored(e, blorb_blank(file, size));
}

/* As blorb_add, blorb_replace, blorb_remove, blorb_link and blorb_undo. */
static inline blorb_edit_answer blorb_editor_add(blorb_editor *e, const char usage[BLORB_FOUR], uint32_t number, const char type[BLORB_FOUR],
                                                 const uint8_t *data, size_t data_size) BLORB_NO_ZERO(usage) BLORB_NO_ZERO(type)
{
    return blorb_editor_stored(e, blorb_add(e->file, e->size, e->length, e->journal, e->journal_size, e->used, e->profile,
                                            usage, number, type, data, data_size));
}

static inline blorb_edit_answer blorb_editor_replace(blorb_editor *e, const char usage[BLORB_FOUR], uint32_t number, const char type[BLORB_FOUR],
                                                     const uint8_t *data, size_t data_size) BLORB_NO_ZERO(usage) BLORB_NO_ZERO(type)
{
    return blorb_editor_stored(e, blorb_replace(e->file, e->size, e->length, e->journal, e->journal_size, e->used, e->profile,
                                                usage, number, type, data, data_size));
}

static inline blorb_edit_answer blorb_editor_remove(blorb_editor *e, const char usage[BLORB_FOUR], uint32_t number) BLORB_NO_ZERO(usage)
{
    return blorb_editor_stored(e, blorb_remove(e->file, e->size, e->length, e->journal, e->journal_size, e->used, e->profile,
                                               usage, number));
}

static inline blorb_edit_answer blorb_editor_link(blorb_editor *e, const char usage[BLORB_FOUR], uint32_t number,
                                                  const char new_usage[BLORB_FOUR], uint32_t new_number) BLORB_NO_ZERO(usage) BLORB_NO_ZERO(new_usage)
{
    return blorb_editor_stored(e, blorb_link(e->file, e->size, e->length, e->journal, e->journal_size, e->used, e->profile,
                                             usage, number, new_usage, new_number));
}

static inline blorb_edit_answer blorb_editor_undo(blorb_editor *e)
{
    return blorb_editor_stored(e, blorb_undo(e->file, e->size, e->length, e->journal, e->journal_size, e->used, e->profile));
}

/* Gives undoing up, and the journal's room back: after a refusal 25, or when the file is saved for good. */
static inline void blorb_editor_forget(blorb_editor *e)
{
    e->used = 0;
}

#ifdef __cplusplus
}
#endif

#ifdef __clang__
#pragma clang diagnostic pop
#endif

#endif
