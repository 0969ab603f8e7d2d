/* What the program says where something is refused or fails, with what to do about it. All of it goes to standard error. */
#ifndef WORDS_H
#define WORDS_H

#include <stddef.h>
#include <stdint.h>
#include <stdio.h>

#include "files.h"

/* The program's exit statuses. */
enum { CARRIED_OUT = 0, REFUSED = 1, FAILED = 2 };

/* What to do about a journal that cannot be used. */
#define OTHER_JOURNAL \
    "Put back the file that the journal belongs to, or the journal from a copy. Or give undoing up: `blorb forget FILE` drops\n" \
    "  the journal, and --no-undo edits without one."

/* Rule 5 of 01 for those who add and replace, by usage and for all of them. */
#define PICT_TYPES "Pict takes PNG, JPEG, or Rect with 8 bytes of data; with --adrift GIF too."
#define SND_TYPES "Snd takes OGGV (Ogg Vorbis), MOD, SONG, or FORM with a whole AIFF file; with --adrift WAV, MIDI and MP3 too."
#define DATA_TYPES "Data takes TEXT or BINA."
#define EXEC_TYPES "Exec takes ZCOD, GLUL, TAD2, TAD3, HUGO, ALAN, ADRI, LEVE, AGT, MAGS, ADVS or EXEC."
#define TYPES PICT_TYPES "\n  " SND_TYPES "\n  " DATA_TYPES "\n  " EXEC_TYPES

/* What the sentence of one usage is; of an unknown one, which usages there are. */
const char *types_of(const char usage[4]);

#define PACK_AGAIN "Pack the file again with a program that writes it rightly."

/* For a type that only files of the ADRIFT house may have. */
#define USE_ADRIFT \
    "GIF pictures and WAV, MIDI and MP3 sounds are for files of the ADRIFT house: --adrift allows them."

/* What is said of a pipe, folder or device where only a plain file will do. */
#define NO_PLAIN_FILE "this is not a plain file"

/* Four bytes shown safely: quoted, bytes that are not printable as \xHH. */
enum { SHOWN_SIZE = 19 };
void show_tag(const char tag[4], char shown[SHOWN_SIZE]);

/* How many of the four bytes are left without the spaces at the end, for `%.*s` of a usage or type that is known to be printable. */
int tag_length(const char tag[4]);

/* A resource's usage and number for a message. */
enum { PAIR_SIZE = SHOWN_SIZE + 11 };
void show_pair(const char usage[4], uint32_t number, char shown[PAIR_SIZE]);

/*
 * How many bytes the character that begins there has, if it could do something to a terminal or hide something: control characters, those beyond
 * ASCII too, and what breaks lines or turns the direction of writing (U+2028 to U+202E, U+2066 to U+2069). 0 for all others.
 */
size_t dangerous(const uint8_t *at, size_t left);

/* Prints text from outside, each of those characters, and each byte that is no UTF-8, as '?'; the second one to standard error. */
void print_safely(FILE *to, const char *text);
void say_safely(const char *text);

/* The letter that more than one thing ends in, or none: "1 resource", "2 resources". */
const char *plural(uint64_t count);

/* What can usually be done about a refusal; null where nothing can. */
const char *remedy_for(uint64_t number);

/* A refusal of the library; `about` (or "") says what it is about, `advice` (or null for the usual one) what to do. Gives REFUSED. */
int say_refused(const char *file, uint64_t number, uint64_t place, const char *about, const char *advice);

/* The same where the library's sentence does not say what is wrong: `what` does, such as "the file has no FORM 9". The place is 0. */
int say_refused_as(const char *file, uint64_t number, const char *what, const char *advice);

/* The same without number and place, where these are on standard output. */
int say_meaning(const char *file, uint64_t number, const char *about, const char *advice);

/* Something about a resource (or, where `about` is "", about the file) that no rule forbids. */
void say_warning(const char *file, const char *about, const char *sentence);

/* A resource that the library refuses to tell something of, though the file keeps every rule; with the number's sentence and advice. */
void say_doubt(const char *file, const char *about, uint64_t number);

/* How many warnings there were up to now. */
size_t warnings_up_to_now(void);

/* From now on warnings are handed to `taker` and not printed; null has them printed again. `advice` may be null. */
typedef void warning_taker(void *to, const char *about, const char *sentence, const char *advice);
void take_warnings(warning_taker *taker, void *to);

/* That another run of this program is being waited for. */
void say_waiting(const char *file);

/* Reaches a place, and says so where it is waited for. Gives 0, or -1 and errno. */
int open_place(place *p, const char *path);

/* What a store is told to do where it waits. Gives 0: the program waits on. */
int wait_for_other(void *context, const char *path);

/* A failure that this errno describes, and what to do. Gives FAILED. */
int say_error(const char *file, const char *what, int error, const char *advice);

/* The same by errno itself, with the usual advice. */
int say_failed(const char *file, const char *what);

/* The same of standard output. */
int say_output_failed(const char *what);

/* What came of writing a file; `old` says it where no new one is in place. Gives CARRIED_OUT or FAILED. */
int say_stored(const char *file, in_place answer, const char *old);

/* The same of an edited file. */
int say_edited(const char *file, in_place answer);

/* Any other failure, in a whole sentence, and what to do. Gives FAILED. */
int say_cannot(const char *file, const char *why, const char *advice);

#endif
