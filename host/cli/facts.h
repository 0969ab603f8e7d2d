/* What a game tells of itself: title, author, IFID, story, cover and what else is there. */
#ifndef FACTS_H
#define FACTS_H

#include <stddef.h>
#include <stdint.h>

#include "contents.h"
#include "metadata.h"
#include "overview.h"
#include "stories.h"

typedef struct facts {
    metadata about;
    int has_metadata;
    bytes story_ifid;  /* in the story itself; used where the metadata has none */
    const char *story; /* the chunk type of the story, four bytes, or null */
    int is_z;          /* `z` is told */
    z_story z;
    int is_glulx;      /* `glulx` is told */
    uint32_t glulx[3];
    int is_for;        /* the file is for a story of the Z-machine that is not in it, which `z_for` names by release and serial number */
    z_story z_for;
    uint64_t texts_refusal, scaling_refusal; /* of a chunk that is there but cannot be used */
    int has_texts, has_scaling;
    uint32_t texts;
    uint32_t window[2]; /* the standard window */
    uint32_t scaled;    /* pictures that are scaled */
} facts;

/* Gives 0, or -1 and errno. To be freed in any case. */
int find_facts(const contents *c, facts *f);
void free_facts(facts *f);

/* The IFID; of no bytes where there is none. */
bytes ifid_of(const facts *f);

/* What the story is, in words: "Z-code, version 5, release 1, serial number 261116". */
enum { STORY_WORDS = 120 };
void tell_story(const facts *f, char words[STORY_WORDS]);

/* Warns of metadata that is no XML. */
void say_metadata_fault(const char *file, const metadata *m);

/* The beginning of a JSON object: the file, and all of this. It has no comma behind it. */
void print_json_facts(const contents *c, const overview *o, const facts *f);

#endif
