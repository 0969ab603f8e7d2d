/*
 * A reader of XML 1.0 in UTF-8. It tells elements and their text, and says what keeps a document from being well-formed. Entities are the five of
 * XML and characters by number; a document type (<!DOCTYPE) is not read, and a document that has one is refused.
 */
#ifndef XML_H
#define XML_H

#include <stddef.h>

#include "files.h"

/* Who is told. Names are those in the tags; text comes in pieces. */
typedef struct xml_taker {
    void (*open)(void *to, bytes name);
    void (*close)(void *to);
    void (*text)(void *to, bytes piece);
    void *to;
} xml_taker;

/* Gives null where the document is well-formed, or what is wrong and where. What was told before that counts for nothing. */
const char *read_xml(bytes document, const xml_taker *taker, size_t *place);

#endif
