#include "json.h"

#include <inttypes.h>
#include <stdio.h>
#include <string.h>

#include "utf8.h"

/* One character, or a byte that is none. Gives how many bytes that is. */
static size_t print_character(const uint8_t *at, size_t left)
{
    uint32_t character = 0;
    size_t length = character_at(at, left, &character);
    if (length == 0)
        printf("\\udc%02x", (unsigned)at[0]);
    else if (character == '"' || character == '\\')
        printf("\\%c", (int)character);
    else if (character < ' ' || character == 0x7f)
        printf("\\u%04x", (unsigned)character);
    else
        fwrite(at, 1, length, stdout);
    return length == 0 ? 1 : length;
}

void print_json_text(bytes text)
{
    putchar('"');
    for (size_t i = 0; i < text.length;)
        i += print_character(text.at + i, text.length - i);
    putchar('"');
}

void print_json_bytes(const char *name, const bytes *text)
{
    printf("\"%s\": ", name);
    if (text == NULL)
        fputs("null", stdout);
    else
        print_json_text(*text);
}

void print_json_words(const char *name, const char *text)
{
    bytes held = {(const uint8_t *)text, text == NULL ? 0 : strlen(text)};
    print_json_bytes(name, text == NULL ? NULL : &held);
}

void print_json_number(const char *name, int known, uint64_t number)
{
    printf("\"%s\": ", name);
    if (known)
        printf("%" PRIu64, number);
    else
        fputs("null", stdout);
}
