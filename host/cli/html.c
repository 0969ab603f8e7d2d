#include "html.h"

#include <inttypes.h>
#include <string.h>

#include "utf8.h"

/* Characters that XML and HTML do not take: control characters, and those that are never assigned. */
static int is_shown(uint32_t c)
{
    return (c >= ' ' && c != 0x7f && !(c >= 0x80 && c < 0xa0) && c != 0xfffe && c != 0xffff) || c == '\n' || c == '\t';
}

void html_text(FILE *to, bytes text)
{
    for (size_t i = 0; i < text.length;) {
        uint32_t c = 0;
        size_t length = character_at(text.at + i, text.length - i, &c);
        if (length == 0 || !is_shown(c))
            fputs("&#xfffd;", to);
        else if (strchr("&<>\"'", (int)c) != NULL && c < 0x80)
            fprintf(to, "&#%u;", (unsigned)c);
        else
            fwrite(text.at + i, 1, length, to);
        i += length == 0 ? 1 : length;
    }
}

void html_words(FILE *to, const char *text)
{
    html_text(to, (bytes){(const uint8_t *)text, strlen(text)});
}

void html_number(FILE *to, uint64_t number)
{
    char digits[24];
    int length = snprintf(digits, sizeof digits, "%" PRIu64, number);
    for (int i = 0; i < length; i++) {
        if (i > 0 && (length - i) % 3 == 0)
            putc(',', to);
        putc(digits[i], to);
    }
}

void html_data(FILE *to, const char *type, bytes held)
{
    static const char letters[] = "ABCDEFGHIJKLMNOPQRSTUVWXYZabcdefghijklmnopqrstuvwxyz0123456789+/";
    fprintf(to, "data:%s;base64,", type);
    for (size_t i = 0; i < held.length; i += 3) {
        size_t left = held.length - i;
        uint32_t three = (uint32_t)held.at[i] << 16 | (left > 1 ? (uint32_t)held.at[i + 1] << 8 : 0) | (left > 2 ? held.at[i + 2] : 0);
        char four[4] = {letters[three >> 18], letters[three >> 12 & 63], left > 1 ? letters[three >> 6 & 63] : '=', left > 2 ? letters[three & 63] : '='};
        fwrite(four, 1, sizeof four, to);
    }
}
