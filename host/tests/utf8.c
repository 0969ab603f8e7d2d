/*
 * Texts from standard input, each behind its length as four bytes, the first one highest: prints for each how many bytes its longest good beginning has,
 * as blorb_text tells it of a file with that text alone. blorb_texts_write must tell the same good texts from the same bad ones.
 */
#include <stdio.h>
#include <string.h>

#include "blorb.h"

enum { MOST = 65536, RDES = 24, TEXT = RDES + 8 + 4 + 12 };

static void put32(uint8_t *to, uint32_t v)
{
    for (int i = 0; i < 4; i++)
        to[i] = (uint8_t)(v >> (24 - 8 * i));
}

/* A file with one text of n bytes at TEXT; gives its length. */
static size_t written(uint8_t *f, uint32_t n)
{
    blorb_blank(f, TEXT);
    put32(f + 4, TEXT + n + n % 2 - 8);
    memcpy(f + RDES, "RDes", 4);
    put32(f + RDES + 4, 4 + 12 + n);
    put32(f + RDES + 8, 1);
    memcpy(f + RDES + 12, "Pict", 4);
    put32(f + RDES + 16, 1);
    put32(f + RDES + 20, n);
    f[TEXT + n] = 0;
    return TEXT + n + n % 2;
}

int main(void)
{
    static uint8_t f[TEXT + MOST + 1];
    uint8_t head[4];

    while (fread(head, 1, 4, stdin) == 4) {
        uint32_t n = (uint32_t)head[0] << 24 | (uint32_t)head[1] << 16 | (uint32_t)head[2] << 8 | head[3], row[] = {BLORB_PICT, 1, TEXT, n};
        if (n > MOST || fread(f + TEXT, 1, n, stdin) != n)
            return 2;
        size_t size = written(f, n);
        blorb_text_answer a = blorb_text(f, size, BLORB_PLAIN, 0);
        uint64_t refusal = blorb_texts_write(row, BLORB_TEXT_NUMBERS, f, TEXT + n, NULL, 0).refusal;
        int good = a.refusal == BLORB_DONE && a.start == TEXT && a.length == n && refusal == BLORB_RDES_ROOM;
        int bad = a.refusal == BLORB_RDES_TEXT && a.place >= TEXT && a.place < TEXT + n && refusal == BLORB_RDES_TEXT;
        if (good == bad) {
            fprintf(stderr, "utf8: blorb_text gives %u, blorb_texts_write %u\n", (unsigned)a.refusal, (unsigned)refusal);
            return 1;
        }
        printf("%u\n", good ? n : (unsigned)(a.place - TEXT));
    }
    return 0;
}
