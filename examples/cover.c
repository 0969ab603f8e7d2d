/*
 * Opens a game and shows its cover: cover GAME.blb > cover.png
 *
 * The file is judged once, by the check of the finding table beside it (GAME.blb.table, as `blorb table GAME.blb` writes it). Where there is no such table,
 * or an old one, the table is built anew in memory. From then on a resource is found by the table alone, in at most 13 looks.
 */
#include <blorb.h>
#include <stdio.h>
#include <string.h>

static uint8_t file[BLORB_MAX_SIZE + 1];
static uint32_t table[BLORB_ROW_NUMBERS * BLORB_MAX_ENTRIES];

static uint32_t number_at(const uint8_t *at)
{
    return (uint32_t)at[0] << 24 | (uint32_t)at[1] << 16 | (uint32_t)at[2] << 8 | at[3];
}

/* The bytes of a file, and 0 where it cannot be read. */
static size_t load(const char *path, uint8_t *to, size_t room)
{
    FILE *from = fopen(path, "rb");
    size_t length = from == NULL ? 0 : fread(to, 1, room, from);
    if (from != NULL)
        fclose(from);
    return length;
}

/* How many numbers the table beside the game has; it stands in the file as numbers of four bytes, the first byte highest. */
static size_t load_table(const char *game)
{
    static uint8_t bytes[sizeof table];
    char path[4096];
    if (snprintf(path, sizeof path, "%s.table", game) >= (int)sizeof path)
        return 0;
    size_t count = load(path, bytes, sizeof bytes) / 4;
    for (size_t i = 0; i < count; i++)
        table[i] = number_at(bytes + 4 * i);
    return count;
}

/* A checked table: the one beside the game, or a new one. The numbers that it has, or -1 where the file is refused. */
static long open_game(const char *path, size_t length)
{
    size_t numbers = load_table(path);
    blorb_check_answer checked = blorb_table_check(file, length, BLORB_PLAIN, table, numbers);
    if (checked.refusal == BLORB_DONE)
        return (long)numbers;
    blorb_build_answer built = blorb_table_build(file, length, BLORB_PLAIN, table, sizeof table / sizeof *table);
    if (built.refusal != BLORB_DONE) {
        fprintf(stderr, "%s: %s (refusal %u at %u)\n", path, blorb_sentence(built.refusal), (unsigned)built.refusal, (unsigned)built.place);
        return -1;
    }
    fprintf(stderr, "%s: no table that is right; built anew\n", path);
    return (long)(BLORB_ROW_NUMBERS * built.rows);
}

/* The number of the cover: what the 'Fspc' chunk says, or 1. The file is accepted, so one chunk follows the other to its end. */
static uint32_t cover_number(size_t length)
{
    for (size_t at = 12; at < length;) {
        uint32_t data = number_at(file + at + 4);
        if (memcmp(file + at, "Fspc", 4) == 0)
            return number_at(file + at + BLORB_HEADER_SIZE);
        at += BLORB_HEADER_SIZE + (size_t)data + data % 2;
    }
    return 1;
}

int main(int words, char **word)
{
    if (words != 2) {
        fprintf(stderr, "usage: cover GAME.blb > cover.png\n");
        return 2;
    }
    size_t length = load(word[1], file, sizeof file);
    long numbers = open_game(word[1], length);
    if (numbers < 0)
        return 1;
    blorb_search_answer cover = blorb_table_search(table, (size_t)numbers, BLORB_USAGE_PICT, cover_number(length));
    if (cover.refusal != BLORB_DONE) {
        fprintf(stderr, "%s: it has no cover\n", word[1]);
        return 1;
    }
    const uint8_t *chunk = file + cover.start;
    char type[5];
    blorb_tag_text(number_at(chunk), type);
    fprintf(stderr, "%s: a '%s' of %u bytes, found in %u looks\n", word[1], type, (unsigned)number_at(chunk + 4), (unsigned)cover.probes);
    fwrite(chunk + BLORB_HEADER_SIZE, 1, number_at(chunk + 4), stdout);
    return 0;
}
