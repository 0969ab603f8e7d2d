/* table --c-array: the finding table as C, for firmware that has no file system to keep FILE.table in. */
#define _XOPEN_SOURCE 700
#include "arrays.h"

#include <ctype.h>
#include <fcntl.h>
#include <inttypes.h>
#include <stdio.h>
#include <stdlib.h>
#include <string.h>

#include "blorb.h"
#include "contents.h"
#include "reading.h"
#include "words.h"

/* The file's name for a comment, which must not end within it. */
static void print_name(FILE *to, const char *path)
{
    const char *slash = strrchr(path, '/');
    for (const char *c = slash == NULL ? path : slash + 1; *c != '\0'; c++)
        fputc(isalnum((unsigned char)*c) || strchr("._- ", *c) != NULL ? *c : '?', to);
}

static void print_array(FILE *to, const request *r, const contents *c, const uint32_t *table, size_t rows)
{
    fputs("/* The finding table of ", to);
    print_name(to, r->file);
    fprintf(to, ", %zu row%s: usage, number, start of the chunk.\n", rows, plural(rows));
    fputs(" * blorb_table_check of blorb.h says whether it is the file's, blorb_table_search\n"
          " * finds a resource by it. `blorb table --c-array` has written it. */\n#include <stdint.h>\n\n", to);
    fprintf(to, "enum { blorb_table_numbers = %zu, blorb_table_file_length = %zu };\n\n", BLORB_ROW_NUMBERS * rows, c->length);
    fprintf(to, "static const uint32_t blorb_table[%zu] = {\n", rows > 0 ? BLORB_ROW_NUMBERS * rows : 1);
    if (rows == 0)
        fputs("    0 /* C has no empty array */\n", to);
    for (size_t i = 0; i < rows; i++) {
        const uint32_t *row = table + BLORB_ROW_NUMBERS * i;
        char usage[4];
        put_tag(row[0], usage);
        fprintf(to, "    0x%08" PRIx32 "u, %" PRIu32 "u, %" PRIu32 "u, /* %.*s %" PRIu32 " */\n", row[0], row[1], row[2], tag_length(usage), usage,
                row[1]);
    }
    fputs("};\n", to);
}

/* The text in memory, so that OUT is written whole or not at all. Gives 0, or -1 and errno. */
static int make_text(const request *r, const contents *c, char **text, size_t *length)
{
    uint32_t *table = malloc(BLORB_ROW_NUMBERS * BLORB_MAX_ENTRIES * sizeof *table);
    FILE *to = table == NULL ? NULL : open_memstream(text, length);
    int done = to == NULL ? -1 : 0;
    if (to != NULL) {
        blorb_build_answer built = blorb_table_build(c->file, c->length, c->profile, table, BLORB_ROW_NUMBERS * BLORB_MAX_ENTRIES);
        print_array(to, r, c, table, (size_t)built.rows);
        done = fclose(to);
    }
    free(table);
    return done;
}

int write_c_array(const request *r)
{
    contents c;
    char *text = NULL;
    size_t length = 0;
    int status = load_accepted(&c, r->file, open(r->file, O_RDONLY | O_CLOEXEC), r->profile);
    if (status == CARRIED_OUT && make_text(r, &c, &text, &length) != 0)
        status = say_failed(r->file, "its table cannot be made");
    if (status == CARRIED_OUT && r->out != NULL)
        status = put_where_asked(r, &c, (bytes){(const uint8_t *)text, length});
    else if (status == CARRIED_OUT)
        fwrite(text, 1, length, stdout);
    free(text);
    free_contents(&c);
    return status;
}
