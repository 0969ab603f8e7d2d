/* unpack, and get --all: the parts of a file in a folder, and the list that `pack` takes. docs/COMMAND.md describes the list. */
#define _XOPEN_SOURCE 700
#include "unpacking.h"

#include <errno.h>
#include <fcntl.h>
#include <inttypes.h>
#include <limits.h>
#include <stdio.h>
#include <stdlib.h>
#include <string.h>
#include <sys/stat.h>

#include "blorb.h"
#include "describing.h"
#include "files.h"
#include "names.h"
#include "overview.h"
#include "progress.h"
#include "reading.h"
#include "words.h"

#define LIST_NAME "list.txt"
#define TEXTS_NAME "texts.txt"

/* What is to be written, and under which names. */
typedef struct part {
    char name[NAME_SIZE];
    bytes held;
} part;

typedef struct parts {
    part *at;
    size_t count;
} parts;

/* ---- writing */

static int path_of(const request *r, const part *p, char path[PATH_MAX])
{
    int length = snprintf(path, PATH_MAX, "%s/%s", r->folder, p->name);
    errno = ENAMETOOLONG;
    return length >= 0 && length < PATH_MAX ? CARRIED_OUT : say_failed(r->folder, "the folder's name leaves no room for those of the files");
}

/* Before the first file is written: whether all can be. */
static int refuse_overwriting(const request *r, const parts *p)
{
    char path[PATH_MAX];
    struct stat old;
    int status = CARRIED_OUT;
    for (size_t i = 0; i < p->count && status == CARRIED_OUT; i++) {
        status = path_of(r, &p->at[i], path);
        if (status == CARRIED_OUT && !r->force && lstat(path, &old) == 0)
            status = say_cannot(path, "this file is there already, and nothing was written",
                                "Give another folder; or --force overwrites what is there.");
    }
    return status;
}

static int write_parts(const request *r, const contents *c, const parts *p)
{
    char path[PATH_MAX];
    progress shown;
    int status = CARRIED_OUT;
    begin_progress(&shown, "writing", p->count);
    for (size_t i = 0; i < p->count && status == CARRIED_OUT; i++) {
        show_progress(&shown, i);
        status = path_of(r, &p->at[i], path);
        if (status == CARRIED_OUT)
            status = put_at(r, path, c, p->at[i].held);
    }
    end_progress(&shown);
    return status;
}

static int write_folder(const request *r, const contents *c, const parts *p)
{
    if (own_ending(r->folder) != NULL)
        return say_cannot(r->folder, "the folder would have a name of this program's own", "Give another name.");
    if (mkdir(r->folder, 0777) != 0 && errno != EEXIST)
        return say_failed(r->folder, "the folder cannot be made");
    int status = refuse_overwriting(r, p);
    if (status == CARRIED_OUT)
        status = write_parts(r, c, p);
    if (status == CARRIED_OUT && confirm_folder(r->folder) != 0)
        status = say_failed(r->folder, "the files are in place, but the disk has not confirmed them");
    return status;
}

/* ---- get --all */

static void add_resource(const contents *c, size_t i, parts *p)
{
    entry e = entry_at(c->file, i);
    part *added = &p->at[p->count++];
    added->held = found_at(c->file, e.start);
    name_resource(&e, type_at(c->file, e.start), added->held, added->name);
}

int get_all(const request *r, const contents *c)
{
    parts p = {.at = malloc((size_t)c->read.count * sizeof *p.at + 1)};
    if (p.at == NULL)
        return say_failed(r->file, "the file cannot be taken apart");
    for (size_t i = 0; i < c->read.count; i++)
        add_resource(c, i, &p);
    int status = write_folder(r, c, &p);
    free(p.at);
    return status;
}

/* ---- unpack */

typedef struct unpacking {
    const request *r;
    const contents *c;
    overview o;
    parts p;
    FILE *list;
    char *list_text, *texts_text; /* to be freed */
    size_t list_length, texts_length;
    size_t others; /* chunks that are no resources, so far */
} unpacking;

/* The first entry on a chunk has the file, the others are links to it. */
static void list_resource(unpacking *u, run_of_entries on)
{
    entry first = entry_at(u->c->file, on.first);
    add_resource(u->c, on.first, &u->p);
    print_word(u->list, first.usage);
    fprintf(u->list, " %" PRIu32 " ", first.number);
    print_word(u->list, type_at(u->c->file, first.start));
    fprintf(u->list, " %s\n", u->p.at[u->p.count - 1].name);
    for (size_t i = on.first + 1; i < on.first + on.count; i++) {
        entry e = entry_at(u->c->file, i);
        fputs("link ", u->list);
        print_word(u->list, first.usage);
        fprintf(u->list, " %" PRIu32 " ", first.number);
        print_word(u->list, e.usage);
        fprintf(u->list, " %" PRIu32 "\n", e.number);
    }
}

/* As a list that can be written in, where that gives the same chunk again. Gives 0 where it does not. */
static int list_texts(unpacking *u)
{
    FILE *to = u->texts_text != NULL ? NULL : open_memstream(&u->texts_text, &u->texts_length);
    if (to == NULL)
        return 0;
    int whole = write_list(u->c, to) == 0;
    if (fclose(to) != 0 || !whole)
        return 0;
    part *added = &u->p.at[u->p.count++];
    snprintf(added->name, sizeof added->name, TEXTS_NAME);
    added->held = (bytes){(const uint8_t *)u->texts_text, u->texts_length};
    fputs("texts " TEXTS_NAME "\n", u->list);
    return 1;
}

static void list_chunk(unpacking *u, uint32_t at)
{
    const char *type = type_at(u->c->file, at);
    bytes held = data_at(u->c->file, at);
    u->others++;
    if (held.at == u->o.frontispiece) {
        fprintf(u->list, "cover %" PRIu32 "\n", number_in(held.at));
    } else if (held.at == u->o.release) {
        fprintf(u->list, "release %" PRIu32 "\n", release_in(&u->o));
    } else if (memcmp(type, "RDes", 4) != 0 || !list_texts(u)) {
        part *added = &u->p.at[u->p.count++];
        added->held = held;
        name_chunk(u->others, type, added->name);
        fputs("chunk ", u->list);
        print_word(u->list, type);
        fprintf(u->list, " %s\n", added->name);
    }
}

/* Every chunk behind the index in its order, and so everything. Gives 0, or -1 and errno. */
static int list_parts(unpacking *u)
{
    const contents *c = u->c;
    fprintf(u->list, "# `blorb pack%s` makes the file again of this list.\n", c->profile == BLORB_ADRIFT ? " --adrift" : "");
    for (uint32_t at = next_chunk(c, FIRST_CHUNK); at < c->length; at = next_chunk(c, at)) {
        run_of_entries on = entries_on(c, &u->o, at);
        if (on.count > 0)
            list_resource(u, on);
        else
            list_chunk(u, at);
    }
    int done = ferror(u->list) ? -1 : 0;
    if (fclose(u->list) != 0)
        done = -1;
    part *last = &u->p.at[u->p.count++];
    snprintf(last->name, sizeof last->name, LIST_NAME);
    last->held = (bytes){(const uint8_t *)u->list_text, u->list_length};
    return done;
}

/* Room for a part of each chunk, and for the list. Gives 0, or -1 and errno. */
static int begin_unpacking(unpacking *u, const request *r, const contents *c)
{
    size_t count = 1;
    *u = (unpacking){.r = r, .c = c};
    for (uint32_t at = next_chunk(c, FIRST_CHUNK); at < c->length; at = next_chunk(c, at))
        count++;
    u->p.at = malloc(count * sizeof *u->p.at);
    if (u->p.at == NULL || look_over(c, &u->o) != 0)
        return -1;
    u->list = open_memstream(&u->list_text, &u->list_length);
    return u->list == NULL ? -1 : 0;
}

static int unpack(const request *r, const contents *c)
{
    unpacking u;
    int status;
    if (begin_unpacking(&u, r, c) != 0 || list_parts(&u) != 0)
        status = say_failed(r->file, "the file cannot be taken apart");
    else
        status = write_folder(r, c, &u.p);
    if (status == CARRIED_OUT)
        printf("unpacked %" PRIu64 " resource%s and %zu other chunk%s\n", c->read.count, plural(c->read.count), u.others,
               plural(u.others));
    free(u.p.at);
    free(u.list_text);
    free(u.texts_text);
    free_overview(&u.o);
    return status;
}

int run_unpack(const request *r)
{
    contents c;
    int status = load_accepted(&c, r->file, open(r->file, O_RDONLY | O_CLOEXEC), r->profile);
    if (status == CARRIED_OUT)
        status = unpack(r, &c);
    free_contents(&c);
    return status;
}
