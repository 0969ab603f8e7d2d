#include "facts.h"

#include <inttypes.h>
#include <stdio.h>
#include <string.h>

#include "blorb.h"
#include "json.h"
#include "words.h"

/* The 'Reso' begins with six numbers, and has 28 bytes for each picture. The 'IFhd' of a Z-machine's story has 13 bytes. */
enum { RESO_HEAD = 24, RESO_ROW = 28, IDENTITY_LENGTH = 13, SERIAL_AT = 2, SERIAL = 6 };

static void find_story(const contents *c, facts *f)
{
    for (size_t i = 0; i < c->read.count; i++) {
        entry e = entry_at(c->file, i);
        if (memcmp(e.usage, "Exec", 4) != 0)
            continue;
        bytes held = data_at(c->file, e.start);
        f->story = type_at(c->file, e.start);
        f->is_z = memcmp(f->story, "ZCOD", 4) == 0 && read_z_story(held, &f->z);
        f->is_glulx = memcmp(f->story, "GLUL", 4) == 0 && read_glulx(held, f->glulx);
        f->story_ifid = ifid_in(held);
    }
}

/* The story that the file belongs to, where it has none itself. */
static void find_identity(const contents *c, facts *f)
{
    bytes held = chunk_of_type(c, "IFhd");
    f->is_for = f->story == NULL && held.length == IDENTITY_LENGTH;
    if (!f->is_for)
        return;
    f->z_for.release = (uint32_t)held.at[0] << 8 | held.at[1];
    for (size_t i = 0; i < SERIAL; i++) {
        uint8_t letter = held.at[SERIAL_AT + i];
        f->z_for.serial[i] = letter > ' ' && letter <= '~' ? (char)letter : '?';
    }
}

static void find_texts(const contents *c, facts *f)
{
    bytes held = chunk_of_type(c, "RDes");
    uint64_t refusal = blorb_text(c->file, c->length, c->profile, 0).refusal;
    f->has_texts = held.at != NULL;
    if (refusal == BLORB_DONE)
        f->texts = number_in(held.at);
    else if (refusal != BLORB_NOT_THERE)
        f->texts_refusal = refusal;
}

static void find_scaling(const contents *c, facts *f)
{
    bytes held = chunk_of_type(c, "Reso");
    f->has_scaling = held.at != NULL;
    f->scaling_refusal = blorb_scaled(c->file, c->length, c->profile, 0, 0, 0, 0, 0).refusal;
    if (!f->has_scaling || f->scaling_refusal != BLORB_DONE)
        return;
    f->window[0] = number_in(held.at);
    f->window[1] = number_in(held.at + 4);
    f->scaled = (uint32_t)((held.length - RESO_HEAD) / RESO_ROW);
}

int find_facts(const contents *c, facts *f)
{
    bytes held = chunk_of_type(c, "IFmd");
    *f = (facts){.has_metadata = held.at != NULL};
    find_story(c, f);
    find_identity(c, f);
    find_texts(c, f);
    find_scaling(c, f);
    return read_metadata(held, &f->about);
}

void free_facts(facts *f)
{
    free_metadata(&f->about);
}

bytes ifid_of(const facts *f)
{
    const char *told = f->about.fields[META_IFID];
    return told != NULL ? (bytes){(const uint8_t *)told, strlen(told)} : f->story_ifid;
}

void say_metadata_fault(const char *file, const metadata *m)
{
    char sentence[200];
    snprintf(sentence, sizeof sentence, "the metadata ('IFmd') is no XML that can be read: at byte %zu of it %s", m->place, m->fault);
    if (m->fault != NULL)
        say_warning(file, "", sentence);
}

void tell_story(const facts *f, char words[STORY_WORDS])
{
    char type[SHOWN_SIZE];
    show_tag(f->story != NULL ? f->story : "    ", type);
    if (f->is_z)
        snprintf(words, STORY_WORDS, "Z-code, version %u, release %" PRIu32 ", serial number %s", (unsigned)f->z.version, f->z.release, f->z.serial);
    else if (f->is_glulx)
        snprintf(words, STORY_WORDS, "Glulx, version %" PRIu32 ".%" PRIu32 ".%" PRIu32, f->glulx[0], f->glulx[1], f->glulx[2]);
    else if (f->story != NULL)
        snprintf(words, STORY_WORDS, "of type %s", type);
    else if (f->is_for)
        snprintf(words, STORY_WORDS, "not in the file, which is for release %" PRIu32 ", serial number %s", f->z_for.release, f->z_for.serial);
    else
        snprintf(words, STORY_WORDS, "none");
}

/* ---- JSON */

static void print_json_story(const facts *f)
{
    char version[48] = "", type[5] = "";
    if (f->story == NULL) {
        fputs("\"story\": null", stdout);
        return;
    }
    if (f->is_z)
        snprintf(version, sizeof version, "%u", (unsigned)f->z.version);
    else if (f->is_glulx)
        snprintf(version, sizeof version, "%" PRIu32 ".%" PRIu32 ".%" PRIu32, f->glulx[0], f->glulx[1], f->glulx[2]);
    memcpy(type, f->story, 4);
    fputs("\"story\": {", stdout);
    print_json_words("type", type);
    fputs(", ", stdout);
    print_json_words("version", version[0] != '\0' ? version : NULL);
    fputs(", ", stdout);
    print_json_number("release", f->is_z, f->z.release);
    fputs(", ", stdout);
    print_json_words("serial", f->is_z ? f->z.serial : NULL);
    fputs(", ", stdout);
    print_json_number("checksum", f->is_z, f->z.checksum);
    putchar('}');
}

static void print_json_file(const contents *c, const overview *o)
{
    printf("{\n  \"length\": %" PRIu64 ",\n  \"count\": %" PRIu64 ",\n  ", c->read.length, c->read.count);
    print_json_number("release", o->release != NULL, o->release != NULL ? release_in(o) : 0);
    fputs(",\n  ", stdout);
    print_json_number("frontispiece", o->frontispiece != NULL, o->frontispiece != NULL ? number_in(o->frontispiece) : 0);
}

void print_json_facts(const contents *c, const overview *o, const facts *f)
{
    bytes ifid = ifid_of(f);
    print_json_file(c, o);
    for (size_t i = 0; i < META_IFID; i++) {
        fputs(",\n  ", stdout);
        print_json_words(metadata_names[i], f->about.fields[i]);
    }
    fputs(",\n  ", stdout);
    print_json_bytes("ifid", ifid.length > 0 ? &ifid : NULL);
    fputs(",\n  ", stdout);
    print_json_words("metadata_fault", f->about.fault);
    fputs(",\n  ", stdout);
    print_json_story(f);
    fputs(",\n  ", stdout);
    print_json_number("texts", f->has_texts && f->texts_refusal == BLORB_DONE, f->texts);
    fputs(",\n  ", stdout);
    print_json_number("scaled_pictures", f->has_scaling && f->scaling_refusal == BLORB_DONE, f->scaled);
}
