/* Profiles: the types of ADRIFT, and 52 before everything else (02, P12). */
#include "interface.h"

static const uint32_t unknown[] = {2, 3, 255, 256, 65536, 0x80000000, 0xffffffff};
enum { UNKNOWN = sizeof unknown / sizeof *unknown };

static image with_one(const char *usage, uint32_t number, const char *type)
{
    image f = blank();
    row(&f, usage, number, 36);
    chunk(&f, type, "RIFF", 4);
    return f;
}

/* The types of the ADRIFT profile under every usage: under their own they are good there, and refused as plain. */
static void test_adrift_types(void)
{
    static const char *const types[] = {"GIF ", "WAV ", "MIDI", "MP3 "}, *const usages[] = {"Pict", "Snd ", "Data", "Exec"};
    image none = {.length = 0};
    for (int u = 0; u < 4; u++)
        for (int t = 0; t < 4; t++) {
            int good = t == 0 ? u == 0 : u == 1;
            image f = with_one(usages[u], 0, types[t]), from = blank(), rec = record(1, usages[u], 0, 0, 0, "\0\0\0\0", "", 0);
            profile = BLORB_PLAIN;
            reads(&f, 14, 24, 0, "14: a type of the ADRIFT profile, plain");
            pair p = prepared(&from, 60, &none, 40);
            refused(&p, add(&p, usages[u], 0, types[t], "RIFF", 4), 114, 24, "add: 114, plain");
            profile = BLORB_ADRIFT;
            reads(&f, good ? 0 : 14, good ? 0 : 24, good ? 1 : 0, "a type of the ADRIFT profile");
            p = prepared(&from, 60, &none, 40);
            if (good)
                made(&p, add(&p, usages[u], 0, types[t], "RIFF", 4), &f, &rec, 29, "add under the ADRIFT profile");
            else
                refused(&p, add(&p, usages[u], 0, types[t], "RIFF", 4), 114, 24, "add: 114");
        }
}

/* A 'GIF ' picture found, as the frontispiece, and in the table. */
static void test_gif(void)
{
    image f = with_one("Pict", 1, "GIF "), front = f;
    uint32_t rows[] = {BLORB_PICT, 1, 36};
    chunk(&front, "Fspc", "\0\0\0\1", 4);
    profile = BLORB_ADRIFT;
    finds(&f, 0, "Pict", 1, 36, BLORB_TAG('G', 'I', 'F', ' '), 4);
    reads(&front, 0, 0, 1, "a GIF frontispiece");
    builds(&f, 3, 0, 0, rows, 1);
    checks_in(in_rows, &f, rows, 3, 0, 0);
    profile = BLORB_PLAIN;
    reads(&front, 14, 24, 0, "a GIF frontispiece, plain");
    builds(&f, 3, 14, 24, rows, 0);
    checks_in(in_rows, &f, rows, 3, 14, 24);
}

/* The file after an undo is judged under the profile of that call. */
static void test_undo_under(void)
{
    image wav = with_one("Snd ", 1, "WAV "), ogg = with_one("Snd ", 1, "OGGV");
    image was_ogg = record(2, "Snd ", 1, 0, 36, "OGGV", "RIFF", 4), was_wav = record(2, "Snd ", 1, 0, 36, "WAV ", "RIFF", 4);
    profile = BLORB_ADRIFT;
    pair p = prepared(&wav, 60, &was_ogg, 40);
    made(&p, undo(&p), &ogg, NULL, 0, "undo of a replacement by a WAV");
    p = prepared(&ogg, 60, &was_wav, 40);
    made(&p, undo(&p), &wav, NULL, 0, "undo of a replacement of a WAV");
    profile = BLORB_PLAIN;
    p = prepared(&wav, 60, &was_ogg, 40);
    refused(&p, undo(&p), 14, 24, "undo of a replacement by a WAV, plain");
    p = prepared(&ogg, 60, &was_wav, 40);
    refused(&p, undo(&p), 21, 0, "undo of a replacement of a WAV, plain");
}

/* 52 comes before everything else that is wrong with a call, and nothing is written. */
static void test_unknown_profile(void)
{
    image none = {.length = 0}, a = sample_a(), cut = sample_a(), bad = sample_a();
    uint32_t rows[] = {BLORB_DATA, 7, 36};
    cut.length = 11;
    bad.at[0] = 'G';
    for (int i = 0; i < UNKNOWN; i++) {
        profile = unknown[i];
        image *files[] = {&none, &a, &cut, &bad};
        for (int k = 0; k < 4; k++) {
            reads(files[k], 52, 0, 0, "52");
            builds(files[k], 3, 52, 0, rows, 0);
            builds(files[k], 0, 52, 0, rows, 0);
            checks_in(in_rows, files[k], rows, 3, 52, 0);
            checks_in(in_rows, files[k], rows, 0, 52, 0);
            checks_in(in_columns, files[k], rows, 3, 52, 0);
            no_texts(files[k], 52, 0, "52 before all of a text's refusals");
            scales(files[k], (uint64_t[]){1, 65536}, 1, (uint64_t[]){1, 1}, 52, 0, 0, 0, "52 before 33");
            for (int call = 0; call < EDITS; call++) {
                pair p = prepared(files[k], 60, &none, 40);
                refused(&p, any_edit(&p, call), 52, 0, "an edit or undo: 52");
                p = prepared(files[k], 60, &none, 40);
                p.length = SIZE_MAX;
                p.used = SIZE_MAX;
                refused(&p, any_edit(&p, call), 52, 0, "an edit or undo: 52 before 20");
            }
        }
        lent l = lend(NULL, 0, (size_t)BLORB_MAX_SIZE + 1);
        expect(blorb_read(l.at, l.size, profile).refusal == 52, "52 before 1");
        give_back(&l);
        blorb_edit_answer r = blorb_undo(NULL, 0, 0, NULL, 0, 0, profile);
        expect(r.refusal == 52 && r.length == 0 && r.used == 0, "undo without buffers: 52");
    }
}

/* These set the profile themselves. */
void test_profiles(void)
{
    test_adrift_types();
    test_gif();
    test_undo_under();
    test_unknown_profile();
}
