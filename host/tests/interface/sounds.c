/* Sounds: how long an AIFF plays (02, P11). */
#include "interface.h"

static void measures(const image *f, uint64_t refusal, const uint32_t figures[5], const char *what)
{
    lent l = lend(f->at, f->length, f->length);
    blorb_aiff_answer a = blorb_aiff_length(l.at, l.size);
    expect(a.refusal == refusal && a.place == 0, what);
    expect(a.channels == figures[0] && a.frames == figures[1] && a.sample_size == figures[2], what);
    expect(a.rate == figures[3] && a.seconds == figures[4], what);
    expect(f->length == 0 || memcmp(l.at, f->at, f->length) == 0, what);
    give_back(&l);
}

/* An AIFF file without chunks, for `chunk`. */
static image no_sound(void)
{
    image f = {.length = 12};
    memcpy(f.at, "FORM\0\0\0\4AIFF", 12);
    return f;
}

static const uint32_t nothing[5];
/* Two channels, 441,000 frames, 16 bits, and the rate, a number of 80 bits. */
#define COMMON_44100 "\0\2\0\6\xba\xa8\0\x10\x40\x0e\xac\x44\0\0\0\0\0\0"
enum { COMMON_LENGTH = 18 };

static void test_sounds_measured(void)
{
    static const struct {
        const char *rate;
        uint32_t told; /* 0 where it is refused */
    } rates[] = {
        {"\x40\x0e\xac\x44\0\0\0\0\0\0", 44100},
        {"\x40\x0b\xfa\0\0\0\0\0\0\0", 8000},
        {"\x40\x10\xbb\x80\0\0\0\0\0\0", 192000},
        {"\x40\x3e\0\0\0\0\0\0\xac\x44", 44100},                   /* unnormalised */
        {"\x40\x3e\0\0\0\0\0\0\0\1", 1},                           /* 1 times 2 to the power 0 */
        {"\x40\x5d\0\0\0\0\0\0\0\1", 0x80000000},                  /* 1 times 2 to the power 31 */
        {"\x3f\xff\x80\0\0\0\0\0\0\0", 1},
        {"\x40\x1e\xff\xff\xff\xff\0\0\0\0", 0xffffffff},
        {"\x40\x1f\x80\0\0\0\0\0\0\0", 0},                         /* 4,294,967,296 */
        {"\x40\x1e\xff\xff\xff\xff\x80\0\0\0", 0},                 /* 4,294,967,295 and a half */
        {"\x40\x0d\xad\xdd\x17\x45\xd1\x74\x5d\x17", 0},           /* 22,254.54.. */
        {"\x3f\xfe\x80\0\0\0\0\0\0\0", 0},                         /* a half */
        {"\0\0\0\0\0\0\0\0\0\0", 0},
        {"\x40\x0e\0\0\0\0\0\0\0\0", 0},                           /* zero with an exponent */
        {"\x80\0\0\0\0\0\0\0\0\0", 0},                             /* minus zero */
        {"\xc0\x0e\xac\x44\0\0\0\0\0\0", 0},                       /* -44,100 */
        {"\x7f\xff\x80\0\0\0\0\0\0\0", 0},                         /* what others take for infinity */
        {"\0\0\x80\0\0\0\0\0\0\0", 0},
    };
    for (size_t i = 0; i < sizeof rates / sizeof *rates; i++) {
        image f = no_sound();
        uint8_t data[COMMON_LENGTH] = "\0\1\xff\xff\xff\xff\0\x18";
        uint32_t rate = rates[i].told, figures[5] = {1, 0xffffffff, 24, rate, rate == 0 ? 0 : 0xffffffff / rate};
        memcpy(data + 8, rates[i].rate, 10);
        chunk(&f, "COMM", data, COMMON_LENGTH);
        measures(&f, rate == 0 ? BLORB_RATE : BLORB_DONE, rate == 0 ? nothing : figures, "the rate of a sound");
    }
}

static void test_sounds_refused(void)
{
    const uint32_t figures[5] = {2, 441000, 16, 44100, 10};
    image f = no_sound(), one, two, changed;
    measures(&f, BLORB_COMMON, nothing, "no chunk");
    chunk(&f, "NAME", "odd", 3);
    one = f;
    chunk(&one, "COMM", COMMON_44100, COMMON_LENGTH);
    measures(&one, BLORB_DONE, figures, "a sound");
    two = one;
    chunk(&two, "SSND", "samples", 7);
    measures(&two, BLORB_DONE, figures, "a sound with samples");
    for (size_t n = 0; n < two.length; n++) {
        changed = two;
        changed.length = n;
        measures(&changed, BLORB_NOT_AIFF, nothing, "a sound cut short");
    }
    changed = two;
    append(&changed, "", 1);
    measures(&changed, BLORB_NOT_AIFF, nothing, "a byte behind the sound");
    static const struct {
        size_t at;
        const char *byte;
    } changes[] = {{0, "f"}, {5, "\1"}, {7, "\x35"}, {8, "a"}, {11, "C"}, {23, "\1"}, {16, "\1"}, {57, "\x9"}, {57, "\xff"}, {65, "\1"}};
    for (size_t i = 0; i < sizeof changes / sizeof *changes; i++) {
        changed = two;
        changed.at[changes[i].at] = (uint8_t)changes[i].byte[0];
        measures(&changed, BLORB_NOT_AIFF, nothing, "a head, a length or a padding byte that is wrong");
    }
    changed = two;
    chunk(&changed, "COMM", COMMON_44100, COMMON_LENGTH);
    measures(&changed, BLORB_COMMON, nothing, "a second 'COMM'");
    changed = two;
    chunk(&changed, "COMM", "", 0);
    measures(&changed, BLORB_COMMON, nothing, "a second 'COMM' without data");
    for (uint32_t n = 0; n <= 40; n++) {
        uint8_t data[40] = COMMON_44100;
        changed = f;
        chunk(&changed, "COMM", data, n);
        measures(&changed, n == COMMON_LENGTH ? BLORB_DONE : BLORB_COMMON, n == COMMON_LENGTH ? figures : nothing, "the length of 'COMM'");
    }
    changed = f;
    chunk(&changed, "comm", COMMON_44100, COMMON_LENGTH);
    measures(&changed, BLORB_COMMON, nothing, "a chunk that is no 'COMM'");
    blorb_aiff_answer a = blorb_aiff_length(NULL, 0);
    expect(a.refusal == BLORB_NOT_AIFF && a.place == 0 && a.rate == 0, "no bytes at all");
}

/* A sound of odd length in a Blorb file: a lookup gives what the call takes, and its padding does not belong to it. */
void test_sound_found(void)
{
    const uint32_t figures[5] = {2, 441000, 16, 44100, 10};
    image f = blank(), sound = no_sound();
    chunk(&sound, "COMM", COMMON_44100, COMMON_LENGTH);
    row(&f, "Snd ", 3, 36);
    chunk(&f, "FORM", sound.at + 8, (uint32_t)sound.length - 8);
    blorb_lookup_answer found = blorb_lookup(f.at, f.length, profile, "Snd ", 3);
    expect(found.refusal == 0 && found.start == 36 && found.length == sound.length, "a sound is found");
    image part = {.length = (size_t)found.length};
    memcpy(part.at, f.at + found.start, part.length);
    measures(&part, BLORB_DONE, figures, "a sound as a lookup gives it");
}

/* Sounds have no profile. */
void test_sounds(void)
{
    test_sounds_measured();
    test_sounds_refused();
}
