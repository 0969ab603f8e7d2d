#include "waves.h"

#include <stdlib.h>
#include <string.h>

#include "contents.h"

/* A form has its own head of 12 bytes; the samples stand behind 8 bytes of 'SSND', of which the first four tell how many to pass over. */
enum { FORM_HEAD = 12, SAMPLES_HEAD = 8, WAV_HEAD = 44, MOST_BITS = 32 };

/* In a form that the library has judged. */
static bytes samples_in(bytes aiff)
{
    for (size_t at = FORM_HEAD; at + BLORB_HEADER_SIZE <= aiff.length;) {
        size_t length = number_in(aiff.at + at + 4);
        const uint8_t *held = aiff.at + at + BLORB_HEADER_SIZE;
        if (memcmp(aiff.at + at, "SSND", 4) == 0 && length >= SAMPLES_HEAD) {
            size_t passed = number_in(held), left = length - SAMPLES_HEAD;
            return passed <= left ? (bytes){held + SAMPLES_HEAD + passed, left - passed} : (bytes){NULL, 0};
        }
        at += BLORB_HEADER_SIZE + length + length % 2;
    }
    return (bytes){NULL, 0};
}

/* WAV has its numbers with the lowest byte first. */
static void put_low_first(uint8_t *to, uint32_t number, size_t length)
{
    for (size_t i = 0; i < length; i++)
        to[i] = (uint8_t)(number >> 8 * i);
}

static void put_head(uint8_t *to, const blorb_aiff_answer *told, uint32_t bytes_each, uint32_t length)
{
    uint32_t frame = told->channels * bytes_each;
    memcpy(to, "RIFF____WAVEfmt ", 16);
    put_low_first(to + 4, WAV_HEAD - 8 + length, 4);
    put_low_first(to + 16, 16, 4);
    put_low_first(to + 20, 1, 2); /* plain samples */
    put_low_first(to + 22, told->channels, 2);
    put_low_first(to + 24, told->rate, 4);
    put_low_first(to + 28, told->rate * frame, 4);
    put_low_first(to + 32, frame, 2);
    put_low_first(to + 34, 8 * bytes_each, 2);
    memcpy(to + 36, "data", 4);
    put_low_first(to + 40, length, 4);
}

bytes wav_of(bytes aiff, const blorb_aiff_answer *told, uint8_t **room)
{
    bytes samples = samples_in(aiff);
    uint32_t bytes_each = (told->sample_size + 7) / 8;
    uint64_t wanted = (uint64_t)told->frames * told->channels * bytes_each;
    *room = NULL;
    if (told->refusal != BLORB_DONE || told->sample_size < 1 || told->sample_size > MOST_BITS || told->channels < 1 || samples.length < wanted || wanted == 0)
        return (bytes){NULL, 0};
    *room = malloc(WAV_HEAD + (size_t)wanted);
    if (*room == NULL)
        return (bytes){NULL, 0};
    put_head(*room, told, bytes_each, (uint32_t)wanted);
    uint8_t *to = *room + WAV_HEAD;
    for (size_t i = 0; i < wanted; i += bytes_each)
        for (uint32_t k = 0; k < bytes_each; k++)
            to[i + k] = samples.at[i + bytes_each - 1 - k];
    /* A sample of one byte has a sign in AIFF and none in WAV. */
    for (size_t i = 0; bytes_each == 1 && i < wanted; i++)
        to[i] ^= 0x80;
    return (bytes){*room, WAV_HEAD + (size_t)wanted};
}
