/* AIFF sounds for those who play WAV only. */
#ifndef WAVES_H
#define WAVES_H

#include <stdint.h>

#include "blorb.h"
#include "files.h"

/* The same samples as a WAV file, in `room`, to be freed. Gives no bytes where the sound cannot be told so, or there is no memory. */
bytes wav_of(bytes aiff, const blorb_aiff_answer *told, uint8_t **room);

#endif
