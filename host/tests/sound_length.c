/* sound_length FILE..: of each file, whatever it is, what blorb_aiff_length answers: refusal, place, channels, frames, sample size, rate, seconds. */
#include <inttypes.h>
#include <stdio.h>
#include <stdlib.h>

#include "blorb.h"

static int tell(const char *path)
{
    enum { MOST = 64 << 20 };
    FILE *f = fopen(path, "rb");
    uint8_t *bytes = malloc(MOST);
    if (f == NULL || bytes == NULL)
        return -1;
    size_t size = fread(bytes, 1, MOST, f);
    blorb_aiff_answer a = blorb_aiff_length(bytes, size);
    printf("%" PRIu64 " %" PRIu64 " %" PRIu32 " %" PRIu32 " %" PRIu32 " %" PRIu32 " %" PRIu32 "\n", a.refusal, a.place, a.channels, a.frames,
           a.sample_size, a.rate, a.seconds);
    fclose(f);
    free(bytes);
    return 0;
}

int main(int count, char **paths)
{
    for (int i = 1; i < count; i++)
        if (tell(paths[i]) != 0) {
            perror(paths[i]);
            return 2;
        }
    return 0;
}
