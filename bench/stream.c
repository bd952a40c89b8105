/* Times zb_stream_take on one run of frames in pieces of 1, 7, 12, 260 and 4,096 bytes and prints a line for each: the word that the program was
   given, the workload's name, the frames, and their nanoseconds of processor time, as bench/bench.c does. The run is made before the clock starts.
   A run whose frames do not all come ends the program. */
#define _POSIX_C_SOURCE 199309L
#include "zilborteka.h"
#include <stdio.h>
#include <stdlib.h>
#include <time.h>

enum {
    FRAMES = 4096, /* of a run: requests of 12 bytes, replies of 29 and writes of 260 by turns */
    TURNS = 50,
    MOST_FRAME = 260
};

static zb_stream stream;
static uint8_t run[FRAMES * MOST_FRAME], out[ZB_FRAME_BUFFER];
static size_t size;

static void make_run(void)
{
    static const unsigned sizes[] = {12, 29, 12, 29, 12, 29, 12, 260};
    uint32_t seed = 1;
    for (unsigned n = 0; n < FRAMES; n++) {
        unsigned length = sizes[n % 8];
        for (unsigned k = 0; k < length; k++) {
            seed = seed * 1664525 + 1013904223;
            run[size + k] = (uint8_t)(seed >> 24);
        }
        run[size + 2] = run[size + 3] = run[size + 4] = 0;
        run[size + 5] = (uint8_t)(length - 6);
        size += length;
    }
}

/* how many frames come of the run in pieces of so many bytes */
static unsigned turn(size_t piece)
{
    unsigned frames = 0;
    for (size_t at = 0; at < size; at += piece) {
        const uint8_t *rest = run + at;
        size_t left = size - at < piece ? size - at : piece;
        zb_taken a;
        while ((a = zb_stream_take(&stream, rest, left, out, sizeof out)).outcome == ZB_FRAME) {
            rest += a.taken;
            left -= a.taken;
            frames++;
        }
        if (a.refusal)
            return 0;
    }
    return frames;
}

static double nanoseconds(void)
{
    struct timespec t;
    clock_gettime(CLOCK_PROCESS_CPUTIME_ID, &t);
    return 1e9 * (double)t.tv_sec + (double)t.tv_nsec;
}

int main(int count, char **words)
{
    static const unsigned pieces[] = {1, 7, 12, 260, 4096};
    make_run();
    for (unsigned w = 0; w < sizeof pieces / sizeof pieces[0]; w++) {
        unsigned frames = 0;
        zb_stream_reset(&stream);
        turn(pieces[w]); /* warm */
        double began = nanoseconds();
        for (unsigned k = 0; k < TURNS; k++)
            frames += turn(pieces[w]);
        double took = nanoseconds() - began;
        if (frames != TURNS * FRAMES) {
            fprintf(stderr, "bench: frames in pieces of %u\n", pieces[w]);
            return 1;
        }
        printf("%s\tframes, pieces of %u\t%u\t%.0f\n", count > 1 ? words[1] : "now", pieces[w], frames, took);
    }
    return 0;
}
