/* Bytes as they arrive: runs of frames, some with a damaged header, are cut at random and given to zb_stream_take piece by
   piece; what comes is held to what zb_split finds in the uncut run. Every field of each answer, every byte of out, the
   piece and the guard bytes around all that is lent are compared, and after a refusal that took nothing the whole stream. */
#include "dice.h"
#include "lent.h"
#include "zilborteka.h"
#include <stddef.h>
#include <stdio.h>
#include <stdlib.h>
#include <string.h>

enum {
    FRAMES = 60000, /* at least so many, all runs together */
    MOST_FRAME = 260,
    HEADER = 6, /* the header is judged at so many bytes */
    MOST_RUN = 12000
};

static unsigned long frames, pieces, calls, wrong;

/* How often each situation was met: the run fails where one was missed. */
static struct {
    unsigned long bad_headers, short_buffers, short_when_refused, empty_pieces, refused_again, cut_in_header, ends_at_a_frame, kept_259, whole, joined;
} met;

#define EXPECT(condition) expect(condition, #condition, __LINE__)

static void expect(bool good, const char *what, int line)
{
    if (good)
        return;
    if (wrong++ < 20)
        printf("DIFFERENCE: line %d: %s (frame %lu, call %lu)\n", line, what, frames, calls);
}

/* ONE CALL */

static lent memory, given, out;

static zb_stream *stream(void)
{
    return (zb_stream *)(void *)memory.at;
}

static bool is_answer(zb_taken a, uint32_t refusal, uint32_t outcome, uint32_t length, uint32_t taken)
{
    return a.refusal == refusal && a.outcome == outcome && a.length == length && a.taken == taken;
}

/* Lends the piece and a buffer of `room` bytes, and looks at what no call may change. */
static zb_taken take(const uint8_t *piece, size_t size, size_t room)
{
    static uint8_t before[sizeof(zb_stream)];
    lent_place(&given, size, below(2), (uint8_t)dice());
    memcpy(given.at, piece, size);
    lent_place(&out, room, below(2), (uint8_t)dice());
    memcpy(before, stream(), sizeof before);
    zb_taken a = zb_stream_take(stream(), given.at, size, out.at, room);
    calls++;
    EXPECT(memcmp(given.at, piece, size) == 0);
    EXPECT(lent_is_guarded(&given) && lent_is_guarded(&out) && lent_is_guarded(&memory));
    for (size_t k = a.length; k < room; k++)
        if (out.at[k] != out.fill) {
            EXPECT(!"a byte of out beyond the frame was written");
            break;
        }
    if (a.refusal && a.taken == 0)
        EXPECT(memcmp(before, stream(), sizeof before) == 0);
    EXPECT(stream()->count <= MOST_FRAME - 1 && stream()->mark <= 1);
    return a;
}

static void reset(void)
{
    lent_place(&memory, sizeof(zb_stream), 4 * below(2), (uint8_t)dice());
    for (size_t k = 0; k < sizeof(zb_stream); k++)
        memory.at[k] = (uint8_t)dice();
    EXPECT(is_answer(zb_stream_reset(stream()), 0, ZB_DONE, 0, 0));
    EXPECT(stream()->count == 0 && stream()->mark == 0 && lent_is_guarded(&memory));
}

/* RUNS */

static uint8_t run[MOST_RUN];
static size_t size;

static void add_frame(size_t length)
{
    for (size_t k = 0; k < length; k++)
        run[size + k] = (uint8_t)dice();
    run[size + 2] = 0;
    run[size + 3] = 0;
    run[size + 4] = 0;
    run[size + 5] = (uint8_t)(length - HEADER);
    size += length;
}

static void damage(uint8_t *header)
{
    static const uint16_t lengths[] = {0, 1, 255, 256, 65535};
    uint16_t length;
    switch (below(3)) {
    case 0:
        header[2 + below(2)] = (uint8_t)(1 + below(255));
        break;
    case 1:
        header[4] = (uint8_t)(1 + below(255));
        break;
    default:
        length = lengths[below(5)];
        header[4] = (uint8_t)(length >> 8);
        header[5] = (uint8_t)length;
    }
}

static size_t frame_size(void)
{
    return one_in(3) ? 8 + below(253) : one_in(10) ? (one_in(2) ? 8 : MOST_FRAME) : 12;
}

/* frames; then nothing, a part of a frame, or a damaged header with anything behind it */
static void make_run(void)
{
    size = 0;
    for (uint32_t n = below(40); n > 0; n--)
        add_frame(frame_size());
    size_t start = size;
    add_frame(frame_size());
    if (one_in(2)) {
        damage(run + start);
        add_frame(frame_size());
    } else {
        size = start + below((uint32_t)(size - start));
    }
}

/* a piece of what is left: none, a byte or two, about a frame, or much; in half of the runs as the run has it, else by turns */
static uint32_t most_of_run;

static uint32_t most_of_piece(void)
{
    static const uint32_t most[] = {1, 2, 3, 8, 13, 40, 300, 5000};
    return most[below(8)];
}

static size_t piece_size(size_t left)
{
    size_t n = below((most_of_run ? most_of_run : most_of_piece()) + 1);
    return n < left ? n : left;
}

/* what splitting says of the run behind the first `at` bytes */
static zb_answer uncut(size_t at)
{
    return zb_split(run + at, size - at);
}

static void short_buffer(const uint8_t *piece, size_t length)
{
    met.short_buffers++;
    EXPECT(is_answer(take(piece, length, below(ZB_FRAME_BUFFER)), ZB_REFUSED_BUFFER, 0, 0, 0));
}

/* One connection: `at` bytes were taken, the frame that is next starts at `start`. */
static void one_run(void)
{
    size_t at = 0, start = 0;
    make_run();
    most_of_run = one_in(2) ? most_of_piece() : 0;
    reset();
    while (at < size || one_in(3)) {
        size_t end = at + piece_size(size - at);
        zb_taken a;
        pieces++;
        if (end == at)
            met.empty_pieces++;
        do {
            if (one_in(9))
                short_buffer(run + at, end - at);
            zb_answer next = zb_split(run + start, end - start); /* what has come, with this piece */
            size_t kept = at - start;
            a = take(run + at, end - at, ZB_FRAME_BUFFER + below(3));
            if (next.outcome == ZB_FRAME) {
                zb_answer same = uncut(start);
                EXPECT(same.outcome == ZB_FRAME && same.length == next.length);
                EXPECT(is_answer(a, 0, ZB_FRAME, next.length, next.length - (uint32_t)kept));
                EXPECT(memcmp(out.at, run + start, next.length) == 0);
                EXPECT(stream()->count == 0);
                *(kept ? &met.joined : &met.whole) += 1;
                start += next.length;
                at = start;
                frames++;
                if (at == end)
                    met.ends_at_a_frame++;
            } else if (next.refusal) {
                EXPECT(uncut(start).refusal == ZB_REFUSED_FRAME && kept < HEADER);
                EXPECT(is_answer(a, ZB_REFUSED_FRAME, 0, 0, HEADER - (uint32_t)kept));
                EXPECT(stream()->count == HEADER && memcmp(stream()->bytes, run + start, HEADER) == 0 && stream()->mark == 1);
                met.bad_headers++;
                for (size_t k = below(5) + 1; k > 0; k--) { /* it stays refused, whatever comes */
                    size_t rest = piece_size(size - end);
                    EXPECT(is_answer(take(run + end, rest, ZB_FRAME_BUFFER), ZB_REFUSED_FRAME, 0, 0, 0));
                    short_buffer(run + end, rest);
                    met.short_when_refused++;
                    met.refused_again++;
                }
                return;
            } else {
                EXPECT(next.outcome == ZB_MORE && is_answer(a, 0, ZB_MORE, 0, (uint32_t)(end - at)));
                at = end;
                EXPECT(stream()->count == at - start && memcmp(stream()->bytes, run + start, at - start) == 0);
                if (at > start && at - start < HEADER)
                    met.cut_in_header++;
                if (at - start == MOST_FRAME - 1)
                    met.kept_259++;
            }
        } while (a.outcome == ZB_FRAME);
    }
    EXPECT(uncut(start).outcome == ZB_MORE);
}

/* BY HAND */

static void by_hand(void)
{
    static const uint8_t read[] = {0x12, 0x34, 0, 0, 0, 6, 1, 3, 4, 0, 0, 1};
    static const uint8_t bad[] = {0, 0, 0, 1, 0, 6, 1, 3};
    uint8_t longest[MOST_FRAME];
    EXPECT(sizeof(zb_stream) == 268 && offsetof(zb_stream, count) == 260 && offsetof(zb_stream, mark) == 264);
    EXPECT(sizeof(zb_taken) == 16 && offsetof(zb_taken, outcome) == 4 && offsetof(zb_taken, length) == 8 && offsetof(zb_taken, taken) == 12);

    reset();
    EXPECT(is_answer(take(read, 5, ZB_FRAME_BUFFER), 0, ZB_MORE, 0, 5));
    EXPECT(is_answer(take(read + 5, 1, ZB_FRAME_BUFFER - 1), ZB_REFUSED_BUFFER, 0, 0, 0));
    EXPECT(is_answer(take(read + 5, 0, ZB_FRAME_BUFFER), 0, ZB_MORE, 0, 0));
    EXPECT(is_answer(take(read + 5, 7, ZB_FRAME_BUFFER), 0, ZB_FRAME, 12, 7));
    EXPECT(memcmp(out.at, read, sizeof read) == 0);
    EXPECT(is_answer(take(read, 0, ZB_FRAME_BUFFER), 0, ZB_MORE, 0, 0)); /* it is not handed out twice */

    EXPECT(is_answer(take(bad, 5, ZB_FRAME_BUFFER), 0, ZB_MORE, 0, 5));
    EXPECT(is_answer(take(bad + 5, 1, ZB_FRAME_BUFFER), ZB_REFUSED_FRAME, 0, 0, 1)); /* at its sixth byte */
    EXPECT(is_answer(take(bad + 6, 0, ZB_FRAME_BUFFER), ZB_REFUSED_FRAME, 0, 0, 0)); /* the mark stays */
    EXPECT(is_answer(take(read, sizeof read, ZB_FRAME_BUFFER), ZB_REFUSED_FRAME, 0, 0, 0));
    EXPECT(is_answer(take(read, sizeof read, 0), ZB_REFUSED_BUFFER, 0, 0, 0));
    EXPECT(is_answer(zb_stream_reset(stream()), 0, ZB_DONE, 0, 0));
    EXPECT(is_answer(take(read, sizeof read, ZB_FRAME_BUFFER), 0, ZB_FRAME, 12, 12));
    EXPECT(is_answer(take(bad, sizeof bad, ZB_FRAME_BUFFER), ZB_REFUSED_FRAME, 0, 0, 6));

    memset(longest, 7, sizeof longest);
    memcpy(longest, read, HEADER);
    longest[5] = 254;
    reset();
    EXPECT(is_answer(take(longest, 259, ZB_FRAME_BUFFER), 0, ZB_MORE, 0, 259));
    EXPECT(is_answer(take(longest + 259, 1, ZB_FRAME_BUFFER), 0, ZB_FRAME, 260, 1));
    EXPECT(memcmp(out.at, longest, sizeof longest) == 0);
}

int main(int count, char **words)
{
    dice_seed(count > 1 ? strtoull(words[1], NULL, 10) : 1);
    memory = lent_make(sizeof(zb_stream) + 4);
    given = lent_make(MOST_RUN + 1);
    out = lent_make(MOST_FRAME + 4);
    by_hand();
    while (frames < FRAMES)
        one_run();
    printf("stream tests: %lu frames, %lu lay whole in a piece and %lu did not; %lu bad headers, %lu short buffers\n", frames, met.whole, met.joined,
           met.bad_headers, met.short_buffers);
    EXPECT(met.bad_headers && met.short_buffers && met.short_when_refused && met.empty_pieces && met.refused_again);
    EXPECT(met.cut_in_header && met.ends_at_a_frame && met.kept_259 && met.whole && met.joined);
    printf("stream tests: %lu pieces, %lu calls, %lu differences\n", pieces, calls, wrong);
    return wrong != 0;
}
