/* Two screens and a controller, without sockets: bytes as they arrive, the whole cycle of calls, and what goes where. */
#include "zilborteka.h"
#include <stdio.h>
#include <string.h>

static zb_state device;
static zb_stream from_controller; /* one for each connection */
static uint8_t frame[ZB_FRAME_BUFFER]; /* a received frame; out is what is sent */
static uint8_t out[ZB_FRAME_BUFFER];
static uint16_t list[ZB_LIST_BUFFER];

static const char *const names[] = {
    "refused:", "done", "issued", "joined", "exception", "answered", "timed out", "nothing due", "frame", "more needed",
    "hit",
};

/* A level of four digits that nobody may write anything else to, a counter of eight, and a drive's torque: a sign and
   three digits, good for half a second. */
static const char text[] = "version=4\ntimeout=3000\njoin=1\ntags=3\naddr=1024\nwidth=16\nsign=0\nttl=0\nstrict=1\n"
                           "addr=1026\nwidth=32\nsign=0\nttl=0\nstrict=0\n"
                           "addr=1028\nwidth=16\nsign=1\nttl=500\nstrict=0\n";

/* docs/HOST.md has what a host does with each. */
static const char *refusal(uint32_t number)
{
    switch (number) {
    case ZB_REFUSED_BUFFER:
        return "a buffer is too short";
    case ZB_REFUSED_CLIENT:
        return "not an attached client";
    case ZB_REFUSED_TIME:
        return "the clock went back";
    case ZB_REFUSED_FRAME:
        return "its header is wrong";
    case ZB_REFUSED_FUNCTION:
        return "function 0 or 128 to 255";
    case ZB_REFUSED_LENGTH:
        return "the wrong length for its function";
    case ZB_REFUSED_UNKNOWN:
        return "its id is not live";
    case ZB_REFUSED_MISMATCH:
        return "it does not answer the request with its id";
    case ZB_REFUSED_ATTACHED:
        return "attached already";
    case ZB_REFUSED_SETTINGS:
        return "wrong settings";
    default:
        return "a number that the header does not have";
    }
}

static void bytes(const uint8_t *frame, uint32_t length)
{
    for (uint32_t k = 0; k < length; k++)
        printf(" %02X", frame[k]);
    printf("\n");
}

/* What a call reports, and the frame that it wrote. */
static void told(const char *call, zb_answer a)
{
    printf("%-28s %s", call, names[a.outcome]);
    if (a.refusal)
        printf(" %s", refusal(a.refusal));
    printf("%s", a.length ? ":" : "\n");
    if (a.length)
        bytes(out, a.length);
}

/* The host lays each party's own id over the first two bytes and sends the frame to it. */
static void deliver(zb_answer a)
{
    for (uint32_t k = 0; k < a.parties; k++) {
        out[0] = (uint8_t)(list[2 * k + 1] >> 8);
        out[1] = (uint8_t)list[2 * k + 1];
        printf("  to screen %u:", (unsigned)list[2 * k]);
        bytes(out, a.length);
    }
}

/* Sleeps until the earliest deadline has come, or for good where nothing is live, and then ticks until nothing is due.
   Whatever comes in the meantime ends a real host's sleep: then it looks again. */
static void slept(void)
{
    zb_next next = zb_next_deadline(&device);
    printf("%u live", (unsigned)next.live);
    if (next.live == 0) {
        printf(": nothing to wait for\n");
        return;
    }
    printf(", asleep until %llu\n", (unsigned long long)next.time);
    for (;;) {
        zb_answer a = zb_tick(&device, next.time, out, sizeof out, list, ZB_LIST_BUFFER);
        told("  tick", a);
        if (a.outcome != ZB_TIMED_OUT)
            return;
        deliver(a);
    }
}

static void replied(const char *call, uint64_t now, uint32_t length)
{
    zb_answer a = zb_reply(&device, now, frame, length, out, sizeof out, list, ZB_LIST_BUFFER);
    told(call, a);
    deliver(a);
}

/* What one receive call of the controller's connection gave, of any size: each frame that it completes is a reply. Where
   false comes back the connection is closed, and its stream reset for the next. */
static int received(const char *call, uint64_t now, const uint8_t *piece, size_t left)
{
    zb_taken a = zb_stream_take(&from_controller, piece, left, frame, sizeof frame);
    printf("%-28s %u bytes\n", call, (unsigned)left);
    while (a.outcome == ZB_FRAME) {
        replied("  a frame is whole", now, a.length);
        piece += a.taken;
        left -= a.taken;
        a = zb_stream_take(&from_controller, piece, left, frame, sizeof frame);
    }
    if (a.refusal)
        printf("  refused: %s\n", refusal(a.refusal));
    return a.refusal == 0;
}

int main(void)
{
    static const uint8_t read_3[] = {0x12, 0x34, 0, 0, 0, 6, 1, 3, 4, 0, 0, 1};
    static const uint8_t read_5[] = {0x00, 0x07, 0, 0, 0, 6, 1, 3, 4, 0, 0, 1};
    static const uint8_t reply[] = {0, 0, 0, 0, 0, 5, 1, 3, 2, 0x12, 0x34};
    static const uint8_t read_torque[] = {0x12, 0x35, 0, 0, 0, 6, 1, 3, 4, 4, 0, 1};
    static const uint8_t read_again[] = {0x00, 0x08, 0, 0, 0, 6, 1, 3, 4, 4, 0, 1};
    static const uint8_t torque[] = {0, 1, 0, 0, 0, 5, 1, 3, 2, 0xF0, 0x12}; /* minus 12: FF F4 in binary */
    static const uint8_t write_level[] = {0x12, 0x36, 0, 0, 0, 6, 1, 6, 4, 0, 0x27, 0x10}; /* 10,000 has five digits */
    static const uint8_t noise[] = {0, 0, 0, 9, 0, 5};

    zb_read settings = zb_settings_read((const uint8_t *)text, strlen(text));
    told("settings text read", settings.answer);
    told("fresh", zb_fresh(&device, &settings.settings));
    told("screen 3 attaches", zb_attach(&device, 3));
    told("screen 5 attaches", zb_attach(&device, 5));
    told("screen 3 reads 1024 at 100", zb_request(&device, 3, 100, read_3, sizeof read_3, out, sizeof out));
    told("screen 5 reads 1024 at 101", zb_request(&device, 5, 101, read_5, sizeof read_5, out, sizeof out));
    zb_stream_reset(&from_controller);
    received("half of a reply arrives", 149, reply, 5);
    received("the other half", 150, reply + 5, sizeof reply - 5);
    received("the same reply again", 151, reply, sizeof reply);
    told("screen 3 reads 1028 at 160", zb_request(&device, 3, 160, read_torque, sizeof read_torque, out, sizeof out));
    received("the drive's torque arrives", 161, torque, sizeof torque);
    /* within half a second of that reply it is shown again: the frame is for screen 5 alone, and nothing goes out */
    told("screen 5 reads 1028 at 190", zb_request(&device, 5, 190, read_again, sizeof read_again, out, sizeof out));
    /* nothing goes out: the exception is for screen 3 */
    told("screen 3 writes 10000 at 195", zb_request(&device, 3, 195, write_level, sizeof write_level, out, sizeof out));
    told("screen 3 reads 1024 at 200", zb_request(&device, 3, 200, read_3, sizeof read_3, out, sizeof out));
    told("tick at 3199", zb_tick(&device, 3199, out, sizeof out, list, ZB_LIST_BUFFER));
    slept();
    slept();
    told("screen 5 leaves", zb_detach(&device, 5));
    if (!received("a bad header arrives", 3201, noise, sizeof noise))
        zb_stream_reset(&from_controller);
    zb_answer a = zb_link_lost(&device);
    told("the link is lost", a);
    printf("  screens to disconnect, as bits: 0x%08X\n", (unsigned)a.set);
    return 0;
}
