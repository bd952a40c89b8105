/* The C boundary of the register proxy. Written by tools/fields.py from zilborteka.h.in.
   Every call may be given any bytes, any client number and any time, and a state that these calls made.
   No pointer is NULL, even with length 0, and no length is longer than the memory behind its pointer. State, frame, out
   and list do not overlap, nor do settings and state, nor settings and text. The state is aligned to 8 bytes, settings
   to 4, a list to 2. One state is used by one thread at a time. zb_fresh comes first. Of the two archives that have these
   functions libzilborteka.a uses SSE registers and the red zone of the System V x86-64 convention;
   libzilborteka-kernel.a uses neither: it is for code that is built with -mno-sse -mno-red-zone. */
#ifndef ZILBORTEKA_H
#define ZILBORTEKA_H
#include <stddef.h>
#include <stdint.h>

#ifdef __cplusplus
#define ZB_STATIC_ASSERT static_assert
extern "C" {
#else
#define ZB_STATIC_ASSERT _Static_assert
#endif

#define ZB_CLIENTS 32        /* a client number is below this */
#define ZB_PLACES 256        /* live requests */
#define ZB_PARTY_PLACES 8192 /* parties of all live requests; of one: ZB_PARTY_PLACES / ZB_PLACES */
#define ZB_MOST_TAGS 256
#define ZB_CACHE_PLACES 64   /* replies that are cached */
#define ZB_CACHE_NUMBERS 193 /* what is kept of them beside their bytes: three numbers of each, and a bound */
#define ZB_CACHE_BYTES 16384 /* bytes of all cached replies; of one: ZB_CACHE_BYTES / ZB_CACHE_PLACES */
#define ZB_FRAME_BUFFER 260  /* bytes that a frame buffer `out` has at least */
#define ZB_LIST_BUFFER 64    /* numbers that a list has at least */
#define ZB_MOST_TEXT 11816   /* bytes of the longest settings text: no value needs more to be written */

/* One device's state, which only these calls make and change; the host owns the memory and lends it for each call.
   The fields are spelled out so that a host can place a device statically. They are not for the host to read or
   write. A word of `asked` has unit and function in its highest 16 bits; below them a 22 keeps its address and both
   masks, a 23 where and how many registers it reads and writes. */
typedef struct zb_state {
    uint32_t ids[ZB_PLACES];             /* a live place: its proxy id plus 1; 0: free */
    uint64_t asked[ZB_PLACES];           /* what was asked, in one word; bit 32 of a read's: nothing joins it any more */
    uint8_t  callers[ZB_PLACES];         /* the client that it was issued for */
    uint64_t deadlines[ZB_PLACES];
    uint8_t  counts[ZB_PLACES];          /* parties of the entry */
    uint8_t  clients[ZB_PARTY_PLACES];   /* ZB_PARTY_PLACES / ZB_PLACES to an entry */
    uint16_t originals[ZB_PARTY_PLACES]; /* the clients' own ids, in the same places */
    uint32_t top;                        /* no place from here on is live */
    uint16_t cursor;                     /* the next proxy id to try */
    uint32_t attached;                   /* bit n for client n */
    uint64_t clock;
    uint32_t timeout;
    uint32_t join;
    uint32_t tag_count;                  /* how many tags */
    uint64_t tag_words[ZB_MOST_TAGS];    /* a word a tag: address, kind, ttl, strict; in the first whether any is */
    uint64_t cache[ZB_CACHE_NUMBERS];    /* of each cached reply what was asked, when it came, life, count; a bound */
    uint8_t  shown[ZB_CACHE_BYTES];      /* its bytes that are shown again, ZB_CACHE_BYTES / ZB_CACHE_PLACES to it */
} zb_state;

#define ZB_STATE_SIZE 50224
ZB_STATIC_ASSERT(sizeof(zb_state) == ZB_STATE_SIZE, "zb_state has the size that the core was proved for");

size_t zb_state_size(void);

typedef struct {
    uint32_t timeout;     /* 100 to 60000 ms */
    uint32_t join;        /* 0 or 1 */
    uint32_t tags;        /* 0 to ZB_MOST_TAGS: how many of the places below count */
    uint16_t addr[ZB_MOST_TAGS];
    uint16_t width[ZB_MOST_TAGS];  /* 16 or 32 */
    uint16_t sign[ZB_MOST_TAGS];   /* 0 or 1; 1 with width 16 alone: the top nibble is 0 for plus and F for minus, three
                                      digits follow, and the binary form is two's complement, -999 to 999 */
    uint16_t ttl[ZB_MOST_TAGS];    /* 0 to 60000 ms: how long what was read of the tag may be shown again; 0: not */
    uint16_t strict[ZB_MOST_TAGS]; /* 0 or 1; 1: a write that covers part of the tag, or gives it a value outside its
                                      range, gets exception 03 and does not go out */
} zb_settings;

ZB_STATIC_ASSERT(sizeof(zb_settings) == 2572, "zb_settings has the size that the core was proved for");

/* What a call reports. A field that a call does not speak of is 0. */
typedef struct {
    uint32_t refusal;  /* 0, or ZB_REFUSED_... */
    uint32_t line;     /* ZB_REFUSED_SETTINGS on reading: the first wrong line */
    uint32_t outcome;  /* ZB_DONE to ZB_HIT, 0 on a refusal */
    uint32_t length;   /* bytes written to the frame buffer or text buffer (split: of the first frame) */
    uint32_t parties;  /* pairs (client, original id) written to the list */
    uint32_t partial;  /* tags left raw for partial cover */
    uint32_t value;    /* tags left raw for their value */
    uint32_t set;      /* link lost: the clients that were attached, bit n for client n */
    uint32_t id;       /* issued, joined, answered, timed out: the proxy id of the entry */
    uint32_t code;     /* ZB_EXCEPTION: its code, 2 to 4; a timeout's 0B stands in the frame alone, and this is 0 */
} zb_answer;

enum {
    ZB_DONE = 1,        /* fresh, read, write, attach, detach, link lost: done */
    ZB_ISSUED = 2,      /* request: the frame for the controller is written */
    ZB_JOINED = 3,      /* request: it waits with another's read, which no write has met since; nothing is written */
    ZB_EXCEPTION = 4,   /* request: an exception for the caller is written */
    ZB_ANSWERED = 5,    /* reply: the frame and its list are written */
    ZB_TIMED_OUT = 6,   /* tick: the exception 0B and its list are written */
    ZB_NOTHING_DUE = 7, /* tick */
    ZB_FRAME = 8,       /* split: the first `length` bytes of the run are a frame; stream: a frame is written */
    ZB_MORE = 9,        /* split, stream: more bytes are needed */
    ZB_HIT = 10         /* request: answered from the cache; the frame for the caller is written, with length and counts
                           of the reply that it shows again; nothing goes to the controller */
};

/* Refusals: the lowest that applies is told. It changes no state and no byte, except that of zb_fresh and the
   ZB_REFUSED_FRAME that sets a stream's mark (below). */
enum {
    ZB_REFUSED_BUFFER = 1,   /* a lent output buffer is shorter than stated below */
    ZB_REFUSED_CLIENT = 2,   /* the client number is not below ZB_CLIENTS, or not attached (attach: only the first) */
    ZB_REFUSED_TIME = 3,     /* the time is above 2^63 - 1, or below the state's clock */
    ZB_REFUSED_FRAME = 4,    /* request or reply: size not 8 to 260, protocol not 0, or length field not size - 6;
                                split, stream: the header is wrong */
    ZB_REFUSED_FUNCTION = 5, /* request: function 0 or 128 to 255 */
    ZB_REFUSED_LENGTH = 6,   /* the PDU's length is wrong for request 01 to 06, 15, 16, 22 or 23 */
    ZB_REFUSED_UNKNOWN = 7,  /* the reply's id is not live */
    ZB_REFUSED_MISMATCH = 8, /* the reply's id is live but it does not answer that request; the entry stays */
    ZB_REFUSED_ATTACHED = 9, /* attach of an attached client */
    ZB_REFUSED_SETTINGS = 10 /* the settings text is wrong, with its first wrong line; or a settings value is invalid,
                                with line 0 */
};

typedef struct { zb_answer answer; zb_settings settings; } zb_read;

/* Lengths: `out` has at least ZB_FRAME_BUFFER bytes and a list at least ZB_LIST_BUFFER numbers, whatever would be
   written; what zb_settings_write is lent is as long as the text. Whatever is lent is used during the call alone; bytes
   and numbers beyond those written stay. */

/* Texts of version 1, which have no sign lines, are read as unsigned; those of versions 1 and 2, which have no ttl lines,
   with ttl 0; those of versions 1 to 3, which have no strict lines, as not strict. */
zb_read   zb_settings_read(const uint8_t *text, size_t text_len);
/* The text is of version 4, whatever version the value was read from. Settings are lent for the call alone and never
   written; they are aligned to 4 bytes. */
zb_answer zb_settings_write(const zb_settings *from, uint8_t *text, size_t text_len);
/* An invalid value: ZB_REFUSED_SETTINGS, and the state is made nevertheless, for timeout 3000, join 1 and no tags.
   Whatever the value, nobody is attached afterwards, nothing is live or cached, and ids are issued from 0 on: the old
   link's replies must not be given to it. */
zb_answer zb_fresh(zb_state *st, const zb_settings *from);
zb_answer zb_attach(zb_state *st, uint32_t client);
zb_answer zb_detach(zb_state *st, uint32_t client);
zb_answer zb_request(zb_state *st, uint32_t client, uint64_t now,
                     const uint8_t *frame, size_t frame_len,
                     uint8_t *out, size_t out_len);
zb_answer zb_reply(zb_state *st, uint64_t now,
                   const uint8_t *frame, size_t frame_len,
                   uint8_t *out, size_t out_len,
                   uint16_t *list, size_t list_len);
zb_answer zb_tick(zb_state *st, uint64_t now,
                  uint8_t *out, size_t out_len,
                  uint16_t *list, size_t list_len);
/* Everyone is detached, and nothing is live or cached; ids and time go on. The former set is told. */
zb_answer zb_link_lost(zb_state *st);

/* When to tick: how many requests are live, and the earliest deadline of them, UINT64_MAX where none is. A tick that
   comes next and is not refused reports ZB_NOTHING_DUE before that time, and ends a request at or after it. (A time
   above 2^63 - 1 no tick reaches: it is refused, and a reply or a lost link ends what waits for it.) Nothing changes. */
typedef struct {
    uint64_t time;
    uint32_t live;
} zb_next;
zb_next   zb_next_deadline(const zb_state *st);

zb_answer zb_split(const uint8_t *run, size_t run_len);

/* One connection's received bytes, in whatever pieces they came: at most 259 bytes of an unfinished frame, and the mark
   of a bad header. It is aligned to 4 bytes; zb_stream_reset comes first, on any memory, and only these calls write to
   it. Stream, piece and out do not overlap. The fields are not for the host to read or write. */
typedef struct {
    uint8_t  bytes[260];
    uint32_t count; /* how many of them are kept */
    uint32_t mark;  /* 1: refused */
} zb_stream;

typedef struct {
    uint32_t refusal; /* 0, ZB_REFUSED_BUFFER or ZB_REFUSED_FRAME */
    uint32_t outcome; /* ZB_DONE (reset), ZB_FRAME, ZB_MORE, 0 on a refusal */
    uint32_t length;  /* ZB_FRAME: bytes written to the frame buffer */
    uint32_t taken;   /* bytes of the piece that were taken */
} zb_taken;

ZB_STATIC_ASSERT(sizeof(zb_stream) == 268, "zb_stream has the size that the core was proved for");

/* For a new connection. Never refused. */
zb_taken zb_stream_reset(zb_stream *s);
/* Takes of a piece, which may be empty, what belongs to the next frame, and writes that frame once it is whole.
   ZB_FRAME: call again with the rest of the piece, piece + taken. ZB_MORE: the whole piece was taken.
   ZB_REFUSED_BUFFER: nothing was taken or changed. ZB_REFUSED_FRAME in the call that brings the sixth byte of a bad
   header: the bytes up to it are taken and the stream is marked. In every later call, until the reset: nothing is taken
   or changed. */
zb_taken zb_stream_take(zb_stream *s, const uint8_t *piece, size_t piece_len, uint8_t *out, size_t out_len);

#ifdef __cplusplus
}
#endif
#endif
