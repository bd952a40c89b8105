/* An ordinary proxy core in C, written from document 01 and the requests of document 02 alone: what the archive is held against, call by call.
   The calls take the arguments of include/zilborteka.h and give the same report; only the state is the model's own.
   Of the header it takes the names of numbers besides: sizes, outcomes, refusals. */
#ifndef MODEL_H
#define MODEL_H
#include "zilborteka.h"
#include <stdbool.h>

#define MODEL_LIVE ZB_PLACES
#define MODEL_PARTIES (ZB_PARTY_PLACES / ZB_PLACES)
#define MODEL_CACHED 64

typedef struct {
    uint32_t client;
    uint16_t id; /* the client's own transaction id */
} model_party;

enum model_asked {
    ASKED_READ, ASKED_SINGLE_WRITE, ASKED_MULTIPLE_WRITE, ASKED_MASK_WRITE, ASKED_READ_AND_WRITE, ASKED_OTHER
};

typedef struct {
    bool live;
    uint16_t id; /* the proxy id */
    uint8_t unit;
    uint8_t function;
    enum model_asked asked;
    bool bits;         /* of coils or discrete inputs */
    uint32_t start;    /* a single write, 22: its address; 23: of its write part; other: 0 */
    uint32_t quantity; /* a single write, 22: 1; 23: of its write part; other: 0 */
    uint32_t value;    /* of a single write */
    uint32_t read_start, read_quantity; /* 23: of its read part */
    uint8_t pdu[7];    /* 22: the request's, which is its reply's */
    bool reencoded;    /* a 06 whose value became digits at its issue */
    bool closed;       /* a read that nothing joins any more (#102) */
    uint64_t deadline;
    uint32_t parties;
    model_party party[MODEL_PARTIES]; /* in joining order */
} model_entry;

/* A place of the cache (#107): a reply that may be shown again. */
typedef struct {
    bool filled;
    uint8_t unit; /* what was asked: its key */
    uint8_t function;
    uint32_t start;
    uint32_t quantity;
    uint64_t filled_at;
    uint32_t life;
    uint32_t length; /* of the frame that the reply wrote */
    uint32_t partial;
    uint32_t value;
    uint8_t frame[ZB_FRAME_BUFFER];
} model_cached;

typedef struct {
    zb_settings settings;
    model_entry entries[MODEL_LIVE];
    model_cached cache[MODEL_CACHED];
    uint16_t cursor;
    uint32_t attached; /* bit n for client n */
    uint64_t clock;
} model_state;

zb_read   model_settings_read(const uint8_t *text, size_t text_len);
zb_answer model_settings_write(zb_settings from, uint8_t *text, size_t text_len);
zb_answer model_fresh(model_state *st, zb_settings from);
zb_answer model_attach(model_state *st, uint32_t client);
zb_answer model_detach(model_state *st, uint32_t client);
zb_answer model_request(model_state *st, uint32_t client, uint64_t now,
                        const uint8_t *frame, size_t frame_len,
                        uint8_t *out, size_t out_len);
zb_answer model_reply(model_state *st, uint64_t now,
                      const uint8_t *frame, size_t frame_len,
                      uint8_t *out, size_t out_len,
                      uint16_t *list, size_t list_len);
zb_answer model_tick(model_state *st, uint64_t now,
                     uint8_t *out, size_t out_len,
                     uint16_t *list, size_t list_len);
zb_answer model_link_lost(model_state *st);
zb_next   model_next_deadline(const model_state *st);
zb_answer model_split(const uint8_t *run, size_t run_len);
#endif
