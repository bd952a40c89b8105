/* The ledger of demand 3, kept from calls and outcomes alone: where every accepted request went. */
#ifndef LEDGER_H
#define LEDGER_H
#include "zilborteka.h"
#include <stdbool.h>

typedef struct {
    uint32_t serial;
    uint32_t client;
    uint16_t id;
    uint64_t accepted_at;
} ledger_party;

/* A proxy id that was issued and has not ended, with what was asked under it. */
typedef struct {
    uint16_t id;
    uint8_t unit, function;
    uint16_t start, quantity; /* bytes 8 to 11 of the request, 0 where it is shorter: of a 23 its read part */
    uint16_t write_start, write_quantity; /* bytes 12 to 15 of a 23: its write part */
    uint8_t written[14], sent[14]; /* a 06 or 22 as its client wrote it, and as it was sent */
    uint64_t issued_at;
    uint32_t issue; /* its number among the issues */
    uint32_t ever;  /* parties that it ever had */
    uint32_t struck; /* clients struck out of it, bit n for client n */
    bool mismatched; /* a reply came that does not answer it */
    uint32_t parties;
    ledger_party party[ZB_PARTY_PLACES / ZB_PLACES];
} ledger_entry;

/* A write or an "other" that was issued, with what it wrote to: first to last, and of "other" everything. */
typedef struct {
    uint32_t issue; /* its number among the issues */
    uint8_t unit, function;
    uint32_t first, last;
    uint32_t read_first, read_last; /* of a 23: what it read */
} ledger_write;

/* What calls and outcomes have told since the fresh state. */
typedef struct {
    zb_settings settings;
    uint32_t timeout, join;
    uint64_t clock;
    uint32_t attached;
    uint32_t lives;
    ledger_entry live[ZB_PLACES];
    uint32_t issues;
    uint32_t writes; /* how many of them are writes or "other" */
    uint16_t last_id; /* of the last issue */
    uint64_t accepted, by_reply, by_timeout, by_leaving, by_lost_link;
} ledger_book;

extern ledger_book ledger;

void ledger_open(uint64_t most_calls);
/* From a valid value on. */
void ledger_fresh(const zb_settings *settings);
void ledger_attach(uint32_t client, zb_answer a);
void ledger_detach(uint32_t client, zb_answer a);
void ledger_request(uint32_t client, uint64_t now, const uint8_t *frame, size_t size, zb_answer a);
void ledger_reply(uint64_t now, const uint8_t *frame, zb_answer a);
void ledger_tick(uint64_t now, zb_answer a);
void ledger_link_lost(zb_answer a);
/* accepted = by reply + by timeout + by leaving + by lost link + held, and live ids differ. */
void ledger_balance(void);
/* After ticks until nothing is due: nothing accepted a full timeout ago is held. */
void ledger_drained(uint64_t now);
void ledger_print(void);
/* #102: the write or "other" has the read's unit, and is "other", or of its table with an address in its range. */
bool ledger_meets(const ledger_write *w, uint8_t unit, uint8_t function, uint32_t start, uint32_t quantity);
/* Of the writes and "other" requests that were issued, in their order, the one with this number, from 0. */
const ledger_write *ledger_written(uint32_t n);
#endif
