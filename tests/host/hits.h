/* The ledger of hits (#107), kept from calls and outcomes alone: which reply a hit may show, and when there must be one. */
#ifndef HITS_H
#define HITS_H
#include "ledger.h"

typedef struct {
    uint8_t unit, function;
    uint16_t start, quantity;
} hits_key;

/* A reply to a read of registers, some of them in a tag with a ttl. */
typedef struct {
    hits_key key;
    uint64_t time;
    uint32_t life;     /* the smallest ttl above 0 of the tags in the range */
    uint32_t largest;  /* the largest of them */
    uint32_t unfit;    /* why it does not fill a place, a bit for each reason; 0: it does */
    uint32_t place;    /* that it took */
    bool late, empty;  /* it came past the deadline; nobody waited for it */
    uint32_t writes;   /* so many of the ledger's writes came before it */
    uint32_t looked;   /* so many came before it or do not meet its read */
    const ledger_write *spoilt; /* the first one behind it that does */
    uint32_t partial, value, length;
    uint8_t bytes[ZB_FRAME_BUFFER]; /* as it was written */
} hits_reply;

/* The settings are the ledger's. */
void hits_fresh(void);
/* A reply that answers the entry; `closed`: nothing joined its read any more. */
void hits_answered(const ledger_entry *e, uint64_t now, const uint8_t *frame, zb_answer a, bool closed);
/* A request that is not refused and did not get exception 02 or 03: it is a hit exactly if it must be, and shows what it
   must. */
void hits_request(uint64_t now, const uint8_t *frame, size_t size, zb_answer a);
void hits_refused(const uint8_t *frame, size_t size, zb_answer a);
/* A request that got an exception; `by_tag`: for a strict tag (#108), or to a 22 for any (#109). */
void hits_excepted(const uint8_t *frame, size_t size, bool by_tag);
void hits_link_lost(void);
/* One of the last replies, the last for 0; NULL where there are not so many. */
const hits_reply *hits_recent(uint32_t back);
/* What the read in `frame` finds in its place, fresh or expired; NULL for nothing. */
const hits_reply *hits_found(const uint8_t *frame, size_t size);
#endif
