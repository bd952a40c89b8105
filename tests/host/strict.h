/* The ledger of strict tags (#108) and of tags under 22 and 23 (#109), kept from calls and outcomes alone: which writes get
   exception 03 for a tag, that no frame to the controller holds anything but digits of its kind at a strict one, and no 22
   reaches any; how many tags of a frame count as raw; and that what was written to a whole tag is read back. */
#ifndef STRICT_H
#define STRICT_H
#include "ledger.h"

/* From a fresh state on; the settings are the ledger's. */
void strict_fresh(void);
/* A request that is not refused. True: it got exception 03 for a strict tag, or as a 22 for any. */
bool strict_request(const uint8_t *frame, zb_answer a);
/* A read that is joined. */
void strict_joined(const ledger_entry *e);
/* A reply that answers the entry. */
void strict_reply(const ledger_entry *e, const uint8_t *frame, zb_answer a);
/* What was last sent to the register by a write of a value in its tag's range over the whole tag; false: nothing. */
bool strict_sent(uint32_t address, uint32_t *word);
#endif
