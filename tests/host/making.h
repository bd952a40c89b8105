/* Makes what the generated calls are given: settings, their texts, requests, replies and received runs. */
#ifndef MAKING_H
#define MAKING_H
#include "ledger.h"
#include "zilborteka.h"

enum settings_kind {
    SETTINGS_OF_THE_DOCUMENT, SETTINGS_BARE, SETTINGS_NO_JOIN, SETTINGS_DENSE, SETTINGS_EDGES, SETTINGS_TOP,
    SETTINGS_SIGNED, SETTINGS_CACHED, SETTINGS_CACHED_NO_JOIN, SETTINGS_CACHED_LONG, SETTINGS_STRICT, SETTINGS_ANY,
    SETTINGS_INVALID /* with one change, mostly invalid */
};

zb_settings make_settings(enum settings_kind kind);
zb_settings spoil_settings(zb_settings s);
/* A settings text of any version, right or wrong; returns its length. */
size_t make_text(uint8_t *text);
/* A request; `pool` is how many different reads are asked, 0: anything. `wrong`: one in so many is spoilt. */
size_t make_request(uint8_t *frame, const zb_settings *s, uint32_t pool, uint32_t wrong);
/* A request about what is cached: a read of neighbouring tags, the same read again, or, one in `writes`, what drops it or
   nearly does. */
size_t make_cached_request(uint8_t *frame, const zb_settings *s, uint32_t writes, uint32_t wrong);
/* A write of tags, strict ones among them, with values in their ranges or at the edges of these; at times it cuts a tag. At
   times a 22 on one or beside one, or a 23 that reads tags besides. */
size_t make_strict_request(uint8_t *frame, const zb_settings *s, uint32_t wrong);
/* What the controller could say to the entry, or nearly. */
size_t make_reply(uint8_t *frame, const ledger_entry *e, uint32_t wrong);
size_t make_noise(uint8_t *bytes);
size_t make_run(uint8_t *run, const zb_settings *s);
#endif
