/* Gives one call to the archive and to the model, and compares everything that a call reports or may touch. */
#ifndef PAIR_H
#define PAIR_H
#include "zilborteka.h"

enum { PARTIES = ZB_PARTY_PLACES / ZB_PLACES };
/* The longest that is lent. */
enum { MOST_FRAME = ZB_FRAME_BUFFER + 60, MOST_LIST = ZB_LIST_BUFFER + 24, MOST_TEXT = ZB_MOST_TEXT + 240 };

void pair_open(uint64_t seed);
uint64_t pair_calls(void);
/* What the archive wrote in the last call. */
const uint8_t *pair_out(void);
const uint16_t *pair_list(void);
/* Prints the last call with what is wrong, and ends the program. */
_Noreturn void pair_differs(const char *what);

zb_answer pair_fresh(const zb_settings *from);
zb_answer pair_attach(uint32_t client);
zb_answer pair_detach(uint32_t client);
zb_answer pair_request(uint32_t client, uint64_t now, const uint8_t *frame, size_t size, size_t out_len);
zb_answer pair_reply(uint64_t now, const uint8_t *frame, size_t size, size_t out_len, size_t list_len);
zb_answer pair_tick(uint64_t now, size_t out_len, size_t list_len);
zb_answer pair_link_lost(void);
zb_answer pair_split(const uint8_t *run, size_t size);
zb_answer pair_settings_read(const uint8_t *text, size_t size);
zb_answer pair_settings_write(const zb_settings *from, size_t text_len);
#endif
