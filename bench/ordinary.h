/* Included before bench/bench.c it makes that time the ordinary core of tests/host in the archive's place. */
#define _POSIX_C_SOURCE 199309L /* as there: before the first header */
#include "model.h"
#define zb_state model_state
#define zb_state_size() ((size_t)ZB_STATE_SIZE)
#define zb_fresh model_fresh
#define zb_attach model_attach
#define zb_request model_request
#define zb_reply model_reply
#define zb_tick model_tick
