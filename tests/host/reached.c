/* What the generated calls must have met, with counts; a run that missed a line of it fails. */
#include "reached.h"
#include <stdio.h>

enum { REFUSALS = ZB_REFUSED_SETTINGS + 1, OUTCOMES = ZB_HIT + 1 };

const char *const call_names[CALLS] = {
    "fresh", "attach", "detach", "request", "reply", "tick", "link_lost", "split", "settings_read", "settings_write",
};

static const char *const words[REACHED_COUNT] = {
#define REACHED_WORDS(name, words) words,
    REACHED_LIST(REACHED_WORDS)
#undef REACHED_WORDS
};

/* Document 01's table of refusals, call by call: bit n for refusal n. */
static const uint32_t can_refuse[CALLS] = {
    [CALL_FRESH] = 1 << ZB_REFUSED_SETTINGS,
    [CALL_ATTACH] = 1 << ZB_REFUSED_CLIENT | 1 << ZB_REFUSED_ATTACHED,
    [CALL_DETACH] = 1 << ZB_REFUSED_CLIENT,
    [CALL_REQUEST] = 1 << ZB_REFUSED_BUFFER | 1 << ZB_REFUSED_CLIENT | 1 << ZB_REFUSED_TIME | 1 << ZB_REFUSED_FRAME
        | 1 << ZB_REFUSED_FUNCTION | 1 << ZB_REFUSED_LENGTH,
    [CALL_REPLY] = 1 << ZB_REFUSED_BUFFER | 1 << ZB_REFUSED_TIME | 1 << ZB_REFUSED_FRAME | 1 << ZB_REFUSED_UNKNOWN
        | 1 << ZB_REFUSED_MISMATCH,
    [CALL_TICK] = 1 << ZB_REFUSED_BUFFER | 1 << ZB_REFUSED_TIME,
    [CALL_SPLIT] = 1 << ZB_REFUSED_FRAME,
    [CALL_READ] = 1 << ZB_REFUSED_SETTINGS,
    [CALL_WRITE] = 1 << ZB_REFUSED_BUFFER | 1 << ZB_REFUSED_SETTINGS,
};

/* The outcomes of each call: bit n for outcome n. */
static const uint32_t can_come_to[CALLS] = {
    [CALL_FRESH] = 1 << ZB_DONE,
    [CALL_ATTACH] = 1 << ZB_DONE,
    [CALL_DETACH] = 1 << ZB_DONE,
    [CALL_REQUEST] = 1 << ZB_ISSUED | 1 << ZB_JOINED | 1 << ZB_EXCEPTION | 1 << ZB_HIT,
    [CALL_REPLY] = 1 << ZB_ANSWERED,
    [CALL_TICK] = 1 << ZB_TIMED_OUT | 1 << ZB_NOTHING_DUE,
    [CALL_LINK_LOST] = 1 << ZB_DONE,
    [CALL_SPLIT] = 1 << ZB_FRAME | 1 << ZB_MORE,
    [CALL_READ] = 1 << ZB_DONE,
    [CALL_WRITE] = 1 << ZB_DONE,
};

static uint64_t met[REACHED_COUNT];
static uint64_t refusals[CALLS][REFUSALS], outcomes[CALLS][OUTCOMES];

void reached(enum reached what)
{
    met[what]++;
}

void reached_answer(enum call call, zb_answer a)
{
    if (a.refusal)
        refusals[call][a.refusal % REFUSALS]++;
    else
        outcomes[call][a.outcome % OUTCOMES]++;
}

/* One row of counts; a column that can be met was, and no other was. */
static bool row(const char *what, const uint64_t *counts, uint32_t columns, uint32_t can)
{
    bool whole = true;
    for (uint32_t n = 0; n < columns; n++) {
        bool wanted = can >> n & 1;
        if (counts[n])
            printf("  %s %u: %llu", what, n, (unsigned long long)counts[n]);
        if (wanted != (counts[n] != 0)) {
            printf("  %s %u: %s", what, n, wanted ? "NOT REACHED" : "NOT OF THIS CALL");
            whole = false;
        }
    }
    return whole;
}

bool reached_print(void)
{
    bool whole = true;
    for (int call = 0; call < CALLS; call++) {
        printf("%-15s", call_names[call]);
        whole &= row("outcome", outcomes[call], OUTCOMES, can_come_to[call]);
        whole &= row("refusal", refusals[call], REFUSALS, can_refuse[call]);
        printf("\n");
    }
    for (int n = 0; n < REACHED_COUNT; n++) {
        printf("%-48s %llu%s\n", words[n], (unsigned long long)met[n], met[n] ? "" : "  NOT REACHED");
        whole &= met[n] != 0;
    }
    return whole;
}
