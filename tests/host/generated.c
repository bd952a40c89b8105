/* Shows that the archive and a model in plain C, written from documents 01 and 02 alone, agree on over a million generated
   calls, in every field, byte and number, that the ledger of demand 3 adds up, that a request is a hit exactly when the
   ledger of hits says so, and shows that reply, and that a write gets exception 03 for a strict tag, and a 22 for any,
   exactly when the ledger of tags says so, nothing but digits goes out at a strict one, and what was written to a tag is
   read back; then prints what was reached.
   Arguments: the seed, and how many times the sessions are gone through. */
#include "dice.h"
#include "hits.h"
#include "ledger.h"
#include "making.h"
#include "model.h"
#include "pair.h"
#include "reached.h"
#include <stdio.h>
#include <stdlib.h>
#include <string.h>

/* LATE: the clock begins near 2^63 - 1. CACHED: requests are about what is cached; CACHED_LONG: with fewer writes, and many
   calls in one millisecond. STRICT: half of the requests write tags, strict ones among them. PINS: some ids are never
   replied to, so that the cursor meets them again: pairs of neighbours and 65,535, with or without 0 behind it. */
enum special { PLAIN, LATE, CACHED, CACHED_LONG, STRICT, PINS, PINS_WITH_0 };

/* A session from a fresh state on: how often each call comes, and what it is given. */
typedef struct {
    const char *name;
    uint32_t calls;
    enum settings_kind settings;
    uint32_t weight[CALLS]; /* in the order of enum call; fresh comes at the beginning too */
    uint32_t pool;          /* how many different reads are asked; 0: anything */
    uint32_t wrong;         /* one input in so many is spoilt, and with a pool one request in so many is none of its reads */
    uint32_t step;          /* a call comes less than this many ms after the one before */
    enum special special;
} session;

static const session sessions[] = {
    /*                                                      f  att det  req  rep tick lost split rd wr */
    {"mixed",      60000, SETTINGS_OF_THE_DOCUMENT, {0, 60, 50, 500, 330, 150, 2, 30, 4, 4}, 0, 8, 60, PLAIN},
    {"any",        60000, SETTINGS_ANY,             {0, 60, 40, 500, 330, 150, 1, 20, 4, 4}, 0, 8, 20, PLAIN},
    {"crowd",      70000, SETTINGS_OF_THE_DOCUMENT, {0, 90, 70, 700, 60, 30, 1, 0, 0, 0}, 3, 40, 40, PLAIN},
    {"crowds",     70000, SETTINGS_BARE,            {0, 90, 80, 700, 25, 80, 1, 0, 0, 0}, 9, 40, 3, PLAIN},
    {"full",       60000, SETTINGS_DENSE,           {0, 60, 30, 800, 180, 10, 1, 5, 0, 0}, 0, 20, 4, PLAIN},
    {"full join",  60000, SETTINGS_OF_THE_DOCUMENT, {0, 90, 80, 700, 60, 20, 1, 0, 0, 0}, 400, 30, 6, PLAIN},
    {"edges",      50000, SETTINGS_EDGES,           {0, 60, 10, 500, 400, 50, 1, 10, 2, 2}, 0, 20, 10, PLAIN},
    {"top",        50000, SETTINGS_TOP,             {0, 60, 10, 500, 400, 50, 1, 10, 2, 2}, 0, 20, 10, PLAIN},
    {"signed",     50000, SETTINGS_SIGNED,          {0, 60, 10, 500, 450, 50, 1, 10, 2, 2}, 0, 20, 10, PLAIN},
    {"dense",      50000, SETTINGS_DENSE,           {0, 60, 10, 500, 450, 50, 1, 10, 2, 2}, 0, 30, 10, PLAIN},
    {"leaving",    50000, SETTINGS_OF_THE_DOCUMENT, {0, 200, 150, 500, 100, 60, 30, 0, 0, 0}, 6, 20, 100, PLAIN},
    {"late",       30000, SETTINGS_OF_THE_DOCUMENT, {0, 60, 30, 500, 330, 150, 1, 0, 0, 0}, 5, 15, 9, LATE},
    {"cached",     60000, SETTINGS_CACHED,          {0, 60, 40, 600, 330, 30, 1, 0, 0, 0}, 0, 30, 6, CACHED},
    {"cached, ms", 40000, SETTINGS_CACHED,          {0, 60, 20, 600, 400, 10, 1, 0, 0, 0}, 0, 30, 1, CACHED},
    {"cached all", 60000, SETTINGS_CACHED_NO_JOIN,  {0, 60, 10, 900, 230, 5, 1, 0, 0, 0}, 0, 30, 2, CACHED},
    {"cached 64",  80000, SETTINGS_CACHED_LONG,     {0, 60, 10, 600, 400, 20, 1, 0, 0, 0}, 0, 30, 100, CACHED_LONG},
    {"strict",     60000, SETTINGS_STRICT,          {0, 60, 10, 500, 450, 50, 1, 0, 2, 2}, 0, 20, 10, STRICT},
    {"strict join", 40000, SETTINGS_STRICT,         {0, 60, 20, 600, 150, 50, 1, 0, 0, 0}, 24, 20, 10, STRICT},
    {"strict full", 30000, SETTINGS_STRICT,         {0, 60, 30, 800, 180, 10, 1, 0, 0, 0}, 0, 20, 4, STRICT},
    {"noise",      30000, SETTINGS_ANY,             {0, 60, 10, 500, 400, 50, 1, 300, 20, 20}, 0, 2, 10, PLAIN},
    {"restarts",   30000, SETTINGS_ANY,             {20, 90, 10, 400, 200, 60, 1, 0, 0, 0}, 0, 20, 60, PLAIN},
    {"refused",    15000, SETTINGS_INVALID,         {20, 90, 10, 400, 200, 60, 1, 0, 0, 0}, 0, 20, 60, PLAIN},
    {"texts",      15000, SETTINGS_INVALID,         {0, 40, 10, 100, 80, 10, 1, 50, 300, 200}, 0, 4, 10, PLAIN},
    {"wrap",      320000, SETTINGS_NO_JOIN,         {0, 5, 1, 510, 500, 1, 0, 0, 0, 0}, 0, 200, 0, PINS_WITH_0},
    {"wrap join", 330000, SETTINGS_OF_THE_DOCUMENT, {0, 10, 5, 520, 500, 1, 0, 0, 0, 0}, 400, 200, 0, PINS},
};

/* What a session that joins does while the cursor passes 65,535: entries of equal reads on both sides of it. */
static const session at_the_wrap = {
    "at the wrap", 0, SETTINGS_OF_THE_DOCUMENT, {0, 90, 90, 700, 20, 1, 0, 0, 0, 0}, 3, 200, 0, PINS,
};

enum { BALANCE_EVERY = 64, PINNED_EVERY = 4096, LIVE_WITH_PINS = 50 };

static const uint64_t LAST_TIME = ((uint64_t)1 << 63) - 1;
static zb_settings settings;

static size_t some_out_len(uint32_t wrong)
{
    static const size_t lengths[] = {ZB_FRAME_BUFFER - 1, 0, 9, 12, ZB_FRAME_BUFFER - 2};
    uint32_t more = MOST_FRAME - ZB_FRAME_BUFFER + 1;
    return one_in(wrong * 4) ? lengths[below(5)] : one_in(4) ? ZB_FRAME_BUFFER + below(more) : ZB_FRAME_BUFFER;
}

static size_t some_list_len(uint32_t wrong)
{
    static const size_t lengths[] = {ZB_LIST_BUFFER - 1, 0, 2, ZB_LIST_BUFFER - 2};
    uint32_t more = MOST_LIST - ZB_LIST_BUFFER + 1;
    return one_in(wrong * 4) ? lengths[below(4)] : one_in(4) ? ZB_LIST_BUFFER + below(more) : ZB_LIST_BUFFER;
}

static uint32_t some_client(uint32_t wrong)
{
    static const uint32_t clients[] = {ZB_CLIENTS, 33, 63, 64, 259, 65539, UINT32_MAX, 0x80000003};
    return one_in(wrong * 4) ? clients[below(8)] : below(ZB_CLIENTS);
}

static uint32_t attached_client(uint32_t wrong)
{
    uint32_t client = below(ZB_CLIENTS);
    if (one_in(wrong * 2) || ledger.attached == 0)
        return some_client(wrong);
    while (!(ledger.attached >> client & 1))
        client = (client + 1) % ZB_CLIENTS;
    return client;
}

/* The milliseconds since the call before. */
static uint32_t some_step(const session *s)
{
    if (s->step == 0 || (s->special == CACHED_LONG && !one_in(30)))
        return 0;
    return below(s->step);
}

static uint64_t some_time(const session *s)
{
    uint64_t now = ledger.clock + some_step(s);
    if (one_in(s->wrong * 4)) {
        const uint64_t times[] = {LAST_TIME + 1,    UINT64_MAX,       LAST_TIME + below(60000),
                                  ledger.clock - 1, ledger.clock / 2, 0};
        return times[below(6)];
    }
    if (s->step && one_in(300))
        now += ledger.timeout;
    return now > LAST_TIME ? LAST_TIME : now;
}

/* Ids that a session never replies to. */
static bool is_pinned(const session *s, uint16_t id)
{
    if (s->special < PINS)
        return false;
    return id % PINNED_EVERY == 7 || id % PINNED_EVERY == 8 || id == 65535 || (id == 0 && s->special == PINS_WITH_0);
}

/* At times a read comes in the last millisecond in which it is a hit, or in the one behind that. */
static uint64_t time_of_request(const session *s, const uint8_t *frame, size_t size)
{
    uint64_t now = some_time(s);
    const hits_reply *r = one_in(8) ? hits_found(frame, size) : NULL;
    if (!r)
        return now;
    uint64_t end = r->time + r->life - one_in(2);
    bool is_near = end < ledger.clock + 200 || one_in(40);
    return end >= ledger.clock && end <= LAST_TIME && is_near ? end : now;
}

static size_t some_request(const session *s, uint8_t *frame)
{
    if (s->special == CACHED || s->special == CACHED_LONG)
        return make_cached_request(frame, &settings, s->special == CACHED ? 6 : 25, s->wrong);
    if (s->special == STRICT && one_in(2))
        return make_strict_request(frame, &settings, s->wrong);
    return make_request(frame, &settings, s->pool, s->wrong);
}

static void do_request(const session *s)
{
    uint8_t frame[MOST_FRAME];
    size_t size = some_request(s, frame);
    uint32_t client = attached_client(s->wrong);
    uint64_t now = time_of_request(s, frame, size);
    ledger_request(client, now, frame, size, pair_request(client, now, frame, size, some_out_len(s->wrong)));
}

/* A live entry that may be replied to. */
static const ledger_entry *some_entry(const session *s)
{
    uint32_t from = ledger.lives ? below(ledger.lives) : 0;
    for (uint32_t n = 0; n < ledger.lives; n++) {
        const ledger_entry *e = &ledger.live[(from + n) % ledger.lives];
        if (!is_pinned(s, e->id))
            return e;
    }
    return NULL;
}

static void do_reply(const session *s)
{
    uint8_t frame[MOST_FRAME];
    const ledger_entry *e = some_entry(s);
    bool stray = !e || one_in(s->wrong * 2);
    size_t size = stray ? make_request(frame, &settings, 0, 2) : make_reply(frame, e, s->wrong);
    if (size >= 2 && is_pinned(s, (uint16_t)(frame[0] << 8 | frame[1])))
        return;
    uint64_t now = some_time(s);
    size_t out_len = some_out_len(s->wrong);
    ledger_reply(now, frame, pair_reply(now, frame, size, out_len, some_list_len(s->wrong)));
}

static void do_tick(const session *s)
{
    uint64_t now = some_time(s);
    size_t out_len = some_out_len(s->wrong);
    zb_answer a = pair_tick(now, out_len, some_list_len(s->wrong));
    ledger_tick(now, a);
    if (a.outcome != ZB_TIMED_OUT || !one_in(2))
        return;
    do {
        a = pair_tick(now, ZB_FRAME_BUFFER, ZB_LIST_BUFFER);
        ledger_tick(now, a);
    } while (a.outcome == ZB_TIMED_OUT);
    reached(REACHED_DRAINED);
}

/* Whether so many bytes of a text have this line. */
static bool has_line(const uint8_t *text, size_t size, const char *line)
{
    size_t length = strlen(line);
    for (size_t at = 0; at + length <= size; at++)
        if (memcmp(text + at, line, length) == 0 && (at == 0 || text[at - 1] == '\n'))
            return true;
    return false;
}

static void do_read(void)
{
    static uint8_t text[MOST_TEXT];
    size_t size = make_text(text);
    zb_answer a = pair_settings_read(text, size);
    if (a.outcome == ZB_DONE && size > 4000)
        reached(REACHED_TEXT_256);
    if (a.line > 12)
        reached(REACHED_TEXT_WRONG_DEEP);
    if (a.outcome == ZB_DONE && has_line(text, size, "version=1\n") && !has_line(text, size, "tags=0\n"))
        reached(REACHED_TEXT_OLDER);
    if (a.outcome == ZB_DONE && has_line(text, size, "version=2\n") && !has_line(text, size, "tags=0\n"))
        reached(REACHED_TEXT_OF_VERSION_2);
    if (a.outcome == ZB_DONE && has_line(text, size, "version=3\n") && !has_line(text, size, "tags=0\n"))
        reached(REACHED_TEXT_OF_VERSION_3);
    if (a.outcome == ZB_DONE && has_line(text, size, "sign=1\n"))
        reached(REACHED_TEXT_SIGNED);
    if (a.line > 4 && (a.line - 4) % 3 == 0 && has_line(text, size, "version=2\n"))
        reached(REACHED_TEXT_WRONG_SIGN);
    if (a.outcome == ZB_DONE && has_line(text, size, "ttl=60000\n"))
        reached(REACHED_TEXT_TTL);
    if (a.line > 4 && (a.line - 4) % 4 == 0 && has_line(text, size, "version=3\n"))
        reached(REACHED_TEXT_WRONG_TTL);
    if (a.outcome == ZB_DONE && has_line(text, size, "strict=1\n"))
        reached(REACHED_TEXT_STRICT);
    if (a.line > 4 && (a.line - 4) % 5 == 0 && has_line(text, size, "version=4\n"))
        reached(REACHED_TEXT_WRONG_STRICT);
}

/* Why a value is refused, where nothing but a sign, a ttl or a strict is wrong in it: with each of them 0 it is valid. */
static void why_refused(zb_settings s, zb_answer a)
{
    static uint8_t text[MOST_TEXT];
    bool above = false, wide = false, lasting = false, strict = false;
    for (uint32_t t = 0; t < ZB_MOST_TAGS && t < s.tags; t++) {
        above |= s.sign[t] > 1;
        wide |= s.sign[t] == 1 && s.width[t] == 32;
        lasting |= s.ttl[t] > 60000;
        strict |= s.strict[t] > 1;
        s.sign[t] = s.ttl[t] = s.strict[t] = 0;
    }
    if (a.refusal != ZB_REFUSED_SETTINGS || model_settings_write(s, text, sizeof text).refusal)
        return;
    if (above)
        reached(REACHED_SIGN_REFUSED);
    if (wide)
        reached(REACHED_SIGN_32_REFUSED);
    if (lasting)
        reached(REACHED_TTL_REFUSED);
    if (strict)
        reached(REACHED_STRICT_REFUSED);
}

/* Also with a buffer that holds the text exactly, or lacks one byte. */
static void do_write(void)
{
    static uint8_t text[MOST_TEXT];
    zb_settings s = make_settings(one_in(4) ? (enum settings_kind)below(SETTINGS_ANY) : SETTINGS_ANY);
    if (one_in(3))
        s = spoil_settings(s);
    size_t exact = model_settings_write(s, text, sizeof text).length;
    const size_t lengths[] = {MOST_TEXT, ZB_MOST_TEXT, exact, exact ? exact - 1 : 0, 119, 118, 0};
    why_refused(s, pair_settings_write(&s, one_in(4) ? below(MOST_TEXT) : lengths[below(7)]));
}

static void begin_session(const session *s)
{
    settings = make_settings(s->settings);
    zb_answer a = pair_fresh(&settings);
    if (a.refusal) {
        why_refused(settings, a);
        /* the fresh state is then the one for timeout 3000, join 1 and no tags */
        settings = (zb_settings){.timeout = 3000, .join = 1};
    }
    ledger_fresh(&settings);
    if (s->special == LATE) {
        uint64_t now = LAST_TIME - 100000;
        ledger_tick(now, pair_tick(now, ZB_FRAME_BUFFER, ZB_LIST_BUFFER));
    }
}

static void do_call(const session *s, enum call call)
{
    static uint8_t run[4 * MOST_FRAME];
    uint32_t client = some_client(s->wrong);
    switch (call) {
    case CALL_FRESH:
        begin_session(s);
        break;
    case CALL_ATTACH:
        ledger_attach(client, pair_attach(client));
        break;
    case CALL_DETACH:
        ledger_detach(client, pair_detach(client));
        break;
    case CALL_REQUEST:
        do_request(s);
        break;
    case CALL_REPLY:
        do_reply(s);
        break;
    case CALL_TICK:
        do_tick(s);
        break;
    case CALL_LINK_LOST:
        ledger_link_lost(pair_link_lost());
        break;
    case CALL_SPLIT:
        pair_split(run, make_run(run, &settings));
        break;
    case CALL_READ:
        do_read();
        break;
    default:
        do_write();
    }
}

static enum call some_call(const session *s)
{
    uint32_t sum = 0;
    for (int c = 0; c < CALLS; c++)
        sum += s->weight[c];
    uint32_t at = below(sum);
    int call = 0;
    while (at >= s->weight[call])
        at -= s->weight[call++];
    if (s->special >= PINS && call == CALL_REQUEST && ledger.lives > LIVE_WITH_PINS)
        return CALL_REPLY;
    return (enum call)call;
}

static bool is_at_the_wrap(const session *s)
{
    bool is_near = ledger.last_id > 65500 || ledger.last_id < 60;
    return s->special >= PINS && settings.join && ledger.issues > 1000 && is_near;
}

static void run_session(const session *s)
{
    uint64_t until = pair_calls() + s->calls;
    begin_session(s);
    for (uint32_t n = 0; pair_calls() < until; n++) {
        const session *as = is_at_the_wrap(s) ? &at_the_wrap : s;
        do_call(as, some_call(as));
        if (n % BALANCE_EVERY == 0)
            ledger_balance();
    }
    ledger_balance();
}

int main(int argc, char **argv)
{
    uint64_t seed = argc > 1 ? strtoull(argv[1], NULL, 0) : 1;
    uint64_t times = argc > 2 ? strtoull(argv[2], NULL, 0) : 1;
    uint64_t most_calls = 0;
    for (size_t n = 0; n < sizeof sessions / sizeof *sessions; n++)
        most_calls += sessions[n].calls + 100;
    printf("seed %llu\n", (unsigned long long)seed);
    dice_seed(seed);
    pair_open(seed);
    ledger_open(most_calls);
    for (uint64_t time = 0; time < times; time++)
        for (size_t n = 0; n < sizeof sessions / sizeof *sessions; n++)
            run_session(&sessions[n]);
    ledger_print();
    bool whole = reached_print();
    printf("%s\n", whole ? "everything on the list was reached" : "NOT ALL WAS REACHED");
    printf("host tests: %llu calls, 0 differences\n", (unsigned long long)pair_calls());
    return whole ? 0 : 1;
}
