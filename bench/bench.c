/* Times one round of each workload over the archive and prints a line for each: the word that the program was given,
   the workload's name, the calls, and their nanoseconds of processor time. bench/run repeats rounds and takes medians.
   Frames and values are made before the clock starts: while it runs a reply gets the id that was issued, two bytes,
   and nothing else is made. A call that does not end as its workload says ends the program. WITHOUT_CACHE, WITHOUT_STRICT: the
   header is of before the cache or strict tags, and the workloads with them are left out. */
#define _POSIX_C_SOURCE 199309L
#include "zilborteka.h"
#include <stdio.h>
#include <stdlib.h>
#include <time.h>

enum {
    CALLS = 200000, /* at least so many are timed */
    CLIENTS = 32,
    PARTIES = ZB_PARTY_PLACES / ZB_PLACES,
    FEW_PARTIES = 8, /* as many parties, and places, as document 01 has: the same work for every archive */
    FEW_PLACES = 64,
    MOST_FRAME = 260,
    TAGS = 60, /* from FIRST on, of width 16 and 32 by turns, none signed */
    FIRST = 1000,
    TAGGED = TAGS / 2 * 3,
    PLAIN = 10, /* the registers of a plain read, below the tags */
    FRAMES = 64, /* as many frames with other values take turns, and as many replies the cache has room for */
    TIMEOUT = 60000,
    TTL = 60000 /* of every tag, in the workloads with a cache; in the others 0 */
};

typedef struct {
    uint8_t bytes[MOST_FRAME];
    size_t size;
} frame;

static zb_state device;
static uint8_t out[MOST_FRAME];
static uint16_t list[2 * PARTIES];
static frame asking[FRAMES], answering[FRAMES];
static uint64_t now = 1;

/* FRAMES, FILLING THE TABLE: BEFORE THE CLOCK STARTS */

static uint32_t next_value(void)
{
    static uint32_t seed = 1;
    seed = seed * 1664525 + 1013904223;
    return seed >> 4;
}

static void add(frame *f, unsigned byte)
{
    f->bytes[f->size++] = (uint8_t)byte;
    f->bytes[5] = (uint8_t)(f->size - 6);
}

static void add_word(frame *f, uint32_t word)
{
    add(f, word >> 8 & 255);
    add(f, word & 255);
}

static frame starting(unsigned function)
{
    frame f = {.size = 6};
    add(&f, 1);
    add(&f, function);
    return f;
}

static frame asked(unsigned function, unsigned start, unsigned quantity)
{
    frame f = starting(function);
    add_word(&f, start);
    add_word(&f, quantity);
    return f;
}

static uint32_t as_digits(uint32_t v)
{
    uint32_t digits = 0;
    for (unsigned shift = 0; shift < 32; shift += 4, v /= 10)
        digits |= v % 10 << shift;
    return digits;
}

/* a value in the range of each of so many tags, in binary or in digits */
static void add_tags(frame *f, unsigned tags, uint32_t coded(uint32_t))
{
    add(f, tags / 2 * 6);
    for (unsigned k = 0; k < tags; k++) {
        uint32_t v = coded(next_value() % (k % 2 ? 100000000 : 10000));
        add_word(f, v);
        if (k % 2)
            add_word(f, v >> 16);
    }
}

static uint32_t as_binary(uint32_t v)
{
    return v;
}

static void fail(const char *what)
{
    fprintf(stderr, "bench: %s\n", what);
    exit(1);
}

static void start_device(unsigned ttl, unsigned strict)
{
    static zb_settings s = {.timeout = TIMEOUT, .join = 1, .tags = TAGS};
    for (unsigned k = 0; k < TAGS; k++) {
        s.addr[k] = (uint16_t)(FIRST + k / 2 * 3 + k % 2);
        s.width[k] = k % 2 ? 32 : 16;
#ifndef WITHOUT_CACHE
        s.ttl[k] = (uint16_t)ttl;
#endif
#ifndef WITHOUT_STRICT
        s.strict[k] = (uint16_t)strict;
#endif
    }
    (void)ttl, (void)strict;
#ifdef SETTINGS_BY_VALUE
    unsigned refused = zb_fresh(&device, s).refusal;
#else
    unsigned refused = zb_fresh(&device, &s).refusal;
#endif
    for (unsigned c = 0; c < CLIENTS; c++)
        refused |= zb_attach(&device, c).refusal;
    if (refused)
        fail("the device is refused");
}

static void make_reads(void)
{
    for (unsigned k = 0; k < FRAMES; k++) {
        asking[k] = asked(3, k, PLAIN);
        answering[k] = starting(3);
        add(&answering[k], 2 * PLAIN);
        for (unsigned r = 0; r < PLAIN; r++)
            add_word(&answering[k], next_value());
    }
}

static void make_writes(void)
{
    for (unsigned k = 0; k < FRAMES; k++) {
        answering[k] = asking[k] = asked(16, k, PLAIN);
        add(&asking[k], 2 * PLAIN);
        for (unsigned r = 0; r < PLAIN; r++)
            add_word(&asking[k], next_value());
    }
}

static void make_tag_reads(void)
{
    for (unsigned k = 0; k < FRAMES; k++) {
        asking[k] = asked(3, FIRST, TAGGED);
        answering[k] = starting(3);
        add_tags(&answering[k], TAGS, as_digits);
    }
}

static void make_tag_writes(void)
{
    for (unsigned k = 0; k < FRAMES; k++) {
        answering[k] = asking[k] = asked(16, FIRST, TAGGED);
        add_tags(&asking[k], TAGS, as_binary);
    }
}

static void fill_places(unsigned places)
{
    for (unsigned k = 0; k < places; k++) {
        frame f = asked(3, k, PLAIN);
        if (zb_request(&device, k % CLIENTS, now, f.bytes, f.size, out, sizeof out).outcome != ZB_ISSUED)
            fail("the table cannot be filled");
    }
}

static void fill_few(void)
{
    fill_places(FEW_PLACES);
}

static void fill_table(void)
{
    fill_places(ZB_PLACES);
}

/* TURNS, WHICH ARE TIMED: each gives how many of its calls did not end as they should */

static unsigned is_other(zb_answer a, uint32_t outcome)
{
    return (a.outcome != outcome) | (a.partial != 0) | (a.value != 0);
}

static unsigned request(unsigned client, unsigned k, uint32_t outcome)
{
    return is_other(zb_request(&device, client, now, asking[k].bytes, asking[k].size, out, sizeof out), outcome);
}

/* the reply to the frame that was written last, for so many parties */
static unsigned reply(unsigned k, uint32_t parties)
{
    answering[k].bytes[0] = out[0];
    answering[k].bytes[1] = out[1];
    zb_answer a = zb_reply(&device, now, answering[k].bytes, answering[k].size, out, sizeof out, list, 2 * PARTIES);
    return is_other(a, ZB_ANSWERED) | (a.parties != parties);
}

static unsigned turn_alone(unsigned k)
{
    unsigned wrong = request(k % CLIENTS, k, ZB_ISSUED);
    return wrong + reply(k, 1);
}

static unsigned joined_by(unsigned k, unsigned parties)
{
    unsigned wrong = request(0, k, ZB_ISSUED);
    for (unsigned c = 1; c < parties; c++)
        wrong += request(c, k, ZB_JOINED);
    return wrong + reply(k, parties);
}

static unsigned turn_joined(unsigned k)
{
    return joined_by(k, FEW_PARTIES);
}

static unsigned turn_full(unsigned k)
{
    return joined_by(k, PARTIES);
}

#ifndef WITHOUT_CACHE
static frame cached[FRAMES];

static unsigned turn_hit(unsigned k)
{
    return request(k % CLIENTS, k, ZB_HIT);
}

/* every place of the cache is filled: reads of 6 or 8 tags, 9 or 12 registers, by 03 and 04 in turn */
static void fill_cache(void)
{
    for (unsigned k = 0; k < FRAMES; k++) {
        unsigned tags = k < FRAMES / 2 ? 6 : 8;
        cached[k] = asking[k] = asked(3 + k % 2, FIRST + 3 * (k / 2 % 16), tags / 2 * 3);
        answering[k] = starting(3 + k % 2);
        add_tags(&answering[k], tags, as_digits);
        if (turn_alone(k))
            fail("the cache cannot be filled");
    }
}

static void make_reads_beside(void)
{
    fill_cache();
    make_reads();
}

static void make_writes_beside(void)
{
    fill_cache();
    make_writes();
}

/* nothing of it was dropped or taken */
static void look_at_cache(void)
{
    for (unsigned k = 0; k < FRAMES; k++)
        if (zb_request(&device, 0, now, cached[k].bytes, cached[k].size, out, sizeof out).outcome != ZB_HIT)
            fail("the cache is not full");
}
#endif

static unsigned turn_tick(unsigned k)
{
    (void)k;
    return is_other(zb_tick(&device, now, out, sizeof out, list, 2 * PARTIES), ZB_NOTHING_DUE);
}

/* every place is due at once, and each tick ends one */
static unsigned ended(unsigned places)
{
    unsigned wrong = 0;
    now += TIMEOUT;
    for (unsigned k = 0; k < places; k++)
        wrong += is_other(zb_tick(&device, now, out, sizeof out, list, 2 * PARTIES), ZB_TIMED_OUT);
    return wrong;
}

static unsigned turn_few_due(unsigned k)
{
    (void)k;
    return ended(FEW_PLACES);
}

static unsigned turn_all_due(unsigned k)
{
    (void)k;
    return ended(ZB_PLACES);
}

static const struct {
    const char *name;
    void (*make)(void);
    unsigned (*turn)(unsigned k);
    unsigned calls;       /* of one turn */
    void (*refill)(void); /* before each turn, while the clock stands; or none */
    unsigned ttl;         /* of every tag */
    void (*look)(void);   /* behind the last turn; or none */
    unsigned strict;      /* of every tag */
} workloads[] = {
    {"plain reads", make_reads, turn_alone, 2, NULL, 0, NULL, 0},
    {"plain writes", make_writes, turn_alone, 2, NULL, 0, NULL, 0},
    {"joined reads", make_reads, turn_joined, FEW_PARTIES + 1, NULL, 0, NULL, 0},
    {"joined, full entry", make_reads, turn_full, PARTIES + 1, NULL, 0, NULL, 0},
    {"03 with 60 tags", make_tag_reads, turn_alone, 2, NULL, 0, NULL, 0},
    {"16 with 60 tags", make_tag_writes, turn_alone, 2, NULL, 0, NULL, 0},
#ifndef WITHOUT_STRICT
    {"16, 60 strict tags", make_tag_writes, turn_alone, 2, NULL, 0, NULL, 1},
#endif
    {"ticks, 64 live", fill_few, turn_tick, 1, NULL, 0, NULL, 0},
    {"ticks, full table", fill_table, turn_tick, 1, NULL, 0, NULL, 0},
    {"timeouts, 64 live", make_reads, turn_few_due, FEW_PLACES, fill_few, 0, NULL, 0},
    {"timeouts, full table", make_reads, turn_all_due, ZB_PLACES, fill_table, 0, NULL, 0},
#ifndef WITHOUT_CACHE
    {"hits", fill_cache, turn_hit, 1, NULL, TTL, look_at_cache, 0},
    {"reads, full cache", make_reads_beside, turn_alone, 2, NULL, TTL, look_at_cache, 0},
    {"writes, full cache", make_writes_beside, turn_alone, 2, NULL, TTL, look_at_cache, 0},
#endif
};

static double nanoseconds(void)
{
    struct timespec t;
    clock_gettime(CLOCK_PROCESS_CPUTIME_ID, &t);
    return 1e9 * (double)t.tv_sec + (double)t.tv_nsec;
}

/* the nanoseconds of so many turns */
static double timed(size_t w, unsigned turns, unsigned *wrong)
{
    double began = nanoseconds();
    for (unsigned k = 0; k < turns; k++) {
        if (workloads[w].refill) {
            double stopped = nanoseconds();
            workloads[w].refill();
            began += nanoseconds() - stopped;
        }
        *wrong += workloads[w].turn(k % FRAMES);
    }
    return nanoseconds() - began;
}

int main(int count, char **words)
{
    if (zb_state_size() != ZB_STATE_SIZE)
        fail("the header is not this archive's");
    for (size_t w = 0; w < sizeof workloads / sizeof workloads[0]; w++) {
        unsigned turns = CALLS / workloads[w].calls + 1, wrong = 0;
        start_device(workloads[w].ttl, workloads[w].strict);
        workloads[w].make();
        timed(w, turns / 4, &wrong); /* warm */
        double took = timed(w, turns, &wrong);
        if (wrong)
            fail(workloads[w].name);
        if (workloads[w].look)
            workloads[w].look();
        printf("%s\t%s\t%u\t%.0f\n", count > 1 ? words[1] : "now", workloads[w].name, turns * workloads[w].calls, took);
    }
    return 0;
}
