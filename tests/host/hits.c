/* The ledger of hits (#107), kept from calls and outcomes alone, by document 02's words and not by the model's.
   Of a place it keeps the number of the reply that took it, and nothing else: whether that reply was dropped is looked up
   among the writes that were issued behind it, and whether it is young is counted from its time. */
#include "hits.h"
#include "pair.h"
#include "reached.h"
#include <stdio.h>
#include <stdlib.h>
#include <string.h>

enum { CACHED = 64, LOOK_BACK = 1000 };
/* Why a reply does not fill a place. */
enum { GAP = 1, CUT_FIRST = 2, CUT_LAST = 4, TTL_0 = 8, OF_CLOSED = 16, OF_EXCEPTION = 32 };

static hits_reply *replies; /* in their order */
static uint32_t count, room;
static uint32_t lost;            /* so many of them came before the last lost link */
static uint32_t took[CACHED];    /* for each place the number of the reply that took it last, from 1 */
static uint16_t tag_of[65536];   /* for each register the number of the tag that it lies in, from 1 */
static ledger_write excepted;    /* the last write that got an exception */
static uint32_t excepted_behind; /* so many replies came before it */
static bool excepted_by_tag;     /* it was for a strict tag, or to a 22 for any */

void hits_fresh(void)
{
    const zb_settings *s = &ledger.settings;
    count = lost = excepted_behind = 0;
    memset(took, 0, sizeof took);
    memset(tag_of, 0, sizeof tag_of);
    for (uint32_t t = 0; t < s->tags; t++)
        for (uint32_t k = 0; k < s->width[t] / 16u; k++)
            tag_of[s->addr[t] + k] = (uint16_t)(t + 1);
}

void hits_link_lost(void)
{
    lost = count;
}

static bool is_read_of_registers(const uint8_t *frame, size_t size)
{
    return size == 12 && (frame[7] == 3 || frame[7] == 4);
}

static bool is_write_of_registers(uint8_t function)
{
    return function == 6 || function == 16 || function == 22 || function == 23;
}

static hits_key key_of(const uint8_t *frame)
{
    hits_key key = {frame[6], frame[7], (uint16_t)(frame[8] << 8 | frame[9]), (uint16_t)(frame[10] << 8 | frame[11])};
    return key;
}

static bool same(hits_key a, hits_key b)
{
    return a.unit == b.unit && a.function == b.function && a.start == b.start && a.quantity == b.quantity;
}

static bool meets(const ledger_write *w, hits_key key)
{
    return ledger_meets(w, key.unit, key.function, key.start, key.quantity);
}

/* The first write or "other" that was issued behind the reply and meets its read. */
static const ledger_write *spoilt_by(hits_reply *r)
{
    while (!r->spoilt && r->looked < ledger.writes) {
        const ledger_write *w = ledger_written(r->looked++);
        if (meets(w, r->key))
            r->spoilt = w;
    }
    return r->spoilt;
}

static bool is_lost(const hits_reply *r)
{
    return r - replies < lost;
}

static bool is_young(const hits_reply *r, uint64_t now)
{
    return now - r->time < r->life;
}

/* What stands in the place, fresh or expired; NULL: it is empty. */
static hits_reply *standing(uint32_t place)
{
    hits_reply *r = took[place] ? &replies[took[place] - 1] : NULL;
    return r && !is_lost(r) && !spoilt_by(r) ? r : NULL;
}

static hits_reply *standing_for(hits_key key)
{
    for (uint32_t p = 0; p < CACHED; p++) {
        hits_reply *r = standing(p);
        if (r && same(r->key, key))
            return r;
    }
    return NULL;
}

const hits_reply *hits_found(const uint8_t *frame, size_t size)
{
    return is_read_of_registers(frame, size) ? standing_for(key_of(frame)) : NULL;
}

const hits_reply *hits_recent(uint32_t back)
{
    return back < count ? &replies[count - 1 - back] : NULL;
}

/* REPLIES */

/* Register by register: in which tags the range lies, what their ttls are, and why nothing of it is cached. */
static void look_at_range(hits_reply *r)
{
    const zb_settings *s = &ledger.settings;
    uint32_t behind = (uint32_t)r->key.start + r->key.quantity;
    for (uint32_t at = r->key.start; at < behind; at++) {
        uint32_t t = tag_of[at];
        if (t == 0) {
            r->unfit |= GAP;
            continue;
        }
        if (at == r->key.start && at > 0 && tag_of[at - 1] == t)
            r->unfit |= CUT_FIRST;
        if (at == behind - 1 && at < 65535 && tag_of[at + 1] == t)
            r->unfit |= CUT_LAST;
        uint32_t ttl = s->ttl[t - 1];
        if (ttl == 0)
            r->unfit |= TTL_0;
        else if (r->life == 0 || ttl < r->life)
            r->life = ttl;
        if (ttl > r->largest)
            r->largest = ttl;
    }
}

/* The lowest of the places that were filled when the oldest one was is taken. */
static void took_the_oldest(const hits_reply *oldest)
{
    uint32_t ties = 0, earlier = 0;
    for (uint32_t p = 0; p < CACHED; p++) {
        ties += standing(p)->time == oldest->time;
        earlier += standing(p)->time == oldest->time && standing(p) < oldest;
    }
    reached(REACHED_TAKEN_OLDEST);
    if (ties > 1)
        reached(REACHED_TAKEN_TIE);
    if (earlier)
        reached(REACHED_TAKEN_TIE_LATER);
}

static void took_own(const hits_reply *own, uint32_t free, uint64_t now)
{
    reached(is_young(own, now) ? REACHED_OWN_FRESH : REACHED_OWN_EXPIRED);
    if (free < own->place)
        reached(REACHED_OWN_BEHIND_FREE);
}

static void took_free(uint32_t free, uint32_t young, uint32_t last_young)
{
    if (free > 0 && free < last_young)
        reached(standing(free) ? REACHED_TAKEN_EXPIRED : REACHED_TAKEN_DROPPED);
    if (young == CACHED - 1)
        reached(REACHED_LAST_CACHED);
}

/* One look at each place: the one with the key, else the first that is empty or expired, else the first of the oldest. */
static uint32_t place_for(hits_key key, uint64_t now)
{
    uint32_t free = CACHED, young = 0, last_young = 0;
    const hits_reply *own = NULL, *oldest = NULL;
    for (uint32_t p = 0; p < CACHED; p++) {
        const hits_reply *r = standing(p);
        if (r && same(r->key, key))
            own = r;
        if (!r || !is_young(r, now)) {
            free = free == CACHED ? p : free;
            continue;
        }
        young++;
        last_young = p;
        if (!oldest || r->time < oldest->time)
            oldest = r;
    }
    if (own) {
        took_own(own, free, now);
        return own->place;
    }
    if (free < CACHED) {
        took_free(free, young, last_young);
        return free;
    }
    took_the_oldest(oldest);
    return oldest->place;
}

static hits_reply *next_reply(void)
{
    if (count == room) {
        room = room ? 2 * room : 1024;
        replies = realloc(replies, room * sizeof *replies);
        if (!replies) {
            printf("no memory for the ledger\n");
            exit(1);
        }
    }
    memset(&replies[count], 0, sizeof *replies);
    return &replies[count];
}

void hits_answered(const ledger_entry *e, uint64_t now, const uint8_t *frame, zb_answer a, bool closed)
{
    if (e->function != 3 && e->function != 4)
        return;
    hits_reply *r = next_reply();
    r->key = (hits_key){e->unit, e->function, e->start, e->quantity};
    look_at_range(r);
    if (r->life == 0)
        return; /* no tag with a ttl: nothing to be asked of it later */
    r->time = now;
    r->unfit |= (closed ? OF_CLOSED : 0) | (frame[7] >= 128 ? OF_EXCEPTION : 0);
    r->late = e->issued_at + ledger.timeout <= now;
    r->empty = e->parties == 0;
    r->writes = r->looked = ledger.writes;
    r->partial = a.partial;
    r->value = a.value;
    r->length = a.length;
    memcpy(r->bytes, pair_out(), a.length);
    if (r->unfit == 0) {
        if (a.partial)
            pair_differs("ledger: a tag is cut in a range that is made of whole ones");
        r->place = place_for(r->key, now);
        took[r->place] = count + 1;
    }
    count++;
}

/* REQUESTS */

/* The last reply to the read that filled a place, by all replies and not by the places. */
static hits_reply *last_filling(hits_key key)
{
    for (uint32_t n = count; n > 0; n--)
        if (replies[n - 1].unfit == 0 && same(replies[n - 1].key, key))
            return &replies[n - 1];
    return NULL;
}

/* A hit shows the last reply that filled its place, younger than its life. */
static void check_hit(uint64_t now, const uint8_t *frame, zb_answer a)
{
    hits_reply *r = last_filling(key_of(frame));
    if (!r)
        pair_differs("ledger: a hit without a reply that filled");
    if (is_lost(r))
        pair_differs("ledger: a hit from before a lost link");
    if (spoilt_by(r))
        pair_differs("ledger: a hit from before a write that meets it");
    if (!is_young(r, now))
        pair_differs("ledger: a hit older than its life");
    const zb_answer whole = {.outcome = ZB_HIT, .length = r->length, .partial = r->partial, .value = r->value};
    if (memcmp(&a, &whole, sizeof a) != 0)
        pair_differs("ledger: a hit that reports something else than its reply");
    if (memcmp(pair_out(), frame, 2) != 0)
        pair_differs("ledger: a hit under another id than the caller's");
    if (memcmp(pair_out() + 2, r->bytes + 2, r->length - 2) != 0)
        pair_differs("ledger: a hit with other bytes than its reply");
}

/* What else was cached of the same registers, by another function or of another unit. */
static void look_beside(hits_key key, uint64_t now, bool hit)
{
    for (uint32_t p = 0; p < CACHED; p++) {
        const hits_reply *r = standing(p);
        if (!r || !is_young(r, now) || r->key.start != key.start || r->key.quantity != key.quantity)
            continue;
        if (r->key.unit == key.unit && r->key.function != key.function)
            reached(hit ? REACHED_HIT_FUNCTION : REACHED_MISS_FUNCTION);
        if (r->key.unit != key.unit && r->key.function == key.function)
            reached(hit ? REACHED_HIT_UNIT : REACHED_MISS_UNIT);
    }
}

/* The last write, if it came behind the reply, dropped nothing of it. */
static void look_at_last_write(const hits_reply *r)
{
    uint32_t first = r->key.start, last = first + r->key.quantity - 1u;
    if (ledger.writes == r->writes)
        return;
    const ledger_write *w = ledger_written(ledger.writes - 1);
    bool is_over = w->first <= last && w->last >= first;
    bool of_registers = is_write_of_registers(w->function), of_coils = w->function == 5 || w->function == 15;
    if (!of_registers && !of_coils && w->unit != r->key.unit)
        reached(REACHED_KEPT_OTHER);
    if (of_registers && w->unit != r->key.unit && is_over)
        reached(REACHED_KEPT_UNIT);
    if (of_coils && w->unit == r->key.unit && is_over)
        reached(REACHED_KEPT_COILS);
    if (of_registers && w->unit == r->key.unit && w->last + 1 == first)
        reached(REACHED_KEPT_BEFORE);
    if (of_registers && w->unit == r->key.unit && w->first == last + 1)
        reached(REACHED_KEPT_BEHIND);
    if (w->function == 22 && w->unit == r->key.unit && (w->last + 1 == first || w->first == last + 1))
        reached(REACHED_22_KEPT);
    if (w->function == 23 && w->unit == r->key.unit && w->read_first <= last && w->read_last >= first)
        reached(REACHED_23_KEPT);
}

static void count_hit(const hits_reply *r, uint64_t now)
{
    bool behind_exception = false, behind_closed = false;
    if (now - r->time == r->life - 1)
        reached(REACHED_HIT_LAST_MS);
    if (r->life == 1)
        reached(REACHED_HIT_OF_1);
    if (r->life == 60000)
        reached(REACHED_HIT_OF_60000);
    if (r->largest > r->life)
        reached(REACHED_HIT_SMALLEST);
    if (r->key.quantity == 125)
        reached(REACHED_HIT_LONGEST);
    if (r->value)
        reached(REACHED_HIT_RAW);
    if (r->late)
        reached(REACHED_HIT_LATE);
    if (r->empty)
        reached(REACHED_HIT_EMPTY);
    for (uint32_t back = 0; back < LOOK_BACK && &replies[count - 1 - back] > r; back++) {
        const hits_reply *later = &replies[count - 1 - back];
        behind_exception |= later->unfit == OF_EXCEPTION && same(later->key, r->key);
        behind_closed |= later->unfit == OF_CLOSED && same(later->key, r->key);
    }
    if (behind_exception)
        reached(REACHED_HIT_BEHIND_EXCEPTION);
    if (behind_closed)
        reached(REACHED_HIT_BEHIND_CLOSED);
    if (excepted_behind > (uint32_t)(r - replies) && meets(&excepted, r->key))
        reached(excepted.function == 22 ? REACHED_22_KEPT_HIT
                : excepted_by_tag       ? REACHED_STRICT_KEPT_HIT
                                        : REACHED_KEPT_EXCEPTION);
    look_at_last_write(r);
}

/* How a write met the range. */
static void count_drop(const hits_reply *r, const ledger_write *w)
{
    uint32_t first = r->key.start, last = first + r->key.quantity - 1u;
    if (w->function == 23)
        reached(REACHED_23_DROP);
    if (!is_write_of_registers(w->function))
        reached(REACHED_DROP_OTHER);
    else if (w->first < first && w->last > last)
        reached(REACHED_DROP_AROUND);
    else if (w->first < first && w->last < last)
        reached(REACHED_DROP_LEFT);
    else if (w->first > first && w->last > last)
        reached(REACHED_DROP_RIGHT);
    else if (w->first > first && w->last < last)
        reached(REACHED_DROP_INSIDE);
}

static void count_unfit(uint32_t unfit)
{
    if (unfit == GAP)
        reached(REACHED_MISS_GAP);
    if (unfit == CUT_FIRST)
        reached(REACHED_MISS_CUT_FIRST);
    if (unfit == CUT_LAST)
        reached(REACHED_MISS_CUT_LAST);
    if (unfit == TTL_0)
        reached(REACHED_MISS_TTL_0);
    if (unfit == OF_CLOSED)
        reached(REACHED_MISS_CLOSED);
    if (unfit == OF_EXCEPTION)
        reached(REACHED_MISS_EXCEPTION);
}

/* Why the last reply to the read is not shown: where one thing alone keeps it from that. */
static void count_miss(hits_key key, uint64_t now)
{
    hits_reply *r = NULL;
    for (uint32_t back = 0; !r && back < LOOK_BACK && back < count; back++)
        if (same(replies[count - 1 - back].key, key))
            r = &replies[count - 1 - back];
    if (!r)
        return;
    bool there = !r->unfit && took[r->place] == (uint32_t)(r - replies) + 1;
    if (!is_young(r, now)) {
        if (there && !is_lost(r) && !spoilt_by(r) && now - r->time == r->life)
            reached(REACHED_MISS_AT_LIFE);
        if (there && !is_lost(r) && !spoilt_by(r) && now - r->time < r->largest)
            reached(REACHED_MISS_SMALLEST);
        return;
    }
    if (is_lost(r)) {
        if (!r->unfit && !spoilt_by(r))
            reached(REACHED_MISS_LOST);
    } else if (spoilt_by(r)) {
        if (there)
            count_drop(r, r->spoilt);
    } else if (r->unfit) {
        count_unfit(r->unfit);
    } else {
        reached(REACHED_MISS_TAKEN);
    }
}

/* A live read that would fill, to which a reply came that does not answer it. */
static void count_mismatched(hits_key key)
{
    for (uint32_t n = 0; n < ledger.lives; n++) {
        const ledger_entry *e = &ledger.live[n];
        hits_reply as = {.key = {e->unit, e->function, e->start, e->quantity}};
        if (!e->mismatched || !same(as.key, key))
            continue;
        look_at_range(&as);
        if (!as.unfit && as.life)
            reached(REACHED_MISS_MISMATCH);
    }
}

void hits_request(uint64_t now, const uint8_t *frame, size_t size, zb_answer a)
{
    const hits_reply *r = hits_found(frame, size);
    if (a.outcome == ZB_HIT) {
        if (!is_read_of_registers(frame, size))
            pair_differs("ledger: a hit that is no read of registers");
        check_hit(now, frame, a);
        if (!r)
            pair_differs("ledger: a hit whose place was taken");
    } else if (r && is_young(r, now)) {
        pair_differs("ledger: no hit, though its place is young");
    }
    if (!is_read_of_registers(frame, size) || count == 0)
        return;
    look_beside(key_of(frame), now, a.outcome == ZB_HIT);
    if (a.outcome == ZB_HIT) {
        count_hit(r, now);
    } else {
        count_miss(key_of(frame), now);
        count_mismatched(key_of(frame));
    }
}

void hits_refused(const uint8_t *frame, size_t size, zb_answer a)
{
    const hits_reply *r = a.refusal <= ZB_REFUSED_TIME ? hits_found(frame, size) : NULL;
    if (r && is_young(r, ledger.clock))
        reached(a.refusal == ZB_REFUSED_BUFFER       ? REACHED_HIT_REFUSED_1
                    : a.refusal == ZB_REFUSED_CLIENT ? REACHED_HIT_REFUSED_2
                                                     : REACHED_HIT_REFUSED_3);
}

void hits_excepted(const uint8_t *frame, size_t size, bool by_tag)
{
    if (size < 12 || !is_write_of_registers(frame[7]))
        return;
    const uint8_t *range = frame + (frame[7] == 23 ? 12 : 8); /* that is written */
    uint32_t first = (uint32_t)range[0] << 8 | range[1], quantity = (uint32_t)range[2] << 8 | range[3];
    excepted.unit = frame[6];
    excepted.function = frame[7];
    excepted.first = first;
    excepted.last = frame[7] == 6 || frame[7] == 22 || quantity == 0 ? first : first + quantity - 1;
    excepted_behind = count;
    excepted_by_tag = by_tag;
}
