/* The ledger of demand 3, kept from calls and outcomes alone: where every accepted request went.
   It knows nothing of the model's inside, so that the model cannot be wrong in the same way unnoticed. */
#include "ledger.h"
#include "hits.h"
#include "pair.h"
#include "reached.h"
#include "strict.h"
#include <stdio.h>
#include <stdlib.h>
#include <string.h>

enum group { NEVER, HELD, BY_REPLY, BY_TIMEOUT, BY_LEAVING, BY_LOST_LINK };
enum { OTHERS_BETWEEN = 65536 - ZB_PLACES };
enum { SINGLE = 12, MASK = 14 }; /* the bytes of a 06 and of a 22 */

ledger_book ledger;
static uint8_t *group_of;          /* for each serial its group */
static uint32_t last_issue[65536]; /* for each proxy id the number of its last issue, from 1 */
static ledger_write *written;      /* the issued writes and "other" requests, in their order */
static uint64_t all_accepted, all_reply, all_timeout, all_leaving, all_lost, all_held;

void ledger_open(uint64_t most_calls)
{
    group_of = calloc(most_calls + 1, 1);
    written = calloc(most_calls + 1, sizeof *written);
    if (!group_of || !written) {
        printf("no memory for the ledger\n");
        exit(1);
    }
}

static uint32_t word_at(const uint8_t *bytes)
{
    return (uint32_t)bytes[0] << 8 | bytes[1];
}

static uint64_t held(void)
{
    uint64_t sum = 0;
    for (uint32_t n = 0; n < ledger.lives; n++)
        sum += ledger.live[n].parties;
    return sum;
}

static void add_to_sums(void)
{
    all_accepted += ledger.accepted;
    all_reply += ledger.by_reply;
    all_timeout += ledger.by_timeout;
    all_leaving += ledger.by_leaving;
    all_lost += ledger.by_lost_link;
    all_held += held();
}

void ledger_fresh(const zb_settings *settings)
{
    add_to_sums();
    memset(group_of, NEVER, ledger.accepted);
    memset(&ledger, 0, sizeof ledger);
    memset(last_issue, 0, sizeof last_issue);
    ledger.settings = *settings;
    ledger.timeout = settings->timeout;
    ledger.join = settings->join;
    ledger.last_id = 65535;
    hits_fresh();
    strict_fresh();
}

static void move(uint32_t serial, enum group from, enum group to)
{
    if (group_of[serial] != from)
        pair_differs("ledger: a request would be in two groups");
    group_of[serial] = (uint8_t)to;
}

static ledger_entry *live(uint32_t id)
{
    for (uint32_t n = 0; n < ledger.lives; n++)
        if (ledger.live[n].id == id)
            return &ledger.live[n];
    return NULL;
}

static bool is_due(const ledger_entry *e, uint64_t now)
{
    return e->issued_at + ledger.timeout <= now;
}

void ledger_attach(uint32_t client, zb_answer a)
{
    if (a.outcome == ZB_DONE)
        ledger.attached |= (uint32_t)1 << client;
}

static void strike(ledger_entry *e, uint32_t client)
{
    uint32_t kept = 0;
    bool full = e->parties == PARTIES;
    for (uint32_t p = 0; p < e->parties; p++) {
        if (e->party[p].client != client) {
            e->party[kept++] = e->party[p];
            continue;
        }
        move(e->party[p].serial, HELD, BY_LEAVING);
        ledger.by_leaving++;
        e->struck |= (uint32_t)1 << client;
        reached(REACHED_STRUCK);
    }
    e->parties = kept;
    if (full && kept < PARTIES)
        reached(REACHED_FULL_STRUCK);
}

void ledger_detach(uint32_t client, zb_answer a)
{
    if (a.refusal)
        return;
    ledger.attached &= ~((uint32_t)1 << client);
    for (uint32_t n = 0; n < ledger.lives; n++)
        strike(&ledger.live[n], client);
}

static void accept(ledger_entry *e, uint32_t client, uint64_t now, const uint8_t *frame)
{
    if (e->parties == PARTIES)
        pair_differs("ledger: a party more than an entry has room for");
    ledger_party *p = &e->party[e->parties++];
    p->serial = (uint32_t)ledger.accepted++;
    p->client = client;
    p->id = (uint16_t)(frame[0] << 8 | frame[1]);
    p->accepted_at = now;
    e->ever++;
    move(p->serial, NEVER, HELD);
}

static bool is_of_bits(uint8_t function)
{
    return function == 1 || function == 2 || function == 5 || function == 15;
}

static bool is_write(uint8_t function)
{
    return function == 5 || function == 6 || function == 15 || function == 16 || function == 22 || function == 23;
}

bool ledger_meets(const ledger_write *w, uint8_t unit, uint8_t function, uint32_t start, uint32_t quantity)
{
    if (w->unit != unit)
        return false;
    if (!is_write(w->function))
        return true;
    return is_of_bits(w->function) == is_of_bits(function) && !(w->last < start || w->first > start + quantity - 1);
}

const ledger_write *ledger_written(uint32_t n)
{
    return &written[n];
}

/* The last write or "other" that was issued after the read and meets it, or NULL: by the history and not by a mark. */
static const ledger_write *met_since(const ledger_entry *read)
{
    for (uint32_t n = ledger.writes; n > 0 && written[n - 1].issue > read->issue; n--)
        if (ledger_meets(&written[n - 1], read->unit, read->function, read->start, read->quantity))
            return &written[n - 1];
    return NULL;
}

/* The live entries that ask the same as the read in `frame`, by why they can or cannot be joined. */
typedef struct {
    uint32_t joinable, full, due;
    uint32_t by_write, by_other; /* met since their issue: they cannot be joined */
    uint32_t by_22, by_23; /* of by_write */
    uint32_t otherwise; /* of 01 for 02, and of 02 for 01: they cannot be joined */
    uint32_t read_by_23; /* the read part of a 23, which cannot be joined */
    const ledger_entry *smallest, *first_issued, *smallest_met;
} equals;

/* An equal read that was met since its issue. */
static void met_equal(equals *q, const ledger_entry *e, const ledger_write *w)
{
    q->by_write += is_write(w->function);
    q->by_other += !is_write(w->function);
    q->by_22 += w->function == 22;
    q->by_23 += w->function == 23;
    if (!q->smallest_met || e->id < q->smallest_met->id)
        q->smallest_met = e;
    if (is_of_bits(e->function) && is_write(w->function))
        reached(REACHED_BITS_CLOSED);
}

static equals equal_reads(uint64_t now, const uint8_t *frame, size_t size)
{
    equals q = {0};
    if (!ledger.join || size != 12 || frame[7] < 1 || frame[7] > 4)
        return q;
    for (uint32_t n = 0; n < ledger.lives; n++) {
        const ledger_entry *e = &ledger.live[n];
        if (e->unit != frame[6] || e->start != (frame[8] << 8 | frame[9])
            || e->quantity != (frame[10] << 8 | frame[11]))
            continue;
        q.otherwise += frame[7] < 3 && e->function == 3 - frame[7];
        q.read_by_23 += frame[7] >= 3 && e->function == 23;
        if (e->function != frame[7])
            continue;
        q.due += is_due(e, now);
        q.full += !is_due(e, now) && e->parties == PARTIES;
        if (is_due(e, now) || e->parties == PARTIES)
            continue;
        const ledger_write *w = met_since(e);
        if (w) {
            met_equal(&q, e, w);
            continue;
        }
        q.joinable++;
        if (!q.smallest || e->id < q.smallest->id)
            q.smallest = e;
        if (!q.first_issued || e->issue < q.first_issued->issue)
            q.first_issued = e;
    }
    return q;
}

/* An issued write or "other" is kept with its addresses. */
static void keep_write(const ledger_entry *e)
{
    ledger_write *w = &written[ledger.writes++];
    bool one = e->function == 5 || e->function == 6 || e->function == 22;
    w->issue = e->issue;
    w->unit = e->unit;
    w->function = e->function;
    w->first = e->start;
    w->last = one ? e->start : (uint32_t)e->start + e->quantity - 1;
    if (e->function != 23)
        return;
    w->read_first = w->first;
    w->read_last = w->last;
    w->first = e->write_start;
    w->last = (uint32_t)e->write_start + e->write_quantity - 1;
}

/* 22 and 23 never share a request: a live one that asks the same. */
static void beside_its_like(const ledger_entry *e)
{
    for (ledger_entry *other = ledger.live; other < e; other++) {
        if (other->function != e->function || other->unit != e->unit || other->start != e->start
            || other->quantity != e->quantity)
            continue;
        if (e->function == 22 && memcmp(other->written + 8, e->written + 8, 6) == 0)
            reached(REACHED_22_TWICE);
        if (e->function == 23 && other->write_start == e->write_start && other->write_quantity == e->write_quantity)
            reached(REACHED_23_TWICE);
    }
}

/* Demand 3: an id is not issued again until OTHERS_BETWEEN others were, and never while it is live. */
static void check_issued_id(uint16_t id)
{
    if (live(id))
        pair_differs("ledger: a live id was issued again");
    if (last_issue[id] && ledger.issues - last_issue[id] < OTHERS_BETWEEN)
        pair_differs("ledger: an id was issued again too soon");
    uint16_t next = (uint16_t)(ledger.last_id + 1);
    for (uint16_t skipped = next; skipped != id; skipped++) {
        if (!live(skipped))
            pair_differs("ledger: a free id was skipped");
        reached(REACHED_SKIPPED);
    }
    if (next == 65535 && id == 0)
        reached(REACHED_SKIPPED_BEFORE_WRAP);
    if (next == 65535 && id >= 1 && id < ZB_PLACES)
        reached(REACHED_SKIPPED_AT_WRAP);
    if (ledger.issues && id < ledger.last_id)
        reached(REACHED_WRAP);
}

/* What a 06, 22 or 23 keeps besides its first two words. */
static void keep_bytes(ledger_entry *e, const uint8_t *frame)
{
    size_t size = e->function == 6 ? SINGLE : e->function == 22 ? MASK : 0;
    memcpy(e->written, frame, size);
    memcpy(e->sent, pair_out(), size);
    if (e->function == 23) {
        e->write_start = (uint16_t)word_at(frame + 12);
        e->write_quantity = (uint16_t)word_at(frame + 14);
    }
}

static void issued(uint32_t client, uint64_t now, const uint8_t *frame, size_t size, zb_answer a)
{
    check_issued_id((uint16_t)a.id);
    if (ledger.lives == ZB_PLACES)
        pair_differs("ledger: a live request more than there are places was issued");
    last_issue[a.id] = ++ledger.issues;
    ledger.last_id = (uint16_t)a.id;
    ledger_entry *e = &ledger.live[ledger.lives++];
    memset(e, 0, sizeof *e);
    e->id = (uint16_t)a.id;
    e->unit = frame[6];
    e->function = frame[7];
    e->start = (uint16_t)(size < 12 ? 0 : frame[8] << 8 | frame[9]);
    e->quantity = (uint16_t)(size < 12 ? 0 : frame[10] << 8 | frame[11]);
    e->issued_at = now;
    e->issue = ledger.issues;
    keep_bytes(e, frame);
    if (e->function < 1 || e->function > 4)
        keep_write(e);
    beside_its_like(e);
    accept(e, client, now, frame);
    if (ledger.lives == ZB_PLACES)
        reached(REACHED_LAST_PLACE);
    if (now + ledger.timeout > INT64_MAX)
        reached(REACHED_NEVER_DUE);
}

/* The last write was issued behind a read that is joined, and misses it. */
static void missed(const ledger_entry *read, const ledger_write *w)
{
    uint32_t first = read->start, last = first + read->quantity - 1u;
    bool of_bits = is_of_bits(read->function), is_over = w->first <= last && w->last >= first;
    reached(REACHED_MISSED_JOINED);
    if (w->unit != read->unit)
        return;
    if (w->function == 22 && !of_bits && (w->last + 1 == first || w->first == last + 1))
        reached(REACHED_22_MISSED);
    if (w->function == 23 && !of_bits && w->read_first <= last && w->read_last >= first)
        reached(REACHED_23_MISSED);
    if (w->function == 22 && of_bits && is_over)
        reached(REACHED_22_BITS);
    if (w->function == 23 && of_bits && is_over)
        reached(REACHED_23_BITS);
}

static void joined(uint32_t client, uint64_t now, const uint8_t *frame, zb_answer a, const equals *q)
{
    ledger_entry *e = live(a.id);
    if (!e || e != q->smallest)
        pair_differs("ledger: not the smallest entry that can be joined");
    if (q->joinable > 1)
        reached(REACHED_SMALLEST_JOINED);
    if (q->smallest != q->first_issued)
        reached(REACHED_SMALLEST_IS_YOUNGER);
    if (q->smallest_met && q->smallest_met->id < e->id)
        reached(REACHED_CLOSED_PASSED_OVER);
    if (ledger.writes && written[ledger.writes - 1].issue > e->issue)
        missed(e, &written[ledger.writes - 1]);
    if (e->parties == 0)
        reached(REACHED_EMPTY_JOINED);
    if (e->parties == PARTIES - 1)
        reached(REACHED_LAST_PARTY);
    if (e->ever >= PARTIES)
        reached(REACHED_ROOM_USED_AGAIN);
    if (ledger.lives == ZB_PLACES)
        reached(REACHED_JOINED_WHEN_FULL);
    if (e->function < 3)
        reached(REACHED_BITS_JOINED);
    strict_joined(e);
    accept(e, client, now, frame);
}

/* Other than for a tag. */
static void got_exception(uint8_t function, zb_answer a)
{
    if (a.code == 2)
        reached(is_of_bits(function) ? REACHED_BITS_02 : REACHED_EXCEPTION_02);
    if (a.code == 3)
        reached(function == 5 ? REACHED_COIL_03 : is_of_bits(function) ? REACHED_BITS_03 : REACHED_EXCEPTION_03);
    if (a.code != 4)
        return;
    reached(REACHED_EXCEPTION_04);
    reached(REACHED_BEYOND_THE_PLACES);
    if (function == 22)
        reached(REACHED_22_04);
    if (function == 23)
        reached(REACHED_23_04);
    if (ledger.lives != ZB_PLACES)
        pair_differs("ledger: exception 04 while a place is free");
}

/* Coils and discrete inputs pass unchanged behind the id, the bits past the quantity too, and no tag is counted; so does
   a 22. */
static void passes(const uint8_t *frame, zb_answer a)
{
    if (a.partial || a.value)
        pair_differs("ledger: a tag was counted in a frame of bits or masks");
    if (memcmp(pair_out() + 2, frame + 2, a.length - 2) != 0)
        pair_differs("ledger: a frame of bits or masks was changed");
}

/* #105, by what C prints of a number and of a word, and not by arithmetic on digits. */
typedef void looking(uint32_t was, uint32_t is);

/* Looks at each signed tag of a range of registers, as it was and as it is. */
static void look_at_signed(looking *look, uint32_t start, uint32_t quantity, const uint8_t *was, const uint8_t *is,
                           zb_answer a)
{
    const zb_settings *s = &ledger.settings;
    for (uint32_t t = 0; t < s->tags; t++) {
        if (!s->sign[t] || s->addr[t] < start || s->addr[t] >= start + quantity)
            continue;
        uint32_t at = 2 * (s->addr[t] - start);
        look((uint32_t)was[at] << 8 | was[at + 1], (uint32_t)is[at] << 8 | is[at + 1]);
        if (a.partial && s->addr[t] == start)
            reached(REACHED_SIGNED_FIRST);
        if (a.partial && s->addr[t] == start + quantity - 1)
            reached(REACHED_SIGNED_LAST);
    }
}

static void signed_went_out(uint32_t was, uint32_t is)
{
    char digits[16];
    int number = (int16_t)was;
    bool fits = snprintf(digits, sizeof digits, "%c%03d", number < 0 ? 'F' : '0', abs(number)) == 4;
    if (is != (fits ? strtoul(digits, NULL, 16) : was))
        pair_differs("ledger: a signed tag went out as another number");
    reached(!fits ? REACHED_SIGNED_RAW : number < 0 ? REACHED_SIGNED_MINUS : REACHED_SIGNED_PLUS);
}

static void signed_came_back(uint32_t was, uint32_t is)
{
    char word[16];
    snprintf(word, sizeof word, "%04X", (unsigned)was);
    bool minus = word[0] == 'F', zero = strcmp(word + 1, "000") == 0;
    bool counts = (minus ? !zero : word[0] == '0') && strspn(word + 1, "0123456789") == 3;
    int number = minus ? -atoi(word + 1) : atoi(word + 1);
    if (is != (counts ? (uint16_t)number : was))
        pair_differs("ledger: a signed tag came back as another number");
    if (minus && zero)
        reached(REACHED_MINUS_ZERO);
    reached(!counts ? REACHED_SIGNED_NO_NUMBER : minus ? REACHED_SIGNED_MINUS_READ : REACHED_SIGNED_PLUS_READ);
}

static void signed_echo_decoded(uint32_t was, uint32_t is)
{
    signed_came_back(was, is);
    reached(REACHED_SIGNED_ECHO);
}

static void signed_echo_passed(uint32_t was, uint32_t is)
{
    if (was != is)
        pair_differs("ledger: the echo of a signed tag that went out raw was changed");
    reached(REACHED_SIGNED_RAW_ECHO);
}

static void signed_in_request(const uint8_t *frame, zb_answer a)
{
    if (frame[7] == 6)
        look_at_signed(signed_went_out, (uint32_t)frame[8] << 8 | frame[9], 1, frame + 10, pair_out() + 10, a);
    if (frame[7] == 16)
        look_at_signed(signed_went_out, (uint32_t)frame[8] << 8 | frame[9], frame[11], frame + 13, pair_out() + 13, a);
    if (frame[7] == 23)
        look_at_signed(signed_went_out, word_at(frame + 12), frame[15], frame + 17, pair_out() + 17, a);
}

static void signed_in_reply(const ledger_entry *e, const uint8_t *frame, zb_answer a)
{
    int written = (int16_t)e->quantity; /* of a 06 */
    if (frame[7] == 3 || frame[7] == 4 || frame[7] == 23)
        look_at_signed(signed_came_back, e->start, e->quantity, frame + 9, pair_out() + 9, a);
    if (frame[7] == 6)
        look_at_signed(-999 <= written && written <= 999 ? signed_echo_decoded : signed_echo_passed, e->start, 1,
                       frame + 10, pair_out() + 10, a);
}

static void raw_counts_of_request(uint8_t function, zb_answer a)
{
    if (a.partial)
        reached(function == 6 ? REACHED_PARTIAL_SINGLE : function == 16 ? REACHED_PARTIAL_MULTIPLE : REACHED_PARTIAL_23);
    if (a.value)
        reached(function == 6 ? REACHED_VALUE_SINGLE : function == 16 ? REACHED_VALUE_MULTIPLE : REACHED_VALUE_23);
    if (a.partial && a.value)
        reached(REACHED_BOTH_RAW);
}

static void why_refused(uint32_t client, uint64_t now, zb_answer a)
{
    if (a.refusal == ZB_REFUSED_CLIENT && (client == 259 || client == UINT32_MAX))
        reached(REACHED_FULL_WIDTH_CLIENT);
    if (a.refusal == ZB_REFUSED_TIME)
        reached(now > INT64_MAX ? REACHED_TIME_TOO_LARGE : REACHED_CLOCK_BACK);
}

/* A hit is not accepted: that time has passed is all that it leaves behind. */
static void hit(const equals *q)
{
    if (q->joinable)
        reached(REACHED_HIT_BEFORE_JOIN);
    if (!ledger.join)
        reached(REACHED_HIT_NO_JOIN);
    if (ledger.lives == ZB_PLACES)
        reached(REACHED_HIT_WHEN_FULL);
}

/* Why a request that is no hit joined nothing; it was issued, or got exception 04. */
static void not_joined(const equals *q, zb_answer a)
{
    if (q->due)
        reached(REACHED_DUE_NOT_JOINED);
    if (q->by_write)
        reached(REACHED_WRITE_CLOSED);
    if (q->by_other)
        reached(REACHED_OTHER_CLOSED);
    if (a.outcome == ZB_EXCEPTION && q->by_write + q->by_other)
        reached(REACHED_CLOSED_04);
    if (a.outcome == ZB_ISSUED && q->full)
        reached(REACHED_BEYOND_THE_PARTIES);
    if (a.outcome == ZB_ISSUED && q->otherwise)
        reached(REACHED_OTHER_TABLE);
    if (q->by_22)
        reached(REACHED_22_CLOSED);
    if (q->by_23)
        reached(REACHED_23_CLOSED);
    if (a.outcome == ZB_ISSUED && q->read_by_23)
        reached(REACHED_23_NOT_JOINED);
}

/* A 22 or 23 that came so far is refused for its length exactly if that is wrong. */
static void look_at_length(const uint8_t *frame, size_t size, zb_answer a)
{
    if ((a.refusal != 0 && a.refusal != ZB_REFUSED_LENGTH) || (frame[7] != 22 && frame[7] != 23))
        return;
    bool right = frame[7] == 22 ? size == MASK : size >= 17 && size == 17u + frame[16];
    if (right != (a.refusal == 0))
        pair_differs("ledger: refusal 6 to a 22 or 23 exactly if its length is wrong");
    if (right)
        return;
    if (frame[7] == 22 && (size == MASK - 1 || size == MASK + 1))
        reached(size < MASK ? REACHED_22_SHORT : REACHED_22_LONG);
    if (frame[7] == 22)
        return;
    if (size == 16)
        reached(REACHED_23_SHORT);
    if (size < 17)
        return;
    if (size + 1 == 17u + frame[16] || size == 18u + frame[16])
        reached(size < 17u + frame[16] ? REACHED_23_BYTE_LESS : REACHED_23_BYTE_MORE);
    if (frame[16] == 2 * word_at(frame + 14))
        reached(REACHED_23_BYTES_BY_QUANTITY);
    else
        reached(REACHED_23_BYTES_BY_NEITHER);
}

/* A 23 with a bad number gets exception 03, and then one with a bad range 02 (strict.c looks); which of them was bad. */
static void bad_numbers_of_23(const uint8_t *frame)
{
    uint32_t reads = word_at(frame + 10), writes = word_at(frame + 14);
    uint32_t read_end = word_at(frame + 8) + reads, write_end = word_at(frame + 12) + writes;
    bool bad_read = reads == 0 || reads > 125, bad_write = writes == 0 || writes > 121, bad_bytes = frame[16] != 2 * writes;
    bool far = read_end > 65536 || write_end > 65536;
    if (far && !bad_read && !bad_write && !bad_bytes)
        reached(read_end <= 65536    ? REACHED_23_WRITES_FAR
                : write_end <= 65536 ? REACHED_23_READS_FAR
                                     : REACHED_23_BOTH_FAR);
    if (far && (bad_read || bad_write || bad_bytes))
        reached(REACHED_23_03_BEFORE_02);
    if (!bad_write && !bad_bytes && (reads == 0 || reads == 126))
        reached(reads == 0 ? REACHED_23_READS_0 : REACHED_23_READS_126);
    if (!bad_read && (writes == 0 || writes == 122))
        reached(writes == 0 ? REACHED_23_WRITES_0 : REACHED_23_WRITES_122);
    if (!bad_read && !bad_write && bad_bytes)
        reached(REACHED_23_BYTES_BY_LENGTH);
}

/* A 23 that goes out with numbers at an edge. */
static void edges_of_23(const uint8_t *frame)
{
    uint32_t reads = word_at(frame + 10), writes = word_at(frame + 14);
    uint32_t read_end = word_at(frame + 8) + reads, write_end = word_at(frame + 12) + writes;
    if (reads == 1 || reads == 125)
        reached(reads == 1 ? REACHED_23_READS_1 : REACHED_23_READS_125);
    if (writes == 1 || writes == 121)
        reached(writes == 1 ? REACHED_23_WRITES_1 : REACHED_23_WRITES_121);
    if (read_end == 65536)
        reached(REACHED_23_READS_TOP);
    if (write_end == 65536)
        reached(REACHED_23_WRITES_TOP);
    if (read_end - reads < write_end && write_end - writes < read_end)
        reached(REACHED_23_OVERLAP);
}

/* What is issued, as it goes to the controller. */
static void went_out(const uint8_t *frame, zb_answer a)
{
    if (is_of_bits(frame[7]) || frame[7] == 22)
        passes(frame, a);
    if (frame[7] == 15 && frame[10] == 7 && frame[11] == 0xB0)
        reached(REACHED_MOST_COILS);
    if (frame[7] == 23 && memcmp(pair_out() + 2, frame + 2, 15) != 0)
        pair_differs("ledger: a 23 was changed before its registers");
    if (frame[7] == 23)
        edges_of_23(frame);
    raw_counts_of_request(frame[7], a);
    signed_in_request(frame, a);
}

void ledger_request(uint32_t client, uint64_t now, const uint8_t *frame, size_t size, zb_answer a)
{
    look_at_length(frame, size, a);
    if (a.refusal) {
        why_refused(client, now, a);
        hits_refused(frame, size, a);
        return;
    }
    ledger.clock = now;
    bool by_tag = strict_request(frame, a);
    if (a.outcome == ZB_EXCEPTION) {
        hits_excepted(frame, size, by_tag);
        if (!by_tag)
            got_exception(frame[7], a);
        if (!by_tag && frame[7] == 23)
            bad_numbers_of_23(frame);
    }
    if (a.outcome == ZB_EXCEPTION && a.code != 4)
        return;
    equals q = equal_reads(now, frame, size);
    hits_request(now, frame, size, a);
    if (a.outcome == ZB_HIT) {
        hit(&q);
        return;
    }
    if ((a.outcome == ZB_JOINED) != (q.joinable != 0))
        pair_differs("ledger: joined exactly if an entry can be joined");
    if (a.outcome == ZB_JOINED) {
        joined(client, now, frame, a, &q);
        return;
    }
    not_joined(&q, a);
    if (a.outcome == ZB_EXCEPTION)
        return;
    went_out(frame, a);
    issued(client, now, frame, size, a);
}

/* The list is exactly the clients and their own ids that are held under the proxy id, in order. */
static void check_list(const ledger_entry *e, zb_answer a)
{
    const uint16_t *list = pair_list();
    uint32_t seen = 0;
    if (a.parties != e->parties)
        pair_differs("ledger: the list's length");
    for (uint32_t p = 0; p < e->parties; p++) {
        const ledger_party *party = &e->party[p];
        if (list[2 * p] != party->client || list[2 * p + 1] != party->id)
            pair_differs("ledger: the list");
        if (seen >> party->client & 1)
            reached(REACHED_CLIENT_TWICE);
        for (uint32_t earlier = 0; earlier < p; earlier++)
            if (e->party[earlier].client == party->client && e->party[earlier].id == party->id)
                reached(REACHED_SAME_IDS_TWICE);
        seen |= (uint32_t)1 << party->client;
    }
    if (e->struck & ledger.attached & ~seen)
        reached(REACHED_SUCCESSOR);
    if (e->struck & ledger.attached & seen)
        reached(REACHED_SUCCESSOR_OWN);
}

static void end_entry(ledger_entry *e, zb_answer a, enum group to)
{
    check_list(e, a);
    for (uint32_t p = 0; p < e->parties; p++)
        move(e->party[p].serial, HELD, to);
    if (to == BY_REPLY)
        ledger.by_reply += e->parties;
    else
        ledger.by_timeout += e->parties;
    if (e->parties == 0)
        reached(to == BY_REPLY ? REACHED_EMPTY_ANSWERED : REACHED_EMPTY_TIMED_OUT);
    if (e->parties == PARTIES)
        reached(to == BY_REPLY ? REACHED_FULL_ANSWERED : REACHED_FULL_TIMED_OUT);
    if (e->function >= 1 && e->function <= 4 && met_since(e)) {
        reached(to == BY_REPLY ? REACHED_CLOSED_ANSWERED : REACHED_CLOSED_TIMED_OUT);
        if (e->parties == 0)
            reached(REACHED_CLOSED_EMPTY);
    }
    *e = ledger.live[--ledger.lives];
}

static void raw_counts_of_reply(uint8_t function, zb_answer a)
{
    if (function == 6)
        return;
    if (a.partial)
        reached(function == 23 ? REACHED_PARTIAL_BACK_23 : REACHED_PARTIAL_READ);
    if (a.value)
        reached(function == 23 ? REACHED_VALUE_BACK_23 : REACHED_VALUE_READ);
    if (a.partial && a.value)
        reached(REACHED_BOTH_RAW);
}

/* A controller that echoes what it was sent gives the client back what it wrote; an echo that is not decoded counts nothing. */
static void echo_comes_back(const ledger_entry *e, const uint8_t *frame, zb_answer a)
{
    bool raw = memcmp(e->sent + 10, e->written + 10, 2) == 0 && e->quantity > 9999;
    if (a.partial)
        pair_differs("ledger: an echo counts partial cover");
    if (memcmp(frame, e->sent, SINGLE) != 0) {
        if (a.value)
            reached(REACHED_VALUE_ECHO);
        return;
    }
    if (a.length != SINGLE || memcmp(pair_out() + 2, e->written + 2, SINGLE - 2) != 0 || a.value)
        pair_differs("ledger: the echo of what was sent is not what the client wrote");
    if (raw)
        reached(REACHED_RAW_ECHO);
    else if (memcmp(e->sent + 10, e->written + 10, 2) != 0)
        reached(REACHED_DECODED_ECHO);
}

/* An echo of 05 that differs from the request in nothing but the value. */
static bool is_echo_of_another_value(const ledger_entry *e, const uint8_t *frame)
{
    return e->function == 5 && frame[7] == 5 && frame[6] == e->unit && (frame[8] << 8 | frame[9]) == e->start
        && frame[4] == 0 && frame[5] == 6;
}

/* How many bits of so many bytes differ. */
static uint32_t bits_between(const uint8_t *a, const uint8_t *b, size_t size)
{
    uint32_t bits = 0;
    for (size_t k = 0; k < 8 * size; k++)
        bits += (a[k / 8] ^ b[k / 8]) >> k % 8 & 1;
    return bits;
}

/* What comes near to answering a 22 or 23, and does not. */
static void mismatched_22_or_23(const ledger_entry *e, const uint8_t *frame)
{
    uint32_t length = word_at(frame + 4), bytes = frame[8];
    if (frame[6] != e->unit || frame[7] != e->function)
        return;
    if (e->function == 22 && length == MASK - 6) {
        uint32_t bits = bits_between(frame + 8, e->sent + 8, 6);
        if (bits == 0)
            pair_differs("ledger: refusal 8 to the echo of a 22");
        if (bits == 1)
            reached(REACHED_22_ECHO_BIT);
    }
    if (e->function == 23 && bytes == 2u * e->quantity && length == 3 + bytes)
        pair_differs("ledger: refusal 8 to what answers a 23");
    if (e->function == 23 && bytes == 2u * e->write_quantity && length == 3 + bytes)
        reached(REACHED_23_BY_WRITE_QUANTITY);
}

static void mismatched(ledger_entry *e, const uint8_t *frame)
{
    if (!e)
        pair_differs("ledger: refusal 8 to an id that is not live");
    if (is_echo_of_another_value(e, frame))
        reached(REACHED_ECHO_VALUE);
    mismatched_22_or_23(e, frame);
    e->mismatched = true;
}

/* A 22 or 23 that is answered: by the same PDU, by so many registers as it reads, or by the controller's exception. */
static void answered_22_or_23(const ledger_entry *e, const uint8_t *frame, zb_answer a)
{
    bool excepted = frame[7] == e->function + 128 && a.length == 9;
    if (e->function == 22) {
        bool same = a.length == MASK && memcmp(frame + 6, e->written + 6, MASK - 6) == 0;
        if (!excepted && !same)
            pair_differs("ledger: a 22 is answered by another PDU than its own");
        reached(excepted ? REACHED_22_EXCEPTION : REACHED_22_ECHO);
    }
    if (e->function == 23) {
        bool fits = frame[7] == 23 && frame[8] == 2u * e->quantity && a.length == 9u + 2u * e->quantity;
        if (!excepted && !fits)
            pair_differs("ledger: a 23 is answered by other registers than it reads");
        if (memcmp(pair_out() + 2, frame + 2, 7) != 0)
            pair_differs("ledger: the reply to a 23 was changed before its registers");
        reached(excepted ? REACHED_23_EXCEPTION : REACHED_23_ANSWERED);
    }
}

void ledger_reply(uint64_t now, const uint8_t *frame, zb_answer a)
{
    if (a.refusal) {
        why_refused(0, now, a);
        if (a.refusal == ZB_REFUSED_MISMATCH)
            mismatched(live((uint32_t)(frame[0] << 8 | frame[1])), frame);
        return;
    }
    ledger.clock = now;
    ledger_entry *e = live(a.id);
    if (!e || a.id != (uint32_t)(frame[0] << 8 | frame[1]))
        pair_differs("ledger: an answer without its own reply");
    if (is_due(e, now))
        reached(REACHED_LATE_REPLY);
    if (frame[7] >= 128)
        reached(REACHED_CONTROLLER_EXCEPTION);
    if (is_of_bits(e->function) || e->function == 22)
        passes(frame, a);
    answered_22_or_23(e, frame, a);
    if (frame[7] < 3 && e->quantity == 2000)
        reached(REACHED_MOST_BITS);
    raw_counts_of_reply(frame[7], a);
    signed_in_reply(e, frame, a);
    strict_reply(e, frame, a);
    if (frame[7] == 6)
        echo_comes_back(e, frame, a);
    hits_answered(e, now, frame, a, met_since(e) != NULL);
    end_entry(e, a, BY_REPLY);
}

/* Of the due entries the earliest, ties to the smallest id. */
static ledger_entry *first_due(uint64_t now)
{
    ledger_entry *found = NULL;
    bool tie = false;
    for (uint32_t n = 0; n < ledger.lives; n++) {
        ledger_entry *e = &ledger.live[n];
        if (!is_due(e, now))
            continue;
        if (found && e->issued_at == found->issued_at)
            tie = true;
        if (!found || e->issued_at < found->issued_at)
            tie = false;
        if (!found || e->issued_at < found->issued_at || (e->issued_at == found->issued_at && e->id < found->id))
            found = e;
    }
    if (tie)
        reached(REACHED_TIE);
    return found;
}

void ledger_tick(uint64_t now, zb_answer a)
{
    if (a.refusal) {
        why_refused(0, now, a);
        return;
    }
    ledger.clock = now;
    ledger_entry *e = first_due(now);
    if (a.outcome == ZB_NOTHING_DUE) {
        if (e)
            pair_differs("ledger: something was due");
        ledger_drained(now);
        return;
    }
    if (!e || e->id != a.id)
        pair_differs("ledger: a timeout without its own deadline");
    reached(REACHED_EXCEPTION_0B);
    if (e->function == 22)
        reached(REACHED_22_0B);
    if (e->function == 23)
        reached(REACHED_23_0B);
    end_entry(e, a, BY_TIMEOUT);
}

void ledger_drained(uint64_t now)
{
    for (uint32_t n = 0; n < ledger.lives; n++)
        for (uint32_t p = 0; p < ledger.live[n].parties; p++)
            if (ledger.live[n].party[p].accepted_at + ledger.timeout <= now)
                pair_differs("ledger: accepted a full timeout ago and still held");
}

void ledger_link_lost(zb_answer a)
{
    if (a.set != ledger.attached)
        pair_differs("ledger: the former set");
    if (ledger.lives)
        reached(REACHED_LOST_LIVE);
    for (uint32_t n = 0; n < ledger.lives; n++)
        for (uint32_t p = 0; p < ledger.live[n].parties; p++) {
            move(ledger.live[n].party[p].serial, HELD, BY_LOST_LINK);
            ledger.by_lost_link++;
        }
    ledger.lives = 0;
    ledger.attached = 0;
    hits_link_lost();
}

void ledger_balance(void)
{
    if (ledger.accepted != ledger.by_reply + ledger.by_timeout + ledger.by_leaving + ledger.by_lost_link + held())
        pair_differs("ledger: the groups do not add up");
    for (uint32_t n = 0; n < ledger.lives; n++)
        for (uint32_t m = 0; m < n; m++)
            if (ledger.live[n].id == ledger.live[m].id)
                pair_differs("ledger: two live entries with one id");
}

void ledger_print(void)
{
    add_to_sums();
    printf("accepted %llu = by reply %llu + by timeout %llu + by leaving %llu + by lost link %llu + held %llu\n",
           (unsigned long long)all_accepted, (unsigned long long)all_reply, (unsigned long long)all_timeout,
           (unsigned long long)all_leaving, (unsigned long long)all_lost, (unsigned long long)all_held);
    if (all_accepted != all_reply + all_timeout + all_leaving + all_lost + all_held)
        pair_differs("ledger: the sums do not add up");
}
