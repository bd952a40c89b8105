/* An ordinary proxy core in C, written from document 01 alone and section by section in its order, with requests #101,
   #102 and #105 to #109 of document 02. */
#include "model.h"
#include <stdio.h>
#include <stdlib.h>
#include <string.h>

enum { HEADER = 7 };
enum { READ_COILS = 1, READ_DISCRETE = 2, READ_HOLDING = 3, READ_INPUT = 4 };
enum { WRITE_COIL = 5, WRITE_SINGLE = 6, WRITE_COILS = 15, WRITE_MULTIPLE = 16 };
enum { MASK_WRITE = 22, READ_AND_WRITE = 23, EXCEPTION = 128 };

static const uint64_t LAST_TIME = ((uint64_t)1 << 63) - 1;

/* Refusal numbers */

static zb_answer refused(uint32_t number)
{
    zb_answer a = {0};
    a.refusal = number;
    return a;
}

static zb_answer came_to(uint32_t outcome)
{
    zb_answer a = {0};
    a.outcome = outcome;
    return a;
}

static bool is_attached(const model_state *st, uint32_t client)
{
    return client < ZB_CLIENTS && (st->attached >> client & 1) != 0;
}

static bool is_wrong_time(const model_state *st, uint64_t now)
{
    return now > LAST_TIME || now < st->clock;
}

/* A frame */

static uint32_t word_at(const uint8_t *bytes)
{
    return (uint32_t)bytes[0] << 8 | bytes[1];
}

static void put_word(uint8_t *bytes, uint32_t word)
{
    bytes[0] = (uint8_t)(word >> 8);
    bytes[1] = (uint8_t)word;
}

static bool is_wrong_frame(const uint8_t *frame, size_t size)
{
    return size < 8 || size > 260 || word_at(frame + 2) != 0 || word_at(frame + 4) != size - 6;
}

static void put_exception(uint8_t *out, uint32_t id, uint8_t unit, uint8_t function, uint8_t code)
{
    put_word(out, id);
    put_word(out + 2, 0);
    put_word(out + 4, 3);
    out[6] = unit;
    out[7] = (uint8_t)(function + EXCEPTION);
    out[8] = code;
}

zb_answer model_split(const uint8_t *run, size_t run_len)
{
    if (run_len < 6)
        return came_to(ZB_MORE);
    uint32_t length = word_at(run + 4);
    if (word_at(run + 2) != 0 || length < 2 || length > 254)
        return refused(ZB_REFUSED_FRAME);
    if (run_len < 6 + length)
        return came_to(ZB_MORE);
    zb_answer a = came_to(ZB_FRAME);
    a.length = 6 + length;
    return a;
}

/* BCD words */

static bool digits_to_number(uint32_t word, uint32_t *number)
{
    *number = 0;
    for (int shift = 12; shift >= 0; shift -= 4) {
        uint32_t nibble = word >> shift & 15;
        if (nibble > 9)
            return false;
        *number = *number * 10 + nibble;
    }
    return true;
}

static uint32_t number_to_digits(uint32_t number)
{
    return number / 1000 % 10 << 12 | number / 100 % 10 << 8 | number / 10 % 10 << 4 | number % 10;
}

/* #105: a sign digit and three others, -999 to 999; 0 has no minus. */

static bool signed_to_number(uint32_t word, int *number)
{
    int hundreds = word >> 8 & 15, tens = word >> 4 & 15, ones = word & 15;
    int size = 100 * hundreds + 10 * tens + ones;
    if (hundreds > 9 || tens > 9 || ones > 9)
        return false;
    switch (word >> 12) {
    case 0x0:
        *number = size;
        return true;
    case 0xF:
        *number = -size;
        return size != 0;
    default:
        return false;
    }
}

static bool number_to_signed(int number, uint32_t *word)
{
    int size = abs(number);
    if (size > 999)
        return false;
    *word = (uint32_t)(size / 100 * 256 + size / 10 % 10 * 16 + size % 10);
    if (number < 0)
        *word += 0xF000;
    return true;
}

/* Rewrites one whole tag at `words`, or says that it must stay raw for its value. */
typedef bool rewriting(uint32_t width, uint32_t sign, uint8_t *words);

static bool tag_to_binary(uint32_t width, uint32_t sign, uint8_t *words)
{
    uint32_t low, high = 0;
    int number;
    if (sign) {
        if (!signed_to_number(word_at(words), &number))
            return false;
        put_word(words, (uint16_t)(int16_t)number);
        return true;
    }
    if (!digits_to_number(word_at(words), &low))
        return false;
    if (width == 32 && !digits_to_number(word_at(words + 2), &high))
        return false;
    uint32_t value = high * 10000 + low;
    put_word(words, value & 0xFFFF);
    if (width == 32)
        put_word(words + 2, value >> 16);
    return true;
}

static bool tag_to_bcd(uint32_t width, uint32_t sign, uint8_t *words)
{
    uint32_t value = word_at(words);
    if (sign) {
        if (!number_to_signed((int16_t)value, &value))
            return false;
        put_word(words, value);
        return true;
    }
    if (width == 32)
        value |= word_at(words + 2) << 16;
    if (value > (width == 32 ? 99999999u : 9999u))
        return false;
    put_word(words, number_to_digits(value % 10000));
    if (width == 32)
        put_word(words + 2, number_to_digits(value / 10000));
    return true;
}

/* Rewrites the registers from start on, `quantity` of them, and counts the tags that stay raw. */
static void rewrite(const zb_settings *settings, rewriting *turn, uint32_t start, uint32_t quantity,
                    uint8_t *words, zb_answer *a)
{
    for (uint32_t t = 0; t < settings->tags; t++) {
        uint32_t width = settings->width[t];
        uint32_t first = settings->addr[t];
        uint32_t behind = first + width / 16;
        if (behind <= start || first >= start + quantity)
            continue;
        if (first < start || behind > start + quantity)
            a->partial++;
        else if (!turn(width, settings->sign[t], words + 2 * (first - start)))
            a->value++;
    }
}

static bool is_tagged(const zb_settings *settings, uint32_t address)
{
    for (uint32_t t = 0; t < settings->tags; t++)
        if (settings->addr[t] <= address && address < settings->addr[t] + settings->width[t] / 16u)
            return true;
    return false;
}

/* A request */

static bool is_read_of_bits(uint8_t function)
{
    return function == READ_COILS || function == READ_DISCRETE;
}

static bool is_read(uint8_t function)
{
    return is_read_of_bits(function) || function == READ_HOLDING || function == READ_INPUT;
}

static bool is_single_write(uint8_t function)
{
    return function == WRITE_COIL || function == WRITE_SINGLE;
}

static bool is_multiple_write(uint8_t function)
{
    return function == WRITE_COILS || function == WRITE_MULTIPLE;
}

static bool is_wrong_pdu_length(const uint8_t *pdu, size_t length)
{
    if (is_read(pdu[0]) || is_single_write(pdu[0]))
        return length != 5;
    if (is_multiple_write(pdu[0]))
        return length < 6 || length != 6u + pdu[5];
    if (pdu[0] == MASK_WRITE)
        return length != 7;
    if (pdu[0] == READ_AND_WRITE)
        return length < 10 || length != 10u + pdu[9];
    return false;
}

/* #109: what 22 and 23 ask; where they write is their start and quantity, as of other writes. */
static void ask_by_22_or_23(model_entry *e, const uint8_t *pdu)
{
    if (e->function == MASK_WRITE) {
        e->asked = ASKED_MASK_WRITE;
        e->start = word_at(pdu + 1);
        e->quantity = 1;
        memcpy(e->pdu, pdu, sizeof e->pdu);
    }
    if (e->function == READ_AND_WRITE) {
        e->asked = ASKED_READ_AND_WRITE;
        e->read_start = word_at(pdu + 1);
        e->read_quantity = word_at(pdu + 3);
        e->start = word_at(pdu + 5);
        e->quantity = word_at(pdu + 7);
    }
}

/* What was asked, as an entry that is not live yet. */
static model_entry asked_by(const uint8_t *frame)
{
    const uint8_t *pdu = frame + HEADER;
    model_entry e = {0};
    e.unit = frame[6];
    e.function = pdu[0];
    e.asked = ASKED_OTHER;
    if (is_read(e.function))
        e.asked = ASKED_READ;
    if (is_single_write(e.function))
        e.asked = ASKED_SINGLE_WRITE;
    if (is_multiple_write(e.function))
        e.asked = ASKED_MULTIPLE_WRITE;
    e.bits = is_read_of_bits(e.function) || e.function == WRITE_COIL || e.function == WRITE_COILS;
    if (e.asked != ASKED_OTHER) {
        e.start = word_at(pdu + 1);
        e.quantity = e.asked == ASKED_SINGLE_WRITE ? 1 : word_at(pdu + 3);
        e.value = e.asked == ASKED_SINGLE_WRITE ? word_at(pdu + 3) : 0;
    }
    ask_by_22_or_23(&e, pdu);
    return e;
}

/* The byte count for so many registers or bits: for bits one byte for each eight that were begun. */
static uint32_t bytes_of(const model_entry *asked)
{
    uint32_t bytes = 0;
    if (!asked->bits)
        return 2 * asked->quantity;
    for (uint32_t bit = 0; bit < asked->quantity; bit += 8)
        bytes++;
    return bytes;
}

static uint32_t most_of(const model_entry *asked)
{
    if (asked->asked == ASKED_READ)
        return asked->bits ? 2000 : 125;
    return asked->bits ? 1968 : 123;
}

/* #109: 03 for a bad number of either part of a 23, then 02 for either range. */
static uint8_t exception_for_23(const model_entry *asked, const uint8_t *pdu)
{
    if (asked->read_quantity < 1 || asked->read_quantity > 125)
        return 3;
    if (asked->quantity < 1 || asked->quantity > 121 || pdu[9] != 2 * asked->quantity)
        return 3;
    if (asked->read_start + asked->read_quantity > 65536)
        return 2;
    return asked->start + asked->quantity > 65536 ? 2 : 0;
}

/* Document 01's exception 03 or 02, or 0 where there is none. */
static uint8_t exception_for(const model_entry *asked, const uint8_t *pdu)
{
    if (asked->asked == ASKED_SINGLE_WRITE)
        return asked->bits && asked->value != 0x0000 && asked->value != 0xFF00 ? 3 : 0;
    if (asked->asked == ASKED_READ_AND_WRITE)
        return exception_for_23(asked, pdu);
    if (asked->asked == ASKED_MASK_WRITE || asked->asked == ASKED_OTHER)
        return 0;
    if (asked->quantity < 1 || asked->quantity > most_of(asked))
        return 3;
    if (asked->asked == ASKED_MULTIPLE_WRITE && pdu[5] != bytes_of(asked))
        return 3;
    return asked->start + asked->quantity > 65536 ? 2 : 0;
}

/* #108: whether a client's value for a whole tag is one of its kind. */
static bool is_in_range(uint32_t width, uint32_t sign, const uint8_t *words)
{
    uint32_t low = word_at(words);
    if (sign)
        return low <= 999 || low >= 65536 - 999;
    if (width == 16)
        return low <= 9999;
    return word_at(words + 2) * 65536 + low <= 99999999;
}

/* #108: a strict tag that the registers cover partly, or whose value is outside its range. */
static bool is_forbidden(const zb_settings *settings, uint32_t start, uint32_t quantity, const uint8_t *words)
{
    for (uint32_t t = 0; t < settings->tags; t++) {
        uint32_t first = settings->addr[t], last = first + settings->width[t] / 16u - 1;
        bool has_first = first >= start && first < start + quantity;
        bool has_last = last >= start && last < start + quantity;
        if (!settings->strict[t] || (!has_first && !has_last))
            continue;
        if (!has_first || !has_last)
            return true;
        if (!is_in_range(settings->width[t], settings->sign[t], words + 2 * (first - start)))
            return true;
    }
    return false;
}

/* #108: exception 03 for a strict tag comes behind the others, to 06, 16 and the write part of 23; #109: to 22 for any
   tag. */
static uint8_t exception_by_tags(const zb_settings *settings, const model_entry *asked, const uint8_t *pdu)
{
    bool forbidden = false;
    if (asked->function == WRITE_SINGLE)
        forbidden = is_forbidden(settings, asked->start, 1, pdu + 3);
    if (asked->function == WRITE_MULTIPLE)
        forbidden = is_forbidden(settings, asked->start, asked->quantity, pdu + 6);
    if (asked->function == READ_AND_WRITE)
        forbidden = is_forbidden(settings, asked->start, asked->quantity, pdu + 10);
    if (asked->function == MASK_WRITE)
        forbidden = is_tagged(settings, asked->start);
    return forbidden ? 3 : 0;
}

static bool can_be_joined(const model_entry *e, const model_entry *asked, uint64_t now)
{
    return e->live && !e->closed && e->unit == asked->unit && e->function == asked->function && e->start == asked->start
        && e->quantity == asked->quantity && e->parties < MODEL_PARTIES && e->deadline > now;
}

static model_entry *entry_to_join(model_state *st, const model_entry *asked, uint64_t now)
{
    model_entry *found = NULL;
    if (!st->settings.join || asked->asked != ASKED_READ)
        return NULL;
    for (int n = 0; n < MODEL_LIVE; n++) {
        model_entry *e = &st->entries[n];
        if (can_be_joined(e, asked, now) && (!found || e->id < found->id))
            found = e;
    }
    return found;
}

static model_entry *live_entry(model_state *st, uint32_t id)
{
    for (int n = 0; n < MODEL_LIVE; n++)
        if (st->entries[n].live && st->entries[n].id == id)
            return &st->entries[n];
    return NULL;
}

static model_entry *free_entry(model_state *st)
{
    for (int n = 0; n < MODEL_LIVE; n++)
        if (!st->entries[n].live)
            return &st->entries[n];
    return NULL;
}

static void add_party(model_entry *e, uint32_t client, uint32_t id)
{
    e->party[e->parties].client = client;
    e->party[e->parties].id = (uint16_t)id;
    e->parties++;
}

static zb_answer issue(model_state *st, model_entry *e, uint64_t now, const uint8_t *frame, size_t size, uint8_t *out)
{
    uint16_t id = st->cursor;
    while (live_entry(st, id))
        id++;
    st->cursor = (uint16_t)(id + 1);
    e->live = true;
    e->id = id;
    e->deadline = now + st->settings.timeout;
    zb_answer a = came_to(ZB_ISSUED);
    a.id = id;
    a.length = (uint32_t)size;
    memcpy(out, frame, size);
    put_word(out, id);
    if (!e->bits && e->asked == ASKED_SINGLE_WRITE) {
        rewrite(&st->settings, tag_to_bcd, e->start, 1, out + HEADER + 3, &a);
        e->reencoded = is_tagged(&st->settings, e->start) && a.partial == 0 && a.value == 0;
    }
    if (!e->bits && e->asked == ASKED_MULTIPLE_WRITE)
        rewrite(&st->settings, tag_to_bcd, e->start, e->quantity, out + HEADER + 6, &a);
    if (e->asked == ASKED_READ_AND_WRITE)
        rewrite(&st->settings, tag_to_bcd, e->start, e->quantity, out + HEADER + 10, &a);
    return a;
}

/* Whether what is issued spoils a read (#102): a write one of its unit and table that has an address of it, looked at
   address by address, an "other" every one of its unit. */
static bool spoils(const model_entry *asked, uint8_t unit, bool bits, uint32_t start, uint32_t quantity)
{
    if (asked->asked == ASKED_READ || asked->unit != unit)
        return false;
    if (asked->asked == ASKED_OTHER)
        return true;
    for (uint32_t address = asked->start; address < asked->start + asked->quantity; address++)
        if (address >= start && address < start + quantity)
            return asked->bits == bits;
    return false;
}

/* #102: nothing joins a live read any more that is spoilt. */
static void close_reads(model_state *st, const model_entry *asked)
{
    for (int n = 0; n < MODEL_LIVE; n++) {
        model_entry *e = &st->entries[n];
        if (e->live && e->asked == ASKED_READ && spoils(asked, e->unit, e->bits, e->start, e->quantity))
            e->closed = true;
    }
}

/* #107: a cached reply is dropped, fresh or expired, whose read is spoilt. Only reads of registers are cached. */
static void drop_cached(model_state *st, const model_entry *asked)
{
    for (int n = 0; n < MODEL_CACHED; n++) {
        model_cached *c = &st->cache[n];
        if (c->filled && spoils(asked, c->unit, false, c->start, c->quantity))
            c->filled = false;
    }
}

/* The place with the read's key, fresh or expired. */
static model_cached *cached_for(model_state *st, const model_entry *read)
{
    for (int n = 0; n < MODEL_CACHED; n++) {
        model_cached *c = &st->cache[n];
        if (c->filled && c->unit == read->unit && c->function == read->function && c->start == read->start
            && c->quantity == read->quantity)
            return c;
    }
    return NULL;
}

static bool is_fresh(const model_cached *c, uint64_t now)
{
    return now - c->filled_at < c->life;
}

/* A hit: the frame that the reply wrote, under the caller's id, and its counts. */
static zb_answer show(const model_cached *c, const uint8_t *frame, uint8_t *out)
{
    zb_answer a = came_to(ZB_HIT);
    memcpy(out, c->frame, c->length);
    put_word(out, word_at(frame));
    a.length = c->length;
    a.partial = c->partial;
    a.value = c->value;
    return a;
}

static zb_answer exception_to_caller(const uint8_t *frame, uint8_t code, uint8_t *out)
{
    zb_answer a = came_to(ZB_EXCEPTION);
    put_exception(out, word_at(frame), frame[6], frame[7], code);
    a.length = 9;
    a.code = code;
    return a;
}

static uint32_t refusal_of_request(const model_state *st, uint32_t client, uint64_t now,
                                   const uint8_t *frame, size_t size, size_t out_len)
{
    if (out_len < ZB_FRAME_BUFFER)
        return ZB_REFUSED_BUFFER;
    if (!is_attached(st, client))
        return ZB_REFUSED_CLIENT;
    if (is_wrong_time(st, now))
        return ZB_REFUSED_TIME;
    if (is_wrong_frame(frame, size))
        return ZB_REFUSED_FRAME;
    if (frame[HEADER] == 0 || frame[HEADER] >= EXCEPTION)
        return ZB_REFUSED_FUNCTION;
    return is_wrong_pdu_length(frame + HEADER, size - HEADER) ? ZB_REFUSED_LENGTH : 0;
}

zb_answer model_request(model_state *st, uint32_t client, uint64_t now,
                        const uint8_t *frame, size_t frame_len,
                        uint8_t *out, size_t out_len)
{
    uint32_t refusal = refusal_of_request(st, client, now, frame, frame_len, out_len);
    if (refusal)
        return refused(refusal);
    st->clock = now;
    model_entry asked = asked_by(frame);
    uint8_t code = exception_for(&asked, frame + HEADER);
    if (!code)
        code = exception_by_tags(&st->settings, &asked, frame + HEADER);
    if (code)
        return exception_to_caller(frame, code, out);
    const model_cached *c = cached_for(st, &asked);
    if (c && is_fresh(c, now))
        return show(c, frame, out);
    model_entry *e = entry_to_join(st, &asked, now);
    if (e) {
        add_party(e, client, word_at(frame));
        zb_answer a = came_to(ZB_JOINED);
        a.id = e->id;
        return a;
    }
    e = free_entry(st);
    if (!e)
        return exception_to_caller(frame, 4, out);
    add_party(&asked, client, word_at(frame));
    zb_answer a = issue(st, &asked, now, frame, frame_len, out);
    *e = asked;
    if (asked.asked != ASKED_READ) {
        close_reads(st, &asked);
        drop_cached(st, &asked);
    }
    return a;
}

/* A reply, a tick, a leaving */

static bool does_answer(const model_entry *e, const uint8_t *frame, size_t size)
{
    const uint8_t *pdu = frame + HEADER;
    size_t length = size - HEADER;
    if (frame[6] != e->unit)
        return false;
    if (pdu[0] == e->function + EXCEPTION)
        return length == 2;
    if (pdu[0] != e->function)
        return false;
    switch (e->asked) {
    case ASKED_READ:
        return length == 2 + bytes_of(e) && pdu[1] == bytes_of(e);
    case ASKED_SINGLE_WRITE:
        return length == 5 && word_at(pdu + 1) == e->start && (!e->bits || word_at(pdu + 3) == e->value);
    case ASKED_MULTIPLE_WRITE:
        return length == 5 && word_at(pdu + 1) == e->start && word_at(pdu + 3) == e->quantity;
    case ASKED_MASK_WRITE:
        return length == 7 && memcmp(pdu, e->pdu, 7) == 0;
    case ASKED_READ_AND_WRITE:
        return length == 2 + 2 * e->read_quantity && pdu[1] == 2 * e->read_quantity;
    default:
        return true;
    }
}

/* Removes the entry; its parties go to the list. */
static void end_entry(model_entry *e, uint16_t *list, zb_answer *a)
{
    for (uint32_t p = 0; p < e->parties; p++) {
        list[2 * p] = (uint16_t)e->party[p].client;
        list[2 * p + 1] = e->party[p].id;
    }
    a->parties = e->parties;
    a->id = e->id;
    e->live = false;
}

/* How long a reply to the read may be shown: the smallest ttl of the tags that its range is made of, which all have one.
   0: it is not cacheable. No two tags have a register in common. */
static uint32_t life_of(const zb_settings *settings, const model_entry *read)
{
    uint32_t life = 0, covered = 0;
    if (read->function != READ_HOLDING && read->function != READ_INPUT)
        return 0;
    for (uint32_t t = 0; t < settings->tags; t++) {
        uint32_t registers = settings->width[t] / 16u;
        if (settings->ttl[t] == 0 || settings->addr[t] < read->start
            || settings->addr[t] + registers > read->start + read->quantity)
            continue;
        covered += registers;
        if (life == 0 || settings->ttl[t] < life)
            life = settings->ttl[t];
    }
    return covered == read->quantity ? life : 0;
}

/* The place with the read's key, else the lowest that is empty or expired, else the oldest, ties to the lowest. */
static model_cached *place_to_take(model_state *st, const model_entry *read, uint64_t now)
{
    model_cached *oldest = &st->cache[0], *own = cached_for(st, read);
    if (own)
        return own;
    for (int n = 0; n < MODEL_CACHED; n++)
        if (!st->cache[n].filled || !is_fresh(&st->cache[n], now))
            return &st->cache[n];
    for (int n = 0; n < MODEL_CACHED; n++)
        if (st->cache[n].filled_at < oldest->filled_at)
            oldest = &st->cache[n];
    return oldest;
}

/* #107: a reply that is no exception, to a cacheable read that was not closed, is kept as it was written. */
static void fill(model_state *st, const model_entry *read, uint64_t now, const uint8_t *out, const zb_answer *a)
{
    uint32_t life = life_of(&st->settings, read);
    if (read->closed || life == 0)
        return;
    model_cached *c = place_to_take(st, read, now);
    c->filled = true;
    c->unit = read->unit;
    c->function = read->function;
    c->start = read->start;
    c->quantity = read->quantity;
    c->filled_at = now;
    c->life = life;
    c->length = a->length;
    c->partial = a->partial;
    c->value = a->value;
    memcpy(c->frame, out, a->length);
}

zb_answer model_reply(model_state *st, uint64_t now,
                      const uint8_t *frame, size_t frame_len,
                      uint8_t *out, size_t out_len,
                      uint16_t *list, size_t list_len)
{
    if (out_len < ZB_FRAME_BUFFER || list_len < ZB_LIST_BUFFER)
        return refused(ZB_REFUSED_BUFFER);
    if (is_wrong_time(st, now))
        return refused(ZB_REFUSED_TIME);
    if (is_wrong_frame(frame, frame_len))
        return refused(ZB_REFUSED_FRAME);
    model_entry *e = live_entry(st, word_at(frame));
    if (!e)
        return refused(ZB_REFUSED_UNKNOWN);
    if (!does_answer(e, frame, frame_len))
        return refused(ZB_REFUSED_MISMATCH);
    st->clock = now;
    zb_answer a = came_to(ZB_ANSWERED);
    a.length = (uint32_t)frame_len;
    memcpy(out, frame, frame_len);
    put_word(out, 0);
    bool has_registers = frame[HEADER] < EXCEPTION && !e->bits;
    if (has_registers && e->asked == ASKED_READ) {
        rewrite(&st->settings, tag_to_binary, e->start, e->quantity, out + HEADER + 2, &a);
        fill(st, e, now, out, &a);
    }
    if (has_registers && e->asked == ASKED_SINGLE_WRITE && e->reencoded)
        rewrite(&st->settings, tag_to_binary, e->start, 1, out + HEADER + 3, &a);
    if (has_registers && e->asked == ASKED_READ_AND_WRITE)
        rewrite(&st->settings, tag_to_binary, e->read_start, e->read_quantity, out + HEADER + 2, &a);
    end_entry(e, list, &a);
    return a;
}

static model_entry *entry_due(model_state *st, uint64_t now)
{
    model_entry *found = NULL;
    for (int n = 0; n < MODEL_LIVE; n++) {
        model_entry *e = &st->entries[n];
        if (!e->live || e->deadline > now)
            continue;
        if (!found || e->deadline < found->deadline || (e->deadline == found->deadline && e->id < found->id))
            found = e;
    }
    return found;
}

zb_answer model_tick(model_state *st, uint64_t now,
                     uint8_t *out, size_t out_len,
                     uint16_t *list, size_t list_len)
{
    if (out_len < ZB_FRAME_BUFFER || list_len < ZB_LIST_BUFFER)
        return refused(ZB_REFUSED_BUFFER);
    if (is_wrong_time(st, now))
        return refused(ZB_REFUSED_TIME);
    st->clock = now;
    model_entry *e = entry_due(st, now);
    if (!e)
        return came_to(ZB_NOTHING_DUE);
    zb_answer a = came_to(ZB_TIMED_OUT);
    put_exception(out, 0, e->unit, e->function, 0x0B);
    a.length = 9;
    end_entry(e, list, &a);
    return a;
}

zb_answer model_attach(model_state *st, uint32_t client)
{
    if (client >= ZB_CLIENTS)
        return refused(ZB_REFUSED_CLIENT);
    if (is_attached(st, client))
        return refused(ZB_REFUSED_ATTACHED);
    st->attached |= (uint32_t)1 << client;
    return came_to(ZB_DONE);
}

/* The others move together, so that the struck party's room is used again. */
static void strike(model_entry *e, uint32_t client)
{
    uint32_t kept = 0;
    for (uint32_t p = 0; p < e->parties; p++)
        if (e->party[p].client != client)
            e->party[kept++] = e->party[p];
    e->parties = kept;
}

zb_answer model_detach(model_state *st, uint32_t client)
{
    if (!is_attached(st, client))
        return refused(ZB_REFUSED_CLIENT);
    st->attached &= ~((uint32_t)1 << client);
    for (int n = 0; n < MODEL_LIVE; n++)
        if (st->entries[n].live)
            strike(&st->entries[n], client);
    return came_to(ZB_DONE);
}

zb_answer model_link_lost(model_state *st)
{
    zb_answer a = came_to(ZB_DONE);
    a.set = st->attached;
    st->attached = 0;
    for (int n = 0; n < MODEL_LIVE; n++)
        st->entries[n].live = false;
    for (int n = 0; n < MODEL_CACHED; n++)
        st->cache[n].filled = false;
    return a;
}

/* Settings */

static bool is_valid(const zb_settings *s)
{
    if (s->timeout < 100 || s->timeout > 60000 || s->join > 1 || s->tags > 256)
        return false;
    uint32_t least = 0;
    for (uint32_t t = 0; t < s->tags; t++) {
        if ((s->width[t] != 16 && s->width[t] != 32) || s->addr[t] < least)
            return false;
        if (s->width[t] == 32 && s->addr[t] == 65535)
            return false;
        if (s->sign[t] > 1 || (s->sign[t] == 1 && s->width[t] == 32))
            return false;
        if (s->ttl[t] > 60000 || s->strict[t] > 1)
            return false;
        least = s->addr[t] + s->width[t] / 16u;
    }
    return true;
}

static zb_settings usual_settings(void)
{
    zb_settings s = {0};
    s.timeout = 3000;
    s.join = 1;
    return s;
}

zb_answer model_fresh(model_state *st, zb_settings from)
{
    bool valid = is_valid(&from);
    memset(st, 0, sizeof *st);
    st->settings = valid ? from : usual_settings();
    return valid ? came_to(ZB_DONE) : refused(ZB_REFUSED_SETTINGS);
}

typedef struct {
    const uint8_t *text;
    size_t length;
    size_t at;
    uint32_t line; /* the number of the line that is read */
} reader;

/* Reads the next line: key, '=', a decimal without leading zeros from least to most, LF. */
static bool read_line(reader *r, const char *key, uint32_t least, uint32_t most, uint32_t *number)
{
    r->line++;
    for (; *key; key++, r->at++)
        if (r->at == r->length || r->text[r->at] != (uint8_t)*key)
            return false;
    size_t first = r->at;
    uint32_t value = 0;
    while (r->at < r->length && r->at < first + 6 && r->text[r->at] >= '0' && r->text[r->at] <= '9')
        value = value * 10 + (r->text[r->at++] - '0');
    if (r->at == first || (r->text[first] == '0' && r->at > first + 1))
        return false;
    if (r->at == r->length || r->text[r->at] != '\n')
        return false;
    r->at++;
    *number = value;
    return least <= value && value <= most;
}

static bool read_tag(reader *r, zb_settings *s, uint32_t t, uint32_t version, uint32_t *least)
{
    uint32_t addr, width, sign = 0, ttl = 0, strict = 0;
    if (!read_line(r, "addr=", *least, 65535, &addr))
        return false;
    if (!read_line(r, "width=", 16, 32, &width) || (width != 16 && width != 32))
        return false;
    if (width == 32 && addr == 65535)
        return false;
    if (version >= 2 && !read_line(r, "sign=", 0, width == 16 ? 1 : 0, &sign))
        return false;
    if (version >= 3 && !read_line(r, "ttl=", 0, 60000, &ttl))
        return false;
    if (version >= 4 && !read_line(r, "strict=", 0, 1, &strict))
        return false;
    s->addr[t] = (uint16_t)addr;
    s->width[t] = (uint16_t)width;
    s->sign[t] = (uint16_t)sign;
    s->ttl[t] = (uint16_t)ttl;
    s->strict[t] = (uint16_t)strict;
    *least = addr + width / 16;
    return true;
}

static bool read_text(reader *r, zb_settings *s)
{
    uint32_t version, least = 0;
    if (!read_line(r, "version=", 1, 4, &version) || !read_line(r, "timeout=", 100, 60000, &s->timeout)
        || !read_line(r, "join=", 0, 1, &s->join) || !read_line(r, "tags=", 0, 256, &s->tags))
        return false;
    for (uint32_t t = 0; t < s->tags; t++)
        if (!read_tag(r, s, t, version, &least))
            return false;
    r->line++;
    return r->at == r->length;
}

zb_read model_settings_read(const uint8_t *text, size_t text_len)
{
    reader r = {text, text_len, 0, 0};
    zb_read result = {0};
    result.answer = came_to(ZB_DONE);
    if (!read_text(&r, &result.settings)) {
        result.answer = refused(ZB_REFUSED_SETTINGS);
        result.answer.line = r.line;
        result.settings = usual_settings();
    }
    return result;
}

zb_answer model_settings_write(zb_settings from, uint8_t *text, size_t text_len)
{
    char whole[ZB_MOST_TEXT + 1];
    if (!is_valid(&from))
        return refused(ZB_REFUSED_SETTINGS);
    size_t length = (size_t)sprintf(whole, "version=4\ntimeout=%u\njoin=%u\ntags=%u\n",
                                    (unsigned)from.timeout, (unsigned)from.join, (unsigned)from.tags);
    for (uint32_t t = 0; t < from.tags; t++)
        length += (size_t)sprintf(whole + length, "addr=%u\nwidth=%u\nsign=%u\nttl=%u\nstrict=%u\n", from.addr[t],
                                  from.width[t], from.sign[t], from.ttl[t], from.strict[t]);
    if (length > text_len)
        return refused(ZB_REFUSED_BUFFER);
    memcpy(text, whole, length);
    zb_answer a = came_to(ZB_DONE);
    a.length = (uint32_t)length;
    return a;
}

/* When to tick; document 01 does not ask for it */

zb_next model_next_deadline(const model_state *st)
{
    zb_next next = {.time = UINT64_MAX, .live = 0};
    for (size_t k = 0; k < MODEL_LIVE; k++) {
        if (!st->entries[k].live)
            continue;
        next.live++;
        if (st->entries[k].deadline < next.time)
            next.time = st->entries[k].deadline;
    }
    return next;
}
