/* Makes what the generated calls are given: settings, their texts, requests, replies and received runs. */
#include "making.h"
#include "dice.h"
#include "hits.h"
#include "model.h"
#include "pair.h"
#include "strict.h"
#include <stdio.h>
#include <string.h>

static void put_word(uint8_t *bytes, uint32_t word)
{
    bytes[0] = (uint8_t)(word >> 8);
    bytes[1] = (uint8_t)word;
}

/* Settings */

static void add_tag(zb_settings *s, uint32_t addr, uint32_t width, uint32_t sign, uint32_t ttl)
{
    s->addr[s->tags] = (uint16_t)addr;
    s->width[s->tags] = (uint16_t)width;
    s->sign[s->tags] = (uint16_t)sign;
    s->ttl[s->tags] = (uint16_t)ttl;
    s->tags++;
}

/* The tag that was added last is strict. */
static void make_strict(zb_settings *s)
{
    s->strict[s->tags - 1] = 1;
}

static uint32_t some_ttl(void)
{
    static const uint16_t ttls[] = {1, 2, 100, 3000, 59999, 60000};
    return one_in(2) ? 0 : one_in(2) ? ttls[below(6)] : below(60001);
}

static void add_any_tags(zb_settings *s)
{
    uint32_t wanted = one_in(12) ? 256 : below(8);
    uint32_t gap = wanted == 256 || one_in(3) ? 3 : 9000;
    uint32_t addr = one_in(2) ? below(50000) : below(2000);
    while (s->tags < wanted && addr <= 65535) {
        uint32_t width = addr < 65535 && one_in(2) ? 32 : 16;
        add_tag(s, addr, width, width == 16 && one_in(2), some_ttl());
        if (one_in(3))
            make_strict(s);
        addr += width / 16 + (one_in(2) ? 0 : below(gap));
    }
}

/* Neighbours with ttls of all sizes, and behind each tenth a register in no tag; each fourth is strict. */
static void put_cached_tags(zb_settings *s)
{
    static const uint16_t ttls[] = {60000, 9, 60000, 1, 40, 0, 60000, 300, 7, 25};
    uint32_t addr = 1000;
    for (s->tags = 0; s->tags < 40; s->tags++) {
        uint32_t n = s->tags, width = n % 3 == 1 ? 32 : 16;
        s->addr[n] = (uint16_t)addr;
        s->width[n] = (uint16_t)width;
        s->sign[n] = n % 3 == 2;
        s->ttl[n] = ttls[n % 10];
        s->strict[n] = n % 4 == 1;
        addr += width / 16 + (n % 10 == 9);
    }
}

/* More neighbours than a read has registers and the cache has places, nearly all of them fresh for long. */
static void put_long_cached_tags(zb_settings *s)
{
    for (s->tags = 0; s->tags < 160; s->tags++) {
        uint32_t n = s->tags;
        s->addr[n] = (uint16_t)(2000 + n);
        s->width[n] = 16;
        s->sign[n] = n % 2;
        s->ttl[n] = n % 16 == 9 ? (uint16_t)(30 + n) : 60000;
    }
}

/* A strict and a lenient one of each kind, where the reads of a pool are, and far behind them many strict ones. */
static void put_strict_tags(zb_settings *s)
{
    static const struct { uint16_t addr, width, sign, strict; } tags[] = {
        {1020, 16, 0, 0}, {1021, 16, 0, 1}, {1022, 32, 0, 1}, {1024, 32, 0, 0}, {1026, 16, 1, 1},
        {1027, 16, 1, 0}, {1028, 32, 0, 1}, {1030, 16, 0, 1}, {1032, 32, 0, 0}, {1034, 16, 1, 1},
    };
    for (size_t n = 0; n < sizeof tags / sizeof *tags; n++) {
        add_tag(s, tags[n].addr, tags[n].width, tags[n].sign, 0);
        s->strict[n] = tags[n].strict;
    }
    for (uint32_t addr = 1100; s->tags < 130; addr += s->width[s->tags - 1] / 16u) {
        add_tag(s, addr, s->tags % 3 ? 16 : 32, s->tags % 3 == 1, 0);
        make_strict(s);
    }
}

/* Both ends of all addresses; two of width 32, of which a write cuts one at each end. */
static void put_edge_tags(zb_settings *s)
{
    add_tag(s, 0, 32, 0, 0);
    make_strict(s);
    add_tag(s, 2, 16, 1, 0);
    add_tag(s, 65532, 16, 0, 0);
    make_strict(s);
    add_tag(s, 65534, 32, 0, 0);
    make_strict(s);
}

/* Each signed one beside a tag of another kind, and the first between two of width 32. */
static void put_signed_tags(zb_settings *s)
{
    add_tag(s, 1024, 32, 0, 0);
    add_tag(s, 1026, 16, 1, 0);
    add_tag(s, 1027, 32, 0, 0);
    add_tag(s, 1029, 16, 0, 0);
    add_tag(s, 1030, 16, 1, 0);
}

zb_settings make_settings(enum settings_kind kind)
{
    static const uint16_t timeouts[] = {100, 101, 250, 3000, 59999, 60000};
    zb_settings s = {0};
    s.timeout = kind == SETTINGS_ANY ? (one_in(2) ? timeouts[below(6)] : 100 + below(59901)) : 3000;
    s.join = kind == SETTINGS_ANY ? !one_in(4) : kind != SETTINGS_NO_JOIN && kind != SETTINGS_CACHED_NO_JOIN;
    if (kind == SETTINGS_BARE || kind == SETTINGS_CACHED)
        s.timeout = 100;
    if (kind == SETTINGS_NO_JOIN)
        s.timeout = 60000;
    if (kind == SETTINGS_OF_THE_DOCUMENT || kind == SETTINGS_NO_JOIN) {
        add_tag(&s, 1024, 16, 0, 0);
        add_tag(&s, 1026, 32, 0, 0);
    }
    if (kind == SETTINGS_DENSE)
        for (uint32_t addr = 1000; s.tags < 256; addr += s.width[s.tags - 1] / 16u)
            add_tag(&s, addr, s.tags % 3 ? 32 : 16, s.tags % 6 == 0, 0);
    if (kind == SETTINGS_EDGES)
        put_edge_tags(&s);
    if (kind == SETTINGS_TOP)
        for (uint32_t addr = 65280; s.tags < 256; addr++)
            add_tag(&s, addr, 16, addr % 2, 0);
    if (kind == SETTINGS_SIGNED)
        put_signed_tags(&s);
    if (kind == SETTINGS_CACHED || kind == SETTINGS_CACHED_NO_JOIN)
        put_cached_tags(&s);
    if (kind == SETTINGS_CACHED_LONG)
        put_long_cached_tags(&s);
    if (kind == SETTINGS_STRICT)
        put_strict_tags(&s);
    if (kind == SETTINGS_ANY)
        add_any_tags(&s);
    return kind == SETTINGS_INVALID ? spoil_settings(make_settings(SETTINGS_ANY)) : s;
}

/* One number of a tag is changed. */
static void spoil_tag(zb_settings *s, uint32_t t)
{
    static const uint16_t widths[] = {0, 15, 17, 31, 33, 48, 65535};
    static const uint16_t marks[] = {2, 3, 16, 255, 256, 65535}; /* for sign and strict */
    static const uint16_t ttls[] = {60001, 60002, 65534, 65535};
    switch (below(7)) {
    case 0:
        s->width[t] = widths[below(7)];
        break;
    case 1:
        s->addr[t] = (uint16_t)(s->addr[t] - 1 - below(3));
        break;
    case 2:
        s->sign[t] = marks[below(6)];
        break;
    case 3:
        s->width[t] = 32;
        s->sign[t] = 1;
        break;
    case 4:
        s->ttl[t] = ttls[below(4)];
        break;
    case 5:
        s->strict[t] = marks[below(6)];
        break;
    default:
        s->addr[t] = 65535;
        s->width[t] = 32;
    }
}

/* One change, which makes most values invalid; some stay valid. */
zb_settings spoil_settings(zb_settings s)
{
    static const uint32_t timeouts[] = {0, 99, 60001, UINT32_MAX};
    switch (below(10)) {
    case 0:
        s.timeout = timeouts[below(4)];
        break;
    case 1:
        s.join = one_in(2) ? 2 : (uint32_t)dice();
        break;
    case 2:
        s.tags = one_in(2) ? 257 : one_in(2) ? UINT32_MAX : s.tags + 1;
        break;
    default:
        spoil_tag(&s, s.tags ? below(s.tags) : 0);
    }
    return s;
}

static size_t spoil_text(uint8_t *text, size_t size)
{
    static const char likely[] = "0123456789=\n av1";
    size_t at = size ? below((uint32_t)size) : 0;
    uint8_t byte = one_in(4) ? (uint8_t)dice() : (uint8_t)likely[below(16)];
    switch (below(5)) {
    case 0:
        return at;
    case 1:
        text[size] = byte;
        return size + 1;
    case 2:
        memmove(text + at + 1, text + at, size - at);
        text[at] = byte;
        return size + 1;
    case 3:
        if (size == 0)
            return 0;
        memmove(text + at, text + at + 1, size - at - 1);
        return size - 1;
    default:
        text[at] = byte;
        return size ? size : 1;
    }
}

/* The text of a valid value in a version, by a writer of its own: the core writes the newest alone. */
static size_t put_text(char *text, const zb_settings *s, int version)
{
    size_t size = (size_t)sprintf(text, "version=%d\ntimeout=%u\njoin=%u\ntags=%u\n", version, (unsigned)s->timeout,
                                  (unsigned)s->join, (unsigned)s->tags);
    for (uint32_t t = 0; t < s->tags; t++) {
        size += (size_t)sprintf(text + size, "addr=%u\nwidth=%u\n", s->addr[t], s->width[t]);
        if (version > 1)
            size += (size_t)sprintf(text + size, "sign=%u\n", s->sign[t]);
        if (version > 2)
            size += (size_t)sprintf(text + size, "ttl=%u\n", s->ttl[t]);
        if (version > 3)
            size += (size_t)sprintf(text + size, "strict=%u\n", s->strict[t]);
    }
    return size;
}

/* A line with this key, any of those that a text has; none: NULL. */
static uint8_t *line_with(const char *key, uint8_t *text, size_t size)
{
    size_t length = strlen(key), from = size ? below((uint32_t)size) : 0;
    for (size_t n = 0; n < size; n++) {
        uint8_t *line = text + (from + n) % size;
        if (line + length < text + size && memcmp(line, key, length) == 0)
            return line;
    }
    return NULL;
}

/* A line with this key says something else than 0 or 1, or 1: a tag of width 32 may be signed so. Nothing where there is no
   such line. */
static void spoil_mark(const char *key, uint8_t *text, size_t size)
{
    static const char digits[] = "1112379";
    uint8_t *line = line_with(key, text, size);
    if (line)
        line[strlen(key)] = (uint8_t)digits[below(7)];
}

/* A ttl has a digit more in front, at times a zero; nothing where there is no such line. */
static size_t spoil_ttl(uint8_t *text, size_t size)
{
    static const char digits[] = "0011679";
    uint8_t *line = line_with("ttl=", text, size);
    if (!line)
        return size;
    memmove(line + 5, line + 4, size - (size_t)(line + 4 - text));
    line[4] = (uint8_t)digits[below(7)];
    return size + 1;
}

size_t make_text(uint8_t *text)
{
    zb_settings s = make_settings(one_in(8) ? (enum settings_kind)below(SETTINGS_ANY) : SETTINGS_ANY);
    size_t size = put_text((char *)text, &s, (int)(1 + below(4)));
    if (one_in(3))
        return size;
    switch (below(9)) {
    case 0:
        text[8] = (uint8_t)('0' + below(6)); /* another version's number over its lines */
        return size;
    case 1:
        spoil_mark("sign=", text, size);
        return size;
    case 2:
        return spoil_ttl(text, size);
    case 3:
        spoil_mark("strict=", text, size);
        return size;
    default:
        for (uint32_t times = 1 + below(2); times > 0; times--)
            size = spoil_text(text, size);
        return size;
    }
}

/* Frames */

static size_t finish(uint8_t *frame, uint32_t id, uint8_t unit, size_t pdu)
{
    put_word(frame, id);
    put_word(frame + 2, 0);
    put_word(frame + 4, (uint32_t)pdu + 1);
    frame[6] = unit;
    return 7 + pdu;
}

/* A bit of the byte is turned over. */
static void flip(uint8_t *byte)
{
    *byte ^= (uint8_t)(1 << below(8));
}

static uint32_t some_id(void)
{
    return one_in(2) ? below(4) : below(65536);
}

static uint8_t some_unit(void)
{
    return one_in(6) ? (uint8_t)dice() : 1;
}

static uint32_t some_digits(void)
{
    uint32_t digits = 0;
    for (int k = 0; k < 4; k++)
        digits = digits << 4 | below(10);
    return digits;
}

/* Three digits below a sign; at times the nibble of the sign is another. */
static uint32_t some_signed_digits(void)
{
    uint32_t digits = some_digits() & 0x0FFF;
    return one_in(8) ? digits | below(16) << 12 : one_in(2) ? digits | 0xF000 : digits;
}

/* Digits, numbers in a tag's range, numbers at its edges, or anything; also of signed tags. */
static uint32_t some_word(void)
{
    static const uint16_t edges[] = {0, 9999, 10000, 0x9999, 0x999A, 0xE0FF, 0xE100, 0x05F5, 0x05F6, 65535};
    static const uint16_t signed_edges[] = {999, 1000, 0xFC19, 0xFC18, 0x0999, 0xF999, 0xF000, 0xF001, 0x1000, 0xE999,
                                            0x0A00, 0x8000};
    switch (below(9)) {
    case 0:
    case 1:
        return some_digits();
    case 2:
        return below(10000);
    case 3:
        return below(0x05F6);
    case 4:
        return edges[below(10)];
    case 5:
        return some_signed_digits();
    case 6:
        return (below(2001) - 1000) & 0xFFFF;
    case 7:
        return signed_edges[below(12)];
    default:
        return below(65536);
    }
}

static uint32_t some_start(const zb_settings *s)
{
    if (one_in(8))
        return below(65536);
    if (one_in(10))
        return 65536 - 1 - below(130);
    uint32_t near = s->tags ? s->addr[below(s->tags)] : 1024;
    return (near + below(6) - 3) & 65535;
}

static size_t finish_request(uint8_t *frame, size_t pdu)
{
    uint32_t id = some_id();
    return finish(frame, id, some_unit(), pdu);
}

static size_t make_read(uint8_t *frame, uint32_t function, uint32_t start, uint32_t quantity)
{
    frame[7] = (uint8_t)function;
    put_word(frame + 8, start);
    put_word(frame + 10, quantity);
    return finish_request(frame, 5);
}

static size_t make_any_read(uint8_t *frame, const zb_settings *s)
{
    static const uint16_t edges[] = {0, 124, 125, 126, 127, 256, 65535};
    uint32_t quantity = one_in(8) ? edges[below(7)] : one_in(4) ? 1 + below(125) : 1 + below(6);
    uint32_t function = 3 + below(2);
    return make_read(frame, function, some_start(s), quantity);
}

static uint32_t bytes_for_bits(uint32_t bits)
{
    return bits / 8 + (bits % 8 != 0);
}

static size_t make_bits_read(uint8_t *frame, const zb_settings *s)
{
    static const uint16_t edges[] = {0, 1, 7, 8, 9, 1999, 2000, 2001, 2008, 65535};
    uint32_t quantity = one_in(8) ? edges[below(10)] : one_in(4) ? 1 + below(2000) : 1 + below(20);
    uint32_t function = 1 + below(2);
    return make_read(frame, function, one_in(20) ? 65536 - 1 - below(2010) : some_start(s), quantity);
}

static size_t make_coil(uint8_t *frame, const zb_settings *s)
{
    static const uint16_t values[] = {0x0000, 0xFF00, 0x0000, 0xFF00, 0x0001, 0xFF01, 0x00FF, 0xFFFF};
    frame[7] = 5;
    put_word(frame + 8, some_start(s));
    put_word(frame + 10, one_in(40) ? below(65536) : values[below(one_in(8) ? 8 : 4)]);
    return finish_request(frame, 5);
}

/* The bits past the quantity are any, as the others are; at times the byte count does not fit the quantity. */
static size_t make_coils(uint8_t *frame, const zb_settings *s)
{
    static const uint16_t edges[] = {0, 1, 7, 8, 9, 1960, 1967, 1968, 1969, 1976, 2000, 65535};
    uint32_t quantity = one_in(8) ? edges[below(12)] : one_in(4) ? 1 + below(1968) : 1 + below(20);
    uint32_t bytes = quantity > 1976 ? 246 : bytes_for_bits(quantity);
    if (one_in(20))
        bytes = one_in(2) && bytes > 0 ? bytes - 1 : bytes < 247 ? bytes + 1 : bytes;
    frame[7] = 15;
    put_word(frame + 8, one_in(20) ? 65536 - 1 - below(1980) : some_start(s));
    put_word(frame + 10, quantity);
    frame[12] = (uint8_t)bytes;
    for (uint32_t k = 0; k < bytes; k++)
        frame[13 + k] = (uint8_t)dice();
    return finish_request(frame, 6 + bytes);
}

static size_t make_single(uint8_t *frame, const zb_settings *s)
{
    frame[7] = 6;
    put_word(frame + 8, some_start(s));
    put_word(frame + 10, some_word());
    return finish_request(frame, 5);
}

static size_t make_multiple(uint8_t *frame, const zb_settings *s)
{
    uint32_t quantity = one_in(6) ? below(125) : one_in(4) ? 1 + below(123) : 1 + below(6);
    uint32_t bytes = quantity > 123 ? 246 : 2 * quantity;
    frame[7] = 16;
    put_word(frame + 8, some_start(s));
    put_word(frame + 10, quantity);
    for (uint32_t k = 0; k < bytes; k += 2)
        put_word(frame + 13 + k, some_word());
    if (one_in(20) && bytes >= 2)
        bytes -= 1 + below(2);
    frame[12] = (uint8_t)bytes;
    return finish_request(frame, 6 + bytes);
}

/* Both masks; of all ones and none, at times. */
static void put_masks(uint8_t *frame)
{
    static const uint16_t masks[] = {0x0000, 0xFFFF, 0x00F2, 0x0025};
    for (uint32_t at = 10; at <= 12; at += 2)
        put_word(frame + at, one_in(2) ? masks[below(4)] : below(65536));
}

/* Any of the live requests, if it is of this function. */
static const ledger_entry *some_live(uint8_t function)
{
    const ledger_entry *e = ledger.lives ? &ledger.live[below(ledger.lives)] : NULL;
    return e && e->function == function ? e : NULL;
}

/* A 22 on a tag, beside one or far from all, or one that is live again; at times a byte too short or too long. */
static size_t make_mask(uint8_t *frame, const zb_settings *s)
{
    const ledger_entry *again = one_in(3) ? some_live(22) : NULL;
    frame[7] = 22;
    put_word(frame + 8, some_start(s));
    put_masks(frame);
    if (again)
        memcpy(frame + 8, again->written + 8, 6);
    frame[14] = (uint8_t)dice();
    return finish_request(frame, one_in(12) ? 6 + 2 * below(2) : 7);
}

/* A quantity of a part of a 23; at times 0, 1, the most or one more, or one whose last seven or eight bits are 1. */
static uint32_t some_quantity(uint32_t most)
{
    const uint32_t edges[] = {0, 1, most - 1, most, most, most + 1, most + 2, 129, 257, 65535};
    return one_in(5) ? edges[below(10)] : one_in(4) ? 1 + below(most) : 1 + below(6);
}

/* Where a part of a 23 starts; at times it ends with the last register, or one behind it. */
static uint32_t some_part(const zb_settings *s, uint32_t quantity)
{
    return one_in(8) ? (65536 - quantity + below(3) / 2) & 65535 : some_start(s);
}

static void put_parts(uint8_t *frame, uint32_t read_start, uint32_t reads, uint32_t write_start, uint32_t writes)
{
    frame[7] = 23;
    put_word(frame + 8, read_start);
    put_word(frame + 10, reads);
    put_word(frame + 12, write_start);
    put_word(frame + 14, writes);
}

/* The parts of a 23, at times over the same registers, or those of one that is live; how many it writes. */
static uint32_t make_parts(uint8_t *frame, const zb_settings *s)
{
    const ledger_entry *again = one_in(6) ? some_live(23) : NULL;
    uint32_t reads = some_quantity(125), writes = some_quantity(121), read_start = some_part(s, reads);
    bool overlap = one_in(3) && reads < 126 && writes < 122;
    put_parts(frame, read_start, reads, overlap ? read_start + below(reads + writes + 1) - writes : some_part(s, writes),
              writes);
    if (!again)
        return writes;
    put_parts(frame, again->start, again->quantity, again->write_start, again->write_quantity);
    return again->write_quantity;
}

/* A 23; at times its byte count is not by the quantity, or it has a byte less or more than that says, or both. */
static size_t make_read_and_write(uint8_t *frame, const zb_settings *s)
{
    uint32_t writes = make_parts(frame, s), bytes = writes <= 121 ? 2 * writes : one_in(2) ? 242 : 2 * (writes % 128 % 122);
    if (one_in(10))
        bytes = one_in(2) && bytes > 1 ? bytes - 1 - below(2) : bytes + 1;
    frame[16] = (uint8_t)bytes;
    for (uint32_t k = 0; k <= bytes; k += 2)
        put_word(frame + 17 + k, some_word());
    uint32_t pdu = one_in(10) ? 10 + bytes + 2 * below(2) - 1 : 10 + bytes;
    return finish_request(frame, one_in(80) ? 5 + below(6) : pdu);
}

/* A 16 becomes a 23 that reads this besides. */
static size_t add_read_part(uint8_t *frame, size_t size, uint32_t start, uint32_t quantity)
{
    memmove(frame + 12, frame + 8, size - 8);
    frame[7] = 23;
    put_word(frame + 8, start);
    put_word(frame + 10, quantity);
    put_word(frame + 4, (uint32_t)size + 4 - 6);
    return size + 4;
}

/* A function that is checked in any way: it is not "other". */
static bool is_checked(uint8_t function)
{
    return function <= 6 || function == 15 || function == 16 || function == 22 || function == 23;
}

static size_t make_other(uint8_t *frame)
{
    size_t pdu = one_in(4) ? 1 + below(253) : 1 + below(8);
    for (size_t k = 0; k < pdu; k++)
        frame[7 + k] = (uint8_t)dice();
    uint8_t function = (uint8_t)(1 + below(127));
    frame[7] = is_checked(function) ? 43 : one_in(8) ? 24 : function;
    return finish_request(frame, pdu);
}

size_t make_noise(uint8_t *bytes)
{
    size_t size = one_in(3) ? below(16) : below(300);
    for (size_t k = 0; k < size; k++)
        bytes[k] = (uint8_t)dice();
    if (one_in(2) && size >= 6) {
        put_word(bytes + 2, 0);
        put_word(bytes + 4, (uint32_t)size - 6);
    }
    return size;
}

/* A frame that is nearly legal: one thing is changed, at times with a length field that fits again. */
static size_t spoil_frame(uint8_t *frame, size_t size)
{
    static const uint8_t functions[] = {0, 128, 129, 131, 134, 144, 150, 151, 255, 1, 2, 3, 4, 5, 6, 15, 16, 22, 23, 127};
    switch (below(8)) {
    case 0:
        flip(frame + 2 + below(4));
        return size;
    case 1:
        size -= 1;
        break;
    case 2:
        frame[size++] = (uint8_t)dice();
        break;
    case 3:
        frame[7] = functions[below(20)];
        break;
    case 4:
        return below((uint32_t)size + 1);
    case 5:
        flip(frame + 12 % size);
        break;
    case 6:
        memset(frame + size, (int)below(256), 262 - (size < 262 ? size : 262));
        size = 259 + below(4);
        break;
    default:
        return make_noise(frame);
    }
    if (!one_in(4))
        put_word(frame + 4, (uint32_t)size - 6);
    return size;
}

static size_t make_any(uint8_t *frame, const zb_settings *s)
{
    switch (below(15)) {
    case 0:
        return make_other(frame);
    case 1:
    case 2:
        return make_single(frame, s);
    case 3:
    case 4:
        return make_multiple(frame, s);
    case 5:
    case 6:
        return make_bits_read(frame, s);
    case 7:
        return make_coil(frame, s);
    case 8:
        return make_coils(frame, s);
    case 9:
        return make_mask(frame, s);
    case 10:
    case 11:
        return make_read_and_write(frame, s);
    default:
        return make_any_read(frame, s);
    }
}

/* The nth read of a pool. */
static size_t make_pool_read(uint8_t *frame, uint32_t n)
{
    size_t size = make_read(frame, 1 + n % 4, 1024 + n / 4, 1 + n / 4 % 3);
    frame[6] = 1;
    return size;
}

/* A write of registers or coils from somewhere about a pool on; of registers at times with a read of the pool besides. */
static size_t make_pool_write(uint8_t *frame, uint32_t function, uint32_t pool)
{
    uint32_t first = 1020 + below(pool / 4 + 10), read = below(pool) / 4;
    frame[7] = (uint8_t)function;
    put_word(frame + 8, first);
    if (function == 22) {
        put_word(frame + 10, one_in(2) ? 0x00F2 : 0xFFFF);
        put_word(frame + 12, 0x0025);
        return finish_request(frame, 7);
    }
    put_word(frame + 10, function < 15 ? 0 : 1 + below(5));
    if (function < 15)
        return finish_request(frame, 5);
    frame[12] = function == 15 ? 1 : (uint8_t)(2 * frame[11]);
    memset(frame + 13, (int)below(10), frame[12]);
    size_t size = finish_request(frame, 6u + frame[12]);
    return function == 23 ? add_read_part(frame, size, 1024 + read, 1 + read % 3) : size;
}

/* A write or an "other" about the reads of a pool: before them, behind them, inside or around, in their unit or another. */
static size_t make_about_pool(uint8_t *frame, uint32_t pool)
{
    static const uint8_t functions[] = {5, 6, 15, 16, 22, 22, 23, 23};
    size_t size = one_in(8) ? make_other(frame) : make_pool_write(frame, functions[below(8)], pool);
    frame[6] = one_in(8) ? 2 : 1;
    return size;
}

size_t make_request(uint8_t *frame, const zb_settings *s, uint32_t pool, uint32_t wrong)
{
    size_t size;
    if (pool && one_in(2 * wrong)) {
        size = make_about_pool(frame, pool);
    } else if (pool && !one_in(wrong)) {
        size = make_pool_read(frame, below(pool));
    } else {
        size = make_any(frame, s);
    }
    return one_in(wrong) ? spoil_frame(frame, size) : size;
}

/* A read of a few neighbouring tags, at times of as many as a read has room for; at times it begins or ends a register
   too early or too late. */
static size_t make_tags_read(uint8_t *frame, const zb_settings *s)
{
    uint32_t first = below(s->tags), last = first + (one_in(12) ? 124 : below(3));
    last = last < s->tags ? last : s->tags - 1;
    uint32_t start = s->addr[first] + (one_in(8) ? below(3) - 1 : 0);
    uint32_t behind = s->addr[last] + s->width[last] / 16u + (one_in(8) ? below(3) - 1 : 0);
    uint32_t quantity = behind > start + 125 ? 125 : behind <= start ? 1 : behind - start;
    return make_read(frame, 3 + below(2), start, quantity);
}

/* A 22 on a register of a read or on the next one. */
static size_t make_mask_about(uint8_t *frame, hits_key key)
{
    uint32_t before = key.start - 1u, behind = key.start + (uint32_t)key.quantity;
    frame[7] = 22;
    put_word(frame + 8, one_in(3) ? key.start + below(key.quantity) : one_in(2) ? before : behind);
    put_masks(frame);
    return finish_request(frame, 7);
}

/* A 16 about the registers of a read becomes a 23: it reads them, and at times writes nothing near them. */
static size_t read_about(uint8_t *frame, size_t size, hits_key key)
{
    if (one_in(2))
        put_word(frame + 8, 30000);
    return add_read_part(frame, size, key.start, one_in(3) ? 1 : key.quantity);
}

/* A write about the registers of a read: before them, behind them, inside or around, or over none but the one next to
   them; or the same of coils, or an "other". At times a write of nothing, or with a byte count that does not fit. */
static size_t make_about(uint8_t *frame, hits_key key)
{
    static const uint8_t functions[] = {5, 6, 6, 15, 16, 16, 16, 16, 22, 22, 23, 23};
    uint32_t function = functions[below(12)], quantity = function < 15 ? 1 : 1 + below(key.quantity + 3u) % 100;
    uint32_t first = key.start + below(key.quantity + quantity + 1u) - quantity;
    if (one_in(6))
        first = one_in(2) ? key.start - quantity : key.start + (uint32_t)key.quantity;
    if (one_in(20))
        return make_other(frame);
    if (function == 22)
        return make_mask_about(frame, key);
    frame[7] = (uint8_t)function;
    put_word(frame + 8, first);
    put_word(frame + 10, function < 15 ? 0 : one_in(16) ? 0 : quantity);
    if (function < 15)
        return finish_request(frame, 5);
    frame[12] = (uint8_t)(function == 15 ? bytes_for_bits(quantity) : 2 * quantity);
    frame[12] = (uint8_t)(frame[12] + one_in(16));
    memset(frame + 13, (int)below(10), frame[12]);
    size_t size = finish_request(frame, 6u + frame[12]);
    return function == 23 ? read_about(frame, size, key) : size;
}

/* A read again, at times by the other function or of another unit. */
static size_t make_again(uint8_t *frame, hits_key key)
{
    size_t size = make_read(frame, one_in(12) ? 7u - key.function : key.function, key.start, key.quantity);
    frame[6] = one_in(12) ? key.unit ^ 3 : key.unit;
    return size;
}

/* One of the last replies, mostly one that is cached. */
static const hits_reply *some_reply(void)
{
    const hits_reply *r = hits_recent(below(one_in(2) ? 8 : 120));
    return r && r->unfit && one_in(2) ? hits_recent(below(60)) : r;
}

/* A live read of registers, or none. */
static const ledger_entry *some_live_read(void)
{
    const ledger_entry *e = ledger.lives ? &ledger.live[below(ledger.lives)] : NULL;
    return e && (e->function == 3 || e->function == 4) ? e : NULL;
}

size_t make_cached_request(uint8_t *frame, const zb_settings *s, uint32_t writes, uint32_t wrong)
{
    static hits_key written_about;
    const hits_reply *r = some_reply();
    const ledger_entry *e = one_in(6) ? some_live_read() : NULL;
    size_t size;
    if (one_in(40)) {
        size = make_any(frame, s);
    } else if (e) {
        size = make_again(frame, (hits_key){e->unit, e->function, e->start, e->quantity});
    } else if (!r || one_in(3)) {
        size = make_tags_read(frame, s);
        frame[6] = one_in(6) ? 2 : 1;
    } else if (one_in(writes)) {
        size = make_about(frame, r->key);
        frame[6] = one_in(6) ? r->key.unit ^ 3 : r->key.unit;
        written_about = r->key;
    } else if (written_about.function && one_in(3)) {
        size = make_again(frame, written_about);
    } else {
        size = make_again(frame, r->key);
    }
    return one_in(wrong) ? spoil_frame(frame, size) : size;
}

/* A number in the tag's range. */
static uint32_t number_for(const zb_settings *s, uint32_t tag)
{
    if (s->sign[tag])
        return (below(1999) - 999) & 0xFFFF;
    return s->width[tag] == 32 ? below(100000000) : below(10000);
}

/* A number at an edge of the tag's range, or of the bits that it has. */
static uint32_t edge_for(const zb_settings *s, uint32_t tag)
{
    static const uint32_t wide[] = {0,      99999998, 99999999, 100000000,  100000001,  9999,
                                    0xFFFF, 0x10000,  10000,    0x05F60000, 0xFFFFFFFF, 0x99999999};
    static const uint16_t narrow[] = {0, 9998, 9999, 9999, 10000, 10000, 10001, 0x9999, 0xFFFF};
    static const uint16_t with_sign[] = {0,      1,      998,    999,    1000,   1001,   0xFFFF, 0xFC1A,
                                         0xFC19, 0xFC18, 0xFC17, 0x8000, 0x8000, 0x7FFF, 0xF000, 0x0999};
    if (s->sign[tag])
        return with_sign[below(16)];
    return s->width[tag] == 32 ? wide[below(12)] : narrow[below(9)];
}

/* A 06 to a register of the tag. */
static size_t make_tag_single(uint8_t *frame, const zb_settings *s, uint32_t tag)
{
    frame[7] = 6;
    put_word(frame + 8, s->addr[tag] + below(s->width[tag] / 16u));
    put_word(frame + 10, one_in(2) ? number_for(s, tag) : edge_for(s, tag));
    return finish_request(frame, 5);
}

/* The tag's value into the registers from start on, as far as there are so many; mostly in its range. */
static void put_value(uint8_t *words, uint32_t start, uint32_t quantity, const zb_settings *s, uint32_t tag, bool at_edge)
{
    uint32_t value = at_edge ? edge_for(s, tag) : number_for(s, tag);
    for (uint32_t k = 0; k < s->width[tag] / 16u; k++, value >>= 16) {
        uint32_t at = s->addr[tag] + k - start;
        if (at < quantity)
            put_word(words + 2 * at, value & 0xFFFF);
    }
}

/* A 22 on a register of the tag, on the one before it or on the one behind it. */
static size_t make_tag_mask(uint8_t *frame, const zb_settings *s, uint32_t tag)
{
    frame[7] = 22;
    put_word(frame + 8, s->addr[tag] + below(s->width[tag] / 16u + 2) - 1);
    put_masks(frame);
    return finish_request(frame, 7);
}

/* A 16 of neighbouring tags, at times of as many as it has room for, or a register too early or too late at an end. */
static size_t make_tags_write(uint8_t *frame, const zb_settings *s, uint32_t first)
{
    uint32_t most = one_in(10) ? 120 : 1 + below(6), last = first, edges = one_in(2) ? 0 : 1 + below(3);
    while (last + 1 < s->tags && s->addr[last + 1] + s->width[last + 1] / 16u - s->addr[first] <= most)
        last++;
    uint32_t start = s->addr[first] + (one_in(6) ? below(3) - 1 : 0);
    uint32_t behind = s->addr[last] + s->width[last] / 16u + (one_in(6) ? below(3) - 1 : 0);
    uint32_t quantity = behind > start ? behind - start : 1;
    frame[7] = 16;
    put_word(frame + 8, start);
    put_word(frame + 10, quantity);
    frame[12] = (uint8_t)(2 * quantity);
    for (uint32_t k = 0; k < quantity; k++)
        put_word(frame + 13 + 2 * k, some_word());
    for (uint32_t t = first ? first - 1 : 0; t < s->tags && s->addr[t] < behind; t++)
        put_value(frame + 13, start, quantity, s, t, edges && one_in(edges));
    return finish_request(frame, 6 + 2 * quantity);
}

/* One of the first tags, which are of each kind, or any. */
static uint32_t some_tag(const zb_settings *s)
{
    return below(one_in(2) && s->tags > 10 ? 10 : s->tags);
}

size_t make_strict_request(uint8_t *frame, const zb_settings *s, uint32_t wrong)
{
    uint32_t tag = some_tag(s), reads = one_in(8) ? 1 + below(125) : 1 + below(6);
    size_t size = one_in(8)   ? make_tag_mask(frame, s, tag)
                  : one_in(3) ? make_tag_single(frame, s, tag)
                              : make_tags_write(frame, s, tag);
    if (frame[7] == 16 && one_in(2)) /* a 23 that reads these tags too, or others */
        size = add_read_part(frame, size, s->addr[one_in(2) ? tag : some_tag(s)] + below(3) - 1u, reads);
    frame[6] = one_in(8) ? 2 : 1;
    return one_in(wrong) ? spoil_frame(frame, size) : size;
}

/* So many registers from start on, with words of any kind, or with what was sent to their tags last. */
static size_t make_registers(uint8_t *frame, const ledger_entry *e, uint32_t quantity)
{
    bool again = one_in(3);
    frame[7] = e->function;
    frame[8] = (uint8_t)(2 * quantity);
    for (uint32_t k = 0; k < quantity; k++) {
        uint32_t word;
        if (!again || !strict_sent(e->start + k, &word))
            word = some_word();
        put_word(frame + 9 + 2 * k, word);
    }
    return finish(frame, e->id, e->unit, 2 + 2 * quantity);
}

/* The reply that MAP prescribes. */
static size_t make_right_reply(uint8_t *frame, const ledger_entry *e)
{
    frame[7] = e->function;
    if (e->function == 3 || e->function == 4 || e->function == 23)
        return make_registers(frame, e, e->quantity);
    if (e->function == 22) {
        memcpy(frame, e->sent, sizeof e->sent);
        return finish(frame, e->id, e->unit, 7);
    }
    if (e->function == 1 || e->function == 2) {
        uint32_t bytes = bytes_for_bits(e->quantity);
        frame[8] = (uint8_t)bytes;
        for (uint32_t k = 0; k < bytes; k++)
            frame[9 + k] = (uint8_t)dice();
        return finish(frame, e->id, e->unit, 2 + bytes);
    }
    if (e->function == 5 || e->function == 6 || e->function == 15 || e->function == 16) {
        put_word(frame + 8, e->start);
        put_word(frame + 10, e->function != 6 || one_in(4) ? e->quantity : some_word());
        if (e->function == 6 && one_in(2))
            memcpy(frame, e->sent, 12);
        return finish(frame, e->id, e->unit, 5);
    }
    size_t size = make_other(frame);
    frame[7] = e->function;
    return finish(frame, e->id, e->unit, size - 7);
}

/* One thing of a right reply is changed that its entry must look at. */
static size_t mismatch(uint8_t *frame, size_t size, const ledger_entry *e)
{
    if (e->function == 23 && one_in(3))
        return make_registers(frame, e, e->write_quantity);
    switch (e->function == 22 && one_in(2) ? 2 : below(6)) {
    case 0:
        frame[6]++;
        return size;
    case 4:
        frame[10] ^= 0xFF; /* the other value of an echo 05 */
        return size;
    case 1:
        frame[7] = one_in(2) ? (uint8_t)dice() : (uint8_t)(e->function ^ 7);
        return size;
    case 2:
        flip(frame + 8 + below(e->function == 22 ? 6 : 4));
        return size;
    case 3:
        return finish(frame, e->id, e->unit, size - 7 > 2 ? size - 8 : size - 6);
    default:
        frame[7] = (uint8_t)(e->function + 128);
        return finish(frame, e->id, e->unit, one_in(2) ? 1 : 3);
    }
}

size_t make_reply(uint8_t *frame, const ledger_entry *e, uint32_t wrong)
{
    size_t size = make_right_reply(frame, e);
    if (one_in(10)) {
        frame[7] = (uint8_t)(e->function + 128);
        frame[8] = (uint8_t)dice();
        size = finish(frame, e->id, e->unit, 2);
    }
    if (!one_in(wrong))
        return size;
    return one_in(3) ? spoil_frame(frame, size) : mismatch(frame, size, e);
}

/* A run as it comes from a connection: frames joined end to end, cut anywhere. */
size_t make_run(uint8_t *run, const zb_settings *s)
{
    uint8_t frame[MOST_FRAME];
    size_t size = 0;
    for (uint32_t frames = below(4); frames > 0; frames--) {
        size_t more = make_request(frame, s, 0, 6);
        memcpy(run + size, frame, more);
        size += more;
    }
    return one_in(3) && size ? below((uint32_t)size) : size;
}
