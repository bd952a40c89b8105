/* Shows document 01's examples from C, with those of requests #102 and #105 to #109, each refusal of each call by a
   case written by hand, and that the header's structs lie as the archive has them. Every call also goes to the model, with
   guard bytes around what is lent. */
#include "pair.h"
#include <stdbool.h>
#include <stddef.h>
#include <stdio.h>
#include <stdlib.h>
#include <string.h>

static unsigned checks, wrong;

#define EXPECT(condition) expect(condition, #condition, __LINE__)
#define EXPECT_REFUSED(call, why) EXPECT(is_refusal(call, why))

static void expect(bool good, const char *what, int line)
{
    checks++;
    if (good)
        return;
    wrong++;
    printf("DIFFERENCE: line %d: %s\n", line, what);
}

/* Bytes written as two hexadecimal digits each, with spaces between. */
static size_t bytes_of(const char *hex, uint8_t *bytes)
{
    size_t size = 0;
    char *end;
    for (unsigned long byte = strtoul(hex, &end, 16); end != hex; byte = strtoul(hex, &end, 16)) {
        bytes[size++] = (uint8_t)byte;
        hex = end;
    }
    return size;
}

static zb_answer request(uint32_t client, uint64_t now, const char *hex)
{
    uint8_t frame[MOST_FRAME];
    size_t size = bytes_of(hex, frame);
    return pair_request(client, now, frame, size, ZB_FRAME_BUFFER);
}

static zb_answer reply(uint64_t now, const char *hex)
{
    uint8_t frame[MOST_FRAME];
    size_t size = bytes_of(hex, frame);
    return pair_reply(now, frame, size, ZB_FRAME_BUFFER, ZB_LIST_BUFFER);
}

static zb_answer tick(uint64_t now)
{
    return pair_tick(now, ZB_FRAME_BUFFER, ZB_LIST_BUFFER);
}

static zb_answer split(const char *hex)
{
    uint8_t run[MOST_FRAME];
    size_t size = bytes_of(hex, run);
    return pair_split(run, size);
}

static bool wrote(zb_answer a, const char *hex)
{
    uint8_t frame[MOST_FRAME];
    size_t size = bytes_of(hex, frame);
    return a.length == size && memcmp(pair_out(), frame, size) == 0;
}

static bool listed(zb_answer a, uint32_t parties, const uint16_t *pairs)
{
    return a.parties == parties && memcmp(pair_list(), pairs, 4 * parties) == 0;
}

static bool is_refusal(zb_answer a, uint32_t number)
{
    const zb_answer whole = {.refusal = number};
    return memcmp(&a, &whole, sizeof a) == 0;
}

static bool raw(zb_answer a, uint32_t partial, uint32_t value)
{
    return a.partial == partial && a.value == value;
}

static bool is_exception(zb_answer a, uint32_t code, const char *hex)
{
    return a.outcome == ZB_EXCEPTION && a.code == code && a.id == 0 && raw(a, 0, 0) && wrote(a, hex);
}

static bool is_issued(zb_answer a, uint32_t id)
{
    return a.outcome == ZB_ISSUED && a.id == id && a.parties == 0 && a.code == 0;
}

static const char text_of_the_document[] =
    "version=1\ntimeout=3000\njoin=1\ntags=2\naddr=1024\nwidth=16\naddr=1026\nwidth=32\n";
static const char text_of_version_2[] =
    "version=2\ntimeout=3000\njoin=1\ntags=2\naddr=1024\nwidth=16\nsign=0\naddr=1026\nwidth=32\nsign=0\n";
static const char text_of_version_3[] =
    "version=3\ntimeout=3000\njoin=1\ntags=2\naddr=1024\nwidth=16\nsign=0\nttl=0\naddr=1026\nwidth=32\nsign=0\nttl=0\n";
static const char text_written_of_the_document[] =
    "version=4\ntimeout=3000\njoin=1\ntags=2\naddr=1024\nwidth=16\nsign=0\nttl=0\nstrict=0\n"
    "addr=1026\nwidth=32\nsign=0\nttl=0\nstrict=0\n";

static zb_settings settings_of_the_document(void)
{
    return zb_settings_read((const uint8_t *)text_of_the_document, strlen(text_of_the_document)).settings;
}

/* A fresh state with the document's settings and clients 3 and 5. */
static void begin(void)
{
    zb_settings s = settings_of_the_document();
    EXPECT(pair_fresh(&s).outcome == ZB_DONE);
    EXPECT(pair_attach(3).outcome == ZB_DONE);
    EXPECT(pair_attach(5).outcome == ZB_DONE);
}

/* The header's structs */

static void sizes_and_offsets(void)
{
    /* document 01's numbers and #104's; that they are the archive's is seen where buffers, parties and places run short */
    EXPECT(ZB_PLACES == 256 && PARTIES == 32 && ZB_CLIENTS == 32 && ZB_FRAME_BUFFER == 260 && ZB_LIST_BUFFER == 64);
    EXPECT(ZB_MOST_TAGS == 256 && ZB_MOST_TEXT == 11816);
    EXPECT(zb_state_size() == 50224 && sizeof(zb_state) == 50224 && ZB_STATE_SIZE == 50224 && _Alignof(zb_state) == 8);
    EXPECT(offsetof(zb_state, ids) == 0 && sizeof((zb_state *)0)->ids == 1024);
    EXPECT(offsetof(zb_state, asked) == 1024 && sizeof((zb_state *)0)->asked == 2048);
    EXPECT(offsetof(zb_state, callers) == 3072 && sizeof((zb_state *)0)->callers == 256);
    EXPECT(offsetof(zb_state, deadlines) == 3328 && sizeof((zb_state *)0)->deadlines == 2048);
    EXPECT(offsetof(zb_state, counts) == 5376 && sizeof((zb_state *)0)->counts == 256);
    EXPECT(offsetof(zb_state, clients) == 5632 && sizeof((zb_state *)0)->clients == 8192);
    EXPECT(offsetof(zb_state, originals) == 13824 && sizeof((zb_state *)0)->originals == 16384);
    EXPECT(offsetof(zb_state, top) == 30208 && sizeof((zb_state *)0)->top == 4);
    EXPECT(offsetof(zb_state, cursor) == 30212 && sizeof((zb_state *)0)->cursor == 2);
    EXPECT(offsetof(zb_state, attached) == 30216 && sizeof((zb_state *)0)->attached == 4);
    EXPECT(offsetof(zb_state, clock) == 30224 && sizeof((zb_state *)0)->clock == 8);
    EXPECT(offsetof(zb_state, timeout) == 30232 && sizeof((zb_state *)0)->timeout == 4);
    EXPECT(offsetof(zb_state, join) == 30236 && sizeof((zb_state *)0)->join == 4);
    EXPECT(offsetof(zb_state, tag_count) == 30240 && sizeof((zb_state *)0)->tag_count == 4);
    EXPECT(offsetof(zb_state, tag_words) == 30248 && sizeof((zb_state *)0)->tag_words == 2048);
    EXPECT(offsetof(zb_state, cache) == 32296 && sizeof((zb_state *)0)->cache == 1544);
    EXPECT(offsetof(zb_state, shown) == 33840 && sizeof((zb_state *)0)->shown == 16384);
    EXPECT(sizeof(zb_settings) == 2572 && _Alignof(zb_settings) == 4);
    EXPECT(offsetof(zb_settings, timeout) == 0 && offsetof(zb_settings, join) == 4 && offsetof(zb_settings, tags) == 8);
    EXPECT(offsetof(zb_settings, addr) == 12 && offsetof(zb_settings, width) == 524 && offsetof(zb_settings, sign) == 1036);
    EXPECT(offsetof(zb_settings, ttl) == 1548 && offsetof(zb_settings, strict) == 2060);
    EXPECT(sizeof(zb_answer) == 40 && offsetof(zb_answer, refusal) == 0 && offsetof(zb_answer, line) == 4);
    EXPECT(offsetof(zb_answer, outcome) == 8 && offsetof(zb_answer, length) == 12);
    EXPECT(offsetof(zb_answer, parties) == 16);
    EXPECT(offsetof(zb_answer, partial) == 20 && offsetof(zb_answer, value) == 24 && offsetof(zb_answer, set) == 28);
    EXPECT(offsetof(zb_answer, id) == 32 && offsetof(zb_answer, code) == 36);
    EXPECT(sizeof(zb_read) == 2612 && offsetof(zb_read, answer) == 0 && offsetof(zb_read, settings) == 40);
    EXPECT(sizeof(zb_next) == 16 && offsetof(zb_next, time) == 0 && offsetof(zb_next, live) == 8);
}

/* The archive puts each field where the header has it: seen through the header after a few calls. */
static void fields_are_where_the_header_says(void)
{
    static zb_state device;
    static const uint8_t read[] = {0x12, 0x34, 0, 0, 0, 6, 1, 3, 4, 0, 0, 1};
    const zb_settings settings = settings_of_the_document();
    uint8_t out[ZB_FRAME_BUFFER];
    memset(&device, 0xA5, sizeof device);
    zb_fresh(&device, &settings);
    EXPECT(device.timeout == 3000 && device.join == 1 && device.tag_count == 2);
    EXPECT((device.tag_words[0] & 0xFFFF) == 1024 && (device.tag_words[1] & 0xFFFF) == 1026);
    EXPECT(device.attached == 0 && device.clock == 0 && device.cursor == 0 && device.top == 0);
    zb_attach(&device, 3);
    zb_attach(&device, 31);
    EXPECT(device.attached == 0x80000008);
    zb_request(&device, 3, 100, read, sizeof read, out, sizeof out);
    zb_request(&device, 31, 101, read, sizeof read, out, sizeof out);
    EXPECT(device.ids[0] == 1 && device.ids[1] == 0 && device.cursor == 1 && device.top == 1);
    EXPECT(device.clock == 101 && device.deadlines[0] == 3100 && device.counts[0] == 2);
    EXPECT(device.clients[0] == 3 && device.clients[1] == 31);
    EXPECT(device.originals[0] == 0x1234 && device.originals[1] == 0x1234);
    EXPECT(device.asked[0] != 0 && device.asked[1] == 0);
}

/* A host that forgets zb_fresh on static memory has a device without clients, and no more. */
static void device_of_zeros(void)
{
    static zb_state device, zeros;
    static const uint8_t read[] = {0, 0, 0, 0, 0, 6, 1, 3, 4, 0, 0, 1};
    uint8_t out[ZB_FRAME_BUFFER];
    uint16_t list[ZB_LIST_BUFFER];
    for (uint32_t client = 0; client < ZB_CLIENTS; client++) {
        EXPECT_REFUSED(zb_detach(&device, client), ZB_REFUSED_CLIENT);
        EXPECT_REFUSED(zb_request(&device, client, 0, read, sizeof read, out, sizeof out), ZB_REFUSED_CLIENT);
    }
    EXPECT_REFUSED(zb_reply(&device, 0, read, sizeof read, out, sizeof out, list, ZB_LIST_BUFFER), ZB_REFUSED_UNKNOWN);
    EXPECT(zb_tick(&device, 0, out, sizeof out, list, ZB_LIST_BUFFER).outcome == ZB_NOTHING_DUE);
    EXPECT(zb_link_lost(&device).set == 0);
    EXPECT(memcmp(&device, &zeros, sizeof device) == 0);
    EXPECT(zb_attach(&device, 0).outcome == ZB_DONE && device.attached == 1);
}

/* The examples P1 to P12 */

static void p1_to_p8(void)
{
    begin();
    zb_answer a = request(3, 0, "00 01 00 00 00 06 01 03 04 00 00 01");
    a = reply(0, "00 00 00 00 00 05 01 03 02 12 34");
    EXPECT(a.outcome == ZB_ANSWERED && wrote(a, "00 00 00 00 00 05 01 03 02 04 D2") && raw(a, 0, 0)); /* P1 */
    request(3, 0, "00 01 00 00 00 06 01 03 04 02 00 02");
    a = reply(0, "00 01 00 00 00 07 01 03 04 12 34 56 78");
    EXPECT(wrote(a, "00 00 00 00 00 07 01 03 04 69 B2 03 62") && raw(a, 0, 0)); /* P2 */
    a = request(3, 0, "00 01 00 00 00 0B 01 10 04 02 00 02 04 61 4E 00 BC");
    EXPECT(is_issued(a, 2) && wrote(a, "00 02 00 00 00 0B 01 10 04 02 00 02 04 56 78 12 34") && raw(a, 0, 0)); /* P3 */
    a = request(3, 0, "00 01 00 00 00 06 01 06 04 00 27 0F");
    EXPECT(is_issued(a, 3) && wrote(a, "00 03 00 00 00 06 01 06 04 00 99 99") && raw(a, 0, 0)); /* P4 */
    a = request(3, 0, "00 01 00 00 00 06 01 06 04 00 27 10");
    EXPECT(is_issued(a, 4) && wrote(a, "00 04 00 00 00 06 01 06 04 00 27 10") && raw(a, 0, 1)); /* P5 */
    request(3, 0, "00 01 00 00 00 06 01 04 04 00 00 01");
    a = reply(0, "00 05 00 00 00 05 01 04 02 00 AB");
    EXPECT(wrote(a, "00 00 00 00 00 05 01 04 02 00 AB") && raw(a, 0, 1)); /* P6 */
    a = request(3, 0, "00 01 00 00 00 0B 01 10 04 02 00 02 04 E0 FF 05 F5");
    EXPECT(is_issued(a, 6) && wrote(a, "00 06 00 00 00 0B 01 10 04 02 00 02 04 99 99 99 99") && raw(a, 0, 0)); /* P7 */
    a = request(3, 0, "00 01 00 00 00 0B 01 10 04 02 00 02 04 E1 00 05 F5");
    EXPECT(is_issued(a, 7) && wrote(a, "00 07 00 00 00 0B 01 10 04 02 00 02 04 E1 00 05 F5") && raw(a, 0, 1)); /* P8 */
}

static void p9_and_p10(void)
{
    begin();
    zb_answer a = request(3, 0, "12 34 00 00 00 06 01 03 04 00 00 01");
    EXPECT(is_issued(a, 0) && wrote(a, "00 00 00 00 00 06 01 03 04 00 00 01") && raw(a, 0, 0));
    a = request(5, 0, "00 07 00 00 00 06 01 03 04 00 00 01");
    EXPECT(a.outcome == ZB_JOINED && a.id == 0 && a.length == 0 && raw(a, 0, 0));
}

static void p9_to_p12(void)
{
    static const uint16_t pairs[] = {3, 0x1234, 5, 7};
    p9_and_p10();
    zb_answer a = reply(0, "00 00 00 00 00 05 01 03 02 12 34");
    EXPECT(a.outcome == ZB_ANSWERED && wrote(a, "00 00 00 00 00 05 01 03 02 04 D2") && listed(a, 2, pairs));
    p9_and_p10();
    a = tick(3000);
    EXPECT(a.outcome == ZB_TIMED_OUT && wrote(a, "00 00 00 00 00 03 01 83 0B") && listed(a, 2, pairs) && raw(a, 0, 0));
    p9_and_p10();
    EXPECT(tick(2999).outcome == ZB_NOTHING_DUE);
    EXPECT(tick(3000).outcome == ZB_TIMED_OUT);
    EXPECT(tick(3000).outcome == ZB_NOTHING_DUE);
}

/* The examples without a mark */

static void quantities_and_starts(void)
{
    begin();
    EXPECT(is_issued(request(3, 0, "00 01 00 00 00 06 01 03 00 00 00 7D"), 0));
    zb_answer a = request(3, 0, "AB CD 00 00 00 06 01 03 00 00 00 7E");
    EXPECT(is_exception(a, 3, "AB CD 00 00 00 03 01 83 03"));
    EXPECT(is_exception(request(3, 0, "00 01 00 00 00 06 09 04 00 00 00 00"), 3, "00 01 00 00 00 03 09 84 03"));
    EXPECT(is_issued(request(3, 0, "00 01 00 00 00 06 01 03 FF FF 00 01"), 1));
    EXPECT(is_exception(request(3, 0, "00 01 00 00 00 06 01 03 FF FF 00 02"), 2, "00 01 00 00 00 03 01 83 02"));
    EXPECT(is_exception(request(3, 0, "00 01 00 00 00 07 01 10 00 00 00 00 00"), 3, "00 01 00 00 00 03 01 90 03"));
    a = request(3, 0, "00 01 00 00 00 0B 01 10 FF FF 00 02 04 00 00 00 00");
    EXPECT(is_exception(a, 2, "00 01 00 00 00 03 01 90 02"));
    a = request(3, 0, "00 01 00 00 00 0A 01 10 00 00 00 02 03 00 00 00");
    EXPECT(is_exception(a, 3, "00 01 00 00 00 03 01 90 03"));
    a = request(3, 0, "00 01 00 00 00 06 01 03 04 03 00 01");
    EXPECT(is_issued(a, 2) && raw(a, 0, 0));
    a = reply(0, "00 02 00 00 00 05 01 03 02 12 34");
    EXPECT(wrote(a, "00 00 00 00 00 05 01 03 02 12 34") && raw(a, 1, 0));
}

/* 16 with quantity 123 passes, with 124 gets exception 03: its frame would be longer than 260 bytes with the data. */
static void longest_write(void)
{
    uint8_t frame[259] = {0, 1, 0, 0, 0, 253, 1, 16, 0, 0, 0, 123, 246};
    begin();
    zb_answer a = pair_request(3, 0, frame, 259, ZB_FRAME_BUFFER);
    EXPECT(is_issued(a, 0) && a.length == 259);
    frame[11] = 124;
    a = pair_request(3, 0, frame, 259, ZB_FRAME_BUFFER);
    EXPECT(is_exception(a, 3, "00 01 00 00 00 03 01 90 03"));
}

/* An entry's last party joins; the equal read after it is issued on its own. */
static void last_party_and_the_next(uint16_t *pairs)
{
    uint8_t read[] = {0, 0, 0, 0, 0, 6, 1, 3, 4, 0, 0, 1};
    begin();
    for (uint8_t k = 0; k < PARTIES; k++) {
        read[1] = k;
        pairs[2 * k] = 3;
        pairs[2 * k + 1] = k;
        zb_answer a = pair_request(3, 0, read, 12, ZB_FRAME_BUFFER);
        EXPECT(k == 0 ? is_issued(a, 0) : a.outcome == ZB_JOINED && a.id == 0);
    }
    EXPECT(is_issued(pair_request(3, 0, read, 12, ZB_FRAME_BUFFER), 1));
}

static void full_entry_ends(void)
{
    uint16_t pairs[2 * PARTIES];
    last_party_and_the_next(pairs);
    EXPECT(listed(reply(0, "00 00 00 00 00 05 01 03 02 12 34"), PARTIES, pairs));
    last_party_and_the_next(pairs);
    zb_answer a = tick(3000);
    EXPECT(a.outcome == ZB_TIMED_OUT && wrote(a, "00 00 00 00 00 03 01 83 0B") && listed(a, PARTIES, pairs));
}

/* Every place is taken and every entry full, by clients 3 and 5 in turn. Client 3 leaves: the others stay in their
   order, and the room is used again. */
static void struck_out_of_a_full_table(void)
{
    uint8_t read[] = {0, 0, 0, 0, 0, 6, 1, 3, 0, 0, 0, 1}, answer[] = {0, 0, 0, 0, 0, 5, 1, 3, 2, 0x12, 0x34};
    uint16_t pairs[PARTIES + 2];
    begin();
    for (uint32_t n = 0; n < ZB_PARTY_PLACES; n++) {
        read[1] = (uint8_t)(n % PARTIES);
        read[9] = (uint8_t)(n / PARTIES);
        EXPECT(pair_request(n % 2 ? 5 : 3, 0, read, 12, ZB_FRAME_BUFFER).id == n / PARTIES);
    }
    EXPECT(is_exception(request(5, 0, "00 09 00 00 00 06 01 03 00 00 00 01"), 4, "00 09 00 00 00 03 01 83 04"));
    EXPECT(pair_detach(3).outcome == ZB_DONE && pair_attach(3).outcome == ZB_DONE);
    for (uint16_t k = 0; k < PARTIES / 2; k++) {
        pairs[2 * k] = 5;
        pairs[2 * k + 1] = (uint16_t)(2 * k + 1);
    }
    pairs[PARTIES] = 3;
    pairs[PARTIES + 1] = PARTIES - 1;
    for (uint32_t n = 0; n < ZB_PLACES; n++) {
        answer[1] = read[9] = (uint8_t)n;
        EXPECT(pair_request(3, 0, read, 12, ZB_FRAME_BUFFER).outcome == ZB_JOINED);
        EXPECT(listed(pair_reply(0, answer, 11, ZB_FRAME_BUFFER, ZB_LIST_BUFFER), PARTIES / 2 + 1, pairs));
    }
}

/* The last place is taken; the request after it gets exception 04. */
static void last_place_and_the_next(void)
{
    uint8_t write[] = {0, 9, 0, 0, 0, 6, 1, 6, 0, 0, 0, 1};
    begin();
    for (uint32_t n = 0; n < ZB_PLACES; n++)
        EXPECT(is_issued(pair_request(3, n, write, 12, ZB_FRAME_BUFFER), n));
    zb_answer a = pair_request(5, ZB_PLACES, write, 12, ZB_FRAME_BUFFER);
    EXPECT(is_exception(a, 4, "00 09 00 00 00 03 01 86 04"));
    EXPECT(tick(3000).id == 0);
    EXPECT(is_issued(pair_request(5, 3000, write, 12, ZB_FRAME_BUFFER), ZB_PLACES));
}

/* 10,000 written by 06 goes out raw, and its echo comes back as it is. A width-32 tag is partial for 06, and not for its echo. */
static void single_writes(void)
{
    begin();
    request(3, 0, "00 01 00 00 00 06 01 06 04 00 27 10");
    zb_answer a = reply(0, "00 00 00 00 00 06 01 06 04 00 27 10");
    EXPECT(wrote(a, "00 00 00 00 00 06 01 06 04 00 27 10") && raw(a, 0, 0));
    a = request(3, 0, "00 01 00 00 00 06 01 06 04 02 27 10");
    EXPECT(wrote(a, "00 01 00 00 00 06 01 06 04 02 27 10") && raw(a, 1, 0));
    a = request(3, 0, "00 01 00 00 00 06 01 06 04 03 27 10");
    EXPECT(wrote(a, "00 02 00 00 00 06 01 06 04 03 27 10") && raw(a, 1, 0));
    a = reply(0, "00 02 00 00 00 06 01 06 04 03 27 10");
    EXPECT(wrote(a, "00 00 00 00 00 06 01 06 04 03 27 10") && raw(a, 0, 0));
    a = request(3, 0, "00 01 00 00 00 0D 01 10 04 00 00 03 06 27 10 00 00 00 01");
    EXPECT(wrote(a, "00 03 00 00 00 0D 01 10 04 00 00 03 06 27 10 00 00 00 01") && raw(a, 1, 1));
}

/* Signed tags (#105): one at 1028, between two of width 32, whose neighbours at 1026, 1027 and 1029, 1030 a range can cut */

static const char text_with_a_sign[] =
    "version=2\ntimeout=3000\njoin=1\ntags=4\naddr=1024\nwidth=16\nsign=0\naddr=1026\nwidth=32\nsign=0\n"
    "addr=1028\nwidth=16\nsign=1\naddr=1029\nwidth=32\nsign=0\n";

static void begin_signed(void)
{
    const zb_read r = zb_settings_read((const uint8_t *)text_with_a_sign, strlen(text_with_a_sign));
    EXPECT(r.answer.outcome == ZB_DONE && r.settings.sign[2] == 1);
    EXPECT(pair_fresh(&r.settings).outcome == ZB_DONE && pair_attach(3).outcome == ZB_DONE);
}

static void put_word(uint8_t *bytes, uint32_t word)
{
    bytes[0] = (uint8_t)(word >> 8);
    bytes[1] = (uint8_t)word;
}

static uint32_t word_of_out(size_t at)
{
    return (uint32_t)pair_out()[at] << 8 | pair_out()[at + 1];
}

/* Writes the signed tag by 06 and by 16; the answer is the request's. */
static zb_answer write_by_06(uint32_t word)
{
    uint8_t frame[] = {0x12, 0x34, 0, 0, 0, 6, 1, 6, 4, 4, 0, 0};
    put_word(frame + 10, word);
    return pair_request(3, 0, frame, sizeof frame, ZB_FRAME_BUFFER);
}

static zb_answer write_by_16(uint32_t word)
{
    uint8_t frame[] = {0x12, 0x34, 0, 0, 0, 9, 1, 16, 4, 4, 0, 1, 2, 0, 0};
    put_word(frame + 13, word);
    return pair_request(3, 0, frame, sizeof frame, ZB_FRAME_BUFFER);
}

/* The controller says this word to the 06 that was issued so; the answer is the reply's. */
static zb_answer echo(zb_answer issued, uint32_t word)
{
    uint8_t frame[] = {0, 0, 0, 0, 0, 6, 1, 6, 4, 4, 0, 0};
    put_word(frame, issued.id);
    put_word(frame + 10, word);
    return pair_reply(0, frame, sizeof frame, ZB_FRAME_BUFFER, ZB_LIST_BUFFER);
}

static zb_answer acknowledge(zb_answer issued)
{
    uint8_t frame[] = {0, 0, 0, 0, 0, 6, 1, 16, 4, 4, 0, 1};
    put_word(frame, issued.id);
    return pair_reply(0, frame, sizeof frame, ZB_FRAME_BUFFER, ZB_LIST_BUFFER);
}

/* Reads the signed tag by a function, and the controller says this word; the answer is the reply's. */
static zb_answer read_signed(uint8_t function, uint32_t word)
{
    uint8_t request[] = {0x12, 0x34, 0, 0, 0, 6, 1, 0, 4, 4, 0, 1}, frame[] = {0, 0, 0, 0, 0, 5, 1, 0, 2, 0, 0};
    request[7] = frame[7] = function;
    put_word(frame, pair_request(3, 0, request, sizeof request, ZB_FRAME_BUFFER).id);
    put_word(frame + 9, word);
    return pair_reply(0, frame, sizeof frame, ZB_FRAME_BUFFER, ZB_LIST_BUFFER);
}

/* What is written, as 16 bits, and what is sent for it; what is in no range is sent as it is. */
static void signed_writes(void)
{
    static const struct { const char *number; uint16_t written, sent; uint32_t value; } rows[] = {
        {"0", 0x0000, 0x0000, 0}, {"1", 0x0001, 0x0001, 0}, {"10", 0x000A, 0x0010, 0}, {"999", 0x03E7, 0x0999, 0},
        {"-1", 0xFFFF, 0xF001, 0}, {"-10", 0xFFF6, 0xF010, 0}, {"-999", 0xFC19, 0xF999, 0},
        {"1000", 0x03E8, 0x03E8, 1}, {"-1000", 0xFC18, 0xFC18, 1}, {"9999", 0x270F, 0x270F, 1},
        {"32767", 0x7FFF, 0x7FFF, 1}, {"-32768", 0x8000, 0x8000, 1}, {"-32767", 0x8001, 0x8001, 1},
        {"2457, which looks like 999 in digits", 0x0999, 0x0999, 1},
        {"-4096, which looks like minus 0", 0xF000, 0xF000, 1},
        {"-4095, which looks like -1 in digits", 0xF001, 0xF001, 1},
    };
    begin_signed();
    for (size_t n = 0; n < sizeof rows / sizeof *rows; n++) {
        zb_answer a = write_by_06(rows[n].written);
        bool good = a.outcome == ZB_ISSUED && raw(a, 0, rows[n].value) && word_of_out(10) == rows[n].sent;
        expect(good, rows[n].number, __LINE__);
        a = echo(a, rows[n].sent);
        good = a.outcome == ZB_ANSWERED && raw(a, 0, 0) && word_of_out(10) == rows[n].written;
        expect(good, rows[n].number, __LINE__);
        a = write_by_16(rows[n].written);
        good = a.outcome == ZB_ISSUED && raw(a, 0, rows[n].value) && word_of_out(13) == rows[n].sent;
        expect(good, rows[n].number, __LINE__);
        a = acknowledge(a);
        expect(wrote(a, "00 00 00 00 00 06 01 10 04 04 00 01") && raw(a, 0, 0), rows[n].number, __LINE__);
    }
}

/* What the controller says, and what the client reads; what is no number is read as it is. */
static void signed_reads(void)
{
    static const struct { uint16_t said, read; uint32_t value; } rows[] = {
        {0x0000, 0x0000, 0}, {0x0001, 0x0001, 0}, {0x0010, 0x000A, 0}, {0x0999, 0x03E7, 0},
        {0xF001, 0xFFFF, 0}, {0xF010, 0xFFF6, 0}, {0xF999, 0xFC19, 0},
        {0xF000, 0xF000, 1}, {0x1000, 0x1000, 1}, {0x1999, 0x1999, 1}, {0x8000, 0x8000, 1}, {0x9999, 0x9999, 1},
        {0xA999, 0xA999, 1}, {0xE001, 0xE001, 1}, {0xE999, 0xE999, 1}, {0x0A00, 0x0A00, 1}, {0x00A0, 0x00A0, 1},
        {0x000A, 0x000A, 1}, {0xFA00, 0xFA00, 1}, {0xF0A0, 0xF0A0, 1}, {0xF00A, 0xF00A, 1}, {0xFFFF, 0xFFFF, 1},
        {0xFC19, 0xFC19, 1},
    };
    begin_signed();
    for (size_t n = 0; n < sizeof rows / sizeof *rows; n++)
        for (uint8_t function = 3; function <= 4; function++) {
            zb_answer a = read_signed(function, rows[n].said);
            char name[16];
            snprintf(name, sizeof name, "0x%04X by %02u", rows[n].said, function);
            expect(a.outcome == ZB_ANSWERED && raw(a, 0, rows[n].value) && word_of_out(9) == rows[n].read, name, __LINE__);
        }
}

/* The echo of what was re-encoded is decoded, whatever it is; that of what went out raw passes (#106). */
static void signed_echoes(void)
{
    static const struct { const char *what; uint16_t written, echoed, back; uint32_t value; } rows[] = {
        {"-5, echoed", 0xFFFB, 0xF005, 0xFFFB, 0}, {"-5, and another number", 0xFFFB, 0x0007, 0x0007, 0},
        {"-5, and minus 999", 0xFFFB, 0xF999, 0xFC19, 0}, {"-5, and minus 0", 0xFFFB, 0xF000, 0xF000, 1},
        {"-5, and top nibble 1", 0xFFFB, 0x1000, 0x1000, 1}, {"-5, and a nibble above 9", 0xFFFB, 0x0A00, 0x0A00, 1},
        {"5, and minus 5", 0x0005, 0xF005, 0xFFFB, 0}, {"0, and minus 0", 0x0000, 0xF000, 0xF000, 1},
        {"1000, echoed", 0x03E8, 0x03E8, 0x03E8, 0}, {"1000, and minus 1", 0x03E8, 0xF001, 0xF001, 0},
        {"1000, and minus 0", 0x03E8, 0xF000, 0xF000, 0}, {"-1000, echoed", 0xFC18, 0xFC18, 0xFC18, 0},
        {"-1000, and 999", 0xFC18, 0x0999, 0x0999, 0}, {"-32768, echoed", 0x8000, 0x8000, 0x8000, 0},
        {"-4095, whose word is minus 1 in digits, echoed", 0xF001, 0xF001, 0xF001, 0},
    };
    begin_signed();
    for (size_t n = 0; n < sizeof rows / sizeof *rows; n++) {
        zb_answer a = echo(write_by_06(rows[n].written), rows[n].echoed);
        bool good = a.outcome == ZB_ANSWERED && raw(a, 0, rows[n].value) && word_of_out(10) == rows[n].back;
        expect(good, rows[n].what, __LINE__);
    }
    zb_answer a = write_by_06(0xFFFB);
    EXPECT(is_issued(a, 15));
    a = reply(0, "00 0F 00 00 00 03 01 86 04");
    EXPECT(wrote(a, "00 00 00 00 00 03 01 86 04") && raw(a, 0, 0));
}

/* The signed tag first, last and inside, with what the range cuts beside it. */
static void signed_beside_cut_tags(void)
{
    begin_signed();
    request(3, 0, "00 01 00 00 00 06 01 03 04 03 00 02");
    zb_answer a = reply(0, "00 00 00 00 00 07 01 03 04 12 34 F0 05");
    EXPECT(wrote(a, "00 00 00 00 00 07 01 03 04 12 34 FF FB") && raw(a, 1, 0)); /* last */
    request(3, 0, "00 01 00 00 00 06 01 04 04 04 00 02");
    a = reply(0, "00 01 00 00 00 07 01 04 04 F0 05 12 34");
    EXPECT(wrote(a, "00 00 00 00 00 07 01 04 04 FF FB 12 34") && raw(a, 1, 0)); /* first */
    request(3, 0, "00 01 00 00 00 06 01 03 04 03 00 03");
    a = reply(0, "00 02 00 00 00 09 01 03 06 12 34 F0 00 12 34");
    EXPECT(wrote(a, "00 00 00 00 00 09 01 03 06 12 34 F0 00 12 34") && raw(a, 2, 1)); /* between two cut ones */
    request(3, 0, "00 01 00 00 00 06 01 03 04 00 00 07");
    a = reply(0, "00 03 00 00 00 11 01 03 0E 12 34 12 34 56 78 12 34 F9 99 56 78 12 34");
    EXPECT(wrote(a, "00 00 00 00 00 11 01 03 0E 04 D2 12 34 61 4E 00 BC FC 19 61 4E 00 BC") && raw(a, 0, 0)); /* all */
    request(3, 0, "00 01 00 00 00 06 01 03 04 00 00 07");
    a = reply(0, "00 04 00 00 00 11 01 03 0E F0 01 F0 01 F0 01 00 00 F0 01 00 00 F0 01");
    EXPECT(wrote(a, "00 00 00 00 00 11 01 03 0E F0 01 F0 01 F0 01 00 00 FF FF 00 00 F0 01") && raw(a, 0, 3));
    a = request(3, 0, "00 01 00 00 00 0B 01 10 04 03 00 02 04 00 05 FF FB");
    EXPECT(wrote(a, "00 05 00 00 00 0B 01 10 04 03 00 02 04 00 05 F0 05") && raw(a, 1, 0));
    a = request(3, 0, "00 01 00 00 00 0B 01 10 04 04 00 02 04 FF FB 00 05");
    EXPECT(wrote(a, "00 06 00 00 00 0B 01 10 04 04 00 02 04 F0 05 00 05") && raw(a, 1, 0));
    a = request(3, 0, "00 01 00 00 00 0D 01 10 04 03 00 03 06 00 05 03 E8 00 05");
    EXPECT(wrote(a, "00 07 00 00 00 0D 01 10 04 03 00 03 06 00 05 03 E8 00 05") && raw(a, 2, 1));
    a = request(3, 0, "00 01 00 00 00 15 01 10 04 00 00 07 0E 04 D2 00 05 61 4E 00 BC FC 19 61 4E 00 BC");
    EXPECT(wrote(a, "00 08 00 00 00 15 01 10 04 00 00 07 0E 12 34 00 05 56 78 12 34 F9 99 56 78 12 34") && raw(a, 0, 0));
    a = request(3, 0, "00 01 00 00 00 06 01 06 04 05 FF FB"); /* beside it: a half of width 32 */
    EXPECT(wrote(a, "00 09 00 00 00 06 01 06 04 05 FF FB") && raw(a, 1, 0));
    a = request(3, 0, "00 01 00 00 00 06 01 06 04 00 FF FB"); /* and width 16 without a sign: -5 is 65,531 */
    EXPECT(wrote(a, "00 0A 00 00 00 06 01 06 04 00 FF FB") && raw(a, 0, 1));
}

/* All 65,536 words, both ways: what is written comes back when it is echoed, and what is decoded is sent again for the
   number that was read. There are 1,999 numbers. */
static void every_signed_word(void)
{
    unsigned encoded = 0, decoded = 0, astray = 0;
    begin_signed();
    for (uint32_t word = 0; word < 65536; word++) {
        zb_answer a = write_by_06(word);
        encoded += a.value == 0;
        a = echo(a, word_of_out(10));
        astray += a.outcome != ZB_ANSWERED || !raw(a, 0, 0) || word_of_out(10) != word;
        a = read_signed(3, word);
        if (a.value) {
            astray += word_of_out(9) != word;
            continue;
        }
        decoded++;
        a = write_by_06(word_of_out(9));
        astray += a.value != 0 || word_of_out(10) != word;
        echo(a, word);
    }
    EXPECT(encoded == 1999 && decoded == 1999 && astray == 0);
}

/* A read after a write is not stale (#102): registers 16 to 19 are read */

typedef struct {
    const char *what;
    uint32_t client;
    const char *frame;
    uint32_t outcome, id;
} step;

static void take_steps(const step *steps, size_t count)
{
    for (size_t n = 0; n < count; n++) {
        zb_answer a = request(steps[n].client, 0, steps[n].frame);
        expect(a.outcome == steps[n].outcome && a.id == steps[n].id && a.refusal == 0, steps[n].what, __LINE__);
    }
}

#define TAKE(steps) take_steps(steps, sizeof steps / sizeof *steps)

static void writes_close_what_they_meet(void)
{
    static const step steps[] = {
        {"a read", 3, "20 01 00 00 00 06 01 03 00 10 00 04", ZB_ISSUED, 0},
        {"a write that ends one before it", 3, "20 02 00 00 00 0D 01 10 00 0D 00 03 06 00 00 00 00 00 00", ZB_ISSUED, 1},
        {"closes nothing", 5, "20 03 00 00 00 06 01 03 00 10 00 04", ZB_JOINED, 0},
        {"one behind it", 3, "20 04 00 00 00 06 01 06 00 14 00 07", ZB_ISSUED, 2},
        {"closes nothing either", 5, "20 05 00 00 00 06 01 03 00 10 00 04", ZB_JOINED, 0},
        {"one that meets it from the left", 3, "20 06 00 00 00 0D 01 10 00 0E 00 03 06 00 00 00 00 00 00", ZB_ISSUED, 3},
        {"the next equal read is issued", 5, "20 07 00 00 00 06 01 03 00 10 00 04", ZB_ISSUED, 4},
        {"and joined, the smaller id is closed", 3, "20 08 00 00 00 06 01 03 00 10 00 04", ZB_JOINED, 4},
        {"one from the right", 3, "20 09 00 00 00 0D 01 10 00 13 00 03 06 00 00 00 00 00 00", ZB_ISSUED, 5},
        {"closes", 5, "20 0A 00 00 00 06 01 03 00 10 00 04", ZB_ISSUED, 6},
        {"one inside", 3, "20 0B 00 00 00 06 01 06 00 11 00 00", ZB_ISSUED, 7},
        {"closes", 5, "20 0C 00 00 00 06 01 03 00 10 00 04", ZB_ISSUED, 8},
        {"one around", 3, "20 0D 00 00 00 13 01 10 00 0F 00 06 0C 00 00 00 00 00 00 00 00 00 00 00 00", ZB_ISSUED, 9},
        {"closes", 5, "20 0E 00 00 00 06 01 03 00 10 00 04", ZB_ISSUED, 10},
        {"one in another unit", 3, "20 0F 00 00 00 06 02 06 00 10 00 07", ZB_ISSUED, 11},
        {"closes nothing", 5, "20 10 00 00 00 06 01 03 00 10 00 04", ZB_JOINED, 10},
    };
    begin();
    TAKE(steps);
}

static void writes_close_both_reads_of_their_table(void)
{
    static const step steps[] = {
        {"03", 3, "20 01 00 00 00 06 01 03 00 10 00 04", ZB_ISSUED, 0},
        {"04", 3, "20 02 00 00 00 06 01 04 00 10 00 04", ZB_ISSUED, 1},
        {"01", 3, "20 03 00 00 00 06 01 01 00 10 00 04", ZB_ISSUED, 2},
        {"02", 3, "20 04 00 00 00 06 01 02 00 10 00 04", ZB_ISSUED, 3},
        {"a register is written", 3, "20 05 00 00 00 06 01 06 00 12 00 07", ZB_ISSUED, 4},
        {"03 is closed", 5, "20 06 00 00 00 06 01 03 00 10 00 04", ZB_ISSUED, 5},
        {"04 is closed", 5, "20 07 00 00 00 06 01 04 00 10 00 04", ZB_ISSUED, 6},
        {"01 is not", 5, "20 08 00 00 00 06 01 01 00 10 00 04", ZB_JOINED, 2},
        {"nor 02", 5, "20 09 00 00 00 06 01 02 00 10 00 04", ZB_JOINED, 3},
        {"a coil is written", 3, "20 0A 00 00 00 06 01 05 00 12 FF 00", ZB_ISSUED, 7},
        {"01 is closed", 5, "20 0B 00 00 00 06 01 01 00 10 00 04", ZB_ISSUED, 8},
        {"02 is closed", 5, "20 0C 00 00 00 06 01 02 00 10 00 04", ZB_ISSUED, 9},
        {"03 is not", 3, "20 0D 00 00 00 06 01 03 00 10 00 04", ZB_JOINED, 5},
        {"nor 04", 3, "20 0E 00 00 00 06 01 04 00 10 00 04", ZB_JOINED, 6},
        {"coils are written up to the first bit", 3, "20 0F 00 00 00 09 01 0F 00 08 00 09 02 00 00", ZB_ISSUED, 10},
        {"01 is closed again", 5, "20 10 00 00 00 06 01 01 00 10 00 04", ZB_ISSUED, 11},
        {"coils are written up to the one before", 3, "20 11 00 00 00 08 01 0F 00 08 00 08 01 00", ZB_ISSUED, 12},
        {"01 is not closed", 5, "20 12 00 00 00 06 01 01 00 10 00 04", ZB_JOINED, 11},
        {"a read of another unit", 3, "20 13 00 00 00 06 02 03 00 10 00 04", ZB_ISSUED, 13},
        {"function 0x2B", 3, "20 14 00 00 00 02 01 2B", ZB_ISSUED, 14},
        {"03 is closed by it", 5, "20 15 00 00 00 06 01 03 00 10 00 04", ZB_ISSUED, 15},
        {"01 too", 5, "20 16 00 00 00 06 01 01 00 10 00 04", ZB_ISSUED, 16},
        {"the other unit's is not", 5, "20 17 00 00 00 06 02 03 00 10 00 04", ZB_JOINED, 13},
    };
    begin();
    TAKE(steps);
}

static void unissued_writes_close_nothing(void)
{
    uint8_t write[] = {0x20, 9, 0, 0, 0, 6, 1, 6, 0, 0x10, 0, 7};
    static const step steps[] = {
        {"a read of the last register", 3, "20 01 00 00 00 06 01 03 FF FF 00 01", ZB_ISSUED, 0},
        {"a write of none gets 03", 3, "20 02 00 00 00 07 01 10 FF FF 00 00 00", ZB_EXCEPTION, 0},
        {"and closes nothing", 5, "20 03 00 00 00 06 01 03 FF FF 00 01", ZB_JOINED, 0},
        {"a write beyond the last gets 02", 3, "20 04 00 00 00 0B 01 10 FF FF 00 02 04 00 00 00 00", ZB_EXCEPTION, 0},
        {"and closes nothing", 5, "20 05 00 00 00 06 01 03 FF FF 00 01", ZB_JOINED, 0},
        {"another read", 3, "20 06 00 00 00 06 01 03 FF FE 00 02", ZB_ISSUED, 1},
        {"closes nothing", 5, "20 07 00 00 00 06 01 03 FF FF 00 01", ZB_JOINED, 0},
    };
    begin();
    TAKE(steps);
    for (uint32_t n = 2; n < ZB_PLACES; n++)
        EXPECT(is_issued(pair_request(3, 0, write, sizeof write, ZB_FRAME_BUFFER), n));
    EXPECT(is_exception(request(3, 0, "20 0A 00 00 00 06 01 06 FF FF 00 07"), 4, "20 0A 00 00 00 03 01 86 04"));
    EXPECT(request(5, 0, "20 0B 00 00 00 06 01 03 FF FF 00 01").outcome == ZB_JOINED);
}

/* A closed read keeps its parties, is answered past its deadline too, and times out; left by all it stays closed. */
static void closed_reads_end_as_before(void)
{
    static const uint16_t pairs[] = {3, 0x2001, 5, 0x2002};
    static const step steps[] = {
        {"a read", 3, "20 01 00 00 00 06 01 03 00 10 00 04", ZB_ISSUED, 0},
        {"is joined", 5, "20 02 00 00 00 06 01 03 00 10 00 04", ZB_JOINED, 0},
        {"and closed", 3, "20 03 00 00 00 06 01 06 00 10 00 07", ZB_ISSUED, 1},
        {"the next is issued", 5, "20 04 00 00 00 06 01 03 00 10 00 04", ZB_ISSUED, 2},
    };
    static const char words[] = "00 00 00 00 00 0B 01 03 08 00 01 00 02 00 03 00 04";
    begin();
    TAKE(steps);
    zb_answer a = reply(4000, words);
    EXPECT(a.outcome == ZB_ANSWERED && wrote(a, words) && listed(a, 2, pairs));
    begin();
    TAKE(steps);
    a = tick(3000);
    EXPECT(a.outcome == ZB_TIMED_OUT && a.id == 0 && listed(a, 2, pairs));
    begin();
    TAKE(steps);
    EXPECT(pair_detach(3).outcome == ZB_DONE && pair_detach(5).outcome == ZB_DONE && pair_attach(5).outcome == ZB_DONE);
    a = request(5, 0, "20 05 00 00 00 06 01 03 00 10 00 04");
    EXPECT(a.outcome == ZB_JOINED && a.id == 2); /* behind the write, though all have left it */
    a = reply(0, words);
    EXPECT(a.outcome == ZB_ANSWERED && a.parties == 0 && wrote(a, words));
}

/* A short-lived cache (#107): registers 21, 24 and 26 lie in no tag, register 20 in one without a ttl */

static void begin_cached(uint32_t join)
{
    static const struct { uint16_t addr, width, sign, ttl; } tags[] = {
        {16, 16, 0, 100}, {17, 32, 0, 50}, {19, 16, 1, 200}, {20, 16, 0, 0}, {22, 16, 0, 60000}, {23, 16, 0, 1},
        {25, 16, 0, 10}, {27, 16, 0, 10}, {65533, 16, 0, 9}, {65534, 32, 0, 7},
    };
    zb_settings s = {.timeout = 3000, .join = join, .tags = sizeof tags / sizeof *tags};
    for (uint32_t t = 0; t < s.tags; t++) {
        s.addr[t] = tags[t].addr;
        s.width[t] = tags[t].width;
        s.sign[t] = tags[t].sign;
        s.ttl[t] = tags[t].ttl;
    }
    EXPECT(pair_fresh(&s).outcome == ZB_DONE && pair_attach(3).outcome == ZB_DONE && pair_attach(5).outcome == ZB_DONE);
}

typedef struct {
    uint8_t unit, function;
    uint32_t start, quantity;
} key;

/* What a reply wrote. */
typedef struct {
    zb_answer answer;
    uint8_t bytes[ZB_FRAME_BUFFER];
} shown;

static zb_answer ask(uint32_t client, uint64_t now, uint32_t id, key k)
{
    uint8_t frame[] = {0, 0, 0, 0, 0, 6, k.unit, k.function, 0, 0, 0, 0};
    put_word(frame, id);
    put_word(frame + 8, k.start);
    put_word(frame + 10, k.quantity);
    return pair_request(client, now, frame, sizeof frame, ZB_FRAME_BUFFER);
}

/* The controller says this word for each register of what was issued so. */
static shown say(uint64_t now, zb_answer issued, key k, uint32_t word)
{
    uint8_t frame[MOST_FRAME] = {0, 0, 0, 0, 0, (uint8_t)(3 + 2 * k.quantity), k.unit, k.function,
                                 (uint8_t)(2 * k.quantity)};
    shown s = {0};
    put_word(frame, issued.id);
    for (uint32_t n = 0; n < k.quantity; n++)
        put_word(frame + 9 + 2 * n, word);
    s.answer = pair_reply(now, frame, 9 + 2 * k.quantity, ZB_FRAME_BUFFER, ZB_LIST_BUFFER);
    memcpy(s.bytes, pair_out(), ZB_FRAME_BUFFER);
    return s;
}

/* A read that is issued and answered in one millisecond. */
static shown fill(uint64_t now, key k, uint32_t word)
{
    zb_answer issued = ask(3, now, 0x1111, k);
    EXPECT(issued.outcome == ZB_ISSUED);
    return say(now, issued, k, word);
}

/* A hit of that reply: its bytes under the caller's id, its counts, and nothing else in the report. */
static bool is_hit(zb_answer a, uint32_t id, const shown *s)
{
    const zb_answer whole = {
        .outcome = ZB_HIT, .length = s->answer.length, .partial = s->answer.partial, .value = s->answer.value};
    return memcmp(&a, &whole, sizeof a) == 0 && word_of_out(0) == id
        && memcmp(pair_out() + 2, s->bytes + 2, a.length - 2) == 0;
}

/* Byte by byte; a hit sets the clock, joins nothing and shows the counts of its reply. */
static void a_hit(void)
{
    static const uint16_t pairs[] = {3, 0x1234};
    begin_cached(1);
    EXPECT(is_issued(request(3, 5, "12 34 00 00 00 06 01 03 00 10 00 01"), 0));
    zb_answer a = reply(10, "00 00 00 00 00 05 01 03 02 12 34");
    EXPECT(wrote(a, "00 00 00 00 00 05 01 03 02 04 D2") && listed(a, 1, pairs));
    a = request(5, 20, "00 07 00 00 00 06 01 03 00 10 00 01");
    EXPECT(a.outcome == ZB_HIT && wrote(a, "00 07 00 00 00 05 01 03 02 04 D2") && raw(a, 0, 0));
    EXPECT(a.id == 0 && a.parties == 0 && a.code == 0);
    EXPECT_REFUSED(tick(19), ZB_REFUSED_TIME);
    EXPECT(tick(20).outcome == ZB_NOTHING_DUE && tick(50000).outcome == ZB_NOTHING_DUE);
    EXPECT(is_issued(request(3, 50000, "12 34 00 00 00 06 01 04 00 10 00 04"), 1));
    a = reply(50000, "00 01 00 00 00 0B 01 04 08 00 AB 12 34 56 78 F0 00");
    EXPECT(wrote(a, "00 00 00 00 00 0B 01 04 08 00 AB 69 B2 03 62 F0 00") && raw(a, 0, 2));
    a = request(5, 50000, "AB CD 00 00 00 06 01 04 00 10 00 04");
    EXPECT(a.outcome == ZB_HIT && wrote(a, "AB CD 00 00 00 0B 01 04 08 00 AB 69 B2 03 62 F0 00") && raw(a, 0, 2));
}

/* The life is the smallest ttl of the tags, and 0 where the read is not cacheable; it is counted from the reply. */
static void lives(void)
{
    static const struct { const char *what; uint32_t start, quantity, life; } rows[] = {
        {"one tag", 16, 1, 100}, {"one of width 32", 17, 2, 50}, {"a signed one", 19, 1, 200},
        {"two, the second shorter", 16, 3, 50}, {"two, the first shorter", 17, 3, 50}, {"three", 16, 4, 50},
        {"ttl 60,000", 22, 1, 60000}, {"ttl 1", 23, 1, 1}, {"60,000 beside 1", 22, 2, 1},
        {"the last registers", 65533, 3, 7}, {"ttl 0", 20, 1, 0}, {"ttl 0 behind others", 16, 5, 0}, {"a register in no tag", 21, 1, 0},
        {"one in no tag before", 21, 2, 0}, {"behind", 22, 3, 0}, {"between", 25, 3, 0}, {"far from all tags", 900, 1, 0},
        {"a tag cut at the first end", 18, 2, 0}, {"at the last end", 16, 2, 0}, {"half a tag", 17, 1, 0},
        {"the other half", 18, 1, 0}, {"cut at the last register", 65533, 2, 0},
    };
    for (size_t n = 0; n < sizeof rows / sizeof *rows; n++)
        for (uint8_t function = 3; function <= 4; function++) {
            key k = {1, function, rows[n].start, rows[n].quantity};
            uint32_t life = rows[n].life;
            begin_cached(1);
            zb_answer issued = ask(3, 1000, 1, k);
            shown s = say(1040, issued, k, 5);
            if (life) {
                expect(is_hit(ask(5, 1040, 2, k), 2, &s), rows[n].what, __LINE__);
                expect(is_hit(ask(5, 1040 + life - 1, 3, k), 3, &s), rows[n].what, __LINE__);
            }
            expect(is_issued(ask(5, 1040 + life, 4, k), 1), rows[n].what, __LINE__);
        }
}

/* Another function, unit, start or quantity is another key, and each shows its own reply. */
static void keys_beside_each_other(void)
{
    static const key keys[] = {{1, 3, 16, 1}, {1, 4, 16, 1}, {2, 3, 16, 1}, {1, 3, 16, 3}, {1, 3, 19, 1}, {0, 3, 16, 1}};
    enum { KEYS = sizeof keys / sizeof *keys };
    shown s[KEYS];
    begin_cached(1);
    for (uint32_t n = 0; n < KEYS; n++)
        s[n] = fill(10, keys[n], n + 1);
    for (uint32_t n = 0; n < KEYS; n++)
        EXPECT(is_hit(ask(5, 10, n, keys[n]), n, &s[n]));
    EXPECT(pair_link_lost().outcome == ZB_DONE && pair_attach(3).outcome == ZB_DONE && pair_attach(5).outcome == ZB_DONE);
    for (uint32_t n = 0; n < KEYS; n++)
        EXPECT(is_issued(ask(5, 10, n, keys[n]), KEYS + n));
}

/* 125 registers are kept; a hit in the last millisecond that there is. */
static void the_longest_and_the_latest(void)
{
    const uint64_t last = ((uint64_t)1 << 63) - 1;
    const key k = {1, 3, 100, 125}, latest = {1, 4, 200, 1};
    zb_settings set = {.timeout = 3000, .join = 1, .tags = 125};
    for (uint32_t t = 0; t < 125; t++) {
        set.addr[t] = (uint16_t)(100 + t);
        set.width[t] = 16;
        set.ttl[t] = 60000;
    }
    EXPECT(pair_fresh(&set).outcome == ZB_DONE && pair_attach(3).outcome == ZB_DONE);
    shown s = fill(0, k, 0x1234);
    EXPECT(s.answer.length == 259 && is_hit(ask(3, 59999, 7, k), 7, &s));
    s = fill(last - 9, latest, 0x1234);
    EXPECT(is_hit(ask(3, last, 8, latest), 8, &s));
}

/* Registers 16 to 19 are cached, of 03 and 04; then comes a request, and both are asked again. */
typedef struct {
    const char *what;
    bool kept;
    const char *frame;
} drop_row;

static void take_drops(const drop_row *rows, size_t count)
{
    static const key holding = {1, 3, 16, 4}, input = {1, 4, 16, 4};
    for (size_t n = 0; n < count; n++) {
        begin_cached(1);
        shown s = fill(10, holding, 1), t = fill(10, input, 2);
        request(3, 10, rows[n].frame);
        zb_answer a = ask(5, 10, 7, holding);
        expect(rows[n].kept ? is_hit(a, 7, &s) : a.outcome == ZB_ISSUED, rows[n].what, __LINE__);
        a = ask(5, 10, 8, input);
        expect(rows[n].kept ? is_hit(a, 8, &t) : a.outcome == ZB_ISSUED, rows[n].what, __LINE__);
    }
}

#define TAKE_DROPS(rows) take_drops(rows, sizeof rows / sizeof *rows)

static void what_an_issue_drops(void)
{
    static const drop_row rows[] = {
        {"a write that ends one before", true, "20 02 00 00 00 0D 01 10 00 0D 00 03 06 00 00 00 00 00 00"},
        {"one behind", true, "20 02 00 00 00 06 01 06 00 14 00 07"},
        {"from the left", false, "20 02 00 00 00 0D 01 10 00 0E 00 03 06 00 00 00 00 00 00"},
        {"from the right", false, "20 02 00 00 00 0D 01 10 00 13 00 03 06 00 00 00 00 00 00"},
        {"inside", false, "20 02 00 00 00 06 01 06 00 11 00 00"},
        {"inside, two", false, "20 02 00 00 00 0B 01 10 00 11 00 02 04 00 00 00 00"},
        {"around", false, "20 02 00 00 00 13 01 10 00 0F 00 06 0C 00 00 00 00 00 00 00 00 00 00 00 00"},
        {"the same registers", false, "20 02 00 00 00 0F 01 10 00 10 00 04 08 00 00 00 00 00 00 00 00"},
        {"the first alone", false, "20 02 00 00 00 06 01 06 00 10 00 00"},
        {"the last alone", false, "20 02 00 00 00 09 01 10 00 13 00 01 02 00 00"},
        {"in another unit", true, "20 02 00 00 00 06 02 06 00 10 00 07"},
        {"in unit 0", true, "20 02 00 00 00 06 00 06 00 10 00 07"},
        {"a coil", true, "20 02 00 00 00 06 01 05 00 11 FF 00"},
        {"coils", true, "20 02 00 00 00 08 01 0F 00 10 00 04 01 00"},
        {"an other", false, "20 02 00 00 00 02 01 2B"},
        {"an other with the address in it", false, "20 02 00 00 00 06 01 18 00 80 00 01"},
        {"an other, 8", false, "20 02 00 00 00 06 01 08 00 00 00 00"},
        {"an other for another unit", true, "20 02 00 00 00 02 02 2B"},
        {"a read of the same registers", true, "20 02 00 00 00 06 01 03 00 11 00 02"},
        {"a write of none, exception 03", true, "20 02 00 00 00 07 01 10 00 10 00 00 00"},
        {"a byte count that does not fit, 03", true, "20 02 00 00 00 0A 01 10 00 10 00 02 03 00 00 00"},
        {"a write that is refused", true, "20 02 00 00 00 05 01 06 00 10 00"},
    };
    TAKE_DROPS(rows);
}

/* A write beyond the last register gets 02, and the 257th live request 04: neither drops; a reply to a write does not
   either, nor a timeout, nor a leaving. A read that was issued behind a write fills before the write is answered. */
static void what_drops_nothing(void)
{
    const key top = {1, 3, 65533, 3}, k = {1, 3, 22, 1};
    uint8_t write[] = {0x20, 9, 0, 0, 0, 6, 2, 6, 0, 22, 0, 7};
    begin_cached(1);
    shown t = fill(10, top, 1), s;
    zb_answer a = request(3, 10, "20 04 00 00 00 0B 01 10 FF FF 00 02 04 00 00 00 00");
    EXPECT(is_exception(a, 2, "20 04 00 00 00 03 01 90 02") && is_hit(ask(5, 10, 7, top), 7, &t));
    EXPECT(is_issued(request(3, 10, "20 01 00 00 00 06 01 06 00 16 00 07"), 1));
    s = fill(10, k, 1);
    EXPECT(is_hit(ask(5, 10, 7, k), 7, &s));
    EXPECT(reply(11, "00 01 00 00 00 06 01 06 00 16 00 07").outcome == ZB_ANSWERED);
    EXPECT(is_hit(ask(5, 11, 7, k), 7, &s));
    for (uint32_t n = 0; n < ZB_PLACES; n++)
        EXPECT(is_issued(pair_request(3, 11, write, sizeof write, ZB_FRAME_BUFFER), n + 3));
    EXPECT(is_exception(request(3, 11, "20 0A 00 00 00 06 01 06 00 16 00 07"), 4, "20 0A 00 00 00 03 01 86 04"));
    EXPECT(is_hit(ask(5, 11, 7, k), 7, &s)); /* with 256 live */
    EXPECT(pair_detach(3).outcome == ZB_DONE && is_hit(ask(5, 16, 7, top), 7, &t) && is_hit(ask(5, 16, 7, k), 7, &s));
    EXPECT(is_exception(ask(5, 17, 7, top), 4, "00 07 00 00 00 03 01 83 04")); /* its life is over */
    EXPECT(tick(4000).outcome == ZB_TIMED_OUT && is_hit(ask(5, 4000, 7, k), 7, &s));
}

/* A reply past its deadline fills, and one with an empty list; an exception, one to a closed read and one that does not
   answer do not, and leave what is there. */
static void who_fills(void)
{
    const key k = {1, 3, 22, 1};
    begin_cached(1);
    shown s = say(9000, ask(3, 0, 1, k), k, 7);
    EXPECT(s.answer.outcome == ZB_ANSWERED && is_hit(ask(5, 9000, 7, k), 7, &s)); /* past its deadline */
    begin_cached(1);
    zb_answer issued = ask(3, 0, 1, k);
    EXPECT(pair_detach(3).outcome == ZB_DONE);
    s = say(10, issued, k, 7);
    EXPECT(s.answer.parties == 0 && is_hit(ask(5, 10, 7, k), 7, &s)); /* for nobody */
    begin_cached(1);
    ask(3, 0, 1, k);
    EXPECT(reply(10, "00 00 00 00 00 03 01 83 02").outcome == ZB_ANSWERED && is_issued(ask(5, 10, 7, k), 1));
    begin_cached(1);
    issued = ask(3, 0, 1, k);
    EXPECT(is_issued(request(3, 0, "20 01 00 00 00 06 01 06 00 16 00 07"), 1));
    EXPECT(say(10, issued, k, 7).answer.outcome == ZB_ANSWERED && is_issued(ask(5, 10, 7, k), 2));
    begin_cached(0);
    issued = ask(3, 0, 1, k);
    EXPECT_REFUSED(reply(10, "00 00 00 00 00 05 01 04 02 00 07"), ZB_REFUSED_MISMATCH);
    EXPECT_REFUSED(reply(10, "00 00 00 00 00 05 02 03 02 00 07"), ZB_REFUSED_MISMATCH);
    EXPECT_REFUSED(reply(10, "00 00 00 00 00 07 01 03 04 00 07 00 07"), ZB_REFUSED_MISMATCH);
    EXPECT(is_issued(ask(5, 10, 7, k), 1));
}

/* Of two replies to one key the later is shown, its life counted from its own time; an exception to it leaves it there. */
static void a_reply_over_its_own_key(void)
{
    const key k = {1, 3, 16, 1};
    begin_cached(0);
    zb_answer first = ask(3, 0, 1, k), second = ask(5, 0, 2, k), third = ask(5, 0, 2, k);
    shown s = say(10, second, k, 0x0042);
    EXPECT(is_hit(ask(5, 20, 7, k), 7, &s)); /* with joining off */
    s = say(30, first, k, 0x0017);
    EXPECT(is_hit(ask(5, 30, 7, k), 7, &s));
    EXPECT(third.id == 2 && reply(40, "00 02 00 00 00 03 01 83 02").outcome == ZB_ANSWERED);
    EXPECT(is_hit(ask(5, 129, 7, k), 7, &s));
    EXPECT(is_issued(ask(5, 130, 7, k), 3));
    s = say(200, (zb_answer){.id = 3}, k, 0x0099); /* expired */
    EXPECT(is_hit(ask(5, 299, 7, k), 7, &s) && is_issued(ask(5, 300, 7, k), 4));
}

/* A hit goes before a join, and takes no party place; the live read is answered to those who wait for it. */
static void a_hit_before_a_join(void)
{
    static const uint16_t pairs[] = {5, 2};
    const key k = {1, 3, 22, 1};
    begin_cached(1);
    zb_answer first = ask(3, 0, 1, k), second = ask(5, 3000, 2, k); /* the first is due: it is not joined */
    EXPECT(is_issued(first, 0) && is_issued(second, 1));
    shown s = say(3001, first, k, 7);
    EXPECT(is_hit(ask(3, 3001, 9, k), 9, &s));
    EXPECT(listed(say(3002, second, k, 8).answer, 1, pairs));
}

/* A refused request is no hit, changes nothing and writes nothing. */
static void refusals_before_a_hit(void)
{
    static const uint8_t read[] = {0, 7, 0, 0, 0, 6, 1, 3, 0, 22, 0, 1};
    const key k = {1, 3, 22, 1};
    begin_cached(1);
    shown s = fill(10, k, 7);
    EXPECT_REFUSED(pair_request(5, 10, read, 12, ZB_FRAME_BUFFER - 1), ZB_REFUSED_BUFFER);
    EXPECT_REFUSED(pair_request(4, 10, read, 12, ZB_FRAME_BUFFER), ZB_REFUSED_CLIENT);
    EXPECT_REFUSED(pair_request(32, 10, read, 12, ZB_FRAME_BUFFER), ZB_REFUSED_CLIENT);
    EXPECT_REFUSED(pair_request(5, 9, read, 12, ZB_FRAME_BUFFER), ZB_REFUSED_TIME);
    EXPECT_REFUSED(pair_request(5, (uint64_t)1 << 63, read, 12, ZB_FRAME_BUFFER), ZB_REFUSED_TIME);
    EXPECT_REFUSED(pair_request(5, 10, read, 11, ZB_FRAME_BUFFER), ZB_REFUSED_FRAME);
    EXPECT_REFUSED(request(5, 10, "00 07 00 01 00 06 01 03 00 16 00 01"), ZB_REFUSED_FRAME);
    EXPECT_REFUSED(request(5, 10, "00 07 00 00 00 06 01 83 00 16 00 01"), ZB_REFUSED_FUNCTION);
    EXPECT_REFUSED(request(5, 10, "00 07 00 00 00 07 01 03 00 16 00 01 00"), ZB_REFUSED_LENGTH);
    EXPECT(is_exception(request(5, 10, "00 07 00 00 00 06 01 03 00 16 00 00"), 3, "00 07 00 00 00 03 01 83 03"));
    EXPECT(is_hit(pair_request(5, 10, read, 12, ZB_FRAME_BUFFER), 7, &s));
}

/* The same memory made fresh again has nothing to show. */
static void fresh_is_empty(void)
{
    static zb_state device;
    static const uint8_t read[] = {0x12, 0x34, 0, 0, 0, 6, 1, 3, 4, 0, 0, 1};
    static const uint8_t said[] = {0, 0, 0, 0, 0, 5, 1, 3, 2, 0x12, 0x34};
    zb_settings s = settings_of_the_document();
    uint8_t out[ZB_FRAME_BUFFER];
    uint16_t list[ZB_LIST_BUFFER];
    s.ttl[0] = 60000;
    for (int times = 0; times < 2; times++) {
        zb_fresh(&device, &s);
        zb_attach(&device, 3);
        EXPECT(zb_request(&device, 3, 0, read, sizeof read, out, sizeof out).outcome == ZB_ISSUED);
        zb_reply(&device, 0, said, sizeof said, out, sizeof out, list, ZB_LIST_BUFFER);
        EXPECT(zb_request(&device, 3, 0, read, sizeof read, out, sizeof out).outcome == ZB_HIT);
    }
    s.ttl[0] = 0;
    zb_fresh(&device, &s);
    zb_attach(&device, 3);
    EXPECT(zb_request(&device, 3, 0, read, sizeof read, out, sizeof out).outcome == ZB_ISSUED);
}

/* Which place a reply takes: 80 tags with a key each, of which some have a ttl of 50 and the others of 60,000 */

enum { CACHED = 64, KEYS = 80, FIRST_KEY = 2000 };
static shown by_key[KEYS];

static key nth(uint32_t n)
{
    return (key){1, 3, FIRST_KEY + n, 1};
}

static void begin_places(uint32_t first_short, uint32_t shorts)
{
    zb_settings s = {.timeout = 3000, .join = 1, .tags = KEYS};
    for (uint32_t n = 0; n < KEYS; n++) {
        s.addr[n] = (uint16_t)(FIRST_KEY + n);
        s.width[n] = 16;
        s.ttl[n] = n >= first_short && n < first_short + shorts ? 50 : 60000;
    }
    EXPECT(pair_fresh(&s).outcome == ZB_DONE && pair_attach(3).outcome == ZB_DONE && pair_attach(5).outcome == ZB_DONE);
}

static void fill_nth(uint64_t now, uint32_t n)
{
    by_key[n] = fill(now, nth(n), 0x0100 + n % 10);
}

static void fill_from(uint64_t now, uint32_t n, uint32_t behind)
{
    for (; n < behind; n++)
        fill_nth(now, n);
}

static bool is_kept(uint64_t now, uint32_t n)
{
    return is_hit(ask(5, now, n, nth(n)), n, &by_key[n]);
}

static void all_kept(uint64_t now, uint32_t n, uint32_t behind)
{
    for (; n < behind; n++)
        EXPECT(is_kept(now, n));
}

static bool is_gone(uint64_t now, uint32_t n)
{
    return ask(5, now, n, nth(n)).outcome == ZB_ISSUED;
}

/* The 64th key is kept beside the others; the 65th takes the oldest's place, the 66th the next one's. */
static void the_64th_key_and_the_next(void)
{
    begin_places(0, 0);
    for (uint32_t n = 0; n < CACHED; n++)
        fill_nth(n, n);
    all_kept(64, 0, 64);
    fill_nth(65, 64);
    all_kept(65, 1, 65);
    fill_nth(66, 65);
    all_kept(66, 2, 66);
    EXPECT(is_gone(66, 0) && is_gone(66, 1));
}

/* One in the middle is expired: its place is taken, and no fresh one. The next takes the oldest's. */
static void one_expired_in_the_middle(void)
{
    begin_places(30, 1);
    for (uint32_t n = 0; n < CACHED; n++)
        fill_nth(n, n);
    fill_nth(80, 64);
    all_kept(80, 0, 30);
    all_kept(80, 31, 65);
    fill_nth(80, 65);
    all_kept(80, 1, 30);
    all_kept(80, 31, 66);
    EXPECT(is_gone(80, 0) && is_gone(80, 30));
}

/* Of those filled in one millisecond the lowest place goes, whichever was filled first. */
static void ties_to_the_lowest(void)
{
    begin_places(0, 0);
    fill_from(0, 0, CACHED);
    fill_nth(0, 64); /* in place 0, where key 0 was */
    all_kept(0, 1, 65);
    fill_nth(0, 65); /* and again */
    all_kept(0, 1, 64);
    EXPECT(is_kept(0, 65) && is_gone(0, 0) && is_gone(0, 64));
    begin_places(0, 0);
    fill_from(0, 0, 32);
    fill_from(1, 32, CACHED);
    fill_nth(2, 64); /* in place 0 */
    fill_nth(2, 65); /* in place 1, which is older than place 0 now */
    all_kept(2, 2, 66);
    EXPECT(is_gone(2, 0) && is_gone(2, 1));
}

/* Key 0 in place 0 and key 1 in place 1 are expired at 100. Then two keys come in one millisecond, and one more when all
   the others are younger: it takes place 0, which shows who took that. */
static void which_place_a_reply_takes(void)
{
    static const struct {
        const char *what;
        const char *write; /* or none */
        uint32_t first, second; /* the keys that come at 100, in this order */
        uint32_t gone;          /* the one that took place 0 */
    } rows[] = {
        {"the lowest expired one", NULL, 70, 71, 70},
        {"its own, though a lower one is expired", NULL, 1, 71, 71},
        {"its own, behind another", NULL, 71, 1, 71},
        {"its own and the lowest", NULL, 0, 71, 0},
        {"an expired one below an empty one", "20 01 00 00 00 06 01 06 07 D1 00 00", 70, 71, 70},
        {"an empty one below an expired one", "20 01 00 00 00 06 01 06 07 D0 00 00", 70, 71, 70},
        {"its own, though a lower one is empty", "20 01 00 00 00 06 01 06 07 D0 00 00", 1, 71, 71},
        {"the lowest, as its own was dropped when it was expired", "20 01 00 00 00 06 01 06 07 D1 00 00", 1, 71, 1},
        {"the lowest, as all was dropped", "20 01 00 00 00 02 01 2B", 1, 71, 1},
    };
    for (size_t n = 0; n < sizeof rows / sizeof *rows; n++) {
        uint32_t stays = rows[n].gone == rows[n].first ? rows[n].second : rows[n].first;
        begin_places(0, 2);
        fill_from(0, 0, 2);
        if (rows[n].write)
            expect(request(3, 100, rows[n].write).outcome == ZB_ISSUED, rows[n].what, __LINE__);
        fill_nth(100, rows[n].first);
        fill_nth(100, rows[n].second);
        fill_from(101, 2, CACHED);
        expect(is_kept(101, rows[n].first) && is_kept(101, rows[n].second), rows[n].what, __LINE__);
        fill_nth(102, 72);
        expect(is_kept(102, stays) && is_gone(102, rows[n].gone), rows[n].what, __LINE__);
    }
}

/* Strict tags (#108): of each kind a strict one and a lenient one; registers 28 to 31 lie in no tag */

static void begin_strict(void)
{
    static const struct { uint16_t addr, width, sign, ttl, strict; } tags[] = {
        {16, 16, 0, 0, 1}, {17, 16, 0, 0, 0}, {18, 32, 0, 0, 1}, {20, 32, 0, 0, 0}, {22, 16, 1, 0, 1}, {23, 16, 1, 0, 0},
        {24, 16, 0, 100, 1}, {25, 32, 0, 100, 1}, {27, 16, 0, 0, 1}, {65533, 32, 0, 0, 1}, {65535, 16, 0, 0, 1},
    };
    zb_settings s = {.timeout = 3000, .join = 1, .tags = sizeof tags / sizeof *tags};
    for (uint32_t t = 0; t < s.tags; t++) {
        s.addr[t] = tags[t].addr;
        s.width[t] = tags[t].width;
        s.sign[t] = tags[t].sign;
        s.ttl[t] = tags[t].ttl;
        s.strict[t] = tags[t].strict;
    }
    EXPECT(pair_fresh(&s).outcome == ZB_DONE && pair_attach(3).outcome == ZB_DONE && pair_attach(5).outcome == ZB_DONE);
}

/* Exception 03 to what was asked under id 1234 of unit 1, in nine bytes; those behind them stay, which were all alike. */
static bool is_forbidden(zb_answer a, uint8_t function)
{
    char hex[40];
    bool stay = true;
    for (size_t k = 9; k < ZB_FRAME_BUFFER; k++)
        stay &= pair_out()[k] == pair_out()[ZB_FRAME_BUFFER - 1];
    snprintf(hex, sizeof hex, "12 34 00 00 00 03 01 %02X 03", function + 128u);
    return stay && is_exception(a, 3, hex);
}

static uint8_t function_of(const char *hex)
{
    uint8_t frame[MOST_FRAME];
    bytes_of(hex, frame);
    return frame[7];
}

/* A write that a client makes, and what is sent for it; nothing: exception 03, and the next request is the first that is
   issued. */
typedef struct {
    const char *what, *write, *sent;
    uint32_t partial, value;
} strict_row;

static void write_rows(const strict_row *rows, size_t count)
{
    for (size_t n = 0; n < count; n++) {
        begin_strict();
        zb_answer a = request(3, 7, rows[n].write);
        bool good = rows[n].sent ? is_issued(a, 0) && wrote(a, rows[n].sent) && raw(a, rows[n].partial, rows[n].value)
                                 : is_forbidden(a, function_of(rows[n].write));
        expect(good, rows[n].what, __LINE__);
        if (rows[n].sent)
            continue;
        EXPECT_REFUSED(tick(6), ZB_REFUSED_TIME); /* the clock was set, and nothing else changed (pair.c looks) */
        EXPECT(is_issued(request(3, 7, "00 01 00 00 00 06 01 06 00 1C 27 10"), 0));
    }
}

#define WRITE_ROWS(rows) write_rows(rows, sizeof rows / sizeof *rows)

static void strict_of_width_16(void)
{
    static const strict_row rows[] = {
        {"9,999 by 06", "12 34 00 00 00 06 01 06 00 10 27 0F", "00 00 00 00 00 06 01 06 00 10 99 99", 0, 0},
        {"10,000 by 06", "12 34 00 00 00 06 01 06 00 10 27 10", NULL, 0, 0},
        {"9,999 by 16", "12 34 00 00 00 09 01 10 00 10 00 01 02 27 0F", "00 00 00 00 00 09 01 10 00 10 00 01 02 99 99", 0, 0},
        {"10,000 by 16", "12 34 00 00 00 09 01 10 00 10 00 01 02 27 10", NULL, 0, 0},
        {"9,999 by 06, lenient", "12 34 00 00 00 06 01 06 00 11 27 0F", "00 00 00 00 00 06 01 06 00 11 99 99", 0, 0},
        {"10,000 by 06, lenient", "12 34 00 00 00 06 01 06 00 11 27 10", "00 00 00 00 00 06 01 06 00 11 27 10", 0, 1},
        {"9,999 by 16, lenient", "12 34 00 00 00 09 01 10 00 11 00 01 02 27 0F",
         "00 00 00 00 00 09 01 10 00 11 00 01 02 99 99", 0, 0},
        {"10,000 by 16, lenient", "12 34 00 00 00 09 01 10 00 11 00 01 02 27 10",
         "00 00 00 00 00 09 01 10 00 11 00 01 02 27 10", 0, 1},
        {"0", "12 34 00 00 00 06 01 06 00 10 00 00", "00 00 00 00 00 06 01 06 00 10 00 00", 0, 0},
        {"65,535", "12 34 00 00 00 06 01 06 00 10 FF FF", NULL, 0, 0},
        {"39,321, which looks like 9,999 in digits", "12 34 00 00 00 06 01 06 00 10 99 99", NULL, 0, 0},
        {"the last register", "12 34 00 00 00 06 01 06 FF FF 27 10", NULL, 0, 0},
        {"the last register by 16", "12 34 00 00 00 09 01 10 FF FF 00 01 02 27 0F",
         "00 00 00 00 00 09 01 10 FF FF 00 01 02 99 99", 0, 0},
        {"10,000 behind the last tag below", "12 34 00 00 00 06 01 06 00 1C 27 10", "00 00 00 00 00 06 01 06 00 1C 27 10", 0, 0},
        {"10,000 before the first tag", "12 34 00 00 00 06 01 06 00 0F 27 10", "00 00 00 00 00 06 01 06 00 0F 27 10", 0, 0},
    };
    WRITE_ROWS(rows);
}

static void strict_of_width_32(void)
{
    static const strict_row rows[] = {
        {"06 at its address", "12 34 00 00 00 06 01 06 00 12 00 00", NULL, 0, 0},
        {"06 at the register behind", "12 34 00 00 00 06 01 06 00 13 00 00", NULL, 0, 0},
        {"06 at its address, lenient", "12 34 00 00 00 06 01 06 00 14 00 07", "00 00 00 00 00 06 01 06 00 14 00 07", 1, 0},
        {"06 behind, lenient", "12 34 00 00 00 06 01 06 00 15 00 07", "00 00 00 00 00 06 01 06 00 15 00 07", 1, 0},
        {"16 of the first register", "12 34 00 00 00 09 01 10 00 12 00 01 02 00 00", NULL, 0, 0},
        {"16 of the second register", "12 34 00 00 00 09 01 10 00 13 00 01 02 00 00", NULL, 0, 0},
        {"16 that ends inside", "12 34 00 00 00 0B 01 10 00 11 00 02 04 00 05 00 00", NULL, 0, 0},
        {"16 that begins inside", "12 34 00 00 00 0D 01 10 00 13 00 03 06 00 00 00 05 00 00", NULL, 0, 0},
        {"16 that ends inside at the last addresses", "12 34 00 00 00 0B 01 10 FF FC 00 02 04 00 05 00 00", NULL, 0, 0},
        {"16 that begins inside there", "12 34 00 00 00 0B 01 10 FF FE 00 02 04 00 00 00 05", NULL, 0, 0},
        {"99,999,999", "12 34 00 00 00 0B 01 10 00 12 00 02 04 E0 FF 05 F5",
         "00 00 00 00 00 0B 01 10 00 12 00 02 04 99 99 99 99", 0, 0},
        {"100,000,000", "12 34 00 00 00 0B 01 10 00 12 00 02 04 E1 00 05 F5", NULL, 0, 0},
        {"99,999,999, lenient", "12 34 00 00 00 0B 01 10 00 14 00 02 04 E0 FF 05 F5",
         "00 00 00 00 00 0B 01 10 00 14 00 02 04 99 99 99 99", 0, 0},
        {"100,000,000, lenient", "12 34 00 00 00 0B 01 10 00 14 00 02 04 E1 00 05 F5",
         "00 00 00 00 00 0B 01 10 00 14 00 02 04 E1 00 05 F5", 0, 1},
        {"a low word above 9,999", "12 34 00 00 00 0B 01 10 00 12 00 02 04 FF FF 00 00",
         "00 00 00 00 00 0B 01 10 00 12 00 02 04 55 35 00 06", 0, 0},
        {"the same words the other way round", "12 34 00 00 00 0B 01 10 00 12 00 02 04 00 00 FF FF", NULL, 0, 0},
        {"12,345,678 the other way round", "12 34 00 00 00 0B 01 10 00 12 00 02 04 00 BC 61 4E", NULL, 0, 0},
    };
    WRITE_ROWS(rows);
}

static void strict_with_a_sign(void)
{
    static const strict_row rows[] = {
        {"-999 by 06", "12 34 00 00 00 06 01 06 00 16 FC 19", "00 00 00 00 00 06 01 06 00 16 F9 99", 0, 0},
        {"-1,000 by 06", "12 34 00 00 00 06 01 06 00 16 FC 18", NULL, 0, 0},
        {"0x8000 by 06", "12 34 00 00 00 06 01 06 00 16 80 00", NULL, 0, 0},
        {"999 by 06", "12 34 00 00 00 06 01 06 00 16 03 E7", "00 00 00 00 00 06 01 06 00 16 09 99", 0, 0},
        {"1,000 by 06", "12 34 00 00 00 06 01 06 00 16 03 E8", NULL, 0, 0},
        {"-999 by 16", "12 34 00 00 00 09 01 10 00 16 00 01 02 FC 19", "00 00 00 00 00 09 01 10 00 16 00 01 02 F9 99", 0, 0},
        {"-1,000 by 16", "12 34 00 00 00 09 01 10 00 16 00 01 02 FC 18", NULL, 0, 0},
        {"0x8000 by 16", "12 34 00 00 00 09 01 10 00 16 00 01 02 80 00", NULL, 0, 0},
        {"999 by 16", "12 34 00 00 00 09 01 10 00 16 00 01 02 03 E7", "00 00 00 00 00 09 01 10 00 16 00 01 02 09 99", 0, 0},
        {"1,000 by 16", "12 34 00 00 00 09 01 10 00 16 00 01 02 03 E8", NULL, 0, 0},
        {"0", "12 34 00 00 00 06 01 06 00 16 00 00", "00 00 00 00 00 06 01 06 00 16 00 00", 0, 0},
        {"-1", "12 34 00 00 00 06 01 06 00 16 FF FF", "00 00 00 00 00 06 01 06 00 16 F0 01", 0, 0},
        {"9,999, in range without a sign", "12 34 00 00 00 06 01 06 00 16 27 0F", NULL, 0, 0},
        {"-4,096, which looks like minus 0", "12 34 00 00 00 06 01 06 00 16 F0 00", NULL, 0, 0},
        {"-4,095, which looks like -1 in digits", "12 34 00 00 00 06 01 06 00 16 F0 01", NULL, 0, 0},
        {"-1,000 by 06, lenient", "12 34 00 00 00 06 01 06 00 17 FC 18", "00 00 00 00 00 06 01 06 00 17 FC 18", 0, 1},
        {"0x8000 by 16, lenient", "12 34 00 00 00 09 01 10 00 17 00 01 02 80 00",
         "00 00 00 00 00 09 01 10 00 17 00 01 02 80 00", 0, 1},
    };
    WRITE_ROWS(rows);
}

/* Several tags in one frame: a strict one decides wherever it stands, and without a fault of one the lenient ones count. */
static void strict_beside_others(void)
{
    static const strict_row rows[] = {
        {"the second is strict and wrong", "12 34 00 00 00 0D 01 10 00 11 00 03 06 00 05 E1 00 05 F5", NULL, 0, 0},
        {"of two strict ones the second is wrong", "12 34 00 00 00 0D 01 10 00 18 00 03 06 00 05 E1 00 05 F5", NULL, 0, 0},
        {"of two strict ones the first is wrong", "12 34 00 00 00 0D 01 10 00 18 00 03 06 27 10 00 05 00 00", NULL, 0, 0},
        {"the first is strict and wrong", "12 34 00 00 00 0B 01 10 00 10 00 02 04 27 10 00 05", NULL, 0, 0},
        {"both are wrong, the first strict", "12 34 00 00 00 0B 01 10 00 10 00 02 04 27 10 27 10", NULL, 0, 0},
        {"both are wrong, the second strict", "12 34 00 00 00 0D 01 10 00 11 00 03 06 27 10 E1 00 05 F5", NULL, 0, 0},
        {"the lenient second is wrong", "12 34 00 00 00 0B 01 10 00 10 00 02 04 00 10 27 10",
         "00 00 00 00 00 0B 01 10 00 10 00 02 04 00 16 27 10", 0, 1},
        {"the lenient first is wrong", "12 34 00 00 00 0D 01 10 00 11 00 03 06 27 10 00 10 00 00",
         "00 00 00 00 00 0D 01 10 00 11 00 03 06 27 10 00 16 00 00", 0, 1},
        {"a lenient one is cut behind a strict one", "12 34 00 00 00 0D 01 10 00 12 00 03 06 00 10 00 00 00 07",
         "00 00 00 00 00 0D 01 10 00 12 00 03 06 00 16 00 00 00 07", 1, 0},
        {"a strict one is cut behind a lenient one", "12 34 00 00 00 0D 01 10 00 17 00 03 06 00 05 00 05 00 05", NULL, 0, 0},
        {"all tags, right",
         "12 34 00 00 00 1F 01 10 00 10 00 0C 18 00 10 00 10 00 10 00 00 00 10 00 00 FF F0 FF F0 00 10 00 10 00 00 00 10",
         "00 00 00 00 00 1F 01 10 00 10 00 0C 18 00 16 00 16 00 16 00 00 00 16 00 00 F0 16 F0 16 00 16 00 16 00 00 00 16", 0, 0},
        {"all tags, the last wrong",
         "12 34 00 00 00 1F 01 10 00 10 00 0C 18 00 10 00 10 00 10 00 00 00 10 00 00 FF F0 FF F0 00 10 00 10 00 00 27 10",
         NULL, 0, 0},
        {"wrong in the register behind the range", "12 34 00 00 00 09 01 10 00 11 00 01 02 00 10",
         "00 00 00 00 00 09 01 10 00 11 00 01 02 00 16", 0, 0},
        {"no tag", "12 34 00 00 00 0F 01 10 00 1C 00 04 08 FF FF FF FF FF FF FF FF",
         "00 00 00 00 00 0F 01 10 00 1C 00 04 08 FF FF FF FF FF FF FF FF", 0, 0},
    };
    WRITE_ROWS(rows);
}

/* Refusals and document 01's exceptions come before; 04 comes behind. */
static void what_comes_before_a_strict_tag(void)
{
    static const uint8_t wrong[] = {0x12, 0x34, 0, 0, 0, 6, 1, 6, 0, 16, 0x27, 0x10};
    uint8_t plain[] = {0, 1, 0, 0, 0, 6, 1, 6, 0, 28, 0x27, 0x10};
    begin_strict();
    EXPECT(tick(10).outcome == ZB_NOTHING_DUE);
    EXPECT_REFUSED(pair_request(3, 10, wrong, 12, ZB_FRAME_BUFFER - 1), ZB_REFUSED_BUFFER);
    EXPECT_REFUSED(pair_request(4, 10, wrong, 12, ZB_FRAME_BUFFER), ZB_REFUSED_CLIENT);
    EXPECT_REFUSED(pair_request(3, 9, wrong, 12, ZB_FRAME_BUFFER), ZB_REFUSED_TIME);
    EXPECT_REFUSED(pair_request(3, 10, wrong, 11, ZB_FRAME_BUFFER), ZB_REFUSED_FRAME);
    EXPECT_REFUSED(request(3, 10, "12 34 00 00 00 07 01 06 00 10 27 10 00"), ZB_REFUSED_LENGTH);
    EXPECT_REFUSED(request(3, 10, "12 34 00 00 00 09 01 10 00 10 00 01 03 27 10"), ZB_REFUSED_LENGTH);
    /* a range beyond the last register, with a wrong value and with a tag that is cut */
    zb_answer a = request(3, 10, "12 34 00 00 00 0B 01 10 FF FF 00 02 04 27 10 00 00");
    EXPECT(is_exception(a, 2, "12 34 00 00 00 03 01 90 02"));
    a = request(3, 10, "12 34 00 00 00 0D 01 10 FF FE 00 03 06 00 00 00 00 00 00");
    EXPECT(is_exception(a, 2, "12 34 00 00 00 03 01 90 02"));
    /* quantity 0, a byte count that does not fit, and quantity 124 beyond the last register: 03 by document 01 */
    EXPECT(is_forbidden(request(3, 10, "12 34 00 00 00 07 01 10 00 10 00 00 00"), 16));
    EXPECT(is_forbidden(request(3, 10, "12 34 00 00 00 09 01 10 00 10 00 02 02 27 10"), 16));
    EXPECT(is_forbidden(request(3, 10, "12 34 00 00 00 09 01 10 FF FF 00 7C 02 27 10"), 16));
    for (uint32_t n = 0; n < ZB_PLACES; n++)
        EXPECT(is_issued(pair_request(3, 10, plain, 12, ZB_FRAME_BUFFER), n));
    EXPECT(is_forbidden(pair_request(3, 10, wrong, 12, ZB_FRAME_BUFFER), 6));
    EXPECT(is_exception(request(3, 10, "12 34 00 00 00 06 01 06 00 10 27 0F"), 4, "12 34 00 00 00 03 01 86 04"));
}

/* Writes that a strict tag forbids, over registers that are read: for its value, and cut at either end; and 22 on them. */
static const char *const forbidden_writes[] = {
    "12 34 00 00 00 06 01 06 00 18 27 10", "12 34 00 00 00 06 01 06 00 19 00 00",
    "12 34 00 00 00 06 01 06 00 1A 00 00", "12 34 00 00 00 09 01 10 00 18 00 01 02 27 10",
    "12 34 00 00 00 0D 01 10 00 18 00 03 06 00 05 E1 00 05 F5", "12 34 00 00 00 0B 01 10 00 17 00 02 04 00 05 27 10",
    "12 34 00 00 00 0B 01 10 00 18 00 02 04 00 05 00 05", "12 34 00 00 00 0B 01 10 00 1A 00 02 04 00 05 00 05",
    "12 34 00 00 00 0D 01 17 00 18 00 03 00 18 00 01 02 27 10", "12 34 00 00 00 0D 01 17 01 00 00 01 00 19 00 01 02 00 05",
    "12 34 00 00 00 0F 01 17 01 00 00 01 00 1A 00 02 04 00 05 00 05", "12 34 00 00 00 08 01 16 00 18 00 F2 00 25",
    "12 34 00 00 00 08 01 16 00 19 FF FF 00 00", "12 34 00 00 00 08 01 16 00 1A 00 00 12 34",
};

/* Registers 24 to 26 are read by 03 and 04 and then cached: a write that is forbidden closes and drops nothing of them, one
   that is issued does. */
static void forbidden_writes_close_and_drop_nothing(void)
{
    static const key holding = {1, 3, 24, 3}, input = {1, 4, 24, 3};
    for (size_t n = 0; n < sizeof forbidden_writes / sizeof *forbidden_writes; n++) {
        uint8_t function = function_of(forbidden_writes[n]);
        begin_strict();
        zb_answer first = ask(3, 0, 1, holding), second = ask(3, 0, 2, input);
        EXPECT(is_issued(first, 0) && is_issued(second, 1));
        expect(is_forbidden(request(3, 0, forbidden_writes[n]), function), forbidden_writes[n], __LINE__);
        EXPECT(ask(5, 0, 3, holding).outcome == ZB_JOINED && ask(5, 0, 4, input).outcome == ZB_JOINED);
        shown s = say(10, first, holding, 7), t = say(10, second, input, 8);
        EXPECT(s.answer.parties == 2 && t.answer.parties == 2);
        expect(is_forbidden(request(3, 10, forbidden_writes[n]), function), forbidden_writes[n], __LINE__);
        EXPECT(is_hit(ask(5, 10, 5, holding), 5, &s) && is_hit(ask(5, 10, 6, input), 6, &t));
        EXPECT(is_issued(request(3, 10, "12 34 00 00 00 06 01 06 00 18 27 0F"), 2));
        EXPECT(is_issued(ask(5, 10, 7, holding), 3) && is_issued(ask(5, 10, 8, input), 4));
        EXPECT(is_issued(request(3, 10, "12 34 00 00 00 06 01 06 00 18 27 0F"), 5));
        EXPECT(is_issued(ask(3, 10, 9, holding), 6) && is_issued(ask(3, 10, 10, input), 7));
    }
}

/* Reads are never forbidden: of a part of a tag, and whatever the controller says. Nor are writes of coils. */
static void strict_tags_are_read(void)
{
    static const struct { uint32_t start, quantity, word, partial, value; } rows[] = {
        {16, 1, 0x0012, 0, 0}, {16, 1, 0x00AB, 0, 1}, {18, 1, 0x0012, 1, 0}, {19, 1, 0x00AB, 1, 0}, {17, 2, 0x00AB, 1, 1},
        {18, 2, 0x00AB, 0, 1}, {22, 1, 0xF000, 0, 1}, {22, 1, 0xF005, 0, 0}, {22, 4, 0x00AB, 1, 3}, {65534, 2, 0x00AB, 1, 1},
    };
    for (size_t n = 0; n < sizeof rows / sizeof *rows; n++)
        for (uint8_t function = 3; function <= 4; function++) {
            key k = {1, function, rows[n].start, rows[n].quantity};
            begin_strict();
            zb_answer issued = ask(3, 0, 0x1234, k), a = say(0, issued, k, rows[n].word).answer;
            EXPECT(is_issued(issued, 0) && a.outcome == ZB_ANSWERED && raw(a, rows[n].partial, rows[n].value));
        }
    begin_strict();
    EXPECT(is_issued(request(3, 0, "12 34 00 00 00 06 01 05 00 12 FF 00"), 0));
    EXPECT(is_issued(request(3, 0, "12 34 00 00 00 08 01 0F 00 12 00 01 01 01"), 1));
}

/* What goes out at a strict tag was re-encoded, so that its echo is decoded (#106). */
static void echoes_of_strict_tags(void)
{
    begin_strict();
    EXPECT(wrote(request(3, 0, "12 34 00 00 00 06 01 06 00 10 04 D2"), "00 00 00 00 00 06 01 06 00 10 12 34"));
    zb_answer a = reply(0, "00 00 00 00 00 06 01 06 00 10 12 34");
    EXPECT(wrote(a, "00 00 00 00 00 06 01 06 00 10 04 D2") && raw(a, 0, 0) && a.parties == 1);
    EXPECT(wrote(request(3, 0, "12 34 00 00 00 06 01 06 00 16 FF FB"), "00 01 00 00 00 06 01 06 00 16 F0 05"));
    a = reply(0, "00 01 00 00 00 06 01 06 00 16 F0 05");
    EXPECT(wrote(a, "00 00 00 00 00 06 01 06 00 16 FF FB") && raw(a, 0, 0));
    EXPECT(is_issued(request(3, 0, "12 34 00 00 00 06 01 06 00 10 00 05"), 2));
    a = reply(0, "00 02 00 00 00 06 01 06 00 10 00 AB"); /* no number: it passes, as under a lenient tag */
    EXPECT(wrote(a, "00 00 00 00 00 06 01 06 00 10 00 AB") && raw(a, 0, 1));
}

/* All 65,536 words to a strict tag by 06: so many as its kind has numbers go out, and each echo is what was written. */
static unsigned words_that_go_out(uint32_t addr)
{
    uint8_t frame[] = {0x12, 0x34, 0, 0, 0, 6, 1, 6, 0, 0, 0, 0}, echo[12];
    unsigned sent = 0, astray = 0;
    put_word(frame + 8, addr);
    begin_strict();
    for (uint32_t word = 0; word < 65536; word++) {
        put_word(frame + 10, word);
        zb_answer a = pair_request(3, 0, frame, sizeof frame, ZB_FRAME_BUFFER);
        if (a.outcome != ZB_ISSUED) {
            astray += !is_forbidden(a, 6);
            continue;
        }
        sent++;
        memcpy(echo, pair_out(), sizeof echo);
        astray += !raw(a, 0, 0) || !raw(pair_reply(0, echo, sizeof echo, ZB_FRAME_BUFFER, ZB_LIST_BUFFER), 0, 0);
        astray += word_of_out(10) != word;
    }
    EXPECT(astray == 0);
    return sent;
}

static void every_strict_word(void)
{
    EXPECT(words_that_go_out(16) == 10000 && words_that_go_out(22) == 1999 && words_that_go_out(18) == 0);
}

/* Mask writes (#109): 22 */

/* MAP's own example goes out as it came and is answered by its own PDU. Its length is 7; it has no bad numbers and no range. */
static void mask_writes(void)
{
    static const uint16_t pairs[] = {3, 0x1234};
    uint8_t longest[260] = {0x12, 0x34, 0, 0, 0, 254, 1, 22};
    begin();
    EXPECT_REFUSED(request(3, 0, "12 34 00 00 00 02 01 16"), ZB_REFUSED_LENGTH);
    EXPECT_REFUSED(request(3, 0, "12 34 00 00 00 06 01 16 00 04 00 F2"), ZB_REFUSED_LENGTH);
    EXPECT_REFUSED(request(3, 0, "12 34 00 00 00 07 01 16 00 04 00 F2 00"), ZB_REFUSED_LENGTH);
    EXPECT_REFUSED(request(3, 0, "12 34 00 00 00 09 01 16 00 04 00 F2 00 25 00"), ZB_REFUSED_LENGTH);
    EXPECT_REFUSED(pair_request(3, 0, longest, 260, ZB_FRAME_BUFFER), ZB_REFUSED_LENGTH);
    zb_answer a = request(3, 0, "12 34 00 00 00 08 01 16 00 04 00 F2 00 25");
    EXPECT(is_issued(a, 0) && wrote(a, "00 00 00 00 00 08 01 16 00 04 00 F2 00 25") && raw(a, 0, 0));
    a = reply(0, "00 00 00 00 00 08 01 16 00 04 00 F2 00 25");
    EXPECT(a.outcome == ZB_ANSWERED && wrote(a, "00 00 00 00 00 08 01 16 00 04 00 F2 00 25") && raw(a, 0, 0));
    EXPECT(listed(a, 1, pairs));
    a = request(3, 0, "12 34 00 00 00 08 FF 16 FF FF FF FF FF FF");
    EXPECT(is_issued(a, 1) && wrote(a, "00 01 00 00 00 08 FF 16 FF FF FF FF FF FF") && raw(a, 0, 0));
    EXPECT(reply(0, "00 01 00 00 00 08 FF 16 FF FF FF FF FF FF").outcome == ZB_ANSWERED);
    a = request(3, 0, "12 34 00 00 00 08 00 16 00 00 00 00 00 00");
    EXPECT(is_issued(a, 2) && wrote(a, "00 02 00 00 00 08 00 16 00 00 00 00 00 00") && raw(a, 0, 0));
    EXPECT(reply(0, "00 02 00 00 00 08 00 16 00 00 00 00 00 00").outcome == ZB_ANSWERED);
}

/* Each bit of the PDU that is another, a byte less or more, another unit: it does not answer, and the request stays live. */
static void echoes_of_mask_writes(void)
{
    uint8_t echo[] = {0, 0, 0, 0, 0, 8, 1, 22, 0, 4, 0, 0xF2, 0, 0x25};
    begin();
    EXPECT(is_issued(request(3, 0, "12 34 00 00 00 08 01 16 00 04 00 F2 00 25"), 0));
    for (uint32_t bit = 0; bit < 56; bit++) {
        echo[7 + bit / 8] ^= (uint8_t)(1 << bit % 8);
        EXPECT_REFUSED(pair_reply(0, echo, sizeof echo, ZB_FRAME_BUFFER, ZB_LIST_BUFFER), ZB_REFUSED_MISMATCH);
        echo[7 + bit / 8] ^= (uint8_t)(1 << bit % 8);
    }
    EXPECT_REFUSED(reply(0, "00 00 00 00 00 08 01 16 00 04 00 25 00 F2"), ZB_REFUSED_MISMATCH); /* the masks the other way round */
    EXPECT_REFUSED(reply(0, "00 00 00 00 00 07 01 16 00 04 00 F2 00"), ZB_REFUSED_MISMATCH);
    EXPECT_REFUSED(reply(0, "00 00 00 00 00 06 01 16 00 04 00 F2"), ZB_REFUSED_MISMATCH);
    EXPECT_REFUSED(reply(0, "00 00 00 00 00 09 01 16 00 04 00 F2 00 25 00"), ZB_REFUSED_MISMATCH);
    EXPECT_REFUSED(reply(0, "00 00 00 00 00 08 02 16 00 04 00 F2 00 25"), ZB_REFUSED_MISMATCH);
    EXPECT_REFUSED(reply(0, "00 00 00 00 00 02 01 96"), ZB_REFUSED_MISMATCH);
    EXPECT_REFUSED(reply(0, "00 00 00 00 00 04 01 96 02 00"), ZB_REFUSED_MISMATCH);
    EXPECT_REFUSED(reply(0, "00 00 00 00 00 03 01 97 02"), ZB_REFUSED_MISMATCH);
    zb_answer a = reply(0, "00 00 00 00 00 03 01 96 02");
    EXPECT(a.outcome == ZB_ANSWERED && wrote(a, "00 00 00 00 00 03 01 96 02") && raw(a, 0, 0) && a.parties == 1);
    EXPECT(is_issued(request(3, 0, "12 34 00 00 00 08 01 16 00 04 00 F2 00 25"), 1));
    a = tick(3000);
    EXPECT(a.outcome == ZB_TIMED_OUT && wrote(a, "00 00 00 00 00 03 01 96 0B") && a.parties == 1);
}

/* Tags of width 32 with a register between them, a strict one among them, and of width 16 without and with a sign. */
static void begin_between(void)
{
    static const struct { uint16_t addr, width, sign, ttl, strict; } tags[] = {
        {16, 32, 0, 0, 0}, {19, 32, 0, 0, 0}, {22, 32, 0, 0, 1}, {25, 16, 0, 0, 0}, {27, 16, 1, 0, 0}, {29, 16, 0, 500, 0},
        {31, 16, 0, 0, 1}, {33, 16, 1, 0, 1}, {65534, 32, 0, 0, 0},
    };
    zb_settings s = {.timeout = 3000, .join = 1, .tags = sizeof tags / sizeof *tags};
    for (uint32_t t = 0; t < s.tags; t++) {
        s.addr[t] = tags[t].addr;
        s.width[t] = tags[t].width;
        s.sign[t] = tags[t].sign;
        s.ttl[t] = tags[t].ttl;
        s.strict[t] = tags[t].strict;
    }
    EXPECT(pair_fresh(&s).outcome == ZB_DONE && pair_attach(3).outcome == ZB_DONE && pair_attach(5).outcome == ZB_DONE);
}

/* On a register of a tag, whichever it is: exception 03, whatever the masks are; beside it, and between two: it goes out. */
static void mask_writes_and_tags(void)
{
    static const struct { const char *what; uint32_t address; bool tagged; } rows[] = {
        {"far before all", 0, false}, {"before a tag of width 32", 15, false}, {"its first register", 16, true},
        {"its second register", 17, true}, {"between two", 18, false}, {"the second tag's first", 19, true},
        {"its second", 20, true}, {"before a strict one of width 32", 21, false}, {"its first register, strict", 22, true},
        {"its second register, strict", 23, true}, {"behind it", 24, false}, {"width 16", 25, true}, {"behind that", 26, false},
        {"with a sign", 27, true}, {"behind that", 28, false}, {"with a ttl", 29, true}, {"behind that", 30, false},
        {"strict", 31, true}, {"behind that", 32, false}, {"strict with a sign", 33, true}, {"behind the last below", 34, false},
        {"far from all", 1000, false}, {"before the last", 65533, false}, {"the last but one register", 65534, true},
        {"the last register", 65535, true},
    };
    static const uint16_t masks[][2] = {{0x00F2, 0x0025}, {0xFFFF, 0x0000}, {0x0000, 0x0000}, {0x0000, 0x1234}};
    for (size_t n = 0; n < sizeof rows / sizeof *rows; n++)
        for (size_t m = 0; m < sizeof masks / sizeof *masks; m++) {
            uint8_t frame[] = {0x12, 0x34, 0, 0, 0, 8, 1, 22, 0, 0, 0, 0, 0, 0};
            put_word(frame + 8, rows[n].address);
            put_word(frame + 10, masks[m][0]);
            put_word(frame + 12, masks[m][1]);
            begin_between();
            zb_answer a = pair_request(3, 7, frame, sizeof frame, ZB_FRAME_BUFFER);
            put_word(frame, 0);
            bool sent = is_issued(a, 0) && raw(a, 0, 0) && a.length == sizeof frame && memcmp(pair_out(), frame, sizeof frame) == 0;
            expect(rows[n].tagged ? is_forbidden(a, 22) : sent, rows[n].what, __LINE__);
            EXPECT_REFUSED(tick(6), ZB_REFUSED_TIME); /* either sets the clock */
        }
}

/* Read and write together (#109): 23 */

/* Byte by byte: it reads 1024 to 1027 and writes 1026 and 1027, which are a tag of width 32. */
static void read_and_write(void)
{
    static const uint16_t pairs[] = {3, 0x1234};
    begin();
    zb_answer a = request(3, 0, "12 34 00 00 00 0F 01 17 04 00 00 04 04 02 00 02 04 61 4E 00 BC");
    EXPECT(is_issued(a, 0) && wrote(a, "00 00 00 00 00 0F 01 17 04 00 00 04 04 02 00 02 04 56 78 12 34") && raw(a, 0, 0));
    a = reply(0, "00 00 00 00 00 0B 01 17 08 12 34 AB CD 56 78 12 34");
    EXPECT(a.outcome == ZB_ANSWERED && wrote(a, "00 00 00 00 00 0B 01 17 08 04 D2 AB CD 61 4E 00 BC") && raw(a, 0, 0));
    EXPECT(listed(a, 1, pairs));
    a = request(3, 0, "12 34 00 00 00 11 01 17 00 03 00 06 00 0E 00 03 06 00 FF 00 FF 00 FF"); /* MAP's own */
    EXPECT(wrote(a, "00 01 00 00 00 11 01 17 00 03 00 06 00 0E 00 03 06 00 FF 00 FF 00 FF") && raw(a, 0, 0));
    a = reply(0, "00 01 00 00 00 0F 01 17 0C 00 FE 0A CD 00 01 00 03 00 0D 00 FF");
    EXPECT(wrote(a, "00 00 00 00 00 0F 01 17 0C 00 FE 0A CD 00 01 00 03 00 0D 00 FF") && raw(a, 0, 0));
}

/* Which reply answers a 23 that reads three registers and writes two. */
static void replies_to_read_and_write(void)
{
    static const char ask[] = "12 34 00 00 00 0F 01 17 00 10 00 03 00 20 00 02 04 00 01 00 02";
    begin();
    EXPECT(is_issued(request(3, 0, ask), 0));
    EXPECT_REFUSED(reply(0, "00 00 00 00 00 07 01 17 04 00 01 00 02"), ZB_REFUSED_MISMATCH); /* by the write quantity */
    EXPECT_REFUSED(reply(0, "00 00 00 00 00 0D 01 17 0A 00 01 00 02 00 03 00 04 00 05"), ZB_REFUSED_MISMATCH); /* by both */
    EXPECT_REFUSED(reply(0, "00 00 00 00 00 09 01 17 04 00 01 00 02 00 03"), ZB_REFUSED_MISMATCH); /* its byte count is another */
    EXPECT_REFUSED(reply(0, "00 00 00 00 00 09 01 17 07 00 01 00 02 00 03"), ZB_REFUSED_MISMATCH);
    EXPECT_REFUSED(reply(0, "00 00 00 00 00 09 01 17 86 00 01 00 02 00 03"), ZB_REFUSED_MISMATCH);
    EXPECT_REFUSED(reply(0, "00 00 00 00 00 08 01 17 06 00 01 00 02 00"), ZB_REFUSED_MISMATCH); /* a byte less */
    EXPECT_REFUSED(reply(0, "00 00 00 00 00 0A 01 17 06 00 01 00 02 00 03 00"), ZB_REFUSED_MISMATCH); /* a byte more */
    EXPECT_REFUSED(reply(0, "00 00 00 00 00 02 01 17"), ZB_REFUSED_MISMATCH);
    EXPECT_REFUSED(reply(0, "00 00 00 00 00 09 02 17 06 00 01 00 02 00 03"), ZB_REFUSED_MISMATCH);
    EXPECT_REFUSED(reply(0, "00 00 00 00 00 09 01 03 06 00 01 00 02 00 03"), ZB_REFUSED_MISMATCH);
    EXPECT_REFUSED(reply(0, "00 00 00 00 00 06 01 17 00 20 00 02"), ZB_REFUSED_MISMATCH); /* as to a 16 */
    EXPECT_REFUSED(reply(0, "00 00 00 00 00 02 01 97"), ZB_REFUSED_MISMATCH);
    EXPECT_REFUSED(reply(0, "00 00 00 00 00 04 01 97 02 00"), ZB_REFUSED_MISMATCH);
    EXPECT_REFUSED(reply(0, "00 00 00 00 00 03 01 96 02"), ZB_REFUSED_MISMATCH);
    zb_answer a = reply(0, "00 00 00 00 00 09 01 17 06 00 01 00 02 00 03");
    EXPECT(a.outcome == ZB_ANSWERED && wrote(a, "00 00 00 00 00 09 01 17 06 00 01 00 02 00 03") && a.parties == 1);
    EXPECT(is_issued(request(3, 0, ask), 1));
    a = reply(0, "00 01 00 00 00 03 01 97 02");
    EXPECT(a.outcome == ZB_ANSWERED && wrote(a, "00 00 00 00 00 03 01 97 02") && raw(a, 0, 0) && a.parties == 1);
    EXPECT(is_issued(request(3, 0, ask), 2));
    a = tick(3000);
    EXPECT(a.outcome == ZB_TIMED_OUT && wrote(a, "00 00 00 00 00 03 01 97 0B") && a.parties == 1);
}

/* A 23 by its numbers: what it says, and how long its PDU is. The registers are zeros. */
typedef struct {
    uint32_t read_start, reads, write_start, writes, bytes, pdu;
} numbers;

static zb_answer ask_23(uint32_t client, uint64_t now, numbers n)
{
    uint8_t frame[MOST_FRAME] = {0x12, 0x34, 0, 0, 0, (uint8_t)(n.pdu + 1), 1, 23};
    put_word(frame + 8, n.read_start);
    put_word(frame + 10, n.reads);
    put_word(frame + 12, n.write_start);
    put_word(frame + 14, n.writes);
    frame[16] = (uint8_t)n.bytes;
    return pair_request(client, now, frame, 7 + n.pdu, ZB_FRAME_BUFFER);
}

/* What a 23 comes to: refusal 6, exception 03 or 02, or 0: it goes out as long as it came, with no tag counted. */
typedef struct {
    const char *what;
    numbers n;
    uint32_t comes_to;
} numbers_row;

static void take_numbers(const numbers_row *rows, size_t count)
{
    begin();
    for (size_t k = 0, issued = 0; k < count; k++) {
        zb_answer a = ask_23(3, 0, rows[k].n);
        bool good = is_refusal(a, ZB_REFUSED_LENGTH);
        if (rows[k].comes_to == 0)
            good = is_issued(a, (uint32_t)issued++) && raw(a, 0, 0) && a.length == 7 + rows[k].n.pdu;
        if (rows[k].comes_to == 2)
            good = is_exception(a, 2, "12 34 00 00 00 03 01 97 02");
        if (rows[k].comes_to == 3)
            good = is_forbidden(a, 23);
        expect(good, rows[k].what, __LINE__);
    }
}

#define TAKE_NUMBERS(rows) take_numbers(rows, sizeof rows / sizeof *rows)

static void lengths_of_read_and_write(void)
{
    static const numbers_row rows[] = {
        {"the function alone", {0, 1, 0, 1, 2, 1}, 6},
        {"9 bytes: no byte count", {0, 1, 0, 1, 2, 9}, 6},
        {"10 bytes, and a byte count of 2", {0, 1, 0, 1, 2, 10}, 6},
        {"a byte less than the byte count says", {0, 1, 0, 1, 2, 11}, 6},
        {"as long as it says", {0, 1, 0, 1, 2, 12}, 0},
        {"a byte more", {0, 1, 0, 1, 2, 13}, 6},
        {"a byte less, of two registers", {0, 1, 0, 2, 4, 13}, 6},
        {"two registers", {0, 1, 0, 2, 4, 14}, 0},
        {"a byte more", {0, 1, 0, 2, 4, 15}, 6},
        {"byte count by the length and not by the quantity, below", {0, 1, 0, 2, 2, 12}, 3},
        {"one below", {0, 1, 0, 2, 3, 13}, 3},
        {"one above", {0, 1, 0, 2, 5, 15}, 3},
        {"above", {0, 1, 0, 2, 6, 16}, 3},
        {"byte count the quantity", {0, 1, 0, 2, 2, 12}, 3},
        {"none, and no registers", {0, 1, 0, 1, 0, 10}, 3},
        {"by the quantity and not by the length", {0, 1, 0, 2, 4, 12}, 6},
        {"by neither, below both", {0, 1, 0, 2, 3, 14}, 6},
        {"by neither, above both", {0, 1, 0, 2, 5, 14}, 6},
        {"by neither, between them", {0, 1, 0, 3, 5, 14}, 6},
        {"by neither, and all else wrong too", {65535, 0, 65535, 122, 5, 14}, 6},
        {"twice the quantity is 256 more than the byte count", {0, 1, 0, 129, 2, 12}, 3},
        {"the longest that goes out", {0, 1, 0, 121, 242, 252}, 0},
        {"a byte more: the longest frame", {0, 1, 0, 121, 242, 253}, 6},
        {"the same with a byte count for it", {0, 1, 0, 121, 243, 253}, 3},
        {"a byte less", {0, 1, 0, 121, 242, 251}, 6},
        {"the same with a byte count for it", {0, 1, 0, 121, 241, 251}, 3},
    };
    TAKE_NUMBERS(rows);
}

static void quantities_of_read_and_write(void)
{
    static const numbers_row rows[] = {
        {"reads 0", {0, 0, 0, 1, 2, 12}, 3},
        {"reads 1", {0, 1, 0, 1, 2, 12}, 0},
        {"reads 125", {0, 125, 0, 1, 2, 12}, 0},
        {"reads 126", {0, 126, 0, 1, 2, 12}, 3},
        {"reads 127", {0, 127, 0, 1, 2, 12}, 3},
        {"reads 128", {0, 128, 0, 1, 2, 12}, 3},
        {"reads 129", {0, 129, 0, 1, 2, 12}, 3},
        {"reads 257", {0, 257, 0, 1, 2, 12}, 3},
        {"reads 65,535", {0, 65535, 0, 1, 2, 12}, 3},
        {"writes 0", {0, 1, 0, 0, 0, 10}, 3},
        {"writes 0, with a register", {0, 1, 0, 0, 2, 12}, 3},
        {"writes 1", {0, 1, 0, 1, 2, 12}, 0},
        {"writes 121", {0, 1, 0, 121, 242, 252}, 0},
        {"writes 122, with 121 registers", {0, 1, 0, 122, 242, 252}, 3},
        {"writes 123, with 121 registers", {0, 1, 0, 123, 242, 252}, 3},
        {"writes 128", {0, 1, 0, 128, 0, 10}, 3},
        {"writes 257, with one register", {0, 1, 0, 257, 2, 12}, 3},
        {"writes 65,535", {0, 1, 0, 65535, 2, 12}, 3},
        {"reads and writes 0", {0, 0, 0, 0, 0, 10}, 3},
        {"reads 125 and writes 121", {0, 125, 0, 121, 242, 252}, 0},
    };
    uint8_t beyond[261] = {0x12, 0x34, 0, 0, 0, 255, 1, 23, 0, 0, 0, 1, 0, 0, 0, 122, 244};
    TAKE_NUMBERS(rows);
    /* 122 registers have no room in a frame */
    EXPECT_REFUSED(pair_request(3, 0, beyond, sizeof beyond, ZB_FRAME_BUFFER), ZB_REFUSED_FRAME);
}

static void ranges_of_read_and_write(void)
{
    static const numbers_row rows[] = {
        {"reads the last register", {65535, 1, 0, 1, 2, 12}, 0},
        {"reads one beyond it", {65535, 2, 0, 1, 2, 12}, 2},
        {"reads the last 125", {65411, 125, 0, 1, 2, 12}, 0},
        {"reads one beyond them", {65412, 125, 0, 1, 2, 12}, 2},
        {"reads far beyond", {65535, 125, 0, 1, 2, 12}, 2},
        {"writes the last register", {0, 1, 65535, 1, 2, 12}, 0},
        {"writes one beyond it", {0, 1, 65535, 2, 4, 14}, 2},
        {"writes the last 121", {0, 1, 65415, 121, 242, 252}, 0},
        {"writes one beyond them", {0, 1, 65416, 121, 242, 252}, 2},
        {"writes far beyond", {0, 1, 65535, 121, 242, 252}, 2},
        {"both up to the last", {65411, 125, 65415, 121, 242, 252}, 0},
        {"both beyond it", {65412, 125, 65416, 121, 242, 252}, 2},
        {"reads up to it, writes beyond", {65411, 125, 65416, 121, 242, 252}, 2},
        {"reads beyond it, writes up to it", {65412, 125, 65415, 121, 242, 252}, 2},
        {"reads beyond it, writes 0", {65535, 2, 0, 0, 0, 10}, 3},
        {"reads beyond it, writes 122", {65535, 2, 0, 122, 242, 252}, 3},
        {"reads beyond it, its byte count is wrong", {65535, 2, 0, 1, 3, 13}, 3},
        {"writes beyond it, reads 0", {0, 0, 65535, 2, 4, 14}, 3},
        {"writes beyond it, reads 126", {0, 126, 65535, 2, 4, 14}, 3},
        {"writes beyond it, its byte count is wrong", {0, 1, 65535, 2, 3, 13}, 3},
        {"reads 126, beyond it by that one", {65411, 126, 0, 1, 2, 12}, 3},
        {"beyond it in all, and a byte too short", {65535, 2, 65535, 2, 4, 13}, 6},
    };
    TAKE_NUMBERS(rows);
}

/* A 23 as a client asks it and as it is sent, what the controller says and what the client is told, each with its counts. */
typedef struct {
    const char *what, *asked, *sent;
    uint32_t partial, value;
    const char *said, *told;
    uint32_t partial_back, value_back;
} parts_row;

static void take_parts(const parts_row *rows, size_t count)
{
    for (size_t n = 0; n < count; n++) {
        begin_strict();
        zb_answer a = request(3, 7, rows[n].asked);
        expect(is_issued(a, 0) && wrote(a, rows[n].sent) && raw(a, rows[n].partial, rows[n].value), rows[n].what, __LINE__);
        a = reply(8, rows[n].said);
        bool good = a.outcome == ZB_ANSWERED && wrote(a, rows[n].told) && raw(a, rows[n].partial_back, rows[n].value_back);
        expect(good && a.parties == 1, rows[n].what, __LINE__);
    }
}

#define TAKE_PARTS(rows) take_parts(rows, sizeof rows / sizeof *rows)

/* Tags 17, 20 and 23 are lenient, of width 16, of width 32 and with a sign; 16, 18 and 22 are strict ones of these kinds. */
static void parts_that_cut_tags(void)
{
    static const parts_row rows[] = {
        {"the read part alone cuts a tag at its first end", "12 34 00 00 00 0F 01 17 00 15 00 01 00 14 00 02 04 61 4E 00 BC",
         "00 00 00 00 00 0F 01 17 00 15 00 01 00 14 00 02 04 56 78 12 34", 0, 0,
         "00 00 00 00 00 05 01 17 02 12 34", "00 00 00 00 00 05 01 17 02 12 34", 1, 0},
        {"at its last end", "12 34 00 00 00 0F 01 17 00 14 00 01 00 14 00 02 04 61 4E 00 BC",
         "00 00 00 00 00 0F 01 17 00 14 00 01 00 14 00 02 04 56 78 12 34", 0, 0,
         "00 00 00 00 00 05 01 17 02 12 34", "00 00 00 00 00 05 01 17 02 12 34", 1, 0},
        {"it cuts two, a strict one and a lenient one", "12 34 00 00 00 0F 01 17 00 13 00 02 00 14 00 02 04 61 4E 00 BC",
         "00 00 00 00 00 0F 01 17 00 13 00 02 00 14 00 02 04 56 78 12 34", 0, 0,
         "00 00 00 00 00 07 01 17 04 12 34 00 AB", "00 00 00 00 00 07 01 17 04 12 34 00 AB", 2, 0},
        {"the write part alone cuts it at its first end", "12 34 00 00 00 0D 01 17 00 14 00 02 00 15 00 01 02 00 07",
         "00 00 00 00 00 0D 01 17 00 14 00 02 00 15 00 01 02 00 07", 1, 0,
         "00 00 00 00 00 07 01 17 04 56 78 12 34", "00 00 00 00 00 07 01 17 04 61 4E 00 BC", 0, 0},
        {"at its last end", "12 34 00 00 00 11 01 17 00 14 00 02 00 12 00 03 06 00 10 00 00 00 07",
         "00 00 00 00 00 11 01 17 00 14 00 02 00 12 00 03 06 00 16 00 00 00 07", 1, 0,
         "00 00 00 00 00 07 01 17 04 56 78 12 34", "00 00 00 00 00 07 01 17 04 61 4E 00 BC", 0, 0},
        {"both cut it", "12 34 00 00 00 0D 01 17 00 14 00 01 00 15 00 01 02 00 07",
         "00 00 00 00 00 0D 01 17 00 14 00 01 00 15 00 01 02 00 07", 1, 0,
         "00 00 00 00 00 05 01 17 02 12 34", "00 00 00 00 00 05 01 17 02 12 34", 1, 0},
        {"both cut it at one end, together they have it", "12 34 00 00 00 0D 01 17 00 15 00 01 00 14 00 01 02 00 07",
         "00 00 00 00 00 0D 01 17 00 15 00 01 00 14 00 01 02 00 07", 1, 0,
         "00 00 00 00 00 05 01 17 02 00 AB", "00 00 00 00 00 05 01 17 02 00 AB", 1, 0},
        {"the write part has no tag", "12 34 00 00 00 0D 01 17 00 11 00 01 00 1C 00 01 02 27 10",
         "00 00 00 00 00 0D 01 17 00 11 00 01 00 1C 00 01 02 27 10", 0, 0,
         "00 00 00 00 00 05 01 17 02 12 34", "00 00 00 00 00 05 01 17 02 04 D2", 0, 0},
        {"the read part has no tag", "12 34 00 00 00 0D 01 17 00 1C 00 01 00 11 00 01 02 04 D2",
         "00 00 00 00 00 0D 01 17 00 1C 00 01 00 11 00 01 02 12 34", 0, 0,
         "00 00 00 00 00 05 01 17 02 12 34", "00 00 00 00 00 05 01 17 02 12 34", 0, 0},
    };
    TAKE_PARTS(rows);
}

/* Values in each part by themselves, and parts over the same registers. */
static void parts_with_values(void)
{
    static const parts_row rows[] = {
        {"raw for its value in the write part alone", "12 34 00 00 00 0D 01 17 00 11 00 01 00 11 00 01 02 27 10",
         "00 00 00 00 00 0D 01 17 00 11 00 01 00 11 00 01 02 27 10", 0, 1,
         "00 00 00 00 00 05 01 17 02 27 10", "00 00 00 00 00 05 01 17 02 0A 96", 0, 0}, /* no echo: 2,710 is read (#106) */
        {"in the read part alone", "12 34 00 00 00 0D 01 17 00 11 00 01 00 11 00 01 02 27 0F",
         "00 00 00 00 00 0D 01 17 00 11 00 01 00 11 00 01 02 99 99", 0, 0,
         "00 00 00 00 00 05 01 17 02 00 AB", "00 00 00 00 00 05 01 17 02 00 AB", 0, 1},
        {"in both", "12 34 00 00 00 0D 01 17 00 11 00 01 00 11 00 01 02 27 10",
         "00 00 00 00 00 0D 01 17 00 11 00 01 00 11 00 01 02 27 10", 0, 1,
         "00 00 00 00 00 05 01 17 02 00 AB", "00 00 00 00 00 05 01 17 02 00 AB", 0, 1},
        {"the same registers, read back", "12 34 00 00 00 11 01 17 00 16 00 03 00 16 00 03 06 FF FB FC 19 27 0F",
         "00 00 00 00 00 11 01 17 00 16 00 03 00 16 00 03 06 F0 05 F9 99 99 99", 0, 0,
         "00 00 00 00 00 09 01 17 06 F0 05 F9 99 99 99", "00 00 00 00 00 09 01 17 06 FF FB FC 19 27 0F", 0, 0},
        {"it reads from the second that it writes on", "12 34 00 00 00 0F 01 17 00 11 00 03 00 10 00 02 04 00 10 00 20",
         "00 00 00 00 00 0F 01 17 00 11 00 03 00 10 00 02 04 00 16 00 32", 0, 0,
         "00 00 00 00 00 09 01 17 06 00 32 00 16 00 00", "00 00 00 00 00 09 01 17 06 00 20 00 10 00 00", 0, 0},
        {"it writes from the second that it reads on", "12 34 00 00 00 0D 01 17 00 10 00 02 00 11 00 01 02 00 20",
         "00 00 00 00 00 0D 01 17 00 10 00 02 00 11 00 01 02 00 32", 0, 0,
         "00 00 00 00 00 07 01 17 04 00 16 00 32", "00 00 00 00 00 07 01 17 04 00 10 00 20", 0, 0},
        {"a sign in the write part, cut and raw tags in the read part",
         "12 34 00 00 00 0D 01 17 00 15 00 03 00 17 00 01 02 FF FF",
         "00 00 00 00 00 0D 01 17 00 15 00 03 00 17 00 01 02 F0 01", 0, 0,
         "00 00 00 00 00 09 01 17 06 12 34 F0 00 F0 12", "00 00 00 00 00 09 01 17 06 12 34 F0 00 FF F4", 1, 1},
        {"cut and raw in both", "12 34 00 00 00 11 01 17 00 15 00 03 00 15 00 03 06 00 07 FF FB 03 E8",
         "00 00 00 00 00 11 01 17 00 15 00 03 00 15 00 03 06 00 07 F0 05 03 E8", 1, 1,
         "00 00 00 00 00 09 01 17 06 12 34 F0 00 F0 00", "00 00 00 00 00 09 01 17 06 12 34 F0 00 F0 00", 1, 2},
    };
    TAKE_PARTS(rows);
}

/* Strict tags forbid a write part as they forbid a 16, and a read part nothing; register 28 lies in no tag. */
static void strict_by_23(void)
{
    static const strict_row rows[] = {
        {"9,999", "12 34 00 00 00 0D 01 17 00 1C 00 01 00 10 00 01 02 27 0F",
         "00 00 00 00 00 0D 01 17 00 1C 00 01 00 10 00 01 02 99 99", 0, 0},
        {"10,000", "12 34 00 00 00 0D 01 17 00 1C 00 01 00 10 00 01 02 27 10", NULL, 0, 0},
        {"10,000, lenient", "12 34 00 00 00 0D 01 17 00 1C 00 01 00 11 00 01 02 27 10",
         "00 00 00 00 00 0D 01 17 00 1C 00 01 00 11 00 01 02 27 10", 0, 1},
        {"the first register of width 32", "12 34 00 00 00 0D 01 17 00 1C 00 01 00 12 00 01 02 00 00", NULL, 0, 0},
        {"the second register", "12 34 00 00 00 0D 01 17 00 1C 00 01 00 13 00 01 02 00 00", NULL, 0, 0},
        {"it ends inside", "12 34 00 00 00 0F 01 17 00 1C 00 01 00 11 00 02 04 00 05 00 00", NULL, 0, 0},
        {"it begins inside", "12 34 00 00 00 11 01 17 00 1C 00 01 00 13 00 03 06 00 00 00 05 00 00", NULL, 0, 0},
        {"at the last addresses", "12 34 00 00 00 0F 01 17 00 1C 00 01 FF FE 00 02 04 00 00 00 05", NULL, 0, 0},
        {"the last register", "12 34 00 00 00 0D 01 17 00 1C 00 01 FF FF 00 01 02 27 0F",
         "00 00 00 00 00 0D 01 17 00 1C 00 01 FF FF 00 01 02 99 99", 0, 0},
        {"99,999,999", "12 34 00 00 00 0F 01 17 00 1C 00 01 00 12 00 02 04 E0 FF 05 F5",
         "00 00 00 00 00 0F 01 17 00 1C 00 01 00 12 00 02 04 99 99 99 99", 0, 0},
        {"100,000,000", "12 34 00 00 00 0F 01 17 00 1C 00 01 00 12 00 02 04 E1 00 05 F5", NULL, 0, 0},
        {"-999", "12 34 00 00 00 0D 01 17 00 1C 00 01 00 16 00 01 02 FC 19",
         "00 00 00 00 00 0D 01 17 00 1C 00 01 00 16 00 01 02 F9 99", 0, 0},
        {"-1,000", "12 34 00 00 00 0D 01 17 00 1C 00 01 00 16 00 01 02 FC 18", NULL, 0, 0},
        {"0x8000", "12 34 00 00 00 0D 01 17 00 1C 00 01 00 16 00 01 02 80 00", NULL, 0, 0},
        {"the second of two is wrong", "12 34 00 00 00 11 01 17 00 1C 00 01 00 18 00 03 06 00 05 E1 00 05 F5", NULL, 0, 0},
        {"a lenient one is wrong beside it", "12 34 00 00 00 0F 01 17 00 1C 00 01 00 10 00 02 04 00 10 27 10",
         "00 00 00 00 00 0F 01 17 00 1C 00 01 00 10 00 02 04 00 16 27 10", 0, 1},
    };
    WRITE_ROWS(rows);
}

static void strict_in_the_read_part(void)
{
    static const strict_row rows[] = {
        {"alone", "12 34 00 00 00 0D 01 17 00 10 00 01 00 1C 00 01 02 27 10",
         "00 00 00 00 00 0D 01 17 00 10 00 01 00 1C 00 01 02 27 10", 0, 0},
        {"alone and cut", "12 34 00 00 00 0D 01 17 00 13 00 01 00 1C 00 01 02 27 10",
         "00 00 00 00 00 0D 01 17 00 13 00 01 00 1C 00 01 02 27 10", 0, 0},
        {"all of them", "12 34 00 00 00 0D 01 17 00 10 00 0C 00 1C 00 01 02 FF FF",
         "00 00 00 00 00 0D 01 17 00 10 00 0C 00 1C 00 01 02 FF FF", 0, 0},
        {"beside a lenient one that is written raw", "12 34 00 00 00 0D 01 17 00 10 00 03 00 11 00 01 02 27 10",
         "00 00 00 00 00 0D 01 17 00 10 00 03 00 11 00 01 02 27 10", 0, 1},
        {"cut there, whole and right in the write part", "12 34 00 00 00 0F 01 17 00 12 00 01 00 12 00 02 04 61 4E 00 BC",
         "00 00 00 00 00 0F 01 17 00 12 00 01 00 12 00 02 04 56 78 12 34", 0, 0},
        {"whole there, cut in the write part", "12 34 00 00 00 0D 01 17 00 12 00 02 00 12 00 01 02 00 00", NULL, 0, 0},
        {"whole there, wrong in the write part", "12 34 00 00 00 0F 01 17 00 12 00 02 00 12 00 02 04 E1 00 05 F5", NULL, 0, 0},
    };
    WRITE_ROWS(rows);
}

/* Refusals and #109's own exceptions come before those for a tag; 04 comes behind, and closes nothing. */
static void what_comes_before_22_and_23(void)
{
    static const uint8_t masked[] = {0x12, 0x34, 0, 0, 0, 8, 1, 22, 0, 16, 0, 0xF2, 0, 0x25};
    static const uint8_t both[] = {0x12, 0x34, 0, 0, 0, 13, 1, 23, 0, 28, 0, 1, 0, 16, 0, 1, 2, 0x27, 0x10};
    uint8_t plain[] = {0, 1, 0, 0, 0, 6, 1, 6, 0, 28, 0x27, 0x10};
    begin_strict();
    EXPECT(tick(10).outcome == ZB_NOTHING_DUE);
    EXPECT_REFUSED(pair_request(3, 10, masked, sizeof masked, ZB_FRAME_BUFFER - 1), ZB_REFUSED_BUFFER);
    EXPECT_REFUSED(pair_request(4, 10, both, sizeof both, ZB_FRAME_BUFFER), ZB_REFUSED_CLIENT);
    EXPECT_REFUSED(pair_request(3, 9, masked, sizeof masked, ZB_FRAME_BUFFER), ZB_REFUSED_TIME);
    EXPECT_REFUSED(pair_request(3, 10, both, sizeof both - 1, ZB_FRAME_BUFFER), ZB_REFUSED_FRAME);
    EXPECT_REFUSED(request(3, 10, "12 34 00 00 00 09 01 16 00 10 00 F2 00 25 00"), ZB_REFUSED_LENGTH);
    EXPECT_REFUSED(request(3, 10, "12 34 00 00 00 0D 01 17 00 1C 00 01 00 10 00 01 03 27 10"), ZB_REFUSED_LENGTH);
    /* a range beyond the last register, of either part, and a strict tag that is wrong */
    zb_answer a = request(3, 10, "12 34 00 00 00 0F 01 17 00 1C 00 01 FF FF 00 02 04 27 10 00 00");
    EXPECT(is_exception(a, 2, "12 34 00 00 00 03 01 97 02"));
    a = request(3, 10, "12 34 00 00 00 0D 01 17 FF FF 00 02 00 10 00 01 02 27 10");
    EXPECT(is_exception(a, 2, "12 34 00 00 00 03 01 97 02"));
    EXPECT(is_issued(request(3, 10, "12 34 00 00 00 06 01 03 00 1C 00 01"), 0));
    for (uint32_t n = 1; n < ZB_PLACES; n++) {
        plain[9] = 29;
        EXPECT(is_issued(pair_request(3, 10, plain, 12, ZB_FRAME_BUFFER), n));
    }
    EXPECT(is_forbidden(pair_request(3, 10, masked, sizeof masked, ZB_FRAME_BUFFER), 22));
    EXPECT(is_forbidden(pair_request(3, 10, both, sizeof both, ZB_FRAME_BUFFER), 23));
    a = request(3, 10, "12 34 00 00 00 08 01 16 00 1C 00 F2 00 25");
    EXPECT(is_exception(a, 4, "12 34 00 00 00 03 01 96 04"));
    a = request(3, 10, "12 34 00 00 00 0D 01 17 00 10 00 01 00 1C 00 01 02 27 10");
    EXPECT(is_exception(a, 4, "12 34 00 00 00 03 01 97 04"));
    EXPECT(request(5, 10, "00 07 00 00 00 06 01 03 00 1C 00 01").outcome == ZB_JOINED);
}

/* What 22 and 23 close: registers 16 to 19 are read, and lie in no tag of the document's */

static void masks_close_what_they_meet(void)
{
    static const step steps[] = {
        {"03", 3, "20 01 00 00 00 06 01 03 00 10 00 04", ZB_ISSUED, 0},
        {"04", 3, "20 02 00 00 00 06 01 04 00 10 00 04", ZB_ISSUED, 1},
        {"01", 3, "20 03 00 00 00 06 01 01 00 10 00 04", ZB_ISSUED, 2},
        {"02", 3, "20 04 00 00 00 06 01 02 00 10 00 04", ZB_ISSUED, 3},
        {"a 22 one before them", 3, "20 05 00 00 00 08 01 16 00 0F 00 F2 00 25", ZB_ISSUED, 4},
        {"closes nothing", 5, "20 06 00 00 00 06 01 03 00 10 00 04", ZB_JOINED, 0},
        {"of 04 either", 5, "20 07 00 00 00 06 01 04 00 10 00 04", ZB_JOINED, 1},
        {"one behind them", 3, "20 08 00 00 00 08 01 16 00 14 00 F2 00 25", ZB_ISSUED, 5},
        {"closes nothing", 5, "20 09 00 00 00 06 01 03 00 10 00 04", ZB_JOINED, 0},
        {"one in another unit", 3, "20 0A 00 00 00 08 02 16 00 11 00 F2 00 25", ZB_ISSUED, 6},
        {"closes nothing", 5, "20 0B 00 00 00 06 01 03 00 10 00 04", ZB_JOINED, 0},
        {"one on the first", 3, "20 0C 00 00 00 08 01 16 00 10 00 F2 00 25", ZB_ISSUED, 7},
        {"03 is closed", 5, "20 0D 00 00 00 06 01 03 00 10 00 04", ZB_ISSUED, 8},
        {"04 is closed", 5, "20 0E 00 00 00 06 01 04 00 10 00 04", ZB_ISSUED, 9},
        {"01 is not", 5, "20 0F 00 00 00 06 01 01 00 10 00 04", ZB_JOINED, 2},
        {"nor 02", 5, "20 10 00 00 00 06 01 02 00 10 00 04", ZB_JOINED, 3},
        {"one on the last", 3, "20 11 00 00 00 08 01 16 00 13 FF FF 00 00", ZB_ISSUED, 10},
        {"03 is closed", 5, "20 12 00 00 00 06 01 03 00 10 00 04", ZB_ISSUED, 11},
        {"and joined behind it", 3, "20 13 00 00 00 06 01 03 00 10 00 04", ZB_JOINED, 11},
        {"a read of a tag", 3, "20 14 00 00 00 06 01 03 04 02 00 02", ZB_ISSUED, 12},
        {"a 22 on it gets 03", 3, "20 15 00 00 00 08 01 16 04 03 00 F2 00 25", ZB_EXCEPTION, 0},
        {"and closes nothing", 5, "20 16 00 00 00 06 01 03 04 02 00 02", ZB_JOINED, 12},
    };
    begin();
    TAKE(steps);
}

static void both_close_by_the_write_part(void)
{
    static const step steps[] = {
        {"03", 3, "20 01 00 00 00 06 01 03 00 10 00 04", ZB_ISSUED, 0},
        {"04", 3, "20 02 00 00 00 06 01 04 00 10 00 04", ZB_ISSUED, 1},
        {"01", 3, "20 03 00 00 00 06 01 01 00 10 00 04", ZB_ISSUED, 2},
        {"02", 3, "20 04 00 00 00 06 01 02 00 10 00 04", ZB_ISSUED, 3},
        {"a 23 that writes from the left", 3, "20 05 00 00 00 11 01 17 01 00 00 01 00 0E 00 03 06 00 00 00 00 00 00", ZB_ISSUED, 4},
        {"03 is closed", 5, "20 06 00 00 00 06 01 03 00 10 00 04", ZB_ISSUED, 5},
        {"04 is closed", 5, "20 07 00 00 00 06 01 04 00 10 00 04", ZB_ISSUED, 6},
        {"01 is not", 5, "20 08 00 00 00 06 01 01 00 10 00 04", ZB_JOINED, 2},
        {"nor 02", 5, "20 09 00 00 00 06 01 02 00 10 00 04", ZB_JOINED, 3},
        {"from the right", 3, "20 0A 00 00 00 11 01 17 01 00 00 01 00 13 00 03 06 00 00 00 00 00 00", ZB_ISSUED, 7},
        {"closes", 5, "20 0B 00 00 00 06 01 03 00 10 00 04", ZB_ISSUED, 8},
        {"inside", 3, "20 0C 00 00 00 0D 01 17 01 00 00 01 00 11 00 01 02 00 00", ZB_ISSUED, 9},
        {"closes", 5, "20 0D 00 00 00 06 01 03 00 10 00 04", ZB_ISSUED, 10},
        {"around", 3, "20 0E 00 00 00 17 01 17 01 00 00 01 00 0F 00 06 0C 00 00 00 00 00 00 00 00 00 00 00 00", ZB_ISSUED, 11},
        {"closes", 5, "20 0F 00 00 00 06 01 03 00 10 00 04", ZB_ISSUED, 12},
        {"one that reads them too", 3, "20 10 00 00 00 0D 01 17 00 10 00 04 00 10 00 01 02 00 00", ZB_ISSUED, 13},
        {"closes", 5, "20 11 00 00 00 06 01 03 00 10 00 04", ZB_ISSUED, 14},
        {"and what is issued behind it is joined", 3, "20 12 00 00 00 06 01 03 00 10 00 04", ZB_JOINED, 14},
    };
    begin();
    TAKE(steps);
}

static void both_close_nothing_by_the_read_part(void)
{
    static const step steps[] = {
        {"03", 3, "20 01 00 00 00 06 01 03 00 10 00 04", ZB_ISSUED, 0},
        {"04", 3, "20 02 00 00 00 06 01 04 00 10 00 04", ZB_ISSUED, 1},
        {"a 23 that reads the same and writes one before", 3, "20 03 00 00 00 0D 01 17 00 10 00 04 00 0F 00 01 02 00 07", ZB_ISSUED, 2},
        {"closes nothing", 5, "20 04 00 00 00 06 01 03 00 10 00 04", ZB_JOINED, 0},
        {"of 04 either", 5, "20 05 00 00 00 06 01 04 00 10 00 04", ZB_JOINED, 1},
        {"that writes one behind", 3, "20 06 00 00 00 0D 01 17 00 10 00 04 00 14 00 01 02 00 07", ZB_ISSUED, 3},
        {"closes nothing", 5, "20 07 00 00 00 06 01 03 00 10 00 04", ZB_JOINED, 0},
        {"that reads around them and writes far away", 3, "20 08 00 00 00 0D 01 17 00 00 00 7D 01 00 00 01 02 00 07", ZB_ISSUED, 4},
        {"closes nothing", 5, "20 09 00 00 00 06 01 04 00 10 00 04", ZB_JOINED, 1},
        {"that writes them in another unit", 3, "20 0A 00 00 00 0D 02 17 00 10 00 04 00 11 00 01 02 00 07", ZB_ISSUED, 5},
        {"closes nothing", 5, "20 0B 00 00 00 06 01 03 00 10 00 04", ZB_JOINED, 0},
        {"that reads 0 and writes them gets 03", 3, "20 0C 00 00 00 0D 01 17 00 10 00 00 00 11 00 01 02 00 07", ZB_EXCEPTION, 0},
        {"and closes nothing", 5, "20 0D 00 00 00 06 01 03 00 10 00 04", ZB_JOINED, 0},
        {"that reads beyond the last gets 02", 3, "20 0E 00 00 00 0D 01 17 FF FF 00 02 00 11 00 01 02 00 07", ZB_EXCEPTION, 0},
        {"and closes nothing", 5, "20 0F 00 00 00 06 01 04 00 10 00 04", ZB_JOINED, 1},
    };
    begin();
    TAKE(steps);
}

/* Neither is joined, and a read does not join what a 23 reads. */
static void neither_joins(void)
{
    static const step steps[] = {
        {"a 23", 3, "20 01 00 00 00 0D 01 17 00 10 00 04 00 20 00 01 02 00 07", ZB_ISSUED, 0},
        {"the same again", 5, "20 02 00 00 00 0D 01 17 00 10 00 04 00 20 00 01 02 00 07", ZB_ISSUED, 1},
        {"a read of what it reads", 3, "20 03 00 00 00 06 01 03 00 10 00 04", ZB_ISSUED, 2},
        {"the same again", 5, "20 04 00 00 00 06 01 03 00 10 00 04", ZB_JOINED, 2},
        {"the 23 again", 5, "20 05 00 00 00 0D 01 17 00 10 00 04 00 20 00 01 02 00 07", ZB_ISSUED, 3},
        {"a 22", 3, "20 06 00 00 00 08 01 16 00 30 00 F2 00 25", ZB_ISSUED, 4},
        {"the same again", 5, "20 07 00 00 00 08 01 16 00 30 00 F2 00 25", ZB_ISSUED, 5},
    };
    begin();
    TAKE(steps);
    EXPECT(reply(0, "00 05 00 00 00 08 01 16 00 30 00 F2 00 25").parties == 1);
    EXPECT(reply(0, "00 02 00 00 00 0B 01 03 08 00 01 00 02 00 03 00 04").parties == 2);
    EXPECT(pair_detach(5).outcome == ZB_DONE);
    zb_answer a = reply(0, "00 01 00 00 00 0B 01 17 08 00 01 00 02 00 03 00 04");
    EXPECT(a.outcome == ZB_ANSWERED && a.parties == 0); /* left by all */
    EXPECT(reply(0, "00 00 00 00 00 0B 01 17 08 00 01 00 02 00 03 00 04").parties == 1);
}

/* Registers 16 to 19 are cached: a 22 never drops them, since they lie in tags, and a 23 by its write part alone. */
static void what_22_and_23_drop(void)
{
    static const drop_row rows[] = {
        {"a 22 one before", true, "20 02 00 00 00 08 01 16 00 0F 00 F2 00 25"},
        {"on the first, exception 03", true, "20 02 00 00 00 08 01 16 00 10 00 F2 00 25"},
        {"inside, exception 03", true, "20 02 00 00 00 08 01 16 00 12 00 F2 00 25"},
        {"on the last, exception 03", true, "20 02 00 00 00 08 01 16 00 13 00 F2 00 25"},
        {"far away", true, "20 02 00 00 00 08 01 16 01 00 00 F2 00 25"},
        {"a 23 that reads them and writes one before", true, "20 02 00 00 00 0D 01 17 00 10 00 04 00 0F 00 01 02 00 07"},
        {"that reads them and writes one behind", true, "20 02 00 00 00 0D 01 17 00 10 00 04 00 14 00 01 02 00 07"},
        {"that reads them and writes far away", true, "20 02 00 00 00 0D 01 17 00 10 00 04 01 00 00 01 02 00 07"},
        {"that writes from the left", false, "20 02 00 00 00 11 01 17 01 00 00 01 00 0E 00 03 06 00 00 00 00 00 00"},
        {"from the right", false, "20 02 00 00 00 11 01 17 01 00 00 01 00 13 00 03 06 00 00 00 00 00 00"},
        {"inside", false, "20 02 00 00 00 0F 01 17 01 00 00 01 00 11 00 02 04 00 00 00 00"},
        {"inside, cutting a tag", false, "20 02 00 00 00 0D 01 17 01 00 00 01 00 12 00 01 02 00 00"},
        {"around", false, "20 02 00 00 00 17 01 17 01 00 00 01 00 0F 00 06 0C 00 00 00 00 00 00 00 00 00 00 00 00"},
        {"the same that it reads", false, "20 02 00 00 00 13 01 17 00 10 00 04 00 10 00 04 08 00 00 00 00 00 00 00 00"},
        {"in another unit", true, "20 02 00 00 00 0D 02 17 00 10 00 04 00 10 00 01 02 00 07"},
        {"and reads 126, exception 03", true, "20 02 00 00 00 0D 01 17 00 00 00 7E 00 10 00 01 02 00 07"},
        {"and reads beyond the last, exception 02", true, "20 02 00 00 00 0D 01 17 FF FF 00 02 00 10 00 01 02 00 07"},
        {"with a byte too many, refused", true, "20 02 00 00 00 0E 01 17 00 10 00 04 00 10 00 01 02 00 07 00"},
    };
    TAKE_DROPS(rows);
}

/* A 23 is no hit, and its reply fills no place: not over what is cached of its read part, and not where nothing is. */
static void read_and_write_beside_the_cache(void)
{
    const key k = {1, 3, 16, 1}, other = {1, 3, 22, 1};
    begin_cached(1);
    shown s = fill(10, k, 0x0042);
    zb_answer a = request(5, 10, "12 34 00 00 00 0D 01 17 00 10 00 01 01 00 00 01 02 00 07");
    EXPECT(is_issued(a, 1) && wrote(a, "00 01 00 00 00 0D 01 17 00 10 00 01 01 00 00 01 02 00 07"));
    a = reply(11, "00 01 00 00 00 05 01 17 02 00 17");
    EXPECT(wrote(a, "00 00 00 00 00 05 01 17 02 00 11") && raw(a, 0, 0));
    EXPECT(is_hit(ask(5, 11, 7, k), 7, &s));
    EXPECT(is_issued(request(5, 11, "12 34 00 00 00 0D 01 17 00 16 00 01 01 00 00 01 02 00 07"), 2));
    EXPECT(reply(11, "00 02 00 00 00 05 01 17 02 00 17").outcome == ZB_ANSWERED);
    EXPECT(is_issued(ask(5, 11, 7, other), 3));
    /* a live read that its write part meets does not fill, one that its read part alone meets does */
    EXPECT(is_issued(request(5, 11, "12 34 00 00 00 0D 01 17 00 16 00 01 01 00 00 01 02 00 07"), 4));
    s = say(12, (zb_answer){.id = 3}, other, 0x0042);
    EXPECT(is_hit(ask(5, 12, 7, other), 7, &s));
    begin_cached(1);
    a = ask(3, 0, 1, other);
    EXPECT(is_issued(request(5, 0, "12 34 00 00 00 0D 01 17 01 00 00 01 00 16 00 01 02 00 07"), 1));
    EXPECT(say(10, a, other, 0x0042).answer.outcome == ZB_ANSWERED && is_issued(ask(5, 10, 7, other), 2));
}

/* What was asked of 22 and 23 is kept in their words, and no write, "other" or 23 over their registers marks them, as bit 32
   marks a read that is closed. */
static void words_of_22_and_23(void)
{
    static const uint8_t masked[] = {0x12, 0x34, 0, 0, 0, 8, 5, 22, 0xAB, 0xCD, 0x00, 0xF2, 0x80, 0x25};
    static const uint8_t both[] = {0x12, 0x34, 0, 0, 0, 15, 5, 23, 0xAB, 0x80, 0, 125, 0xAB, 0xC0, 0, 2, 4, 0, 1, 0, 2};
    static const uint8_t read[] = {0x12, 0x34, 0, 0, 0, 6, 5, 3, 0xAB, 0xC0, 0, 2};
    static const uint8_t other[] = {0x12, 0x34, 0, 0, 0, 2, 5, 43};
    static zb_state device;
    zb_settings s = settings_of_the_document();
    uint8_t out[ZB_FRAME_BUFFER];
    const uint64_t mask_word = (uint64_t)5 << 56 | (uint64_t)22 << 48 | (uint64_t)0xABCD << 32 | 0x00F28025;
    const uint64_t both_word =
        ((uint64_t)5 << 56 | (uint64_t)23 << 48) + (((uint64_t)0xAB80 * 128 + 125) * 65536 + 0xABC0) * 128 + 2;
    const uint64_t read_word = (uint64_t)5 << 56 | (uint64_t)3 << 48 | 0xABC00002;
    zb_fresh(&device, &s);
    zb_attach(&device, 3);
    zb_request(&device, 3, 0, masked, sizeof masked, out, sizeof out);
    zb_request(&device, 3, 0, both, sizeof both, out, sizeof out);
    zb_request(&device, 3, 0, read, sizeof read, out, sizeof out);
    EXPECT(device.asked[0] == mask_word && device.asked[1] == both_word && device.asked[2] == read_word);
    zb_request(&device, 3, 0, masked, sizeof masked, out, sizeof out);
    EXPECT(device.asked[2] == read_word);
    zb_request(&device, 3, 0, both, sizeof both, out, sizeof out);
    EXPECT(device.asked[2] == (read_word | (uint64_t)1 << 32));
    zb_request(&device, 3, 0, other, sizeof other, out, sizeof out);
    EXPECT(device.asked[0] == mask_word && device.asked[1] == both_word);
    EXPECT(device.asked[3] == mask_word && device.asked[4] == both_word);
}

/* Demand 2: a value in a tag's range that is written by 06, 16 or 23 and read by 03, 04 or 23 comes back equal */

/* A write of the tag's value by a function; a 23 reads register 28 besides. */
static size_t put_write(uint8_t *frame, uint8_t function, uint32_t addr, uint32_t registers, uint32_t value)
{
    uint8_t *part = frame + (function == 23 ? 12 : 8);
    memset(frame, 0, 32);
    frame[6] = 1;
    frame[7] = function;
    if (function == 23)
        frame[9] = 28, frame[11] = 1;
    put_word(part, addr);
    put_word(part + 2, function == 6 ? value : registers);
    part[4] = (uint8_t)(2 * registers);
    put_word(part + 5, value & 0xFFFF);
    put_word(part + 7, value >> 16);
    size_t size = function == 6 ? 12 : (size_t)(part + 5 + 2 * registers - frame);
    frame[5] = (uint8_t)(size - 6);
    return size;
}

/* A read of the tag by a function; a 23 writes register 28 besides. */
static size_t put_read(uint8_t *frame, uint8_t function, uint32_t addr, uint32_t registers)
{
    size_t size = function == 23 ? put_write(frame, 23, 28, 1, 0) : 12;
    frame[5] = (uint8_t)(size - 6);
    frame[6] = 1;
    frame[7] = function;
    put_word(frame + 8, addr);
    put_word(frame + 10, registers);
    return size;
}

/* What is read of the tag, when the controller says what was sent for the value. */
static uint32_t value_back(uint8_t writer, uint8_t reader, uint32_t addr, uint32_t registers, uint32_t value)
{
    uint8_t frame[MOST_FRAME] = {0};
    begin_strict();
    size_t size = put_write(frame, writer, addr, registers, value);
    zb_answer a = pair_request(3, 0, frame, size, ZB_FRAME_BUFFER);
    EXPECT(is_issued(a, 0) && raw(a, 0, 0));
    uint8_t said[16] = {0, 1, 0, 0, 0, (uint8_t)(3 + 2 * registers), 1, reader, (uint8_t)(2 * registers)};
    memcpy(said + 9, pair_out() + (writer == 6 ? 10 : writer == 16 ? 13 : 17), 2 * registers);
    a = pair_request(3, 0, frame, put_read(frame, reader, addr, registers), ZB_FRAME_BUFFER);
    EXPECT(is_issued(a, 1) && raw(a, 0, 0));
    a = pair_reply(0, said, 9 + 2 * registers, ZB_FRAME_BUFFER, ZB_LIST_BUFFER);
    EXPECT(a.outcome == ZB_ANSWERED && raw(a, 0, 0));
    return registers == 2 ? word_of_out(11) << 16 | word_of_out(9) : word_of_out(9);
}

static void reading_back(void)
{
    static const uint8_t writers[] = {6, 16, 23}, readers[] = {3, 4, 23};
    static const struct { uint32_t addr, registers, value; } rows[] = {
        {16, 1, 0}, {16, 1, 9}, {16, 1, 10}, {16, 1, 1234}, {16, 1, 9999}, {17, 1, 9999}, {17, 1, 1000}, {22, 1, 0}, {22, 1, 999},
        {22, 1, 0xFFFF}, {22, 1, 0xFC19}, {23, 1, 0xFFFB}, {23, 1, 10}, {18, 2, 0}, {18, 2, 9999}, {18, 2, 10000},
        {18, 2, 12345678}, {20, 2, 65535}, {20, 2, 65536}, {20, 2, 99999999}, {25, 2, 90000009}, {65533, 2, 99990000},
        {65535, 1, 8765},
    };
    for (size_t n = 0; n < sizeof rows / sizeof *rows; n++)
        for (int w = rows[n].registers == 2; w < 3; w++)
            for (int r = 0; r < 3; r++)
                EXPECT(value_back(writers[w], readers[r], rows[n].addr, rows[n].registers, rows[n].value) == rows[n].value);
}

/* The mistakes that document 01 rules out */

static void cursor_and_clock_stay_after_a_lost_link(void)
{
    begin();
    request(3, 10, "12 34 00 00 00 06 01 03 04 00 00 01");
    zb_answer a = pair_link_lost();
    EXPECT(a.outcome == ZB_DONE && a.set == 0x28);
    EXPECT_REFUSED(request(3, 10, "12 34 00 00 00 06 01 03 04 00 00 01"), ZB_REFUSED_CLIENT);
    EXPECT_REFUSED(reply(10, "00 00 00 00 00 05 01 03 02 12 34"), ZB_REFUSED_UNKNOWN);
    EXPECT_REFUSED(tick(9), ZB_REFUSED_TIME);
    EXPECT(pair_attach(3).outcome == ZB_DONE);
    EXPECT(is_issued(request(3, 10, "12 34 00 00 00 06 01 03 04 00 00 01"), 1));
    EXPECT(pair_link_lost().set == 8 && pair_link_lost().set == 0);
}

static void struck_room_and_successor(void)
{
    static const uint16_t pairs[] = {5, 1, 5, 2};
    begin();
    request(3, 0, "12 34 00 00 00 06 01 03 04 00 00 01");
    request(5, 0, "00 01 00 00 00 06 01 03 04 00 00 01");
    for (int n = 0; n < PARTIES - 2; n++)
        request(3, 0, "12 34 00 00 00 06 01 03 04 00 00 01");
    EXPECT(pair_detach(3).outcome == ZB_DONE);
    EXPECT(pair_attach(3).outcome == ZB_DONE);
    EXPECT(request(5, 0, "00 02 00 00 00 06 01 03 04 00 00 01").outcome == ZB_JOINED);
    EXPECT(listed(reply(0, "00 00 00 00 00 05 01 03 02 12 34"), 2, pairs));
}

static void left_by_all(void)
{
    static const uint16_t pairs[] = {5, 7};
    begin();
    request(3, 0, "12 34 00 00 00 06 01 03 04 00 00 01");
    request(3, 0, "12 34 00 00 00 06 01 03 04 00 00 02");
    request(3, 0, "12 34 00 00 00 06 01 03 04 00 00 03");
    pair_detach(3);
    zb_answer a = request(5, 0, "00 07 00 00 00 06 01 03 04 00 00 01");
    EXPECT(a.outcome == ZB_JOINED && a.id == 0);
    EXPECT(listed(reply(0, "00 00 00 00 00 05 01 03 02 12 34"), 1, pairs));
    a = reply(0, "00 01 00 00 00 07 01 03 04 12 34 56 78");
    EXPECT(a.outcome == ZB_ANSWERED && a.parties == 0 && wrote(a, "00 00 00 00 00 07 01 03 04 04 D2 56 78"));
    a = tick(3000);
    EXPECT(a.outcome == ZB_TIMED_OUT && a.id == 2 && a.parties == 0 && wrote(a, "00 00 00 00 00 03 01 83 0B"));
}

static void due_is_not_joined(void)
{
    begin();
    request(3, 0, "12 34 00 00 00 06 01 03 04 00 00 01");
    EXPECT(request(5, 2999, "00 07 00 00 00 06 01 03 04 00 00 01").outcome == ZB_JOINED);
    EXPECT(is_issued(request(5, 3000, "00 07 00 00 00 06 01 03 04 00 00 01"), 1));
    EXPECT(reply(3001, "00 00 00 00 00 05 01 03 02 12 34").parties == 2);
}

/* Of two requests the earlier deadline, of none 2^64 - 1; a tick ends one exactly from then on (pair.c looks at each). */
static void next_deadline(void)
{
    static zb_state device;
    static const uint8_t read[] = {0, 0, 0, 0, 0, 6, 1, 3, 4, 0, 0, 1}, other[] = {0, 0, 0, 0, 0, 2, 1, 17};
    uint8_t out[ZB_FRAME_BUFFER];
    uint16_t list[ZB_LIST_BUFFER];
    zb_settings settings = settings_of_the_document();
    zb_fresh(&device, &settings);
    EXPECT(zb_next_deadline(&device).time == UINT64_MAX && zb_next_deadline(&device).live == 0);
    zb_attach(&device, 3);
    zb_request(&device, 3, 50, read, sizeof read, out, sizeof out);
    EXPECT(zb_next_deadline(&device).time == 3050 && zb_next_deadline(&device).live == 1);
    zb_request(&device, 3, 60, other, sizeof other, out, sizeof out);
    EXPECT(zb_next_deadline(&device).time == 3050 && zb_next_deadline(&device).live == 2);
    EXPECT(zb_tick(&device, 3049, out, sizeof out, list, ZB_LIST_BUFFER).outcome == ZB_NOTHING_DUE);
    EXPECT(zb_tick(&device, 3050, out, sizeof out, list, ZB_LIST_BUFFER).outcome == ZB_TIMED_OUT);
    EXPECT(zb_next_deadline(&device).time == 3060 && zb_next_deadline(&device).live == 1);
    zb_detach(&device, 3); /* an entry with no party is live */
    EXPECT(zb_next_deadline(&device).time == 3060 && zb_next_deadline(&device).live == 1);
    zb_link_lost(&device);
    EXPECT(zb_next_deadline(&device).time == UINT64_MAX && zb_next_deadline(&device).live == 0);
}

static void mismatched_reply_leaves_the_entry(void)
{
    begin();
    request(3, 0, "12 34 00 00 00 06 01 03 04 00 00 01");
    EXPECT_REFUSED(reply(0, "00 00 00 00 00 05 02 03 02 12 34"), ZB_REFUSED_MISMATCH);
    EXPECT_REFUSED(reply(0, "00 00 00 00 00 05 01 04 02 12 34"), ZB_REFUSED_MISMATCH);
    EXPECT_REFUSED(reply(0, "00 00 00 00 00 05 01 03 04 12 34"), ZB_REFUSED_MISMATCH);
    EXPECT_REFUSED(reply(0, "00 00 00 00 00 07 01 03 04 12 34 56 78"), ZB_REFUSED_MISMATCH);
    EXPECT_REFUSED(reply(0, "00 00 00 00 00 02 01 83"), ZB_REFUSED_MISMATCH);
    EXPECT_REFUSED(reply(0, "00 00 00 00 00 04 01 83 02 00"), ZB_REFUSED_MISMATCH);
    zb_answer a = reply(0, "00 00 00 00 00 03 01 83 02");
    EXPECT(a.outcome == ZB_ANSWERED && wrote(a, "00 00 00 00 00 03 01 83 02") && a.parties == 1 && a.code == 0);
    EXPECT_REFUSED(reply(0, "00 00 00 00 00 03 01 83 02"), ZB_REFUSED_UNKNOWN);
}

/* Refusals */

static void refusals_of_attach_and_detach(void)
{
    begin();
    EXPECT_REFUSED(pair_attach(ZB_CLIENTS), ZB_REFUSED_CLIENT);
    EXPECT_REFUSED(pair_attach(259), ZB_REFUSED_CLIENT);
    EXPECT_REFUSED(pair_attach(UINT32_MAX), ZB_REFUSED_CLIENT);
    EXPECT_REFUSED(pair_attach(3), ZB_REFUSED_ATTACHED);
    EXPECT(pair_attach(0).outcome == ZB_DONE && pair_attach(ZB_CLIENTS - 1).outcome == ZB_DONE);
    EXPECT_REFUSED(pair_detach(ZB_CLIENTS), ZB_REFUSED_CLIENT);
    EXPECT_REFUSED(pair_detach(259), ZB_REFUSED_CLIENT);
    EXPECT_REFUSED(pair_detach(UINT32_MAX), ZB_REFUSED_CLIENT);
    EXPECT_REFUSED(pair_detach(4), ZB_REFUSED_CLIENT);
    EXPECT(pair_detach(3).outcome == ZB_DONE);
    EXPECT_REFUSED(pair_detach(3), ZB_REFUSED_CLIENT);
}

static void refusals_of_request_before_the_frame(void)
{
    static const uint8_t read[] = {0, 1, 0, 0, 0, 6, 1, 3, 4, 0, 0, 1};
    begin();
    EXPECT_REFUSED(pair_request(3, 0, read, 12, ZB_FRAME_BUFFER - 1), ZB_REFUSED_BUFFER);
    EXPECT_REFUSED(pair_request(3, 0, read, 12, 0), ZB_REFUSED_BUFFER);
    EXPECT_REFUSED(pair_request(4, 0, read, 12, ZB_FRAME_BUFFER), ZB_REFUSED_CLIENT);
    EXPECT_REFUSED(pair_request(ZB_CLIENTS, 0, read, 12, ZB_FRAME_BUFFER), ZB_REFUSED_CLIENT);
    EXPECT_REFUSED(pair_request(259, 0, read, 12, ZB_FRAME_BUFFER), ZB_REFUSED_CLIENT);
    EXPECT_REFUSED(pair_request(UINT32_MAX, 0, read, 12, ZB_FRAME_BUFFER), ZB_REFUSED_CLIENT);
    EXPECT_REFUSED(pair_request(3, (uint64_t)1 << 63, read, 12, ZB_FRAME_BUFFER), ZB_REFUSED_TIME);
    EXPECT_REFUSED(pair_request(3, UINT64_MAX, read, 12, ZB_FRAME_BUFFER), ZB_REFUSED_TIME);
    EXPECT(tick(10).outcome == ZB_NOTHING_DUE);
    EXPECT_REFUSED(pair_request(3, 9, read, 12, ZB_FRAME_BUFFER), ZB_REFUSED_TIME);
    EXPECT(pair_request(3, 10, read, 12, MOST_FRAME).outcome == ZB_ISSUED);
    EXPECT(pair_request(3, ((uint64_t)1 << 63) - 1, read, 12, ZB_FRAME_BUFFER).outcome == ZB_ISSUED);
}

static void refusals_of_request_by_the_frame(void)
{
    uint8_t longest[261] = {0, 1, 0, 0, 0, 255, 1, 43};
    begin();
    EXPECT_REFUSED(request(3, 0, ""), ZB_REFUSED_FRAME);
    EXPECT_REFUSED(request(3, 0, "00 01 00 00 00 01 01"), ZB_REFUSED_FRAME);
    EXPECT_REFUSED(pair_request(3, 0, longest, 261, ZB_FRAME_BUFFER), ZB_REFUSED_FRAME);
    EXPECT_REFUSED(request(3, 0, "00 01 00 01 00 06 01 03 04 00 00 01"), ZB_REFUSED_FRAME);
    EXPECT_REFUSED(request(3, 0, "00 01 01 00 00 06 01 03 04 00 00 01"), ZB_REFUSED_FRAME);
    EXPECT_REFUSED(request(3, 0, "00 01 00 00 00 05 01 03 04 00 00 01"), ZB_REFUSED_FRAME);
    EXPECT_REFUSED(request(3, 0, "00 01 00 00 01 06 01 03 04 00 00 01"), ZB_REFUSED_FRAME);
    EXPECT_REFUSED(request(3, 0, "00 01 00 00 00 02 01 00"), ZB_REFUSED_FUNCTION);
    EXPECT_REFUSED(request(3, 0, "00 01 00 00 00 02 01 80"), ZB_REFUSED_FUNCTION);
    EXPECT_REFUSED(request(3, 0, "00 01 00 00 00 06 01 83 04 00 00 01"), ZB_REFUSED_FUNCTION);
    EXPECT_REFUSED(request(3, 0, "00 01 00 00 00 02 01 FF"), ZB_REFUSED_FUNCTION);
    EXPECT_REFUSED(request(3, 0, "00 01 00 00 00 05 01 03 04 00 00"), ZB_REFUSED_LENGTH);
    EXPECT_REFUSED(request(3, 0, "00 01 00 00 00 07 01 04 04 00 00 01 00"), ZB_REFUSED_LENGTH);
    EXPECT_REFUSED(request(3, 0, "00 01 00 00 00 02 01 06"), ZB_REFUSED_LENGTH);
    EXPECT_REFUSED(request(3, 0, "00 01 00 00 00 06 01 10 04 00 00 01"), ZB_REFUSED_LENGTH);
    EXPECT_REFUSED(request(3, 0, "00 01 00 00 00 09 01 10 04 00 00 01 03 00 01"), ZB_REFUSED_LENGTH);
    longest[5] = 254;
    EXPECT(is_issued(pair_request(3, 0, longest, 260, ZB_FRAME_BUFFER), 0));
    EXPECT(is_issued(request(3, 0, "00 01 00 00 00 02 01 7F"), 1));
}

/* Of several refusals that apply the lowest is given. */
static void lowest_refusal_of_request(void)
{
    static const uint8_t bad[] = {0, 1, 0, 1, 0, 6, 1, 0, 4, 0, 0, 1};
    begin();
    tick(10);
    EXPECT_REFUSED(pair_request(99, 5, bad, 12, ZB_FRAME_BUFFER - 1), ZB_REFUSED_BUFFER);
    EXPECT_REFUSED(pair_request(99, 5, bad, 12, ZB_FRAME_BUFFER), ZB_REFUSED_CLIENT);
    EXPECT_REFUSED(pair_request(3, 5, bad, 12, ZB_FRAME_BUFFER), ZB_REFUSED_TIME);
    EXPECT_REFUSED(pair_request(3, 10, bad, 12, ZB_FRAME_BUFFER), ZB_REFUSED_FRAME);
    EXPECT_REFUSED(request(3, 10, "00 01 00 00 00 03 01 00 00"), ZB_REFUSED_FUNCTION);
    EXPECT_REFUSED(request(3, 10, "00 01 00 00 00 03 01 03 00"), ZB_REFUSED_LENGTH);
}

static void refusals_of_reply_and_tick(void)
{
    static const uint8_t good[] = {0, 0, 0, 0, 0, 5, 1, 3, 2, 0x12, 0x34};
    begin();
    request(3, 10, "12 34 00 00 00 06 01 03 04 00 00 01");
    EXPECT_REFUSED(pair_reply(10, good, 11, ZB_FRAME_BUFFER - 1, ZB_LIST_BUFFER), ZB_REFUSED_BUFFER);
    EXPECT_REFUSED(pair_reply(10, good, 11, ZB_FRAME_BUFFER, ZB_LIST_BUFFER - 1), ZB_REFUSED_BUFFER);
    EXPECT_REFUSED(pair_reply(9, good, 11, ZB_FRAME_BUFFER, ZB_LIST_BUFFER), ZB_REFUSED_TIME);
    EXPECT_REFUSED(pair_reply(UINT64_MAX, good, 11, ZB_FRAME_BUFFER, ZB_LIST_BUFFER), ZB_REFUSED_TIME);
    EXPECT_REFUSED(pair_reply(10, good, 7, ZB_FRAME_BUFFER, ZB_LIST_BUFFER), ZB_REFUSED_FRAME);
    EXPECT_REFUSED(pair_reply(10, good, 10, ZB_FRAME_BUFFER, ZB_LIST_BUFFER), ZB_REFUSED_FRAME);
    EXPECT_REFUSED(reply(10, "00 00 00 01 00 05 01 03 02 12 34"), ZB_REFUSED_FRAME);
    EXPECT_REFUSED(reply(10, "00 01 00 00 00 05 01 03 02 12 34"), ZB_REFUSED_UNKNOWN);
    EXPECT_REFUSED(reply(10, "00 00 00 00 00 05 01 05 02 12 34"), ZB_REFUSED_MISMATCH);
    EXPECT_REFUSED(pair_reply(9, good, 7, 0, 0), ZB_REFUSED_BUFFER);
    EXPECT_REFUSED(pair_reply(9, good, 7, ZB_FRAME_BUFFER, ZB_LIST_BUFFER), ZB_REFUSED_TIME);
    EXPECT_REFUSED(pair_tick(5000, ZB_FRAME_BUFFER - 1, ZB_LIST_BUFFER), ZB_REFUSED_BUFFER);
    EXPECT_REFUSED(pair_tick(5000, ZB_FRAME_BUFFER, ZB_LIST_BUFFER - 1), ZB_REFUSED_BUFFER);
    EXPECT_REFUSED(pair_tick(9, 0, 0), ZB_REFUSED_BUFFER);
    EXPECT_REFUSED(tick(9), ZB_REFUSED_TIME);
    EXPECT_REFUSED(tick((uint64_t)1 << 63), ZB_REFUSED_TIME);
    EXPECT(pair_reply(10, good, 11, ZB_FRAME_BUFFER, ZB_LIST_BUFFER).outcome == ZB_ANSWERED);
}

static void splitting(void)
{
    EXPECT(split("").outcome == ZB_MORE && split("00 01 00 09 00").outcome == ZB_MORE);
    EXPECT_REFUSED(split("00 01 00 01 00 06"), ZB_REFUSED_FRAME);
    EXPECT_REFUSED(split("00 01 00 00 00 01"), ZB_REFUSED_FRAME);
    EXPECT_REFUSED(split("00 01 00 00 00 FF"), ZB_REFUSED_FRAME);
    EXPECT_REFUSED(split("00 01 00 00 01 02"), ZB_REFUSED_FRAME);
    EXPECT(split("00 01 00 00 00 02").outcome == ZB_MORE && split("00 01 00 00 00 FE 01").outcome == ZB_MORE);
    zb_answer a = split("00 01 00 00 00 02 01 07 00 02 00");
    EXPECT(a.outcome == ZB_FRAME && a.length == 8 && a.refusal == 0);
}

/* Settings */

static zb_answer read_text(const char *text)
{
    return pair_settings_read((const uint8_t *)text, strlen(text));
}

static bool is_wrong_at(zb_answer a, uint32_t line)
{
    const zb_answer whole = {.refusal = ZB_REFUSED_SETTINGS, .line = line};
    return memcmp(&a, &whole, sizeof a) == 0;
}

/* Read without a refusal, or wrong at the line. */
static bool is_read_so(zb_answer a, uint32_t line)
{
    const zb_answer done = {.outcome = ZB_DONE};
    return line ? is_wrong_at(a, line) : memcmp(&a, &done, sizeof a) == 0;
}

static void texts(void)
{
    static const struct { const char *text; uint32_t line; } rows[] = {
        {"", 1}, {"version=0\n", 1}, {"version=5\n", 1}, {"version=1", 1}, {"version=01\n", 1}, {" version=1\n", 1},
        {"version=1\n", 2},
        {"version=1\ntimeout=99\n", 2}, {"version=1\ntimeout=60001\n", 2}, {"version=1\r\ntimeout=100\n", 1},
        {"version=1\ntimeout=0100\n", 2}, {"version=1\ntimeout=100\njoin=2\n", 3},
        {"version=1\ntimeout=100\njoin=\n", 3},
        {"version=1\ntimeout=100\njoin=0\ntags=257\n", 4}, {"version=1\ntimeout=100\njoin=0\ntags=0", 4},
        {"version=1\ntimeout=100\njoin=0\ntags=0\n", 0}, {"version=1\ntimeout=60000\njoin=1\ntags=0\n", 0},
        {"version=1\ntimeout=100\njoin=0\ntags=0\n\n", 5}, {"version=1\ntimeout=100\njoin=0\ntags=0\nx", 5},
        {"version=1\ntimeout=100\njoin=0\ntags=1\n", 5}, {"version=1\ntimeout=100\njoin=0\ntags=1\naddr=65536\n", 5},
        {"version=1\ntimeout=100\njoin=0\ntags=1\naddr=65535\nwidth=32\n", 6},
        {"version=1\ntimeout=100\njoin=0\ntags=1\naddr=65535\nwidth=16\n", 0},
        {"version=1\ntimeout=100\njoin=0\ntags=1\naddr=65534\nwidth=32\n", 0},
        {"version=1\ntimeout=100\njoin=0\ntags=1\naddr=0\nwidth=24\n", 6},
        {"version=1\ntimeout=100\njoin=0\ntags=2\naddr=5\nwidth=32\naddr=6\nwidth=16\n", 7},
        {"version=1\ntimeout=100\njoin=0\ntags=2\naddr=5\nwidth=32\naddr=7\nwidth=16\n", 0},
        {"version=1\ntimeout=100\njoin=0\ntags=3\naddr=5\nwidth=32\naddr=7\nwidth=16\n", 9},
        {"version=1\ntimeout=4294967396\njoin=0\ntags=0\n", 2}, {"version=1\njoin=0\ntimeout=100\ntags=0\n", 2},
    };
    for (size_t n = 0; n < sizeof rows / sizeof *rows; n++)
        expect(is_read_so(read_text(rows[n].text), rows[n].line), rows[n].text, __LINE__);
}

#define VERSION_1 "version=1\ntimeout=100\njoin=0\n"
#define VERSION_2 "version=2\ntimeout=100\njoin=0\n"
#define VERSION_3 "version=3\ntimeout=100\njoin=0\n"
#define VERSION_4 "version=4\ntimeout=100\njoin=0\n"
#define TAG_5 "addr=5\nwidth=16\nsign=1\n"
#define TAG_6 "addr=6\nwidth=32\nsign=0\n"
#define WITH_TTL_5 TAG_5 "ttl=7\n"
#define WITH_TTL_6 TAG_6 "ttl=8\n"

/* A sign line behind each width line from version 2 on, and none in version 1. */
static void texts_with_signs(void)
{
    static const struct { const char *text; uint32_t line; } rows[] = {
        {"version=2", 1}, {"version=02\n", 1}, {"version=2\n", 2}, {"version=12\n", 1}, {"version=20\n", 1},
        {VERSION_2, 4}, {VERSION_2 "tags=0\n", 0}, {VERSION_2 "tags=0\nsign=0\n", 5},
        {VERSION_2 "tags=1\naddr=5\nwidth=16\n", 7}, {VERSION_2 "tags=1\naddr=5\nwidth=16\nsign=0\n", 0},
        {VERSION_2 "tags=1\naddr=5\nwidth=16\nsign=1\n", 0}, {VERSION_2 "tags=1\naddr=5\nwidth=16\nsign=2\n", 7},
        {VERSION_2 "tags=1\naddr=5\nwidth=32\nsign=0\n", 0}, {VERSION_2 "tags=1\naddr=5\nwidth=32\nsign=1\n", 7},
        {VERSION_2 "tags=1\naddr=5\nwidth=24\nsign=0\n", 6}, {VERSION_2 "tags=1\naddr=65536\nwidth=16\nsign=0\n", 5},
        {VERSION_2 "tags=1\naddr=65535\nwidth=16\nsign=1\n", 0}, {VERSION_2 "tags=1\naddr=65535\nwidth=32\nsign=0\n", 6},
        {VERSION_2 "tags=1\naddr=5\nwidth=16\nsign=0", 7}, {VERSION_2 "tags=1\naddr=5\nwidth=16\nsign=0\n\n", 8},
        {VERSION_2 "tags=1\naddr=5\nwidth=16\nsign=0\nsign=0\n", 8}, {VERSION_2 "tags=1\naddr=5\nsign=0\nwidth=16\n", 6},
        {VERSION_2 "tags=1\naddr=5\nwidth=16\nsign=\n", 7}, {VERSION_2 "tags=1\naddr=5\nwidth=16\nsign=01\n", 7},
        {VERSION_2 "tags=1\naddr=5\nwidth=16\nsign=00\n", 7}, {VERSION_2 "tags=1\naddr=5\nwidth=16\nsign=-1\n", 7},
        {VERSION_2 "tags=1\naddr=5\nwidth=16\nsign=+1\n", 7}, {VERSION_2 "tags=1\naddr=5\nwidth=16\nsign=10\n", 7},
        {VERSION_2 "tags=1\naddr=5\nwidth=16\nsign=256\n", 7}, {VERSION_2 "tags=1\naddr=5\nwidth=16\nsign=65537\n", 7},
        {VERSION_2 "tags=1\naddr=5\nwidth=16\nsign=4294967297\n", 7},
        {VERSION_2 "tags=1\naddr=5\nwidth=16\nSign=0\n", 7}, {VERSION_2 "tags=1\naddr=5\nwidth=16\nsign=0\r\n", 7},
        {VERSION_2 "tags=2\naddr=5\nwidth=16\naddr=6\nwidth=16\n", 7},
        {VERSION_2 "tags=2\naddr=5\nwidth=16\nsign=1\naddr=5\nwidth=16\nsign=0\n", 8},
        {VERSION_2 "tags=2\naddr=5\nwidth=16\nsign=1\naddr=6\nwidth=8\nsign=0\n", 9},
        {VERSION_2 "tags=2\naddr=5\nwidth=16\nsign=1\naddr=6\nwidth=32\nsign=1\n", 10},
        {VERSION_2 "tags=2\naddr=5\nwidth=16\nsign=1\naddr=6\nwidth=16\n", 10},
        {VERSION_2 "tags=2\naddr=5\nwidth=16\nsign=1\naddr=6\nwidth=16\nsign=1\n", 0},
        {VERSION_2 "tags=2\naddr=5\nwidth=32\nsign=0\naddr=6\nwidth=16\nsign=1\n", 8},
        {VERSION_2 "tags=2\naddr=5\nwidth=32\nsign=0\naddr=7\nwidth=16\nsign=1\n", 0},
        {VERSION_2 "tags=2\naddr=5\nwidth=16\nsign=1\naddr=6\nwidth=16\nsign=1\nx", 11},
        {VERSION_2 "tags=3\naddr=5\nwidth=16\nsign=1\naddr=6\nwidth=16\nsign=1\n", 11},
        {VERSION_1 "tags=1\naddr=5\nwidth=16\nsign=0\n", 7},
        {VERSION_1 "tags=2\naddr=5\nwidth=16\nsign=0\naddr=6\nwidth=16\nsign=0\n", 7},
        {VERSION_1 "tags=2\naddr=5\nwidth=16\naddr=6\nwidth=16\nsign=0\n", 9},
    };
    for (size_t n = 0; n < sizeof rows / sizeof *rows; n++)
        expect(is_read_so(read_text(rows[n].text), rows[n].line), rows[n].text, __LINE__);
}

/* A ttl line behind each sign line from version 3 on, and none in the older versions. */
static void texts_with_ttls(void)
{
    static const struct { const char *text; uint32_t line; } rows[] = {
        {"version=3", 1}, {"version=03\n", 1}, {"version=3\n", 2}, {"version=13\n", 1}, {"version=30\n", 1},
        {VERSION_3, 4}, {VERSION_3 "tags=0\n", 0}, {VERSION_3 "tags=0\nttl=0\n", 5},
        {VERSION_3 "tags=1\n" TAG_5, 8}, {VERSION_3 "tags=1\n" TAG_5 "ttl=0\n", 0}, {VERSION_3 "tags=1\n" TAG_5 "ttl=1\n", 0},
        {VERSION_3 "tags=1\n" TAG_5 "ttl=59999\n", 0}, {VERSION_3 "tags=1\n" TAG_5 "ttl=60000\n", 0},
        {VERSION_3 "tags=1\n" TAG_5 "ttl=60001\n", 8}, {VERSION_3 "tags=1\n" TAG_5 "ttl=65536\n", 8},
        {VERSION_3 "tags=1\n" TAG_5 "ttl=65537\n", 8}, {VERSION_3 "tags=1\n" TAG_5 "ttl=100000\n", 8},
        {VERSION_3 "tags=1\n" TAG_5 "ttl=4294967296\n", 8}, {VERSION_3 "tags=1\n" TAG_5 "ttl=\n", 8},
        {VERSION_3 "tags=1\n" TAG_5 "ttl=00\n", 8}, {VERSION_3 "tags=1\n" TAG_5 "ttl=0500\n", 8},
        {VERSION_3 "tags=1\n" TAG_5 "ttl=-1\n", 8}, {VERSION_3 "tags=1\n" TAG_5 "ttl=+1\n", 8},
        {VERSION_3 "tags=1\n" TAG_5 "ttl= 1\n", 8}, {VERSION_3 "tags=1\n" TAG_5 "ttl=1\r\n", 8},
        {VERSION_3 "tags=1\n" TAG_5 "Ttl=1\n", 8}, {VERSION_3 "tags=1\n" TAG_5 "tt=1\n", 8}, {VERSION_3 "tags=1\n" TAG_5 "ttl=1", 8},
        {VERSION_3 "tags=1\n" TAG_5 "ttl=1\n\n", 9}, {VERSION_3 "tags=1\n" TAG_5 "ttl=1\nttl=1\n", 9},
        {VERSION_3 "tags=1\naddr=5\nwidth=16\nttl=0\nsign=0\n", 7}, {VERSION_3 "tags=1\naddr=5\nwidth=32\nsign=1\nttl=0\n", 7},
        {VERSION_3 "tags=1\naddr=65536\nwidth=16\nsign=0\nttl=0\n", 5}, {VERSION_3 "tags=1\naddr=5\nwidth=24\nsign=0\nttl=0\n", 6},
        {VERSION_3 "tags=2\n" TAG_5 "ttl=7\n" TAG_6 "ttl=60000\n", 0}, {VERSION_3 "tags=2\n" TAG_5 "ttl=7\n" TAG_6 "ttl=60001\n", 12},
        {VERSION_3 "tags=2\n" TAG_5 "ttl=7\n" TAG_6, 12}, {VERSION_3 "tags=2\n" TAG_5 "ttl=7\n" TAG_5 "ttl=7\n", 9},
        {VERSION_3 "tags=2\n" TAG_5 "ttl=7\naddr=6\nwidth=8\nsign=0\nttl=0\n", 10},
        {VERSION_3 "tags=2\n" TAG_5 "ttl=7\naddr=6\nwidth=32\nsign=1\nttl=0\n", 11},
        {VERSION_3 "tags=2\n" TAG_5 "ttl=7\n" TAG_6 "ttl=8\nx", 13}, {VERSION_3 "tags=3\n" TAG_5 "ttl=7\n" TAG_6 "ttl=8\n", 13},
        {VERSION_2 "tags=1\n" TAG_5 "ttl=0\n", 8}, {VERSION_2 "tags=2\n" TAG_5 "ttl=0\n" TAG_6 "ttl=0\n", 8},
        {VERSION_2 "tags=2\n" TAG_5 TAG_6 "ttl=0\n", 11}, {VERSION_3 "tags=2\n" TAG_5 TAG_6, 8},
        {VERSION_1 "tags=1\naddr=5\nwidth=16\nttl=0\n", 7}, {VERSION_1 "tags=1\n" TAG_5 "ttl=0\n", 7},
    };
    for (size_t n = 0; n < sizeof rows / sizeof *rows; n++)
        expect(is_read_so(read_text(rows[n].text), rows[n].line), rows[n].text, __LINE__);
}

/* A strict line behind each ttl line in version 4, and none in the older versions. */
static void texts_with_stricts(void)
{
    static const struct { const char *text; uint32_t line; } rows[] = {
        {"version=4", 1}, {"version=04\n", 1}, {"version=4\n", 2}, {"version=14\n", 1}, {"version=40\n", 1}, {"version=5\n", 1},
        {"version=9\n", 1}, {"version=10\n", 1}, {"version=-4\n", 1}, {"version=4294967300\n", 1},
        {VERSION_4, 4}, {VERSION_4 "tags=0\n", 0}, {VERSION_4 "tags=0\nstrict=0\n", 5}, {VERSION_4 "tags=1\n" WITH_TTL_5, 9},
        {VERSION_4 "tags=1\n" WITH_TTL_5 "strict=0\n", 0}, {VERSION_4 "tags=1\n" WITH_TTL_5 "strict=1\n", 0},
        {VERSION_4 "tags=1\n" WITH_TTL_6 "strict=0\n", 0}, {VERSION_4 "tags=1\n" WITH_TTL_6 "strict=1\n", 0},
        {VERSION_4 "tags=1\n" WITH_TTL_5 "strict=2\n", 9}, {VERSION_4 "tags=1\n" WITH_TTL_5 "strict=10\n", 9},
        {VERSION_4 "tags=1\n" WITH_TTL_5 "strict=256\n", 9}, {VERSION_4 "tags=1\n" WITH_TTL_5 "strict=65536\n", 9},
        {VERSION_4 "tags=1\n" WITH_TTL_5 "strict=65537\n", 9}, {VERSION_4 "tags=1\n" WITH_TTL_5 "strict=4294967297\n", 9},
        {VERSION_4 "tags=1\n" WITH_TTL_5 "strict=\n", 9}, {VERSION_4 "tags=1\n" WITH_TTL_5 "strict=00\n", 9},
        {VERSION_4 "tags=1\n" WITH_TTL_5 "strict=01\n", 9}, {VERSION_4 "tags=1\n" WITH_TTL_5 "strict=-1\n", 9},
        {VERSION_4 "tags=1\n" WITH_TTL_5 "strict=+1\n", 9}, {VERSION_4 "tags=1\n" WITH_TTL_5 "strict= 1\n", 9},
        {VERSION_4 "tags=1\n" WITH_TTL_5 "strict=1\r\n", 9}, {VERSION_4 "tags=1\n" WITH_TTL_5 "Strict=1\n", 9},
        {VERSION_4 "tags=1\n" WITH_TTL_5 "stric=1\n", 9}, {VERSION_4 "tags=1\n" WITH_TTL_5 "strict=1", 9},
        {VERSION_4 "tags=1\n" WITH_TTL_5 "strict=1\n\n", 10}, {VERSION_4 "tags=1\n" WITH_TTL_5 "strict=1\nstrict=1\n", 10},
        {VERSION_4 "tags=1\n" TAG_5 "strict=0\nttl=7\n", 8}, {VERSION_4 "tags=1\n" TAG_5 "ttl=60001\nstrict=1\n", 8},
        {VERSION_4 "tags=1\naddr=5\nwidth=32\nsign=1\nttl=0\nstrict=1\n", 7},
        {VERSION_4 "tags=1\naddr=5\nwidth=24\nsign=0\nttl=0\nstrict=1\n", 6},
        {VERSION_4 "tags=1\naddr=65536\nwidth=16\nsign=0\nttl=0\nstrict=1\n", 5},
        {VERSION_4 "tags=2\n" WITH_TTL_5 "strict=1\n" WITH_TTL_6 "strict=1\n", 0},
        {VERSION_4 "tags=2\n" WITH_TTL_5 "strict=1\n" WITH_TTL_6 "strict=2\n", 14},
        {VERSION_4 "tags=2\n" WITH_TTL_5 "strict=1\n" WITH_TTL_6, 14},
        {VERSION_4 "tags=2\n" WITH_TTL_5 "strict=1\n" WITH_TTL_5 "strict=1\n", 10},
        {VERSION_4 "tags=2\n" WITH_TTL_5 "strict=1\naddr=6\nwidth=32\nsign=1\nttl=0\nstrict=1\n", 12},
        {VERSION_4 "tags=2\n" WITH_TTL_5 "strict=1\n" TAG_6 "ttl=60001\nstrict=0\n", 13},
        {VERSION_4 "tags=2\n" WITH_TTL_5 "strict=1\n" WITH_TTL_6 "strict=0\nx", 15},
        {VERSION_4 "tags=3\n" WITH_TTL_5 "strict=1\n" WITH_TTL_6 "strict=0\n", 15},
        {VERSION_4 "tags=2\n" WITH_TTL_5 WITH_TTL_6, 9}, {VERSION_3 "tags=1\n" WITH_TTL_5 "strict=0\n", 9},
        {VERSION_3 "tags=2\n" WITH_TTL_5 "strict=0\n" WITH_TTL_6 "strict=0\n", 9},
        {VERSION_3 "tags=2\n" WITH_TTL_5 WITH_TTL_6 "strict=0\n", 13}, {VERSION_2 "tags=1\n" TAG_5 "strict=0\n", 8},
        {VERSION_1 "tags=1\naddr=5\nwidth=16\nstrict=0\n", 7},
    };
    for (size_t n = 0; n < sizeof rows / sizeof *rows; n++)
        expect(is_read_so(read_text(rows[n].text), rows[n].line), rows[n].text, __LINE__);
}

static const char text_with_ttls[] =
    "version=3\ntimeout=3000\njoin=1\ntags=4\naddr=1024\nwidth=16\nsign=0\nttl=500\naddr=1026\nwidth=32\nsign=0\nttl=60000\n"
    "addr=1028\nwidth=16\nsign=1\nttl=0\naddr=1029\nwidth=32\nsign=0\nttl=1\n";

static const char text_with_stricts[] =
    "version=4\ntimeout=3000\njoin=1\ntags=4\naddr=1024\nwidth=16\nsign=0\nttl=500\nstrict=1\n"
    "addr=1026\nwidth=32\nsign=0\nttl=60000\nstrict=0\naddr=1028\nwidth=16\nsign=1\nttl=0\nstrict=1\n"
    "addr=1029\nwidth=32\nsign=0\nttl=1\nstrict=1\n";

/* A right text with one line replaced, cut short at its end, left out or there twice: wrong at that line, or behind it. */
static void damage_each_line(const char *text, uint32_t lines)
{
    const char *line = text;
    char damaged[320];
    EXPECT(read_text(text).outcome == ZB_DONE);
    for (uint32_t n = 1; n <= lines; n++) {
        const char *end = strchr(line, '\n') + 1;
        int before = (int)(line - text), size = (int)(end - line);
        snprintf(damaged, sizeof damaged, "%.*sx=1\n%s", before, text, end);
        expect(is_wrong_at(read_text(damaged), n), damaged, __LINE__);
        snprintf(damaged, sizeof damaged, "%.*s", before + size - 1, text);
        expect(is_wrong_at(read_text(damaged), n), damaged, __LINE__);
        snprintf(damaged, sizeof damaged, "%.*s%s", before, text, end);
        expect(is_wrong_at(read_text(damaged), n), damaged, __LINE__);
        snprintf(damaged, sizeof damaged, "%.*s%.*s%s", before + size, text, size, line, end);
        expect(is_wrong_at(read_text(damaged), n + 1), damaged, __LINE__);
        line = end;
    }
    EXPECT(*line == 0);
}

static void wrong_at_each_line(void)
{
    damage_each_line(text_of_the_document, 8);
    damage_each_line(text_of_version_2, 10);
    damage_each_line(text_of_version_3, 12);
    damage_each_line(text_written_of_the_document, 14);
    damage_each_line(text_with_a_sign, 16);
    damage_each_line(text_with_ttls, 20);
    damage_each_line(text_with_stricts, 24);
}

/* Read without a refusal to this value; without its last byte wrong at its last line, and then the usual value. */
static void is_text_of(const char *text, uint32_t lines, const zb_settings *s)
{
    size_t size = strlen(text);
    zb_read r = zb_settings_read((const uint8_t *)text, size);
    EXPECT(r.answer.outcome == ZB_DONE && memcmp(&r.settings, s, sizeof *s) == 0);
    r = zb_settings_read((const uint8_t *)text, size - 1);
    EXPECT(is_wrong_at(r.answer, lines) && r.settings.timeout == 3000 && r.settings.join == 1 && r.settings.tags == 0);
}

/* Document 01's text is of version 1 and has 75 bytes; what is written of its value is of version 4 and has 119. */
static void text_of_75_bytes(void)
{
    const zb_settings s = {
        .timeout = 3000, .join = 1, .tags = 2, .addr = {1024, 1026}, .width = {16, 32}, /* every sign, ttl and strict 0 */
    };
    uint8_t written[120] = {0};
    EXPECT(strlen(text_of_the_document) == 75 && strlen(text_of_version_2) == 89 && strlen(text_of_version_3) == 101);
    is_text_of(text_of_the_document, 8, &s);
    is_text_of(text_of_version_2, 10, &s);
    is_text_of(text_of_version_3, 12, &s);
    is_text_of(text_written_of_the_document, 14, &s);
    EXPECT(pair_settings_write(&s, 119).length == 119);
    EXPECT_REFUSED(pair_settings_write(&s, 118), ZB_REFUSED_BUFFER);
    EXPECT_REFUSED(pair_settings_write(&s, 101), ZB_REFUSED_BUFFER);
    EXPECT_REFUSED(pair_settings_write(&s, 89), ZB_REFUSED_BUFFER);
    EXPECT_REFUSED(pair_settings_write(&s, 75), ZB_REFUSED_BUFFER);
    EXPECT(zb_settings_write(&s, written, 119).length == 119 && memcmp(written, text_written_of_the_document, 120) == 0);
}

/* What is written of the value has the length of the text, and is that text or another. */
static void is_written_so(const zb_settings *s, const char *text, bool same)
{
    uint8_t written[320] = {0};
    size_t size = strlen(text);
    EXPECT(pair_settings_write(s, size).length == size);
    EXPECT_REFUSED(pair_settings_write(s, size - 1), ZB_REFUSED_BUFFER);
    EXPECT(zb_settings_write(s, written, size).length == size && (memcmp(written, text, size) == 0) == same);
}

/* A text with signs, ttls and stricts is written as it was read; with another of these it is another, of the same length. */
static void text_with_stricts_comes_back(void)
{
    zb_settings s = {
        .timeout = 3000, .join = 1, .tags = 4, .addr = {1024, 1026, 1028, 1029}, .width = {16, 32, 16, 32}, .sign = {0, 0, 1, 0},
        .ttl = {500, 60000, 0, 1}, .strict = {1, 0, 1, 1},
    };
    is_text_of(text_with_stricts, 24, &s);
    is_written_so(&s, text_with_stricts, true);
    s.sign[2] = 0;
    is_written_so(&s, text_with_stricts, false);
    s.sign[2] = 1;
    s.ttl[3] = 2;
    is_written_so(&s, text_with_stricts, false);
    s.ttl[3] = 1;
    s.strict[1] = 1;
    is_written_so(&s, text_with_stricts, false);
    s.strict[1] = s.strict[3] = 0;
    is_written_so(&s, text_with_stricts, false);
    /* the texts of versions 3 and 2 with the same ttls and signs: the value without its stricts, and without its ttls */
    memset(s.strict, 0, sizeof s.strict);
    is_text_of(text_with_ttls, 20, &s);
    EXPECT(pair_settings_write(&s, 320).length == strlen(text_with_ttls) + 4 * strlen("strict=0\n"));
    memset(s.ttl, 0, sizeof s.ttl);
    is_text_of(text_with_a_sign, 16, &s);
    EXPECT(pair_settings_write(&s, 320).length == strlen(text_with_a_sign) + 4 * strlen("ttl=0\nstrict=0\n"));
}

/* 256 tags with five digits each, of the two widths, from version 2 on with signs by turns, from version 3 on with the
   largest ttl and from version 4 on all of one strictness: the longest of a version. */
static size_t put_longest(char *text, int version, unsigned strict)
{
    size_t size = (size_t)sprintf(text, "version=%d\ntimeout=60000\njoin=1\ntags=256\n", version);
    for (int t = 0; t < 256; t++) {
        size += (size_t)sprintf(text + size, "addr=%d\nwidth=%d\n", 10000 + 2 * t, t % 2 ? 16 : 32);
        if (version >= 2)
            size += (size_t)sprintf(text + size, "sign=%d\n", t % 2);
        if (version >= 3)
            size += (size_t)sprintf(text + size, "ttl=60000\n");
        if (version >= 4)
            size += (size_t)sprintf(text + size, "strict=%u\n", strict);
    }
    return size;
}

/* The longest text of a version is read to the value, and is wrong with a byte more or less; under another version's number
   it is wrong at the first line that only one of them has. What is written of the value has `length` bytes. */
static void longest_text(int version, size_t size, uint32_t lines, const zb_settings *s, size_t length)
{
    static char text[ZB_MOST_TEXT + 2];
    static uint8_t written[ZB_MOST_TEXT];
    EXPECT(put_longest(text, version, s->strict[0]) == size);
    EXPECT(pair_settings_read((const uint8_t *)text, size).outcome == ZB_DONE);
    EXPECT(is_wrong_at(pair_settings_read((const uint8_t *)text, size + 1), lines + 1));
    EXPECT(is_wrong_at(pair_settings_read((const uint8_t *)text, size - 1), lines));
    zb_read r = zb_settings_read((const uint8_t *)text, size);
    EXPECT(memcmp(&r.settings, s, sizeof *s) == 0);
    EXPECT(pair_settings_write(s, length).length == length);
    EXPECT_REFUSED(pair_settings_write(s, length - 1), ZB_REFUSED_BUFFER);
    EXPECT(zb_settings_write(s, written, length).length == length);
    if (version == 4)
        EXPECT(length == size && memcmp(written, text, size) == 0);
    for (int other = 1; other <= 4; other++) {
        text[8] = (char)('0' + other);
        if (other != version)
            EXPECT(is_wrong_at(pair_settings_read((const uint8_t *)text, size),
                               6 + (uint32_t)(other < version ? other : version)));
    }
    text[8] = '5';
    EXPECT(is_wrong_at(pair_settings_read((const uint8_t *)text, size), 1));
}

static void longest_texts(void)
{
    zb_settings s = {.timeout = 60000, .join = 1, .tags = 256};
    for (uint32_t t = 0; t < 256; t++) {
        s.addr[t] = (uint16_t)(10000 + 2 * t);
        s.width[t] = t % 2 ? 16 : 32;
        s.sign[t] = t % 2;
        s.ttl[t] = 60000;
        s.strict[t] = 1;
    }
    longest_text(4, 11816, 1284, &s, 11816);
    memset(s.strict, 0, sizeof s.strict);
    longest_text(4, 11816, 1284, &s, 11816);
    longest_text(3, 9512, 1028, &s, 11816);
    memset(s.ttl, 0, sizeof s.ttl);
    longest_text(2, 6952, 772, &s, 10792);
    memset(s.sign, 0, sizeof s.sign);
    longest_text(1, 5160, 516, &s, 10792);
}

/* A value that is refused leaves a fresh state beside the refusal: nobody attached, timeout 3000, joining on, no tags. */
static void is_invalid(const zb_settings *bad)
{
    EXPECT_REFUSED(pair_settings_write(bad, ZB_MOST_TEXT), ZB_REFUSED_SETTINGS);
    EXPECT_REFUSED(pair_settings_write(bad, 0), ZB_REFUSED_SETTINGS);
    EXPECT_REFUSED(pair_fresh(bad), ZB_REFUSED_SETTINGS);
    EXPECT_REFUSED(pair_detach(3), ZB_REFUSED_CLIENT);
    EXPECT(pair_attach(3).outcome == ZB_DONE);
    EXPECT(is_issued(request(3, 0, "00 01 00 00 00 06 01 03 04 00 00 01"), 0));
    EXPECT(request(3, 0, "00 01 00 00 00 06 01 03 04 00 00 01").outcome == ZB_JOINED);
    EXPECT(wrote(request(3, 0, "00 01 00 00 00 06 01 06 04 00 27 0F"), "00 01 00 00 00 06 01 06 04 00 27 0F"));
    EXPECT(tick(2999).outcome == ZB_NOTHING_DUE && tick(3000).outcome == ZB_TIMED_OUT);
}

/* Valid, with a text of so many bytes. */
static bool is_valid(const zb_settings *good, uint32_t length)
{
    return pair_fresh(good).outcome == ZB_DONE && pair_settings_write(good, length).length == length;
}

static void invalid_settings(void)
{
    enum { BAD = 23 };
    zb_settings bad[BAD];
    for (int n = 0; n < BAD; n++)
        bad[n] = settings_of_the_document();
    bad[0].timeout = 99;
    bad[1].timeout = 60001;
    bad[2].join = 2;
    bad[3].tags = 257;
    bad[4].tags = 3; /* its third place is all zeros */
    bad[5].width[0] = 24;
    bad[6].addr[1] = 1024;
    bad[7].addr[1] = 65535;
    bad[8].tags = UINT32_MAX;
    bad[9].sign[0] = 2;
    bad[10].sign[0] = 256;
    bad[11].sign[0] = 65535;
    bad[12].sign[1] = 1; /* its width is 32 */
    bad[13].sign[1] = 2;
    bad[14].ttl[0] = 60001;
    bad[15].ttl[0] = 65535;
    bad[16].ttl[1] = 60001;
    bad[17].ttl[1] = 65535;
    bad[18].strict[0] = 2;
    bad[19].strict[0] = 256;
    bad[20].strict[0] = 65535;
    bad[21].strict[1] = 2;
    bad[22].strict[1] = 65535;
    for (int n = 0; n < BAD; n++)
        is_invalid(&bad[n]);
}

/* An unused place never makes a value invalid. */
static void valid_settings(void)
{
    zb_settings good = settings_of_the_document();
    good.addr[200] = 1;
    good.sign[2] = 2;
    good.width[255] = 32;
    good.sign[255] = 1;
    good.ttl[2] = 60001;
    good.ttl[255] = 65535;
    good.strict[2] = 2;
    good.strict[255] = 65535;
    EXPECT(is_valid(&good, 119));
    good.sign[0] = 1; /* of width 16 */
    EXPECT(is_valid(&good, 119));
    good.ttl[0] = 1;
    good.ttl[1] = 60000;
    EXPECT(is_valid(&good, 123));
    good.strict[0] = good.strict[1] = 1; /* of any kind */
    EXPECT(is_valid(&good, 123));
}

int main(void)
{
    static void (*const all[])(void) = {
        sizes_and_offsets, fields_are_where_the_header_says, device_of_zeros, p1_to_p8, p9_to_p12,
        quantities_and_starts, longest_write, full_entry_ends, struck_out_of_a_full_table, last_place_and_the_next,
        single_writes, signed_writes, signed_reads, signed_echoes, signed_beside_cut_tags, every_signed_word,
        writes_close_what_they_meet, writes_close_both_reads_of_their_table, unissued_writes_close_nothing,
        closed_reads_end_as_before, a_hit, lives, keys_beside_each_other, the_longest_and_the_latest, what_an_issue_drops,
        what_drops_nothing, who_fills, a_reply_over_its_own_key, a_hit_before_a_join, refusals_before_a_hit, fresh_is_empty,
        the_64th_key_and_the_next, one_expired_in_the_middle, ties_to_the_lowest, which_place_a_reply_takes,
        strict_of_width_16, strict_of_width_32, strict_with_a_sign, strict_beside_others, what_comes_before_a_strict_tag,
        forbidden_writes_close_and_drop_nothing, strict_tags_are_read, echoes_of_strict_tags, every_strict_word,
        mask_writes, echoes_of_mask_writes, mask_writes_and_tags, read_and_write, replies_to_read_and_write,
        lengths_of_read_and_write, quantities_of_read_and_write, ranges_of_read_and_write, parts_that_cut_tags,
        parts_with_values, strict_by_23, strict_in_the_read_part, what_comes_before_22_and_23, masks_close_what_they_meet,
        both_close_by_the_write_part, both_close_nothing_by_the_read_part, neither_joins, what_22_and_23_drop,
        read_and_write_beside_the_cache, words_of_22_and_23, reading_back,
        cursor_and_clock_stay_after_a_lost_link, struck_room_and_successor, left_by_all,
        due_is_not_joined, next_deadline, mismatched_reply_leaves_the_entry, refusals_of_attach_and_detach,
        refusals_of_request_before_the_frame, refusals_of_request_by_the_frame, lowest_refusal_of_request,
        refusals_of_reply_and_tick, splitting, texts, texts_with_signs, texts_with_ttls, texts_with_stricts,
        wrong_at_each_line, text_of_75_bytes, text_with_stricts_comes_back, longest_texts, invalid_settings, valid_settings,
    };
    pair_open(0);
    for (size_t n = 0; n < sizeof all / sizeof *all; n++)
        all[n]();
    printf("examples: %u checks in %llu calls against the model, %u differences\n", checks,
           (unsigned long long)pair_calls(), wrong);
    return wrong != 0;
}
