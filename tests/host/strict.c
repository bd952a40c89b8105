/* The ledger of strict tags (#108) and of tags under 22 and 23 (#109), kept from calls and outcomes alone, by document 02's
   words and not by the model's: by how many digits C prints of a number and by how it prints a word, and not by arithmetic
   on digits. */
#include "strict.h"
#include "pair.h"
#include "reached.h"
#include <stdio.h>
#include <stdlib.h>
#include <string.h>

/* Registers in a frame, high byte first. */
typedef struct {
    uint32_t start, quantity;
    const uint8_t *words;
} registers;

/* What keeps a tag raw: a part of it is not in the range, or its value is not in the tag's. */
enum fault { NO_FAULT, CUT, VALUE };

enum { MANY = 60 };

static ledger_write last_forbidden; /* the last write that a tag forbade; its issue: so many came before it */

/* For each tag the last value in its range that was written over all of it, what was sent for it, and by which function;
   0: none was. */
static struct { uint32_t written, sent; uint8_t function; } last_sent[ZB_MOST_TAGS];

void strict_fresh(void)
{
    memset(&last_forbidden, 0, sizeof last_forbidden);
    memset(last_sent, 0, sizeof last_sent);
}

static uint32_t word_at(const uint8_t *bytes)
{
    return (uint32_t)bytes[0] << 8 | bytes[1];
}

/* The registers, as far as there are addresses for them. */
static registers from(uint32_t start, uint32_t quantity, const uint8_t *words)
{
    registers r = {start, quantity > 65536 - start ? 65536 - start : quantity, words};
    return r;
}

/* Where a 16 or 23 says what it writes: start, quantity, byte count, registers. */
static const uint8_t *write_part(const uint8_t *frame)
{
    return frame + (frame[7] == 23 ? 12 : 8);
}

/* What a 06, 16 or 23 writes, as far as there are bytes in the frame for it. */
static registers written_by(const uint8_t *frame)
{
    const uint8_t *part = write_part(frame);
    if (frame[7] == 6)
        return from(word_at(part), 1, part + 2);
    uint32_t quantity = word_at(part + 2);
    return from(word_at(part), quantity < part[4] / 2u ? quantity : part[4] / 2u, part + 5);
}

static uint32_t registers_of(uint32_t tag)
{
    return ledger.settings.width[tag] / 16u;
}

/* How many registers of the tag are among them. */
static uint32_t inside(uint32_t tag, registers r)
{
    uint32_t count = 0;
    for (uint32_t k = 0; k < registers_of(tag); k++) {
        uint32_t at = ledger.settings.addr[tag] + k;
        count += at >= r.start && at - r.start < r.quantity;
    }
    return count;
}

/* The 16 or 32 bits of a tag that is wholly among them, the low word first. */
static uint32_t bits_of(uint32_t tag, registers r)
{
    const uint8_t *words = r.words + 2 * (ledger.settings.addr[tag] - r.start);
    return registers_of(tag) == 2 ? word_at(words + 2) << 16 | word_at(words) : word_at(words);
}

/* A number is in its tag's range if C prints it with no more digits than its kind has. */
static bool is_in_range(uint32_t tag, uint32_t bits)
{
    char digits[16];
    if (ledger.settings.sign[tag])
        return snprintf(digits, sizeof digits, "%d", abs((int16_t)bits)) <= 3;
    return snprintf(digits, sizeof digits, "%lu", (unsigned long)bits) <= (int)(4 * registers_of(tag));
}

/* Four digits or eight; with a sign three behind 0 or F, and not all 0 behind F. */
static bool is_digits(uint32_t tag, uint32_t bits)
{
    char printed[16];
    int length = snprintf(printed, sizeof printed, "%0*lX", (int)(4 * registers_of(tag)), (unsigned long)bits);
    if (!ledger.settings.sign[tag])
        return strspn(printed, "0123456789") == (size_t)length;
    if (strspn(printed + 1, "0123456789") != 3)
        return false;
    return printed[0] == '0' || (printed[0] == 'F' && strcmp(printed + 1, "000") != 0);
}

static enum fault fault_of(uint32_t tag, registers r)
{
    uint32_t count = inside(tag, r);
    if (count == 0)
        return NO_FAULT;
    if (count < registers_of(tag))
        return CUT;
    return is_in_range(tag, bits_of(tag, r)) ? NO_FAULT : VALUE;
}

/* How many tags of the range have this fault. */
static uint32_t tags_raw(registers r, enum fault fault)
{
    uint32_t count = 0;
    for (uint32_t t = 0; t < ledger.settings.tags; t++)
        count += inside(t, r) && fault_of(t, r) == fault;
    return count;
}

/* How many strict or lenient tags of the range there are, with a fault or whole and without one. */
static uint32_t tags_with(registers r, bool strict, bool fault)
{
    uint32_t count = 0;
    for (uint32_t t = 0; t < ledger.settings.tags; t++)
        if (inside(t, r) && (ledger.settings.strict[t] != 0) == strict && (fault_of(t, r) != NO_FAULT) == fault)
            count++;
    return count;
}

/* Document 01's exception 03 or 02 to a 16, and #109's to a 23; 06 gets none. */
static uint32_t code_before(const uint8_t *frame)
{
    const uint8_t *part = write_part(frame);
    bool reads = frame[7] == 23;
    uint32_t quantity = word_at(part + 2), to_read = reads ? word_at(frame + 10) : 1;
    if (frame[7] == 6)
        return 0;
    if (quantity < 1 || quantity > (reads ? 121 : 123) || part[4] != 2 * quantity || to_read < 1 || to_read > 125)
        return 3;
    return word_at(part) + quantity > 65536 || (reads && word_at(frame + 8) + to_read > 65536) ? 2 : 0;
}

/* SITUATIONS */

/* What stands at the edges of the kinds' ranges. */
static void count_edge(uint32_t tag, uint32_t bits, uint8_t function)
{
    static const struct { uint32_t registers, sign, strict, bits; enum reached by_06, by_16; } edges[] = {
        {1, 0, 1, 9999, REACHED_STRICT_9999_BY_06, REACHED_STRICT_9999_BY_16},
        {1, 0, 1, 10000, REACHED_STRICT_10000_BY_06, REACHED_STRICT_10000_BY_16},
        {1, 0, 0, 9999, REACHED_LENIENT_9999_BY_06, REACHED_LENIENT_9999_BY_16},
        {1, 0, 0, 10000, REACHED_LENIENT_10000_BY_06, REACHED_LENIENT_10000_BY_16},
        {2, 0, 1, 99999999, REACHED_COUNT, REACHED_STRICT_99999999},
        {2, 0, 1, 100000000, REACHED_COUNT, REACHED_STRICT_100000000},
        {1, 1, 1, 999, REACHED_STRICT_999_BY_06, REACHED_STRICT_999_BY_16},
        {1, 1, 1, 1000, REACHED_STRICT_1000_BY_06, REACHED_STRICT_1000_BY_16},
        {1, 1, 1, 65536 - 999, REACHED_STRICT_MINUS_999_BY_06, REACHED_STRICT_MINUS_999_BY_16},
        {1, 1, 1, 65536 - 1000, REACHED_STRICT_MINUS_1000_BY_06, REACHED_STRICT_MINUS_1000_BY_16},
        {1, 1, 1, 0x8000, REACHED_STRICT_8000_BY_06, REACHED_STRICT_8000_BY_16},
    };
    const zb_settings *s = &ledger.settings;
    for (size_t n = 0; n < sizeof edges / sizeof *edges; n++)
        if (edges[n].registers == registers_of(tag) && edges[n].sign == s->sign[tag]
            && edges[n].strict == s->strict[tag] && edges[n].bits == bits)
            reached(function == 6 ? edges[n].by_06 : edges[n].by_16);
}

static void count_cut(uint32_t tag, registers r, uint8_t function)
{
    bool first = inside(tag, r) && ledger.settings.addr[tag] >= r.start; /* its first register is there */
    if (function == 6)
        reached(first ? REACHED_STRICT_LOW_BY_06 : REACHED_STRICT_HIGH_BY_06);
    else
        reached(first ? REACHED_STRICT_CUT_LAST : REACHED_STRICT_CUT_FIRST);
}

/* A write that was forbidden: the strict tags with a fault, and what else is in the range. */
static void count_forbidden(registers r, uint8_t function)
{
    const zb_settings *s = &ledger.settings;
    bool before = false, second = false; /* a tag without a fault came before; and then one that forbids */
    for (uint32_t t = 0; t < s->tags; t++) {
        enum fault fault = fault_of(t, r);
        before |= inside(t, r) && fault == NO_FAULT;
        if (!s->strict[t] || fault == NO_FAULT)
            continue;
        second |= before;
        if (function == 23)
            reached(fault == CUT ? REACHED_23_STRICT_CUT : REACHED_23_STRICT_VALUE);
        else if (fault == CUT)
            count_cut(t, r, function);
        else
            count_edge(t, bits_of(t, r), function);
    }
    if (second)
        reached(REACHED_STRICT_SECOND);
    if (tags_with(r, false, true))
        reached(REACHED_STRICT_BESIDE_RAW);
    if (ledger.lives == ZB_PLACES)
        reached(REACHED_STRICT_WHEN_FULL);
}

static void count_issued(registers r, uint8_t function)
{
    for (uint32_t t = 0; t < ledger.settings.tags && function != 23; t++)
        if (inside(t, r) == registers_of(t))
            count_edge(t, bits_of(t, r), function);
    uint32_t strict = tags_with(r, true, false);
    if (strict && tags_with(r, false, true))
        reached(REACHED_RAW_BESIDE_STRICT);
    if (strict >= MANY)
        reached(REACHED_STRICT_MANY);
}

/* The tags of a 23 that is issued: those that one part cuts and the other does not, and the strict ones. */
static void count_parts(registers written, registers read)
{
    const zb_settings *s = &ledger.settings;
    for (uint32_t t = 0; t < s->tags; t++) {
        bool cut_by_write = inside(t, written) && inside(t, written) < registers_of(t);
        bool cut_by_read = inside(t, read) && inside(t, read) < registers_of(t);
        if (cut_by_read && !cut_by_write)
            reached(REACHED_23_CUT_BY_READ);
        if (cut_by_write && !cut_by_read)
            reached(REACHED_23_CUT_BY_WRITE);
        if (cut_by_write && cut_by_read)
            reached(REACHED_23_CUT_BY_BOTH);
        if (s->strict[t] && inside(t, written))
            reached(REACHED_23_STRICT);
        if (s->strict[t] && inside(t, read) && !inside(t, written))
            reached(REACHED_23_STRICT_READ);
    }
}

/* Where a 22 that gets exception 03 is. */
static void count_masked(uint32_t tag, uint32_t address)
{
    const zb_settings *s = &ledger.settings;
    if (s->width[tag] == 32)
        reached(address == s->addr[tag] ? REACHED_22_LOW : REACHED_22_HIGH);
    else
        reached(s->sign[tag] ? REACHED_22_SIGNED : REACHED_22_NARROW);
    reached(s->strict[tag] ? REACHED_22_STRICT : REACHED_22_LENIENT);
    if (ledger.lives == ZB_PLACES)
        reached(REACHED_22_WHEN_FULL);
}

/* Where a 22 that goes out is: beside a tag of width 32, or between two tags. */
static void count_beside(uint32_t address)
{
    const zb_settings *s = &ledger.settings;
    bool before = false, behind = false;
    for (uint32_t t = 0; t < s->tags; t++) {
        before |= s->addr[t] + registers_of(t) == address;
        behind |= s->addr[t] == address + 1;
        if (s->width[t] == 32 && s->addr[t] == address + 1)
            reached(REACHED_22_BEFORE);
        if (s->width[t] == 32 && s->addr[t] + 2u == address)
            reached(REACHED_22_BEHIND);
    }
    if (before && behind)
        reached(REACHED_22_BETWEEN);
}

/* READING BACK */

/* A write that goes out, as its client wrote it and as it was sent. */
static void keep_sent(registers written, registers sent, uint8_t function)
{
    for (uint32_t t = 0; t < ledger.settings.tags; t++) {
        if (inside(t, written) != registers_of(t) || fault_of(t, written) != NO_FAULT)
            continue;
        last_sent[t].written = bits_of(t, written);
        last_sent[t].sent = bits_of(t, sent);
        last_sent[t].function = function;
    }
}

bool strict_sent(uint32_t address, uint32_t *word)
{
    for (uint32_t t = 0; t < ledger.settings.tags; t++) {
        uint32_t at = address - ledger.settings.addr[t];
        if (address < ledger.settings.addr[t] || at >= registers_of(t))
            continue;
        *word = last_sent[t].sent >> 16 * at & 0xFFFF;
        return last_sent[t].function != 0;
    }
    return false;
}

static void count_back(uint32_t tag, uint8_t reader)
{
    uint8_t writer = last_sent[tag].function;
    if (reader == 23)
        reached(writer == 6 ? REACHED_06_BACK_BY_23 : writer == 16 ? REACHED_16_BACK_BY_23 : REACHED_23_BACK_BY_23);
    else
        reached(writer == 6 ? REACHED_06_BACK : writer == 16 ? REACHED_16_BACK : REACHED_23_BACK);
    if (reader == 23 && writer == 23 && registers_of(tag) == 2)
        reached(REACHED_WIDE_BACK);
    if (reader == 23 && writer == 23 && ledger.settings.sign[tag])
        reached(REACHED_SIGNED_BACK);
}

/* Demand 2: where the controller says at a whole tag what was sent for a value in its range, that value is read. */
static void check_back(registers said, registers read, uint8_t reader)
{
    for (uint32_t t = 0; t < ledger.settings.tags; t++) {
        if (!last_sent[t].function || inside(t, said) != registers_of(t) || bits_of(t, said) != last_sent[t].sent)
            continue;
        if (bits_of(t, read) != last_sent[t].written)
            pair_differs("ledger: what was written to a tag is not read back");
        count_back(t, reader);
    }
}

/* REQUESTS AND REPLIES */

/* Nine bytes under the caller's own id, and nothing else in the report. */
static void check_forbidden(const uint8_t *frame, uint32_t first, uint32_t last, zb_answer a)
{
    const zb_answer whole = {.outcome = ZB_EXCEPTION, .length = 9, .code = 3};
    const uint8_t bytes[9] = {frame[0], frame[1], 0, 0, 0, 3, frame[6], (uint8_t)(frame[7] + 128), 3};
    if (memcmp(&a, &whole, sizeof a) != 0 || memcmp(pair_out(), bytes, sizeof bytes) != 0)
        pair_differs("ledger: the exception to a write that a tag forbids is another");
    last_forbidden.issue = ledger.issues;
    last_forbidden.unit = frame[6];
    last_forbidden.function = frame[7];
    last_forbidden.first = first;
    last_forbidden.last = last;
}

/* #108's claim, on the frame as it goes to the controller. */
static void check_digits(registers sent)
{
    for (uint32_t t = 0; t < ledger.settings.tags; t++) {
        uint32_t count = inside(t, sent);
        if (!ledger.settings.strict[t] || count == 0)
            continue;
        if (count < registers_of(t))
            pair_differs("ledger: a frame to the controller holds a part of a strict tag");
        if (!is_digits(t, bits_of(t, sent)))
            pair_differs("ledger: a frame to the controller holds no digits of its kind at a strict tag");
    }
}

/* A read is never refused for a tag. */
static void check_read(const uint8_t *frame, zb_answer a)
{
    uint32_t quantity = word_at(frame + 10);
    if (a.outcome == ZB_EXCEPTION && a.code == 3 && quantity >= 1 && quantity <= 125)
        pair_differs("ledger: exception 03 to a read that has a right quantity");
}

/* A 06, 16 or 23 that goes out: its claim, and the tags that it counts as raw, which the read part of a 23 has no say in. */
static void check_issued(const uint8_t *frame, registers r, zb_answer a)
{
    registers sent = written_by(pair_out());
    check_digits(sent);
    if (a.partial != tags_raw(r, CUT) || a.value != tags_raw(r, VALUE))
        pair_differs("ledger: the tags that a write counts as raw");
    count_issued(r, frame[7]);
    keep_sent(r, sent, frame[7]);
    if (frame[7] == 23)
        count_parts(r, from(word_at(frame + 8), word_at(frame + 10), NULL));
}

/* #109: a 22 gets exception 03 exactly if its register lies in a tag, of whichever kind, and no other but 04. */
static bool mask_request(const uint8_t *frame, zb_answer a)
{
    uint32_t address = word_at(frame + 8);
    bool tagged = false, excepted = a.outcome == ZB_EXCEPTION && a.code != 4;
    for (uint32_t t = 0; t < ledger.settings.tags; t++) {
        if (inside(t, from(address, 1, NULL)) == 0)
            continue;
        tagged = true;
        count_masked(t, address);
    }
    if (excepted != tagged)
        pair_differs("ledger: exception to a 22 exactly if its register lies in a tag");
    if (tagged)
        check_forbidden(frame, address, address, a);
    if (a.outcome == ZB_ISSUED && word_at(pair_out() + 8) != address)
        pair_differs("ledger: a 22 goes out to another register");
    if (a.outcome == ZB_ISSUED)
        count_beside(address);
    return tagged;
}

bool strict_request(const uint8_t *frame, zb_answer a)
{
    if (frame[7] == 3 || frame[7] == 4)
        check_read(frame, a);
    if (frame[7] == 22)
        return mask_request(frame, a);
    if (frame[7] != 6 && frame[7] != 16 && frame[7] != 23)
        return false;
    registers r = written_by(frame);
    bool forbidden = tags_with(r, true, true) != 0, excepted = a.outcome == ZB_EXCEPTION;
    uint32_t code = code_before(frame);
    if (code && (!excepted || a.code != code))
        pair_differs("ledger: another exception than document 01's");
    if (code && forbidden)
        reached(code == 2 ? REACHED_STRICT_BEHIND_02 : REACHED_STRICT_BEHIND_03);
    if (code)
        return false;
    if ((excepted && a.code != 4) != forbidden)
        pair_differs("ledger: exception 03 exactly if a strict tag forbids the write");
    if (forbidden) {
        check_forbidden(frame, r.start, r.start + r.quantity - 1, a);
        count_forbidden(r, frame[7]);
    }
    if (a.outcome == ZB_ISSUED)
        check_issued(frame, r, a);
    return forbidden;
}

void strict_joined(const ledger_entry *e)
{
    if (last_forbidden.function && last_forbidden.issue >= e->issue
        && ledger_meets(&last_forbidden, e->unit, e->function, e->start, e->quantity))
        reached(last_forbidden.function == 22 ? REACHED_22_KEPT_JOIN : REACHED_STRICT_KEPT_JOIN);
}

/* An echo 06 at a strict tag. */
static void count_echo(registers said)
{
    for (uint32_t t = 0; t < ledger.settings.tags; t++)
        if (ledger.settings.strict[t] && inside(t, said))
            reached(is_digits(t, bits_of(t, said)) ? REACHED_STRICT_ECHO : REACHED_STRICT_ECHO_RAW);
}

void strict_reply(const ledger_entry *e, const uint8_t *frame, zb_answer a)
{
    uint32_t partial = 0, value = 0;
    if (frame[7] == 6)
        count_echo(from(e->start, 1, frame + 10));
    if (frame[7] != 3 && frame[7] != 4 && frame[7] != 23)
        return;
    registers said = from(e->start, e->quantity, frame + 9);
    for (uint32_t t = 0; t < ledger.settings.tags; t++) {
        uint32_t count = inside(t, said);
        if (count == 0)
            continue;
        bool cut = count < registers_of(t), digits = !cut && is_digits(t, bits_of(t, said));
        partial += cut;
        value += !cut && !digits;
        if (ledger.settings.strict[t] && !digits)
            reached(cut ? REACHED_STRICT_READ_CUT : REACHED_STRICT_READ_RAW);
    }
    if (a.partial != partial || a.value != value)
        pair_differs("ledger: the tags that a reply counts as raw");
    check_back(said, from(e->start, e->quantity, pair_out() + 9), frame[7]);
}
