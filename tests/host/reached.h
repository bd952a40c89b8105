/* What the generated calls must have met, with counts; a run that missed a line of it fails. */
#ifndef REACHED_H
#define REACHED_H
#include "zilborteka.h"
#include <stdbool.h>

enum call {
    CALL_FRESH, CALL_ATTACH, CALL_DETACH, CALL_REQUEST, CALL_REPLY, CALL_TICK, CALL_LINK_LOST, CALL_SPLIT, CALL_READ,
    CALL_WRITE, CALLS
};
extern const char *const call_names[CALLS];

#define REACHED_LIST(X) \
    X(LAST_PARTY, "an entry's last party joins") \
    X(BEYOND_THE_PARTIES, "a read equal to a full entry's is issued") \
    X(FULL_ANSWERED, "an entry with its last party is answered") \
    X(FULL_TIMED_OUT, "an entry with its last party times out") \
    X(FULL_STRUCK, "a client is struck out of a full entry") \
    X(LAST_PLACE, "the last place is taken") \
    X(BEYOND_THE_PLACES, "the request after it gets exception 04") \
    X(JOINED_WHEN_FULL, "a read joins while every place is taken") \
    X(WRAP, "the cursor passes 65,535") \
    X(SKIPPED, "an id is skipped because it is live") \
    X(SKIPPED_BEFORE_WRAP, "65,535 is skipped and 0 is issued") \
    X(SKIPPED_AT_WRAP, "65,535 and 0 are skipped in one search") \
    X(EXCEPTION_02, "exception 02 to registers") \
    X(EXCEPTION_03, "exception 03 to registers") \
    X(EXCEPTION_04, "exception 04") \
    X(EXCEPTION_0B, "exception 0B") \
    X(CONTROLLER_EXCEPTION, "the controller's own exception is handed on") \
    X(PARTIAL_SINGLE, "partial raw in request 06") \
    X(VALUE_SINGLE, "value raw in request 06") \
    X(PARTIAL_MULTIPLE, "partial raw in request 16") \
    X(VALUE_MULTIPLE, "value raw in request 16") \
    X(PARTIAL_READ, "partial raw in reply 03 or 04") \
    X(VALUE_READ, "value raw in reply 03 or 04") \
    X(DECODED_ECHO, "an echo 06 of what was re-encoded is what was written") \
    X(RAW_ECHO, "an echo 06 of what went out raw is what was written") \
    X(VALUE_ECHO, "value raw in reply 06") \
    X(BOTH_RAW, "both counts nonzero in one frame") \
    X(SIGNED_PLUS, "a signed tag goes out as plus and digits") \
    X(SIGNED_MINUS, "a signed tag goes out as minus and digits") \
    X(SIGNED_RAW, "a signed tag goes out raw for its value") \
    X(SIGNED_PLUS_READ, "plus and digits of a signed tag are decoded") \
    X(SIGNED_MINUS_READ, "minus and digits of a signed tag are decoded") \
    X(SIGNED_NO_NUMBER, "a signed tag comes back raw for its value") \
    X(MINUS_ZERO, "minus zero comes back raw") \
    X(SIGNED_ECHO, "an echo 06 of a signed tag is decoded") \
    X(SIGNED_RAW_ECHO, "an echo 06 of a signed tag passes, as it went raw") \
    X(SIGNED_FIRST, "a signed tag begins a range that cuts another tag") \
    X(SIGNED_LAST, "a signed tag ends a range that cuts another tag") \
    X(BITS_02, "exception 02 to 01, 02 or 15") \
    X(BITS_03, "exception 03 to 01, 02 or 15") \
    X(COIL_03, "exception 03 to 05, for its value") \
    X(BITS_JOINED, "01 or 02 is joined") \
    X(OTHER_TABLE, "02 is issued beside an equal 01, or 01 beside 02") \
    X(MOST_BITS, "a reply of 2,000 bits") \
    X(MOST_COILS, "a request of 1,968 coils") \
    X(ECHO_VALUE, "an echo 05 with another value is refused") \
    X(DUE_NOT_JOINED, "an equal read is not joined because it is due") \
    X(WRITE_CLOSED, "nor because a write was issued that meets it") \
    X(OTHER_CLOSED, "nor because an \"other\" was issued for its unit") \
    X(BITS_CLOSED, "01 or 02 met by a write of coils") \
    X(CLOSED_PASSED_OVER, "a larger id is joined, the smaller is closed") \
    X(MISSED_JOINED, "a read is joined that the last write misses") \
    X(CLOSED_04, "a read equal to a closed one gets exception 04") \
    X(CLOSED_ANSWERED, "a closed read is answered") \
    X(CLOSED_TIMED_OUT, "a closed read times out") \
    X(CLOSED_EMPTY, "a closed read that was left by all ends") \
    X(SMALLEST_JOINED, "of several entries the smallest id is joined") \
    X(SMALLEST_IS_YOUNGER, "the smallest id is not the one issued first") \
    X(EMPTY_JOINED, "an entry left by all is joined again") \
    X(ROOM_USED_AGAIN, "a struck party's room is used again") \
    X(CLIENT_TWICE, "one client twice in one answer") \
    X(SAME_IDS_TWICE, "one client with equal ids, both answered") \
    X(EMPTY_ANSWERED, "an entry left by all is answered, list empty") \
    X(EMPTY_TIMED_OUT, "an entry left by all times out, list empty") \
    X(STRUCK, "detach strikes parties out") \
    X(SUCCESSOR, "a successor gets nothing of its predecessor's") \
    X(SUCCESSOR_OWN, "a successor gets its own from the same entry") \
    X(LOST_LIVE, "link lost with live entries") \
    X(LATE_REPLY, "a reply past the deadline, before the tick") \
    X(TIE, "equal deadlines, the smallest id times out") \
    X(NEVER_DUE, "a deadline past 2^63 - 1") \
    X(DRAINED, "ticked until nothing is due") \
    X(HIT_LAST_MS, "a hit in the last millisecond of its life") \
    X(MISS_AT_LIFE, "a miss in the one behind it") \
    X(HIT_OF_1, "a hit of life 1") \
    X(HIT_OF_60000, "a hit of life 60,000") \
    X(HIT_SMALLEST, "a hit of tags with different ttls") \
    X(MISS_SMALLEST, "a miss older than one ttl and not than another") \
    X(HIT_LONGEST, "a hit of 125 registers") \
    X(HIT_RAW, "a hit with a tag raw for its value") \
    X(HIT_FUNCTION, "a hit of 03 or 04 beside the other's reply") \
    X(MISS_FUNCTION, "a miss beside the other function's reply") \
    X(HIT_UNIT, "a hit beside another unit's reply") \
    X(MISS_UNIT, "a miss beside another unit's reply") \
    X(HIT_NO_JOIN, "a hit with joining off") \
    X(HIT_WHEN_FULL, "a hit while every place is taken") \
    X(HIT_BEFORE_JOIN, "a hit where an equal read can be joined") \
    X(HIT_REFUSED_1, "what would be a hit is refused with 1") \
    X(HIT_REFUSED_2, "what would be a hit is refused with 2") \
    X(HIT_REFUSED_3, "what would be a hit is refused with 3") \
    X(HIT_LATE, "a hit of a reply past its deadline") \
    X(HIT_EMPTY, "a hit of a reply for nobody") \
    X(HIT_BEHIND_EXCEPTION, "a hit behind an exception to the same read") \
    X(HIT_BEHIND_CLOSED, "a hit behind a closed read's reply to it") \
    X(MISS_EXCEPTION, "a miss behind an exception alone") \
    X(MISS_CLOSED, "a miss behind a closed read's reply alone") \
    X(MISS_MISMATCH, "a miss behind a refused reply, 8") \
    X(MISS_GAP, "a miss for a register in no tag") \
    X(MISS_CUT_FIRST, "a miss for a tag cut at the range's first end") \
    X(MISS_CUT_LAST, "a miss for a tag cut at its last end") \
    X(MISS_TTL_0, "a miss for a tag of ttl 0") \
    X(OWN_FRESH, "a reply over its own key, fresh") \
    X(OWN_EXPIRED, "a reply over its own key, expired") \
    X(OWN_BEHIND_FREE, "the same with an empty or expired place below") \
    X(LAST_CACHED, "a reply makes all 64 fresh") \
    X(TAKEN_EXPIRED, "a reply takes an expired place between fresh ones") \
    X(TAKEN_DROPPED, "a reply takes a dropped place between fresh ones") \
    X(TAKEN_OLDEST, "a reply takes the oldest of 64 fresh ones") \
    X(TAKEN_TIE, "the same where two are the oldest") \
    X(TAKEN_TIE_LATER, "the same and the lowest was filled later") \
    X(MISS_TAKEN, "a miss because its place was taken") \
    X(DROP_LEFT, "a miss behind a write that meets it from the left") \
    X(DROP_RIGHT, "from the right") \
    X(DROP_INSIDE, "inside") \
    X(DROP_AROUND, "around it") \
    X(DROP_OTHER, "a miss behind an \"other\" for its unit") \
    X(KEPT_BEFORE, "a hit behind a write up to the register before") \
    X(KEPT_BEHIND, "a hit behind a write from the register behind") \
    X(KEPT_COILS, "a hit behind 05 or 15 over its addresses") \
    X(KEPT_UNIT, "a hit behind a write over it in another unit") \
    X(KEPT_OTHER, "a hit behind an \"other\" for another unit") \
    X(KEPT_EXCEPTION, "a hit behind a write over it with an exception") \
    X(MISS_LOST, "a miss behind a lost link") \
    X(STRICT_9999_BY_06, "9,999 to a strict tag by 06 goes out") \
    X(STRICT_10000_BY_06, "10,000 to it gets exception 03") \
    X(STRICT_9999_BY_16, "9,999 to a strict tag by 16 goes out") \
    X(STRICT_10000_BY_16, "10,000 to it gets exception 03, by 16") \
    X(LENIENT_9999_BY_06, "9,999 to a lenient tag by 06 goes out") \
    X(LENIENT_10000_BY_06, "10,000 to it goes out raw") \
    X(LENIENT_9999_BY_16, "9,999 to a lenient tag by 16 goes out") \
    X(LENIENT_10000_BY_16, "10,000 to it goes out raw, by 16") \
    X(STRICT_LOW_BY_06, "06 at a strict width-32 tag's address gets 03") \
    X(STRICT_HIGH_BY_06, "06 at the register behind it gets 03") \
    X(STRICT_CUT_FIRST, "16 that begins inside a strict tag gets 03") \
    X(STRICT_CUT_LAST, "16 that ends inside one gets 03") \
    X(STRICT_99999999, "99,999,999 to a strict tag goes out") \
    X(STRICT_100000000, "100,000,000 to it gets exception 03") \
    X(STRICT_999_BY_06, "999 to a strict signed tag by 06 goes out") \
    X(STRICT_1000_BY_06, "1,000 to it gets exception 03") \
    X(STRICT_MINUS_999_BY_06, "-999 to it goes out") \
    X(STRICT_MINUS_1000_BY_06, "-1,000 to it gets exception 03") \
    X(STRICT_8000_BY_06, "-32,768 to it gets exception 03") \
    X(STRICT_999_BY_16, "999 to a strict signed tag by 16 goes out") \
    X(STRICT_1000_BY_16, "1,000 to it gets exception 03, by 16") \
    X(STRICT_MINUS_999_BY_16, "-999 to it goes out, by 16") \
    X(STRICT_MINUS_1000_BY_16, "-1,000 to it gets exception 03, by 16") \
    X(STRICT_8000_BY_16, "-32,768 to it gets exception 03, by 16") \
    X(STRICT_SECOND, "a strict tag behind a right one is wrong") \
    X(STRICT_BESIDE_RAW, "exception 03 beside a lenient tag that is wrong") \
    X(RAW_BESIDE_STRICT, "a lenient tag goes out raw beside a strict one") \
    X(STRICT_MANY, "16 with 60 strict tags goes out") \
    X(STRICT_BEHIND_02, "a strict tag is wrong in a write that gets 02") \
    X(STRICT_BEHIND_03, "in one that gets 03 for quantity or byte count") \
    X(STRICT_WHEN_FULL, "a strict tag is wrong while every place is taken") \
    X(STRICT_KEPT_JOIN, "a read is joined, a write over it was forbidden") \
    X(STRICT_KEPT_HIT, "a hit, and a write over it was forbidden") \
    X(STRICT_READ_CUT, "a read cuts a strict tag and is answered") \
    X(STRICT_READ_RAW, "a strict tag comes back raw for its value") \
    X(STRICT_ECHO, "an echo 06 of a strict tag is decoded") \
    X(STRICT_ECHO_RAW, "an echo 06 of a strict tag comes back raw") \
    X(22_SHORT, "22 of a byte less is refused with 6") \
    X(22_LONG, "22 of a byte more is refused with 6") \
    X(22_NARROW, "22 on a tag of width 16 gets exception 03") \
    X(22_SIGNED, "on a signed one") \
    X(22_LOW, "on the first register of one of width 32") \
    X(22_HIGH, "on the second register of one") \
    X(22_STRICT, "on a strict one") \
    X(22_LENIENT, "on a lenient one") \
    X(22_WHEN_FULL, "on one while every place is taken") \
    X(22_04, "22 beside the tags gets exception 04") \
    X(22_BEFORE, "22 goes out to the register before a width-32 tag") \
    X(22_BEHIND, "22 goes out to the register behind one") \
    X(22_BETWEEN, "22 goes out to the register between two tags") \
    X(22_TWICE, "22 is issued beside an equal one") \
    X(22_ECHO, "22 is answered by its own PDU") \
    X(22_ECHO_BIT, "an echo 22 with another bit is refused") \
    X(22_EXCEPTION, "22 is answered by an exception") \
    X(22_0B, "22 times out") \
    X(22_CLOSED, "a read is closed by a 22") \
    X(22_MISSED, "a read is joined behind a 22 beside it") \
    X(22_BITS, "01 or 02 is joined behind a 22 over its addresses") \
    X(22_KEPT_JOIN, "a read is joined, a 22 on it was forbidden") \
    X(22_KEPT, "a hit behind a 22 beside it") \
    X(22_KEPT_HIT, "a hit, and a 22 on it was forbidden") \
    X(23_SHORT, "23 of 9 bytes is refused with 6") \
    X(23_BYTE_LESS, "23 with a byte less than its byte count says") \
    X(23_BYTE_MORE, "23 with a byte more") \
    X(23_BYTES_BY_QUANTITY, "23 refused with 6, its byte count by quantity") \
    X(23_BYTES_BY_NEITHER, "23 refused with 6, by neither length nor quantity") \
    X(23_BYTES_BY_LENGTH, "23 gets 03, its byte count by length alone") \
    X(23_READS_0, "23 that reads 0 gets exception 03") \
    X(23_READS_126, "23 that reads 126 gets exception 03") \
    X(23_WRITES_0, "23 that writes 0 gets exception 03") \
    X(23_WRITES_122, "23 that writes 122 gets exception 03") \
    X(23_03_BEFORE_02, "23 with a bad number and a bad range gets 03") \
    X(23_READS_FAR, "23 gets exception 02 for its read part") \
    X(23_WRITES_FAR, "23 gets exception 02 for its write part") \
    X(23_BOTH_FAR, "23 gets exception 02 for both") \
    X(23_READS_1, "23 that reads 1 goes out") \
    X(23_READS_125, "23 that reads 125 goes out") \
    X(23_WRITES_1, "23 that writes 1 goes out") \
    X(23_WRITES_121, "23 that writes 121 goes out") \
    X(23_READS_TOP, "23 that reads up to 65,535 goes out") \
    X(23_WRITES_TOP, "23 that writes up to 65,535 goes out") \
    X(23_OVERLAP, "23 that reads what it writes goes out") \
    X(23_CUT_BY_READ, "23 whose read part alone cuts a tag goes out") \
    X(23_CUT_BY_WRITE, "23 whose write part alone cuts a tag goes out") \
    X(23_CUT_BY_BOTH, "23 whose parts both cut a tag goes out") \
    X(23_STRICT, "23 that writes digits to a strict tag goes out") \
    X(23_STRICT_CUT, "23 whose write part cuts a strict tag gets 03") \
    X(23_STRICT_VALUE, "23 that writes no digits to a strict tag gets 03") \
    X(23_STRICT_READ, "23 with a strict tag in its read part alone") \
    X(23_04, "23 gets exception 04") \
    X(23_TWICE, "23 is issued beside an equal one") \
    X(23_NOT_JOINED, "a read is issued beside a 23 that reads the same") \
    X(23_ANSWERED, "23 is answered") \
    X(23_BY_WRITE_QUANTITY, "a reply 23 by the write quantity is refused") \
    X(23_EXCEPTION, "23 is answered by an exception") \
    X(23_0B, "23 times out") \
    X(23_CLOSED, "a read is closed by a 23") \
    X(23_MISSED, "a read is joined behind a 23 that only reads of it") \
    X(23_BITS, "01 or 02 is joined behind a 23 over its addresses") \
    X(23_DROP, "a miss behind a 23 that writes of it") \
    X(23_KEPT, "a hit behind a 23 that only reads of it") \
    X(PARTIAL_23, "partial raw in request 23") \
    X(VALUE_23, "value raw in request 23") \
    X(PARTIAL_BACK_23, "partial raw in reply 23") \
    X(VALUE_BACK_23, "value raw in reply 23") \
    X(06_BACK, "a value written by 06 is read back by 03 or 04") \
    X(16_BACK, "by 16") \
    X(23_BACK, "by 23") \
    X(06_BACK_BY_23, "a value written by 06 is read back by 23") \
    X(16_BACK_BY_23, "by 16, and read by 23") \
    X(23_BACK_BY_23, "by 23, and read by 23") \
    X(WIDE_BACK, "the same of a tag of width 32") \
    X(SIGNED_BACK, "the same of a signed tag") \
    X(TEXT_256, "a settings text of 256 tags is read") \
    X(TEXT_WRONG_DEEP, "a settings text wrong behind line 12") \
    X(TEXT_OLDER, "a settings text of version 1 with tags is read") \
    X(TEXT_OF_VERSION_2, "a settings text of version 2 with tags is read") \
    X(TEXT_OF_VERSION_3, "a settings text of version 3 with tags is read") \
    X(TEXT_SIGNED, "a settings text with a signed tag is read") \
    X(TEXT_WRONG_SIGN, "a settings text wrong at a sign line") \
    X(TEXT_TTL, "a settings text with a ttl of 60,000 is read") \
    X(TEXT_WRONG_TTL, "a settings text wrong at a ttl line") \
    X(TEXT_STRICT, "a settings text with a strict tag is read") \
    X(TEXT_WRONG_STRICT, "a settings text wrong at a strict line") \
    X(SIGN_REFUSED, "a sign that is not 0 or 1 is refused") \
    X(SIGN_32_REFUSED, "sign 1 with width 32 is refused") \
    X(TTL_REFUSED, "a ttl above 60,000 is refused") \
    X(STRICT_REFUSED, "a strict that is not 0 or 1 is refused") \
    X(FULL_WIDTH_CLIENT, "client 259 or 2^32 - 1 is refused") \
    X(CLOCK_BACK, "a time below the clock is refused") \
    X(TIME_TOO_LARGE, "a time above 2^63 - 1 is refused")

enum reached {
#define REACHED_NAME(name, words) REACHED_##name,
    REACHED_LIST(REACHED_NAME)
#undef REACHED_NAME
    REACHED_COUNT
};

void reached(enum reached what);
void reached_answer(enum call call, zb_answer a);
bool reached_print(void); /* false where something was not reached */
#endif
