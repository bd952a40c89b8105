/* Memory to lend to a call: guard bytes on both sides, and behind the last of them memory that no call may touch. */
#ifndef LENT_H
#define LENT_H
#include <stdbool.h>
#include <stddef.h>
#include <stdint.h>

enum { GUARD = 64 };

typedef struct {
    uint8_t *base; /* the first of the GUARD guard bytes before it */
    uint8_t *end;  /* from here on a touch ends the program */
    uint8_t *at;   /* the lent part */
    size_t length;
    uint8_t fill;
} lent;

lent lent_make(size_t most);
/* Lends `length` bytes that end `gap` bytes before the untouchable memory; they and the guard bytes are `fill`. */
void lent_place(lent *l, size_t length, size_t gap, uint8_t fill);
bool lent_is_guarded(const lent *l);
/* From here on a write to it or to its guard bytes ends the program; and again it does not. */
void lent_shut(const lent *l);
void lent_open(const lent *l);
#endif
