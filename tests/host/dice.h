/* A small generator of numbers, the same for a seed on every machine. */
#ifndef DICE_H
#define DICE_H
#include <stdbool.h>
#include <stdint.h>

void dice_seed(uint64_t seed);
uint64_t dice(void);
uint32_t below(uint32_t n); /* 0 to n - 1 */
bool one_in(uint32_t n);    /* never for 0 */
#endif
