/* What digest.c gives. */
#ifndef DIGEST_H
#define DIGEST_H
#include <stdint.h>

/* A count for each refusal by its number, 0 being accepted; the last is for numbers that are none. */
#define DIGEST_REFUSALS 43

/* So many random calls. */
uint64_t digest_of_calls(uint32_t count, uint32_t seed, uint32_t refusals[DIGEST_REFUSALS]);

/* A full table of order 12, and one of which every slot is built. */
uint64_t digest_of_order_12(uint32_t seed, uint32_t refusals[DIGEST_REFUSALS]);

/* After that: how many bytes the image has. */
uint32_t digest_longest_image(void);
#endif
