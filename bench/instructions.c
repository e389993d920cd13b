/* 4,096 adds at order 12 by METRIC, and then NEAREST searches for ten: bench/instructions.sh counts what that takes. A
 * herd of 64 clusters, whose codes have up to eight bits flipped. */
#include "vpindex.h"

#define ORDER 12
static vpindex_row table[VPINDEX_TABLE_ROWS(ORDER)], work[VPINDEX_WORK_ROWS(ORDER)];
static vpindex_entry result[10];
static uint32_t state = 1;

static uint32_t below(uint32_t n) {
    state = state * UINT32_C(1664525) + UINT32_C(1013904223);
    return (state >> 8) % n;
}

static vpindex_profile weighed(void) {
    uint32_t cluster = below(64) * UINT32_C(2654435761);
    vpindex_profile profile;
    for (int i = 0; i < 4; i++) {
        profile.measures[i] = (int32_t)((cluster >> 7 * i) % 60000) + (int32_t)below(1500);
    }
    profile.code[0] = cluster * UINT64_C(0x9e3779b97f4a7c15);
    profile.code[1] = cluster * UINT64_C(0xc2b2ae3d27d4eb4f);
    for (uint32_t flips = below(9); flips > 0; flips--) {
        uint32_t bit = below(128);
        profile.code[bit / 64] ^= UINT64_C(1) << bit % 64;
    }
    return profile;
}

int main(void) {
    size_t rows = VPINDEX_TABLE_ROWS(ORDER), room = VPINDEX_WORK_ROWS(ORDER);
    uint32_t refusals = vpindex_fresh(table, rows, ORDER, METRIC, VPINDEX_WEIGHTS_ONE);
    for (uint32_t i = 0; i < 4096; i++) {
        refusals += vpindex_add(table, rows, work, room, VPINDEX_TAG(36, i), weighed(), 1).refusal;
    }
    for (uint32_t i = 0; i < NEAREST; i++) {
        refusals += vpindex_nearest(table, rows, result, 10, weighed(), 10, VPINDEX_ANY_DAY).refusal;
    }
    return refusals != 0;
}
