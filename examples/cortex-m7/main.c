/* A unit at a crate: a table of order 10 in its RAM takes a herd in, tells the nearest, strikes one off, and goes out
 * as an image and comes back. */
#include <stdio.h>

#include "vpindex.h"

#define ORDER 10
#define HEAD 1000
static vpindex_row table[VPINDEX_TABLE_ROWS(ORDER)], work[VPINDEX_WORK_ROWS(ORDER)];
static vpindex_entry result[VPINDEX_RESULT_ENTRIES(ORDER)];
static uint8_t image[VPINDEX_IMAGE_BYTES(ORDER)];
static const size_t rows = VPINDEX_TABLE_ROWS(ORDER), room = VPINDEX_WORK_ROWS(ORDER);

static vpindex_profile weighed(uint32_t head) {
    uint32_t spread = head * UINT32_C(2654435761) >> 12;
    vpindex_profile profile = {{28000 + (int32_t)(spread % 30000), 11000 + (int32_t)(spread % 2900),
                                15000 + (int32_t)(spread % 6100), 60 + (int32_t)(spread % 70)}, {0, 0}};
    return profile;
}

static void print_nearest(uint32_t head) {
    vpindex_searched reply = vpindex_nearest(table, rows, result, VPINDEX_RESULT_ENTRIES(ORDER), weighed(head), 3,
                                             VPINDEX_ANY_DAY);
    printf("nearest to %lu: %lu distances\n", (unsigned long)head, (unsigned long)reply.distances);
    for (uint32_t i = 0; i < reply.found; i++) {
        printf("  %015llu %lu\n", (unsigned long long)result[i][0], (unsigned long)result[i][1]);
    }
}

int main(void) {
    uint32_t refusals = vpindex_fresh(table, rows, ORDER, VPINDEX_SUM_OF_DIFFERENCES, VPINDEX_WEIGHTS_ONE);
    for (uint32_t head = 0; head < HEAD; head++) {
        refusals += vpindex_add(table, rows, work, room, VPINDEX_TAG(36, head), weighed(head), 305).refusal;
    }
    printf("%d added, refusals %lu\n", HEAD, (unsigned long)refusals);
    print_nearest(500);
    vpindex_removed removed = vpindex_remove(table, rows, work, room, VPINDEX_TAG(36, 500));
    printf("removed: refusal %lu\n", (unsigned long)removed.refusal);
    vpindex_written written = vpindex_write(table, rows, image, sizeof image);
    vpindex_fresh(table, rows, ORDER, VPINDEX_SUM_OF_DIFFERENCES, VPINDEX_WEIGHTS_ONE);
    vpindex_loaded loaded = vpindex_load(table, rows, image, written.length);
    printf("image of %lu bytes, loaded: refusal %lu\n", (unsigned long)written.length, (unsigned long)loaded.refusal);
    print_nearest(500);
    return (int)(refusals + loaded.refusal);
}
