/* Holds what the header reads and fills by itself to the calls: in herds of every size up to a full table, with head
 * removed and added again, the slots that are live are those that look up finds, with the same profile and day; and
 * batches of queries that it fills find what single searches find. It is C11 and C++17. */
#include <stdio.h>
#include <string.h>

#include "vpindex.h"

#define ORDER 5
#define ROWS VPINDEX_TABLE_ROWS(ORDER)
#define ROOM VPINDEX_RESULT_ENTRIES(ORDER)

static vpindex_row table[ROWS], work[VPINDEX_WORK_ROWS(ORDER)], queries[VPINDEX_MAX_QUERIES];
static vpindex_entry result[ROOM], results[VPINDEX_BATCH_ENTRIES(ORDER, VPINDEX_MAX_QUERIES)];

/* Measures at both ends of their range, and all words of the code in use. */
static vpindex_profile profile(uint32_t n) {
    int32_t m = VPINDEX_AS(int32_t, n);
    uint64_t word = UINT64_C(0x9E3779B97F4A7C15) * (n + 1);
    vpindex_profile p = {{m * 37 % 101, -m, VPINDEX_MAX_MEASURE - m, m - VPINDEX_MAX_MEASURE}, {word, ~word}};
    return p;
}

static uint16_t day(uint32_t n) { return VPINDEX_AS(uint16_t, VPINDEX_MAX_DAY - 2000 * n); }

static int rows_are_the_items(uint32_t items) {
    uint32_t live = 0, n;
    for (size_t i = VPINDEX_FIRST_SLOT(ORDER); i < ROWS; i++) {
        if (!vpindex_row_is_live(table[i])) {
            continue;
        }
        vpindex_looked_up found = vpindex_look_up(table, ROWS, vpindex_row_tag(table[i]));
        vpindex_profile p = vpindex_row_profile(table[i]);
        if (found.refusal != 0 || memcmp(&found.profile, &p, sizeof p) != 0 ||
            found.day != vpindex_row_day(table[i])) {
            return 0;
        }
        live++;
    }
    for (n = 0; n < items; n++) {
        live -= vpindex_look_up(table, ROWS, VPINDEX_TAG(36, n)).refusal == 0;
    }
    return live == 0;
}

static int batches_are_searches(uint32_t count) {
    size_t part = sizeof results / sizeof results[0] / count;
    uint32_t n;
    memset(queries, 255, sizeof queries);
    for (n = 0; n < count; n++) {
        vpindex_query(queries[n], profile(3 * n), 20 * n, day(2 * n));
    }
    vpindex_ranges all = vpindex_range_batch(table, ROWS, results, part * count, queries, count);
    for (n = 0; n < count; n++) {
        vpindex_searched one = vpindex_range(table, ROWS, result, ROOM, profile(3 * n), 20 * n, day(2 * n));
        if (all.refusal != 0 || one.refusal != 0 || one.found != all.found[n] ||
            memcmp(result, results + part * n, one.found * sizeof result[0]) != 0) {
            return 0;
        }
    }
    return 1;
}

int main(void) {
    vpindex_weights weights = {{1, 2, 0, 0}};
    for (uint32_t items = 0; items <= ROOM; items++) {
        uint32_t refused = vpindex_fresh(table, ROWS, ORDER, items % 3, weights), n; /* by each metric in turn */
        for (n = 0; n < items; n++) {
            refused |= vpindex_add(table, ROWS, work, ROOM, VPINDEX_TAG(36, n), profile(n), day(n)).refusal;
        }
        for (n = 0; n < items; n += 3) {
            refused |= vpindex_remove(table, ROWS, work, ROOM, VPINDEX_TAG(36, n)).refusal;
        }
        for (n = 0; n < items; n += 6) {
            refused |= vpindex_add(table, ROWS, work, ROOM, VPINDEX_TAG(36, n), profile(n + 1), day(n)).refusal;
        }
        if (refused != 0 || !rows_are_the_items(items) || !batches_are_searches(1 + items % VPINDEX_MAX_QUERIES)) {
            printf("wrong at %u items\n", VPINDEX_AS(unsigned, items));
            return 1;
        }
    }
    return 0;
}
