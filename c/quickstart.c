/* Adds a small herd, asks both questions, once more of those weighed of late and once where kilos weigh more, removes
 * one, saves and loads an image, and reads a list of two more. It writes what the Rust example
 * rust/vpindex/examples/quickstart.rs writes; quickstart.expected has it. */
#include <inttypes.h>
#include <stdio.h>

#include "vpindex.h"

#define ORDER 3
#define ITEMS 6

/* national number; weight, hip height, girth and daily gain, in hundredths; the day of the year */
static const struct {
    uint64_t national;
    int32_t measures[4];
    uint16_t day;
} items[ITEMS] = {
    {101, {41250, 12900, 18500, 95}, 305},  {102, {39800, 12700, 18100, 90}, 305},
    {103, {55600, 13800, 20700, 120}, 291}, {104, {40900, 12850, 18450, 102}, 212},
    {105, {56100, 13750, 20900, 118}, 305}, {106, {28300, 11400, 15600, 88}, 298},
};

/* of day 306; the second is in the table already */
#define LIST_DAY 306
static const char list[] = VPINDEX_LIST_HEADER
    "036000000000107;402,50;128,00;183,00;-0,35\n"
    "036000000000101;412,50;129,00;185,00;0,95\n";

static uint32_t table[VPINDEX_TABLE_ROWS(ORDER)][VPINDEX_ROW_WORDS];
static uint32_t weighted[VPINDEX_TABLE_ROWS(ORDER)][VPINDEX_ROW_WORDS];
static uint32_t loaded[VPINDEX_TABLE_ROWS(ORDER)][VPINDEX_ROW_WORDS];
static uint32_t work[VPINDEX_WORK_ROWS(ORDER)][VPINDEX_ROW_WORDS];
static uint64_t result[VPINDEX_RESULT_ENTRIES(ORDER)][VPINDEX_ENTRY_WORDS];
static uint8_t image[VPINDEX_IMAGE_BYTES(ORDER)];

static vpindex_added add_item(uint32_t (*to)[VPINDEX_ROW_WORDS], size_t i) {
    vpindex_profile profile = {{0}, {0, 0}};
    for (size_t j = 0; j < 4; j++) {
        profile.measures[j] = items[i].measures[j];
    }
    uint64_t tag = VPINDEX_TAG(36, items[i].national);
    return vpindex_add(to, VPINDEX_TABLE_ROWS(ORDER), work, VPINDEX_WORK_ROWS(ORDER), tag, profile,
                       items[i].day);
}

static uint32_t add_items(void) {
    for (size_t i = 0; i < ITEMS; i++) {
        vpindex_added added = add_item(table, i);
        if (added.refusal != VPINDEX_ACCEPTED) {
            return added.refusal;
        }
        printf("add %" PRIu64 ": bucket %" PRIu32 ", %" PRIu32 " distances\n", items[i].national, added.bucket,
               added.distances);
    }
    return VPINDEX_ACCEPTED;
}

static void print(const char *question, vpindex_searched searched) {
    printf("%s: %" PRIu32 " found, %" PRIu32 " distances\n", question, searched.found, searched.distances);
    for (uint32_t i = 0; i < searched.found; i++) {
        printf("  %015" PRIu64 " %" PRIu64 "\n", result[i][0], result[i][1]);
    }
}

/* kilos ten times, the daily gain not at all */
static uint32_t make_weighted(void) {
    const vpindex_weights weights = {{10, 1, 1, 0}};
    uint32_t refusal =
        vpindex_fresh(weighted, VPINDEX_TABLE_ROWS(ORDER), ORDER, VPINDEX_SUM_OF_DIFFERENCES, weights);
    for (size_t i = 0; i < ITEMS && refusal == VPINDEX_ACCEPTED; i++) {
        refusal = add_item(weighted, i).refusal;
    }
    return refusal;
}

static void remove_twice(uint64_t national) {
    uint64_t tag = VPINDEX_TAG(36, national);
    vpindex_removed first = vpindex_remove(table, VPINDEX_TABLE_ROWS(ORDER), work, VPINDEX_WORK_ROWS(ORDER), tag);
    printf("remove %" PRIu64 ": %" PRIu32 " distances\n", national, first.distances);
    vpindex_removed again = vpindex_remove(table, VPINDEX_TABLE_ROWS(ORDER), work, VPINDEX_WORK_ROWS(ORDER), tag);
    if (again.refusal == VPINDEX_NOT_LIVE) {
        printf("remove %" PRIu64 " again: refusal %" PRIu32 "\n", national, again.refusal);
    }
}

static void read_more(void) {
    vpindex_list_read read = vpindex_read_list(loaded, VPINDEX_TABLE_ROWS(ORDER), work, VPINDEX_WORK_ROWS(ORDER),
                                               (const uint8_t *)list, sizeof list - 1, LIST_DAY);
    printf("list: %" PRIu32 " added, %" PRIu32 " distances", read.added, read.distances);
    if (read.refusal != VPINDEX_ACCEPTED) {
        printf("; line %" PRIu32 ": refusal %" PRIu32, read.line, read.refusal);
    }
    printf("\n");
}

static void print_day(uint64_t national) {
    vpindex_looked_up found = vpindex_look_up(loaded, VPINDEX_TABLE_ROWS(ORDER), VPINDEX_TAG(36, national));
    if (found.refusal == VPINDEX_ACCEPTED) {
        printf("look up %" PRIu64 ": weighed on day %" PRIu32 "\n", national, found.day);
    }
}

int main(void) {
    const size_t rows = VPINDEX_TABLE_ROWS(ORDER);
    const size_t room = VPINDEX_RESULT_ENTRIES(ORDER);
    const vpindex_profile query = {{41000, 12900, 18400, 100}, {0, 0}};

    if (vpindex_fresh(table, rows, ORDER, VPINDEX_SUM_OF_DIFFERENCES, VPINDEX_WEIGHTS_ONE) != VPINDEX_ACCEPTED ||
        add_items() != VPINDEX_ACCEPTED) {
        return 1;
    }
    print("range 500", vpindex_range(table, rows, result, room, query, 500, VPINDEX_ANY_DAY));
    print("nearest 3", vpindex_nearest(table, rows, result, room, query, 3, VPINDEX_ANY_DAY));
    print("nearest 3, since day 290", vpindex_nearest(table, rows, result, room, query, 3, 290));
    if (make_weighted() != VPINDEX_ACCEPTED) {
        return 1;
    }
    print("nearest 3, kilos weigh more", vpindex_nearest(weighted, rows, result, room, query, 3, VPINDEX_ANY_DAY));
    remove_twice(104);

    vpindex_written written = vpindex_write(table, rows, image, sizeof image);
    if (written.refusal != VPINDEX_ACCEPTED
        || vpindex_load(loaded, rows, image, written.length).refusal != VPINDEX_ACCEPTED) {
        return 1;
    }
    printf("image: %" PRIu32 " bytes\n", written.length);
    print("nearest 3, loaded", vpindex_nearest(loaded, rows, result, room, query, 3, VPINDEX_ANY_DAY));
    read_more();
    print_day(107);
    print("nearest 3, with the list", vpindex_nearest(loaded, rows, result, room, query, 3, VPINDEX_ANY_DAY));
    return 0;
}
