/*
 * vpindex: an index of up to 4,096 items by likeness. An item is a tag with a profile, which is four measures and a
 * code of 128 bits, and with the day on which it was weighed. The index gives all items within a distance of a query,
 * and the nearest ones, of all items or of those weighed on a given day or later, while items come and go. It keeps
 * vantage-point trees in buckets whose sizes are powers of two.
 *
 * Link with libvpindex.a. The calls allocate nothing, keep nothing between calls and call nothing but the C library's
 * memory functions: all state is in the areas that the caller lends. Whatever these areas hold, each call ends, and its
 * reply and the content of every area afterwards are settled by the rules. In a table of order T that holds items one
 * search counts at most 2^(T+1) - 1 distances, and fewer than four times its items; one add or removal at most T * 2^T.
 *
 * What the caller has to see to, in every call:
 *   - a pointer is not null, also where its length is 0, and points to as many elements as the length says, all of them
 *     readable, and writable in an area that the call may change;
 *   - it is aligned as its type wants;
 *   - areas lent to the same call do not overlap;
 *   - no other thread uses an area while a call has it, except that several may read the same table;
 *   - the stack has room: on x86-64 at most 73 KB for vpindex_load and vpindex_restore, whatever the order, 17 KB for
 *     vpindex_dues, 10 KB for vpindex_range_batch and 5 KB for the others, as worked out from the compiled code;
 *     docs/TESTING.md has the table by processor.
 */
#ifndef VPINDEX_H
#define VPINDEX_H

#include <stddef.h>
#include <stdint.h>

/* Stands before a table or queries that a call only reads. C before C23 takes no pointer to rows where one to const
 * rows is wanted, so there the calls are declared without const, and a program whose table is const hands it over by a
 * cast, as in vpindex_look_up((vpindex_row *)table, ..): nothing of it is written. */
#if defined(__cplusplus) || (defined(__STDC_VERSION__) && __STDC_VERSION__ >= 202311L)
#define VPINDEX_READ const
#else
#define VPINDEX_READ
#endif

/* A conversion that is meant, as C and as C++ want it written. */
#ifdef __cplusplus
#define VPINDEX_AS(type, value) static_cast<type>(value)
extern "C" {
#else
#define VPINDEX_AS(type, value) ((type)(value))
#endif

/* ---- Version --------------------------------------------------------------------------------------------------- */

#define VPINDEX_VERSION_MAJOR 0
#define VPINDEX_VERSION_MINOR 1
#define VPINDEX_VERSION_PATCH 0
#define VPINDEX_VERSION (VPINDEX_VERSION_MAJOR * 1000000 + VPINDEX_VERSION_MINOR * 1000 + VPINDEX_VERSION_PATCH)
#define VPINDEX_VERSION_TEXT "0.1.0"

/* ---- Limits ---------------------------------------------------------------------------------------------------- */

#define VPINDEX_MAX_ORDER 12             /* a table of order T holds at most 2^T items, T being 0 to 12 */
#define VPINDEX_SUM_OF_DIFFERENCES 0     /* metric 0: the sum of the weighted differences of the four measures */
#define VPINDEX_DIFFERING_BITS 1         /* metric 1: the number of bits in which the two codes differ */
#define VPINDEX_LARGEST_DIFFERENCE 2     /* metric 2: the largest of the weighted differences of the four measures */
#define VPINDEX_MAX_WEIGHT 100           /* a measure's absolute difference is multiplied by its weight, 0 to 100 */
#define VPINDEX_MAX_MEASURE 1000000      /* a measure is -1,000,000 to 1,000,000 hundredths */
#define VPINDEX_MAX_DAY 65535            /* a day is 1 to 65,535, counted from a date that the caller chooses */
#define VPINDEX_ANY_DAY 0                /* the first day of a search that leaves no item out */
#define VPINDEX_MAX_LISTED 4096          /* the most tags of a list that vpindex_dues takes */
#define VPINDEX_MAX_RADII 32             /* the most radii that vpindex_lots takes */
#define VPINDEX_SUMMARY_WORDS 2          /* an entry of its summary: the number of lots, the size of the largest */
#define VPINDEX_MIN_TAG VPINDEX_TAG(1, 0)
#define VPINDEX_MAX_NATIONAL UINT64_C(274877906943)  /* the largest national number: 38 bits, as ISO 11784 stores it */
#define VPINDEX_MAX_TAG VPINDEX_TAG(999, VPINDEX_MAX_NATIONAL)

/* A tag from its country, 1 to 999, and its national number, 0 to VPINDEX_MAX_NATIONAL. Country 036 is written 36: in C
 * a number that begins with 0 is octal, and 036 is 30. */
#define VPINDEX_TAG(country, national) \
    (VPINDEX_AS(uint64_t, country) * UINT64_C(1000000000000) + VPINDEX_AS(uint64_t, national))

/* ---- Areas ----------------------------------------------------------------------------------------------------- */

#define VPINDEX_ROW_WORDS 13             /* 32-bit words in a row of the table or of the work area */
#define VPINDEX_ENTRY_WORDS 2            /* 64-bit words in an entry of the result area */

typedef uint32_t vpindex_row[VPINDEX_ROW_WORDS];
typedef uint64_t vpindex_entry[VPINDEX_ENTRY_WORDS];

/* The order that these sizes are given for must be at most VPINDEX_MAX_ORDER. */

/* The table: row 0 has the order, the metric and the weights, in words 0, 1 and 2 to 5, then a row for each bucket has
 * its two sizes, then come the slots, of which vpindex_row_is_live says whether an item is in one. */
#define VPINDEX_TABLE_ROWS(order) (VPINDEX_AS(size_t, order) + 1 + (VPINDEX_AS(size_t, 2) << (order)))
#define VPINDEX_FIRST_SLOT(order) (VPINDEX_AS(size_t, order) + 2)

/* The work area, lent to vpindex_add, vpindex_remove and vpindex_read_list. */
#define VPINDEX_WORK_ROWS(order) (VPINDEX_AS(size_t, 1) << (order))

/* As many entries as any single search of a table that these calls left can find, and a batch of so many queries. */
#define VPINDEX_RESULT_ENTRIES(order) (VPINDEX_AS(size_t, 1) << (order))
#define VPINDEX_BATCH_ENTRIES(order, queries) (VPINDEX_AS(size_t, queries) << (order))

/* The work area lent to vpindex_lots, and as many entries as its listing can have. */
#define VPINDEX_LOTS_ENTRIES(order) (VPINDEX_AS(size_t, 1) << (order))

/* As many bytes as any image of this order can have: every slot of every bucket built. */
#define VPINDEX_IMAGE_BYTES(order) \
    (8 + 4 * (VPINDEX_AS(size_t, order) + 1) + 50 * ((VPINDEX_AS(size_t, 2) << (order)) - 1))

/* The states: snapshots of a table under names 1 to VPINDEX_NAMES, each in its part of the area, an eighth of its bytes
 * rounded down. So many bytes have room for any snapshot of this order under every name. */
#define VPINDEX_NAMES 8
#define VPINDEX_STATES_BYTES(order) (VPINDEX_NAMES * (4 + VPINDEX_IMAGE_BYTES(order)))

/* A query of vpindex_range_batch is a row, which vpindex_query fills: the four measures in words 2 to 5, the code's two
 * words in words 6 and 7 and in words 8 and 9, the low word first, the radius in word 10, and the first day in the
 * lowest 16 bits of word 12. Words 0, 1 and 11 and the rest of word 12 are ignored. */
#define VPINDEX_MAX_QUERIES 16

/* The first line of a herd list; vpindex_read_list says what follows it. */
#define VPINDEX_LIST_HEADER "tag;kg;hip;girth;gain\n"

/* ---- Refusals ----------------------------------------------------------------------------------------------------
 * A refused call returns the number of its refusal, with zeros in every other field of the reply, and changes no area.
 * There are four exceptions: VPINDEX_NO_ROOM from vpindex_range, vpindex_nearest or vpindex_range_batch leaves the
 * result area all zero, and from vpindex_lots the summary and the listing; vpindex_read_list keeps what it added before
 * the line that it refuses, and says so; and by the three numbers of a tree vpindex_load and vpindex_restore name the
 * slot. Where several conditions hold, the first in the order given at the call is returned. */

#define VPINDEX_ACCEPTED 0

/* by the input */
#define VPINDEX_BAD_TAG 1                /* the country is not 1 to 999, or the national above VPINDEX_MAX_NATIONAL */
#define VPINDEX_BAD_MEASURE 2            /* a measure outside its range */
#define VPINDEX_BAD_ORDER 3              /* order above 12 */
#define VPINDEX_BAD_METRIC 4             /* metric above 2 */
#define VPINDEX_NO_COUNT 5               /* nearest with k = 0 */
#define VPINDEX_NO_ROOM 6                /* a result, dues, lots, image or snapshot is longer than its area or part */
#define VPINDEX_BAD_LENGTH 7             /* the image's length is wrong, or past the part that it is restored from */
#define VPINDEX_BAD_IMAGE 8              /* an image of no known form, or a field of some slot breaks a rule */
#define VPINDEX_BAD_WEIGHT 32            /* a weight above 100 */
#define VPINDEX_BAD_DAY 33               /* an item's day is 0 */
#define VPINDEX_BAD_NAME 34              /* a name outside 1 to 8 */
#define VPINDEX_NO_DUES 39               /* a listed item weighs below 0, or more than VPINDEX_MAX_LISTED tags */
#define VPINDEX_BAD_BATCH 40             /* no query, or more than 16 */
#define VPINDEX_BAD_RADII 41             /* no radius, more than VPINDEX_MAX_RADII, or a place not in their list */

/* by a tree of an image, with the slot */
#define VPINDEX_DUPLICATE_TAG 36         /* the tag is in an earlier slot of the bucket, or live here and earlier */
#define VPINDEX_MISPLACED_ITEM 37        /* the slot's item is not the one that the tree's layout puts there */
#define VPINDEX_BAD_THRESHOLD 38         /* the slot's threshold is not the layout's */

/* by the state */
#define VPINDEX_ALREADY_LIVE 20          /* the tag is in the table */
#define VPINDEX_NOT_LIVE 21              /* the tag is not in the table */
#define VPINDEX_FULL 22                  /* the table has 2^T items */
#define VPINDEX_SHORT_AREA 23            /* table or work area shorter than the order needs, or a table of no rows */
#define VPINDEX_BAD_TABLE 24             /* a table's order, metric, weights, sizes or marks, or an image's sizes */
#define VPINDEX_NOT_SAVED 35             /* nothing was saved under the name */

/* by the list */
#define VPINDEX_BAD_LIST_HEADER 30       /* the list does not begin with VPINDEX_LIST_HEADER */
#define VPINDEX_BAD_LIST_LINE 31         /* a line of the list is not of the form */

/* A refusal in one sentence, for people. */
static inline const char *vpindex_refusal_text(uint32_t refusal) {
    switch (refusal) {
    case VPINDEX_ACCEPTED: return "accepted";
    case VPINDEX_BAD_TAG: return "the tag's country is not 1 to 999, or its national number is above 274,877,906,943";
    case VPINDEX_BAD_MEASURE: return "a measure is not -10,000.00 to 10,000.00";
    case VPINDEX_BAD_ORDER: return "the order is above 12";
    case VPINDEX_BAD_METRIC: return "there is no metric of this number";
    case VPINDEX_NO_COUNT: return "the nearest 0 items were asked for";
    case VPINDEX_NO_ROOM: return "an area is too short for the reply, or the states for the snapshot";
    case VPINDEX_BAD_LENGTH: return "the image's length is wrong, or past the part of the states that it is in";
    case VPINDEX_BAD_IMAGE: return "the image is of no known form, or a field of some slot breaks a rule";
    case VPINDEX_ALREADY_LIVE: return "the tag is in the table already";
    case VPINDEX_NOT_LIVE: return "the tag is not in the table";
    case VPINDEX_FULL: return "the table holds as many items as its order allows";
    case VPINDEX_SHORT_AREA: return "a lent area is shorter than the order needs";
    case VPINDEX_BAD_TABLE: return "the sizes of the image, or header, sizes or marks of the table, break the rules";
    case VPINDEX_BAD_LIST_HEADER: return "the list does not begin with its header line";
    case VPINDEX_BAD_LIST_LINE: return "a line of the list is not of the form";
    case VPINDEX_BAD_WEIGHT: return "a weight is above 100";
    case VPINDEX_BAD_DAY: return "the day is 0";
    case VPINDEX_BAD_NAME: return "the name is not 1 to 8";
    case VPINDEX_NOT_SAVED: return "nothing was saved under the name";
    case VPINDEX_DUPLICATE_TAG:
        return "the slot's tag is in an earlier slot of its bucket, or live here and in an earlier slot";
    case VPINDEX_MISPLACED_ITEM: return "the slot's item is not the one that the tree's layout puts there";
    case VPINDEX_BAD_THRESHOLD: return "the slot's threshold is not the one that the tree's layout gives it";
    case VPINDEX_NO_DUES: return "a listed item weighs below 0, or the list has more than 4,096 tags";
    case VPINDEX_BAD_BATCH: return "a batch has no query, or more than 16";
    case VPINDEX_BAD_RADII: return "there are not 1 to 32 radii, or the chosen place is not in their list";
    default: return "a refusal that this header does not know";
    }
}

/* ---- Values ---------------------------------------------------------------------------------------------------- */

typedef struct {
    int32_t measures[4];                 /* in hundredths, each -1,000,000 to 1,000,000 */
    uint64_t code[2];                    /* any value */
} vpindex_profile;

typedef struct {
    uint32_t each[4];                    /* of the four measures in their order, each 0 to VPINDEX_MAX_WEIGHT */
} vpindex_weights;

/* Every measure counts as it is. */
static const vpindex_weights VPINDEX_WEIGHTS_ONE = {{1, 1, 1, 1}};

typedef struct {
    uint32_t refusal;
    uint32_t bucket;                     /* the bucket that was built, with the new item in it */
    uint32_t distances;                  /* distances worked out by the build */
} vpindex_added;

typedef struct {
    uint32_t refusal;
    uint32_t distances;                  /* distances worked out by the build, 0 where there was none */
} vpindex_removed;

typedef struct {
    uint32_t refusal;
    uint32_t bucket;                     /* the bucket that the item is in */
    vpindex_profile profile;
    uint32_t day;                        /* on which the item was weighed */
} vpindex_looked_up;

typedef struct {
    uint32_t refusal;
    uint32_t found;                      /* entries at the front of the result area */
    uint32_t distances;                  /* slots met by the rule, each of which counts one distance; those worked out in
                                            fact are 1.0 to 1.4 times as many, as up to seven are at once */
} vpindex_searched;

typedef struct {
    uint32_t refusal;
    uint32_t distances;                  /* slots met, each counted once however many queries met it */
    uint32_t found[VPINDEX_MAX_QUERIES]; /* entries at the front of each query's part; 0 past the queries */
} vpindex_ranges;

typedef struct {
    uint32_t refusal;
    uint32_t length;                     /* bytes of the image */
} vpindex_written;

typedef struct {
    uint32_t refusal;
    uint32_t slot;                       /* by the three numbers of a tree, 36 to 38, the slot, counted from 0 over all
                                            slots of the image; by all others 0 */
} vpindex_loaded;

typedef struct {
    uint32_t refusal;                    /* of the line that was refused, 0 where none was */
    uint32_t line;                       /* its number, the header being line 1; 0 where none was refused */
    uint32_t added;                      /* items added, by the lines before it */
    uint32_t distances;                  /* distances worked out by their builds, all together */
} vpindex_list_read;

typedef struct {
    uint32_t refusal;
    uint64_t total;                      /* in cents, the sum of what each pays */
} vpindex_dues_reply;

/* ---- Rows --------------------------------------------------------------------------------------------------------
 * A slot's row has the tag in words 0 and 1, the profile and the day as a query has profile and first day, and in words
 * 10 and 11 its threshold and its mark, 0 where it is live. All words are 0 in a slot that no item is in. Of a table
 * that these calls left, all items are listed so:
 *     for (size_t i = VPINDEX_FIRST_SLOT(order); i < VPINDEX_TABLE_ROWS(order); i++)
 *         if (vpindex_row_is_live(table[i])) .. vpindex_row_tag(table[i]) .. */

static inline uint64_t vpindex_words(uint32_t low, uint32_t high) {
    return VPINDEX_AS(uint64_t, high) << 32 | low;
}

static inline uint64_t vpindex_row_tag(const uint32_t row[VPINDEX_ROW_WORDS]) {
    return vpindex_words(row[0], row[1]);
}

/* Whether an item is in the slot that was not removed: no tag is 0. */
static inline int vpindex_row_is_live(const uint32_t row[VPINDEX_ROW_WORDS]) {
    return row[11] == 0 && vpindex_row_tag(row) != 0;
}

static inline vpindex_profile vpindex_row_profile(const uint32_t row[VPINDEX_ROW_WORDS]) {
    vpindex_profile profile = {{VPINDEX_AS(int32_t, row[2]), VPINDEX_AS(int32_t, row[3]),
                                VPINDEX_AS(int32_t, row[4]), VPINDEX_AS(int32_t, row[5])},
                               {vpindex_words(row[6], row[7]), vpindex_words(row[8], row[9])}};
    return profile;
}

static inline uint16_t vpindex_row_day(const uint32_t row[VPINDEX_ROW_WORDS]) {
    return VPINDEX_AS(uint16_t, row[12] & 65535);
}

/* Makes a row a query of vpindex_range_batch. */
static inline void vpindex_query(uint32_t row[VPINDEX_ROW_WORDS], vpindex_profile profile, uint32_t radius,
                                 uint16_t first_day) {
    size_t i;
    for (i = 0; i < 4; i++) {
        row[2 + i] = VPINDEX_AS(uint32_t, profile.measures[i]);
        row[6 + i] = VPINDEX_AS(uint32_t, profile.code[i / 2] >> 32 * (i % 2) & 4294967295U);
    }
    row[0] = row[1] = row[11] = 0;
    row[10] = radius;
    row[12] = first_day;
}

/* ---- Calls -------------------------------------------------------------------------------------------------------
 * Lengths are in elements: rows, entries, bytes, numbers. Rows, bytes and numbers past what a call needs keep their
 * content. */

/* Makes the table empty, of this order and metric; it may have held anything. By metrics 0 and 2 the difference of
 * each measure is multiplied by its weight; metric 1 has no use for the weights, which are kept all the same. A
 * weighted difference above 4,294,967,295 is taken as that, and so is a sum of them.
 * Returns 0 or a refusal: BAD_ORDER, BAD_METRIC, BAD_WEIGHT (by any metric), SHORT_AREA (fewer than
 * VPINDEX_TABLE_ROWS(order) rows). */
uint32_t vpindex_fresh(uint32_t (*table)[VPINDEX_ROW_WORDS], size_t table_rows, uint32_t order, uint32_t metric,
                       vpindex_weights weights);

/* Makes the table the one that the image was written from; it may have held anything. The image is checked whole before
 * the first row is written, so a refused load changes nothing. Bytes 2 and 3 of an image are the number of its form.
 * Form 2 has the four weights next, a byte each, and a day at the end of each record. Form 1, from before there were
 * days, loads with day 1 in every item; form 0, from before there were weights, with day 1 and weights 1.
 * It tests rules and not damage: a bit flipped in a measure or a code is another herd, and 29 to 47 % of single flips
 * were seen to load. What carries an image has to check that it arrives as it was sent.
 * Refusals: BAD_LENGTH (under 4 bytes), BAD_ORDER, BAD_METRIC, BAD_IMAGE (form above 2), in forms 1 and 2 BAD_LENGTH
 * (weights cut short) and BAD_WEIGHT, BAD_LENGTH (sizes cut short), BAD_TABLE (sizes), BAD_LENGTH (not the length that
 * the sizes give), SHORT_AREA, in form 2 BAD_DAY (in any record, a removed item's too), BAD_IMAGE (tags, measures,
 * marks and their number, of any slot). Then slot by slot, by bucket from 0 up and as they stand in it, in each slot
 * DUPLICATE_TAG, MISPLACED_ITEM, BAD_THRESHOLD: the lowest slot that one applies to is named. */
vpindex_loaded vpindex_load(uint32_t (*table)[VPINDEX_ROW_WORDS], size_t table_rows, const uint8_t *image,
                            size_t image_bytes);

/* Adds an item that was weighed on this day. The work area's first VPINDEX_WORK_ROWS(order) rows are zero after an
 * accepted call.
 * Refusals: SHORT_AREA (no rows), BAD_TABLE (order, metric), SHORT_AREA (table, work), BAD_TABLE (weights, sizes,
 * marks), BAD_TAG, BAD_MEASURE, BAD_DAY, ALREADY_LIVE, FULL. */
vpindex_added vpindex_add(uint32_t (*table)[VPINDEX_ROW_WORDS], size_t table_rows, uint32_t (*work)[VPINDEX_ROW_WORDS],
                          size_t work_rows, uint64_t tag, vpindex_profile profile, uint16_t day);

/* Removes the item with this tag. The work area's first VPINDEX_WORK_ROWS(order) rows are zero after an accepted call.
 * Refusals: SHORT_AREA (no rows), BAD_TABLE (order, metric), SHORT_AREA (table, work), BAD_TABLE (weights, sizes,
 * marks), BAD_TAG, NOT_LIVE. */
vpindex_removed vpindex_remove(uint32_t (*table)[VPINDEX_ROW_WORDS], size_t table_rows,
                               uint32_t (*work)[VPINDEX_ROW_WORDS], size_t work_rows, uint64_t tag);

/* Gives the bucket, the profile and the day of the item with this tag. No area is changed.
 * Refusals: SHORT_AREA (no rows), BAD_TABLE (order, metric), SHORT_AREA, BAD_TABLE (weights, sizes), BAD_TAG,
 * NOT_LIVE. */
vpindex_looked_up vpindex_look_up(VPINDEX_READ uint32_t (*table)[VPINDEX_ROW_WORDS], size_t table_rows, uint64_t tag);

/* Finds all items that were weighed on the first day or later and whose distance from the query is at most the radius.
 * The first day is any number; VPINDEX_ANY_DAY leaves no item out. The result area gets an entry for each item found,
 * tag then distance, by distance and then tag, and zeros after them to its end.
 * Refusals: SHORT_AREA (no rows), BAD_TABLE (order, metric), SHORT_AREA, BAD_TABLE (weights, sizes), BAD_MEASURE,
 * NO_ROOM. */
vpindex_searched vpindex_range(VPINDEX_READ uint32_t (*table)[VPINDEX_ROW_WORDS], size_t table_rows,
                               uint64_t (*result)[VPINDEX_ENTRY_WORDS], size_t result_entries, vpindex_profile query,
                               uint32_t radius, uint16_t first_day);

/* Of the items that were weighed on the first day or later, finds the k nearest to the query, or all where there are
 * fewer; of items at the same distance the lower tag goes first. First day and result area as in vpindex_range.
 * Refusals: SHORT_AREA (no rows), BAD_TABLE (order, metric), SHORT_AREA, BAD_TABLE (weights, sizes), BAD_MEASURE,
 * NO_COUNT, NO_ROOM. */
vpindex_searched vpindex_nearest(VPINDEX_READ uint32_t (*table)[VPINDEX_ROW_WORDS], size_t table_rows,
                                 uint64_t (*result)[VPINDEX_ENTRY_WORDS], size_t result_entries, vpindex_profile query,
                                 uint32_t k, uint16_t first_day);

/* Range for 1 to VPINDEX_MAX_QUERIES queries at once, each with its own radius and first day: each query's entries and
 * their number are those of vpindex_range. With n queries the result area is cut into n parts of result_entries / n
 * entries, in the order of the queries; zeros stand after the entries of each part, and in entries left over behind the
 * last part. A slot is read once if any of the queries meets it, so the count is at most that of the single calls added
 * up. The queries are only read.
 * Refusals: SHORT_AREA (no rows), BAD_TABLE (order, metric), SHORT_AREA, BAD_TABLE (weights, sizes), BAD_BATCH,
 * BAD_MEASURE (of any query), NO_ROOM (a query finds more than a part holds). */
vpindex_ranges vpindex_range_batch(VPINDEX_READ uint32_t (*table)[VPINDEX_ROW_WORDS], size_t table_rows,
                                   uint64_t (*result)[VPINDEX_ENTRY_WORDS], size_t result_entries,
                                   VPINDEX_READ uint32_t (*queries)[VPINDEX_ROW_WORDS], size_t query_count);

/* Writes the table's image, of form 2, which vpindex_load reads.
 * Refusals: SHORT_AREA (no rows), BAD_TABLE (order, metric), SHORT_AREA, BAD_TABLE (weights, sizes), NO_ROOM. */
vpindex_written vpindex_write(VPINDEX_READ uint32_t (*table)[VPINDEX_ROW_WORDS], size_t table_rows, uint8_t *image,
                              size_t image_bytes);

/* Adds the items of a herd list, as a scale head writes it: VPINDEX_LIST_HEADER, then a line for each item, such as
 *     036000000000101;412,50;129,00;185,00;-0,95
 * A line is a tag of 15 digits and four measures, parted by single semicolons, and ends in one line feed, the last line
 * too. A measure is 1 to 5 digits, a comma and 2 digits, so that 412,50 is 41250 hundredths; one minus may stand before
 * it and covers all digits. The code is zero, and all items are of the one day given. Each line is an add, in the order
 * of the list. The first line that is refused ends the reading: the lines before it stay added, and table and work area
 * are as those adds left them. Where no line follows the header, nothing more is checked, not the day either, and the
 * reply is all zeros.
 * Refusals: BAD_LIST_HEADER, before anything of the table or the work area is looked at; then line by line
 * BAD_LIST_LINE, also for bytes after the last line feed, and those of vpindex_add in their order. */
vpindex_list_read vpindex_read_list(uint32_t (*table)[VPINDEX_ROW_WORDS], size_t table_rows,
                                    uint32_t (*work)[VPINDEX_ROW_WORDS], size_t work_rows, const uint8_t *list,
                                    size_t list_bytes, uint16_t day);

/* Saves a snapshot of the table under a name, in place of one before: the image's length in four bytes, the lowest
 * first, and then the image, at the start of the name's part. Every other byte of the states keeps its content. An area
 * of zeros, of any length, has nothing saved. The reply's length is the image's.
 * Refusals: BAD_NAME, then those of vpindex_write, NO_ROOM where the part has fewer than 4 bytes and the image. */
vpindex_written vpindex_save(VPINDEX_READ uint32_t (*table)[VPINDEX_ROW_WORDS], size_t table_rows, uint8_t *states,
                             size_t states_bytes, uint32_t name);

/* Makes the table the one that was saved under the name, dead slots too; it may have held anything. The states are only
 * read, so a name can be restored again and again.
 * Refusals: BAD_NAME, NOT_SAVED (a length of 0, or a part under 4 bytes), BAD_LENGTH (a length past the rest of the
 * part), then those of vpindex_load for the image, with their slot. Of a part that vpindex_save left, and a table that
 * only these calls changed, SHORT_AREA alone can be returned. */
vpindex_loaded vpindex_restore(uint32_t (*table)[VPINDEX_ROW_WORDS], size_t table_rows, const uint8_t *states,
                               size_t states_bytes, uint32_t name);

/* Gives what the items with these tags pay at the gate, in cents: the dues area gets a number for each tag, in their
 * order, and numbers past them keep their content. An item pays one rate on its whole weight, its first measure as
 * kilos: below 400.00 kg, 2 cents a kilo; below 600.00 kg, 3 cents; else 4 cents; to the nearest cent, half up. The
 * total is the sum of these. A tag that is listed twice pays twice, and no tags cost 0. A refused call leaves the dues
 * area as it was.
 * Refusals: SHORT_AREA (no rows), BAD_TABLE (order, metric), SHORT_AREA, BAD_TABLE (weights, sizes); then, each of the
 * whole list before the next, NOT_LIVE, NO_DUES, NO_ROOM (dues area too short). The form of a tag is not asked. */
vpindex_dues_reply vpindex_dues(VPINDEX_READ uint32_t (*table)[VPINDEX_ROW_WORDS], size_t table_rows,
                                const uint64_t *tags, size_t tag_count, uint32_t *dues, size_t dues_numbers);

/* Drafts the items into lots by each of 1 to VPINDEX_MAX_RADII radii, in any order, also one twice. By a radius the
 * item of the lowest tag that is in no lot yet leads one: itself and every other in no lot yet whose distance from it
 * is at most the radius; and so on until all are in a lot. The summary gets an entry for each radius, in their order:
 * the number of lots, and the size of the largest, both 0 where there are no items. `chosen` is a place in the list of
 * radii, 1 being the first; the listing gets an entry for each item, tag then the number of its lot by that radius,
 * lots being numbered from 1 in the order in which they were led, by lot and then tag. Zeros follow both to their end.
 * Days play no part, and the table is not changed. The work area, of entries, is zero after an accepted call as far as
 * VPINDEX_LOTS_ENTRIES reaches, and entries past that keep their content. It returns the refusal.
 * Refusals: SHORT_AREA (no rows), BAD_TABLE (order, metric), SHORT_AREA (the work area too), BAD_TABLE (weights, sizes,
 * marks), BAD_RADII, NO_ROOM (fewer entries in the summary than radii, or in the listing than items): both are then all
 * zero, and the work area is kept. */
uint32_t vpindex_lots(VPINDEX_READ uint32_t (*table)[VPINDEX_ROW_WORDS], size_t table_rows,
                      uint64_t (*work)[VPINDEX_ENTRY_WORDS], size_t work_entries, const uint32_t *radii,
                      size_t radius_count, uint32_t (*summary)[VPINDEX_SUMMARY_WORDS], size_t summary_entries,
                      uint64_t (*listing)[VPINDEX_ENTRY_WORDS], size_t listing_entries, uint32_t chosen);

#ifdef __cplusplus
}
#endif

#endif
