/*
 * The same calls on every processor: random calls of all kinds, from a seed, with a digest of every reply and of every
 * area that a call may change. Two processors on which the digests are equal gave the same bytes all along. Tables of
 * orders 0 to 6 made by the calls and spoiled, images of every form, whole, cut and altered, lists, states, areas that
 * are too short; and of order 12 a full table and the longest image. It needs no C library: digest_main.c prints what
 * it gives.
 */
#include "digest.h"
#include "vpindex.h"

enum { SMALL = 6, LARGE = VPINDEX_MAX_ORDER, MORE = 2, LISTED = 6, LIST_BYTES = 512, RADII = VPINDEX_MAX_RADII + 1 };

static vpindex_row table[VPINDEX_TABLE_ROWS(LARGE) + MORE], work[VPINDEX_WORK_ROWS(LARGE) + MORE];
static vpindex_row queries[VPINDEX_MAX_QUERIES + 1];
static vpindex_entry result[VPINDEX_RESULT_ENTRIES(LARGE)], lots[VPINDEX_LOTS_ENTRIES(LARGE) + MORE];
static uint64_t tags[VPINDEX_MAX_LISTED + 1];
static uint32_t dues[VPINDEX_MAX_LISTED + 1], radii[RADII], summary[RADII + 1][VPINDEX_SUMMARY_WORDS];
/* Words, so that they can be mixed as such. */
static uint32_t image_words[VPINDEX_IMAGE_BYTES(LARGE) / 4 + 1], states_words[VPINDEX_STATES_BYTES(LARGE) / 4 + 1];
static uint32_t list_words[LIST_BYTES / 4];
static uint8_t *const image = (uint8_t *)image_words, *const states = (uint8_t *)states_words;
static uint8_t *const list = (uint8_t *)list_words;
static size_t image_length;

/* ---- Random numbers, drawn one by one: in which order a compiler works arguments out is its own choice ---------- */

static uint32_t state;

static uint32_t any(void) {
    state ^= state << 13;
    state ^= state >> 17;
    state ^= state << 5;
    return state;
}

static uint32_t below(uint32_t n) { return (any() >> 4) % n; }
static uint32_t one_in(uint32_t n) { return below(n) == 0; }

/* ---- The digest ------------------------------------------------------------------------------------------------- */

static uint64_t digest;
static uint32_t *met;

static void mix(uint64_t number) {
    digest = (digest ^ number) * UINT64_C(1099511628211);
    digest ^= digest >> 29;
}

static void mix_words(const uint32_t *words, size_t count) {
    for (size_t i = 0; i < count; i++) {
        mix(words[i]);
    }
}

static void mix_wide(const uint64_t *words, size_t count) {
    for (size_t i = 0; i < count; i++) {
        mix(words[i]);
    }
}

static void mix_table(size_t rows) { mix_words(table[0], rows * VPINDEX_ROW_WORDS); }
static void mix_work(size_t rows) { mix_words(work[0], rows * VPINDEX_ROW_WORDS); }
static void mix_result(size_t entries) { mix_wide(result[0], entries * VPINDEX_ENTRY_WORDS); }

/* Which refusals were met, so that a test that hardly tests anything is seen. */
static uint32_t mix_refusal(uint32_t refusal) {
    mix(refusal);
    met[refusal < DIGEST_REFUSALS ? refusal : DIGEST_REFUSALS - 1]++;
    return refusal;
}

/* ---- What the calls are given ----------------------------------------------------------------------------------- */

/* The table's own order, as far as the areas of the small ones go. */
static uint32_t order(void) { return table[0][0] <= SMALL ? table[0][0] : SMALL; }

/* Enough elements, and now and then fewer. */
static size_t lent(size_t enough) {
    uint32_t fewer = below((uint32_t)enough + 1);
    return one_in(25) ? fewer : enough;
}

static size_t table_rows(void) { return lent(VPINDEX_TABLE_ROWS(order()) + below(MORE + 1)); }
static size_t work_rows(void) { return lent(VPINDEX_WORK_ROWS(order()) + below(MORE + 1)); }

static uint64_t any_tag(void) {
    uint32_t country = 1 + below(2), national = below(48), high = any(), low = any();
    return one_in(60) ? ((uint64_t)high << 32 | low) : VPINDEX_TAG(country, national);
}

/* The tag of some slot of the table, mostly. */
static uint64_t met_tag(void) {
    uint64_t tag = any_tag();
    uint32_t row = order() + 2 + below((uint32_t)2 << order());
    if (one_in(8) || row >= VPINDEX_TABLE_ROWS(order()) || table[row][0] == 0) {
        return tag;
    }
    return (uint64_t)table[row][1] << 32 | table[row][0];
}

static vpindex_profile any_profile(void) {
    vpindex_profile profile;
    for (int i = 0; i < 4; i++) {
        uint32_t near = below(8), far = below(60000), wild = any();
        profile.measures[i] = one_in(150) ? (int32_t)wild : one_in(2) ? (int32_t)near - 4 : (int32_t)far - 2000;
    }
    for (int i = 0; i < 2; i++) {
        uint32_t high = any(), low = any();
        profile.code[i] = one_in(2) ? low % 16 : (uint64_t)high << 32 | low;
    }
    return profile;
}

static uint16_t any_day(void) {
    uint32_t day = below(400);
    return (uint16_t)(one_in(30) ? any() : day);
}

/* A table as nobody's calls left it: a word of some row is another one, mostly until it is put back. */
static struct {
    uint32_t row, word, kept, spoiled;
} spot;

static void spoil(void) {
    uint32_t header = below(SMALL + 2), low = below(6), wild = any();
    spot.row = below((uint32_t)VPINDEX_TABLE_ROWS(order()));
    spot.word = below(VPINDEX_ROW_WORDS);
    if (one_in(3)) {
        spot.row = header;
    }
    spot.kept = table[spot.row][spot.word];
    spot.spoiled = !one_in(12);
    table[spot.row][spot.word] = one_in(2) ? low : wild;
}

static void mend(void) {
    if (spot.spoiled) {
        table[spot.row][spot.word] = spot.kept;
        spot.spoiled = 0;
    }
}

/* ---- Calls ------------------------------------------------------------------------------------------------------ */

static void call_fresh(void) {
    vpindex_weights weights;
    uint32_t low = below(SMALL + 1), high = SMALL - below(2);
    uint32_t to = one_in(25) ? any() : one_in(2) ? low : high, metric = one_in(25) ? any() : below(3);
    size_t rows = lent(VPINDEX_TABLE_ROWS(to <= SMALL ? to : SMALL));
    for (int i = 0; i < 4; i++) {
        uint32_t weight = below(VPINDEX_MAX_WEIGHT + 1), wild = any();
        weights.each[i] = one_in(80) ? wild : weight;
    }
    if (one_in(2)) {
        weights = VPINDEX_WEIGHTS_ONE;
    }
    mix_refusal(vpindex_fresh(table, rows, to, metric, weights));
    mix_table(rows);
}

static void call_add(void) {
    uint64_t tag = any_tag();
    vpindex_profile profile = any_profile();
    uint16_t day = any_day();
    size_t rows = table_rows(), room = work_rows();
    vpindex_added reply = vpindex_add(table, rows, work, room, tag, profile, day);
    mix_refusal(reply.refusal);
    mix(reply.bucket);
    mix(reply.distances);
    mix_table(rows);
    mix_work(room);
}

static void call_remove(void) {
    uint64_t tag = met_tag();
    size_t rows = table_rows(), room = work_rows();
    vpindex_removed reply = vpindex_remove(table, rows, work, room, tag);
    mix_refusal(reply.refusal);
    mix(reply.distances);
    mix_table(rows);
    mix_work(room);
}

static void call_look_up(void) {
    uint64_t tag = met_tag();
    size_t rows = table_rows();
    vpindex_looked_up reply = vpindex_look_up(table, rows, tag);
    mix_refusal(reply.refusal);
    mix(reply.bucket);
    for (int i = 0; i < 4; i++) {
        mix((uint32_t)reply.profile.measures[i]);
    }
    mix_wide(reply.profile.code, 2);
    mix(reply.day);
    mix_table(rows);
}

static void call_search(void) {
    vpindex_profile query = any_profile();
    uint32_t radius = one_in(6) ? any() : below(60000), k = below(12), nearest = one_in(2);
    uint16_t first_day = any_day();
    size_t rows = table_rows(), room = lent(VPINDEX_RESULT_ENTRIES(order()));
    vpindex_searched reply = nearest ? vpindex_nearest(table, rows, result, room, query, k, first_day)
                                     : vpindex_range(table, rows, result, room, query, radius, first_day);
    mix_refusal(reply.refusal);
    mix(reply.found);
    mix(reply.distances);
    mix_result(room);
}

static void call_range_batch(void) {
    uint32_t count = below(VPINDEX_MAX_QUERIES + 2);
    size_t rows = table_rows(), room = VPINDEX_RESULT_ENTRIES(order()) * (count + 1);
    room = lent(room);
    for (uint32_t i = 0; i < count; i++) {
        for (int j = 0; j < VPINDEX_ROW_WORDS; j++) {
            uint32_t low = below(60000), wild = any();
            queries[i][j] = one_in(400) ? wild : low;
        }
    }
    vpindex_ranges reply = vpindex_range_batch(table, rows, result, room, queries, count);
    mix_refusal(reply.refusal);
    mix(reply.distances);
    mix_words(reply.found, VPINDEX_MAX_QUERIES);
    mix_result(room);
}

static void call_write(void) {
    size_t rows = table_rows(), room = lent(VPINDEX_IMAGE_BYTES(order()));
    vpindex_written reply = vpindex_write(table, rows, image, room);
    if (mix_refusal(reply.refusal) == 0) {
        image_length = reply.length;
    }
    mix(reply.length);
    mix_words(image_words, image_length / 4);
}

static uint32_t image_16(size_t at) { return image[at] | (uint32_t)image[at + 1] << 8; }

/* Takes bytes out of the image. */
static void cut_out(size_t at, size_t bytes) {
    image_length -= bytes;
    for (; at < image_length; at++) {
        image[at] = image[at + bytes];
    }
}

/* Makes an image of form 2 one of form 1, without days, or of form 0, without weights too. */
static void older_form(uint32_t form) {
    uint32_t built = 0, sizes = image[0] + 1u;
    for (uint32_t k = 0; k < sizes; k++) {
        built += image_16(8 + 4 * k);
    }
    for (uint32_t slot = built; slot > 0; slot--) {
        cut_out(8 + 4 * sizes + 8 * built + 50 * (slot - 1) + 48, 2);
    }
    image[2] = (uint8_t)form;
    if (form == 0) {
        cut_out(4, 4);
    }
}

static void call_load(void) {
    size_t rows = lent(VPINDEX_TABLE_ROWS(SMALL)), length;
    vpindex_written written = vpindex_write(table, VPINDEX_TABLE_ROWS(SMALL), image, VPINDEX_IMAGE_BYTES(SMALL));
    if (written.refusal == 0) {
        uint32_t form = below(5);
        image_length = written.length;
        if (form < 2) {
            older_form(form);
        }
    }
    for (uint32_t flips = one_in(2) ? below(4) : 0; flips > 0 && image_length > 0; flips--) {
        uint32_t anywhere = below((uint32_t)image_length), early = below(64) % (uint32_t)image_length, bit = below(8);
        image[one_in(2) ? early : anywhere] ^= (uint8_t)(1u << bit);
    }
    length = lent(image_length);
    vpindex_loaded reply = vpindex_load(table, rows, image, length);
    mix_refusal(reply.refusal);
    mix(reply.slot);
    mix_words(image_words, image_length / 4);
    mix_table(rows);
}

/* Two slots of a bucket changed over, or one the copy of another, in an image that was sound. */
static void call_load_misplaced(void) {
    vpindex_written written = vpindex_write(table, VPINDEX_TABLE_ROWS(SMALL), image, VPINDEX_IMAGE_BYTES(SMALL));
    if (written.refusal == 0 && written.length > VPINDEX_IMAGE_BYTES(0) + 100) {
        size_t tag_at = 8 + 4 * (image[0] + 1u), slots = (written.length - tag_at) / 58, one = below((uint32_t)slots);
        uint32_t copied = one_in(2), whole = one_in(2);
        size_t other = one + 1 < slots ? one + 1 : 0, records = tag_at + 8 * slots;
        for (size_t i = 0; i < (whole ? 58 : 8); i++) {
            size_t a = i < 8 ? tag_at + 8 * one + i : records + 50 * one + i - 8;
            size_t b = i < 8 ? tag_at + 8 * other + i : records + 50 * other + i - 8;
            uint8_t kept = image[a];
            image[a] = image[b];
            image[b] = copied ? image[b] : kept;
        }
        image_length = written.length;
    }
    vpindex_loaded reply = vpindex_load(table, VPINDEX_TABLE_ROWS(SMALL), image, image_length);
    mix_refusal(reply.refusal);
    mix(reply.slot);
    mix_table(VPINDEX_TABLE_ROWS(SMALL));
}

static void call_save(void) {
    uint32_t name = below(10);
    size_t rows = table_rows(), room = lent(VPINDEX_STATES_BYTES(order()));
    vpindex_written reply = vpindex_save(table, rows, states, room, name);
    mix_refusal(reply.refusal);
    mix(reply.length);
    mix_words(states_words, room / 4);
}

/* The part of a name is an eighth of what is lent, so that another length finds other bytes there. */
static void call_restore(void) {
    uint32_t name = below(10), wild = below((uint32_t)VPINDEX_STATES_BYTES(SMALL));
    size_t rows = lent(VPINDEX_TABLE_ROWS(SMALL)), room = VPINDEX_STATES_BYTES(order());
    if (one_in(6)) {
        states[wild] ^= 1;
    }
    if (one_in(10)) {
        room = wild;
    }
    vpindex_loaded reply = vpindex_restore(table, rows, states, room, name);
    mix_refusal(reply.refusal);
    mix(reply.slot);
    mix_table(rows);
}

static size_t put_digits(size_t at, uint32_t number, uint32_t digits) {
    for (uint32_t i = digits; i > 0; i--) {
        list[at + i - 1] = (uint8_t)('0' + number % 10);
        number /= 10;
    }
    return at + digits;
}

static size_t put_line(size_t at) {
    at = put_digits(at, 1 + below(2), 3);
    at = put_digits(at, below(48), 12);
    for (int i = 0; i < 4; i++) {
        uint32_t units = below(60000), digits = 1 + below(5);
        list[at++] = ';';
        if (one_in(4)) {
            list[at++] = '-';
        }
        at = put_digits(at, units, digits);
        list[at++] = ',';
        at = put_digits(at, below(100), 2);
    }
    list[at++] = '\n';
    return at;
}

static void call_read_list(void) {
    static const char header[] = VPINDEX_LIST_HEADER;
    uint16_t day = any_day();
    size_t rows = table_rows(), room = work_rows(), length = sizeof header - 1;
    for (size_t i = 0; i < length; i++) {
        list[i] = (uint8_t)header[i];
    }
    for (uint32_t lines = below(LISTED); lines > 0; lines--) {
        length = put_line(length);
    }
    if (one_in(4)) {
        uint32_t at = below((uint32_t)length), bit = below(8);
        list[at] ^= (uint8_t)(1u << bit);
    }
    length = lent(length);
    vpindex_list_read reply = vpindex_read_list(table, rows, work, room, list, length, day);
    mix_refusal(reply.refusal);
    mix(reply.line);
    mix(reply.added);
    mix(reply.distances);
    mix_table(rows);
    mix_work(room);
}

static void call_dues(void) {
    uint32_t count = below(6);
    size_t rows = table_rows(), room = lent(LISTED);
    for (uint32_t i = 0; i < count; i++) {
        tags[i] = met_tag();
    }
    if (one_in(50)) {
        count = VPINDEX_MAX_LISTED + 1;
    }
    vpindex_dues_reply reply = vpindex_dues(table, rows, tags, count, dues, room);
    mix_refusal(reply.refusal);
    mix(reply.total);
    mix_words(dues, LISTED);
}

static void call_lots(void) {
    uint32_t count = one_in(3) ? below(RADII + 1) : 1 + below(3), chosen = below(count + 2);
    size_t all = VPINDEX_LOTS_ENTRIES(order()), rows = table_rows(), room = lent(all), listed = lent(all);
    size_t summed = lent(RADII);
    for (uint32_t i = 0; i < count; i++) {
        uint32_t radius = below(80000), wild = any();
        radii[i] = one_in(5) ? wild : radius;
    }
    mix_refusal(vpindex_lots(table, rows, lots, room, radii, count, summary, summed, result, listed, chosen));
    mix_wide(lots[0], room * VPINDEX_ENTRY_WORDS);
    mix_words(summary[0], summed * VPINDEX_SUMMARY_WORDS);
    mix_result(listed);
}

/* A foreign table whose slots lie in the order that is worst for parting entries about their middle one: that is always
 * the farthest. So a search that finds all has to sort by its heap. */
static void call_worst_order(void) {
    enum { ITEMS = 1 << SMALL, FIRST = VPINDEX_TABLE_ROWS(SMALL) - ITEMS };
    size_t rows = VPINDEX_TABLE_ROWS(SMALL);
    vpindex_profile query = {{0, 0, 0, 0}, {0, 0}};
    vpindex_fresh(table, rows, SMALL, VPINDEX_SUM_OF_DIFFERENCES, VPINDEX_WEIGHTS_ONE);
    table[1 + SMALL][0] = ITEMS;
    table[1 + SMALL][1] = ITEMS;
    for (uint32_t i = 0; i < ITEMS; i++) {
        vpindex_row *slots = table + FIRST;
        slots[i][0] = 100 + i;
        slots[i][2] = slots[i / 2][2];
        slots[i / 2][2] = i;
    }
    vpindex_searched reply =
        vpindex_range(table, rows, result, ITEMS, query, UINT32_C(4294967295), VPINDEX_ANY_DAY);
    mix_refusal(reply.refusal);
    mix(reply.found);
    mix(reply.distances);
    mix_result(ITEMS);
}

/* What only looks at the table, or leaves it much as it was. */
static void (*const others[])(void) = {
    call_look_up, call_search, call_search, call_search, call_range_batch, call_write, call_load, call_load_misplaced,
    call_save, call_restore, call_read_list, call_dues, call_lots,
};

/* Herds grow and shrink in turn, so that every bucket is built and every way of a removal is gone. */
static void call(uint32_t growing) {
    if (one_in(1000)) {
        call_worst_order();
    } else if (one_in(150)) {
        call_fresh();
    } else if (one_in(2)) {
        others[below(sizeof others / sizeof *others)]();
    } else if (one_in(6) ? !growing : growing) {
        call_add();
    } else {
        call_remove();
    }
}

uint64_t digest_of_calls(uint32_t count, uint32_t seed, uint32_t refusals[DIGEST_REFUSALS]) {
    state = seed * UINT32_C(2654435761) | 1;
    digest = seed;
    met = refusals;
    vpindex_fresh(table, VPINDEX_TABLE_ROWS(SMALL), SMALL, VPINDEX_SUM_OF_DIFFERENCES, VPINDEX_WEIGHTS_ONE);
    uint32_t growing = 1;
    for (uint32_t i = 0; i < count; i++) {
        if (one_in(80)) {
            spoil();
        }
        if (one_in(200)) {
            growing = !growing;
        }
        call(growing);
        if (one_in(4)) {
            mend();
        }
        if (i % 512 == 0) {
            mix_table(VPINDEX_TABLE_ROWS(SMALL) + MORE);
            mix_work(VPINDEX_WORK_ROWS(SMALL) + MORE);
        }
    }
    return digest;
}

/* ---- Order 12 --------------------------------------------------------------------------------------------------- */

static void add_large(uint32_t national) {
    vpindex_profile profile = any_profile();
    for (int i = 0; i < 4; i++) {
        profile.measures[i] %= VPINDEX_MAX_MEASURE;
    }
    if (profile.measures[0] < 0) {
        profile.measures[0] = -profile.measures[0];
    }
    uint16_t day = (uint16_t)(1 + below(60000));
    uint64_t tag = VPINDEX_TAG(36, national);
    size_t rows = VPINDEX_TABLE_ROWS(LARGE), room = VPINDEX_WORK_ROWS(LARGE);
    vpindex_added reply = vpindex_add(table, rows, work, room, tag, profile, day);
    mix_refusal(reply.refusal);
    mix(reply.bucket);
    mix(reply.distances);
}

static void remove_large(uint32_t national) {
    uint64_t tag = VPINDEX_TAG(36, national);
    vpindex_removed reply = vpindex_remove(table, VPINDEX_TABLE_ROWS(LARGE), work, VPINDEX_WORK_ROWS(LARGE), tag);
    mix_refusal(reply.refusal);
    mix(reply.distances);
}

/* Written, loaded, saved and restored, and asked by every other call. */
static void ask_large(uint32_t first) {
    size_t rows = VPINDEX_TABLE_ROWS(LARGE), all = VPINDEX_RESULT_ENTRIES(LARGE);
    vpindex_written written = vpindex_write(table, rows, image, VPINDEX_IMAGE_BYTES(LARGE));
    mix_refusal(written.refusal);
    mix(written.length);
    vpindex_written saved = vpindex_save(table, rows, states, VPINDEX_STATES_BYTES(LARGE), VPINDEX_NAMES);
    mix_refusal(saved.refusal);
    mix_words(image_words, written.length / 4);
    vpindex_fresh(table, rows, LARGE, VPINDEX_DIFFERING_BITS, VPINDEX_WEIGHTS_ONE);
    mix_refusal(vpindex_load(table, rows, image, written.length).refusal);
    mix_table(rows);
    vpindex_fresh(table, rows, LARGE, VPINDEX_DIFFERING_BITS, VPINDEX_WEIGHTS_ONE);
    mix_refusal(vpindex_restore(table, rows, states, VPINDEX_STATES_BYTES(LARGE), VPINDEX_NAMES).refusal);
    mix_table(rows);
    for (uint32_t i = 0; i < VPINDEX_MAX_LISTED; i++) {
        tags[i] = VPINDEX_TAG(36, first + i);
    }
    mix_refusal(vpindex_dues(table, rows, tags, VPINDEX_MAX_LISTED, dues, VPINDEX_MAX_LISTED).refusal);
    mix_words(dues, VPINDEX_MAX_LISTED);
    vpindex_profile query = any_profile();
    mix_refusal(vpindex_nearest(table, rows, result, all, query, 10, VPINDEX_ANY_DAY).refusal);
    mix_result(all);
    mix_refusal(vpindex_range(table, rows, result, all, query, UINT32_C(4294967295), VPINDEX_ANY_DAY).refusal);
    mix_result(all);
    radii[0] = 50000;
    mix_refusal(vpindex_lots(table, rows, lots, VPINDEX_LOTS_ENTRIES(LARGE), radii, 1, summary, 1, result, all, 1));
    mix_result(all);
}

uint64_t digest_of_order_12(uint32_t seed, uint32_t refusals[DIGEST_REFUSALS]) {
    uint32_t next = 0;
    state = seed * UINT32_C(2654435761) | 1;
    digest = seed;
    met = refusals;
    vpindex_fresh(table, VPINDEX_TABLE_ROWS(LARGE), LARGE, VPINDEX_SUM_OF_DIFFERENCES, VPINDEX_WEIGHTS_ONE);
    while (next < UINT32_C(1) << LARGE) {
        add_large(next++);
    }
    ask_large(0);
    /* Half of a bucket's items removed, and as many added, fills the bucket below it. */
    for (uint32_t half = UINT32_C(1) << (LARGE - 1); half > 0; half /= 2) {
        uint32_t first = next - 2 * half;
        for (uint32_t i = 0; i < half; i++) {
            remove_large(first + 2 * i);
        }
        for (uint32_t i = 0; i < half; i++) {
            add_large(next++);
        }
    }
    ask_large(0);
    return digest;
}

uint32_t digest_longest_image(void) {
    vpindex_written written = vpindex_write(table, VPINDEX_TABLE_ROWS(LARGE), image, VPINDEX_IMAGE_BYTES(LARGE));
    return written.length;
}
