/*
 * The calls of vpindex.h by the C conventions of any little-endian processor. Each lends its areas and structs to the
 * proved function of its name, which takes and gives every struct behind a pointer. tools/cross.sh compiles this beside
 * the module of the proved code, and holds the declarations here to what the module defines.
 */
#include "vpindex.h"

#if !defined(__BYTE_ORDER__) || __BYTE_ORDER__ != __ORDER_LITTLE_ENDIAN__
#error "vpindex is for little-endian processors: on this one rows and images would have other bytes"
#endif

#ifdef __ARM_EABI__
/* No float is passed, so that it links with programs that pass theirs in either way; cross.sh says it of the module. */
__asm__(".eabi_attribute Tag_ABI_VFP_args, 3");
#endif

/* The proved code finds every field at the place that it has on x86-64. */
#define PLACE(type, field, at) _Static_assert(offsetof(type, field) == (at), "a field is in another place")
#define BYTES(type, bytes) _Static_assert(sizeof(type) == (bytes), "a struct has another size")
_Static_assert(_Alignof(uint64_t) == 8, "a number of 64 bits has to be aligned to 8 bytes");
BYTES(vpindex_row, 52);
BYTES(vpindex_entry, 16);
BYTES(vpindex_weights, 16);
BYTES(vpindex_profile, 32);
PLACE(vpindex_profile, code, 16);
BYTES(vpindex_added, 12);
BYTES(vpindex_removed, 8);
BYTES(vpindex_looked_up, 48);
PLACE(vpindex_looked_up, profile, 8);
PLACE(vpindex_looked_up, day, 40);
BYTES(vpindex_searched, 12);
BYTES(vpindex_ranges, 72);
BYTES(vpindex_written, 8);
BYTES(vpindex_loaded, 8);
BYTES(vpindex_list_read, 16);
BYTES(vpindex_dues_reply, 16);
PLACE(vpindex_dues_reply, total, 8);

/* An area as the proved code takes it: where it is, and its length, which has 64 bits also where an address has 32. */
#define LENT const void *, uint64_t
#define AREA(at, length) (at), (length)

void vpindex_proved_add(vpindex_added *, LENT, LENT, uint64_t, const vpindex_profile *, uint16_t);
void vpindex_proved_dues(vpindex_dues_reply *, LENT, LENT, LENT);
uint32_t vpindex_proved_fresh(LENT, uint32_t, uint32_t, const vpindex_weights *);
void vpindex_proved_load(vpindex_loaded *, LENT, LENT);
void vpindex_proved_look_up(vpindex_looked_up *, LENT, uint64_t);
uint32_t vpindex_proved_lots(LENT, LENT, LENT, LENT, LENT, uint32_t);
void vpindex_proved_nearest(vpindex_searched *, LENT, LENT, const vpindex_profile *, uint32_t, uint16_t);
void vpindex_proved_range(vpindex_searched *, LENT, LENT, const vpindex_profile *, uint32_t, uint16_t);
void vpindex_proved_range_batch(vpindex_ranges *, LENT, LENT, LENT);
void vpindex_proved_read_list(vpindex_list_read *, LENT, LENT, LENT, uint16_t);
void vpindex_proved_remove(vpindex_removed *, LENT, LENT, uint64_t);
void vpindex_proved_restore(vpindex_loaded *, LENT, LENT, uint32_t);
void vpindex_proved_save(vpindex_written *, LENT, LENT, uint32_t);
void vpindex_proved_write(vpindex_written *, LENT, LENT);

uint32_t vpindex_fresh(uint32_t (*table)[VPINDEX_ROW_WORDS], size_t table_rows, uint32_t order, uint32_t metric,
                       vpindex_weights weights) {
    return vpindex_proved_fresh(AREA(table, table_rows), order, metric, &weights);
}

vpindex_loaded vpindex_load(uint32_t (*table)[VPINDEX_ROW_WORDS], size_t table_rows, const uint8_t *image,
                            size_t image_bytes) {
    vpindex_loaded reply;
    vpindex_proved_load(&reply, AREA(table, table_rows), AREA(image, image_bytes));
    return reply;
}

vpindex_added vpindex_add(uint32_t (*table)[VPINDEX_ROW_WORDS], size_t table_rows, uint32_t (*work)[VPINDEX_ROW_WORDS],
                          size_t work_rows, uint64_t tag, vpindex_profile profile, uint16_t day) {
    vpindex_added reply;
    vpindex_proved_add(&reply, AREA(table, table_rows), AREA(work, work_rows), tag, &profile, day);
    return reply;
}

vpindex_removed vpindex_remove(uint32_t (*table)[VPINDEX_ROW_WORDS], size_t table_rows,
                               uint32_t (*work)[VPINDEX_ROW_WORDS], size_t work_rows, uint64_t tag) {
    vpindex_removed reply;
    vpindex_proved_remove(&reply, AREA(table, table_rows), AREA(work, work_rows), tag);
    return reply;
}

vpindex_looked_up vpindex_look_up(VPINDEX_READ uint32_t (*table)[VPINDEX_ROW_WORDS], size_t table_rows, uint64_t tag) {
    vpindex_looked_up reply;
    vpindex_proved_look_up(&reply, AREA(table, table_rows), tag);
    return reply;
}

vpindex_searched vpindex_range(VPINDEX_READ uint32_t (*table)[VPINDEX_ROW_WORDS], size_t table_rows,
                               uint64_t (*result)[VPINDEX_ENTRY_WORDS], size_t result_entries, vpindex_profile query,
                               uint32_t radius, uint16_t first_day) {
    vpindex_searched reply;
    vpindex_proved_range(&reply, AREA(table, table_rows), AREA(result, result_entries), &query, radius, first_day);
    return reply;
}

vpindex_searched vpindex_nearest(VPINDEX_READ uint32_t (*table)[VPINDEX_ROW_WORDS], size_t table_rows,
                                 uint64_t (*result)[VPINDEX_ENTRY_WORDS], size_t result_entries, vpindex_profile query,
                                 uint32_t k, uint16_t first_day) {
    vpindex_searched reply;
    vpindex_proved_nearest(&reply, AREA(table, table_rows), AREA(result, result_entries), &query, k, first_day);
    return reply;
}

vpindex_ranges vpindex_range_batch(VPINDEX_READ uint32_t (*table)[VPINDEX_ROW_WORDS], size_t table_rows,
                                   uint64_t (*result)[VPINDEX_ENTRY_WORDS], size_t result_entries,
                                   VPINDEX_READ uint32_t (*queries)[VPINDEX_ROW_WORDS], size_t query_count) {
    vpindex_ranges reply;
    vpindex_proved_range_batch(&reply, AREA(table, table_rows), AREA(result, result_entries),
                               AREA(queries, query_count));
    return reply;
}

vpindex_written vpindex_write(VPINDEX_READ uint32_t (*table)[VPINDEX_ROW_WORDS], size_t table_rows, uint8_t *image,
                              size_t image_bytes) {
    vpindex_written reply;
    vpindex_proved_write(&reply, AREA(table, table_rows), AREA(image, image_bytes));
    return reply;
}

vpindex_list_read vpindex_read_list(uint32_t (*table)[VPINDEX_ROW_WORDS], size_t table_rows,
                                    uint32_t (*work)[VPINDEX_ROW_WORDS], size_t work_rows, const uint8_t *list,
                                    size_t list_bytes, uint16_t day) {
    vpindex_list_read reply;
    vpindex_proved_read_list(&reply, AREA(table, table_rows), AREA(work, work_rows), AREA(list, list_bytes), day);
    return reply;
}

vpindex_written vpindex_save(VPINDEX_READ uint32_t (*table)[VPINDEX_ROW_WORDS], size_t table_rows, uint8_t *states,
                             size_t states_bytes, uint32_t name) {
    vpindex_written reply;
    vpindex_proved_save(&reply, AREA(table, table_rows), AREA(states, states_bytes), name);
    return reply;
}

vpindex_loaded vpindex_restore(uint32_t (*table)[VPINDEX_ROW_WORDS], size_t table_rows, const uint8_t *states,
                               size_t states_bytes, uint32_t name) {
    vpindex_loaded reply;
    vpindex_proved_restore(&reply, AREA(table, table_rows), AREA(states, states_bytes), name);
    return reply;
}

vpindex_dues_reply vpindex_dues(VPINDEX_READ uint32_t (*table)[VPINDEX_ROW_WORDS], size_t table_rows,
                                const uint64_t *tags, size_t tag_count, uint32_t *dues, size_t dues_numbers) {
    vpindex_dues_reply reply;
    vpindex_proved_dues(&reply, AREA(table, table_rows), AREA(tags, tag_count), AREA(dues, dues_numbers));
    return reply;
}

uint32_t vpindex_lots(VPINDEX_READ uint32_t (*table)[VPINDEX_ROW_WORDS], size_t table_rows,
                      uint64_t (*work)[VPINDEX_ENTRY_WORDS], size_t work_entries, const uint32_t *radii,
                      size_t radius_count, uint32_t (*summary)[VPINDEX_SUMMARY_WORDS], size_t summary_entries,
                      uint64_t (*listing)[VPINDEX_ENTRY_WORDS], size_t listing_entries, uint32_t chosen) {
    return vpindex_proved_lots(AREA(table, table_rows), AREA(work, work_entries), AREA(radii, radius_count),
                               AREA(summary, summary_entries), AREA(listing, listing_entries), chosen);
}
