/* Writes the digests of so many CALLS from a SEED. All that it writes has to be the same on every processor. BARE_RISCV
 * is for one without C library, under an emulator that takes Linux's calls. */
#include "digest.h"
#include "vpindex.h"

#ifdef BARE_RISCV
static long system_call(long number, long first, long second, long third) {
    register long a0 __asm__("a0") = first, a1 __asm__("a1") = second, a2 __asm__("a2") = third;
    register long a7 __asm__("a7") = number;
    __asm__ volatile("ecall" : "+r"(a0) : "r"(a1), "r"(a2), "r"(a7) : "memory");
    return a0;
}

static void put(const char *text) {
    const char *end = text;
    while (*end != 0) {
        end++;
    }
    system_call(64, 1, (long)text, end - text);
}

int main(void);
void _start(void);
void _start(void) {
    for (main();;) {
        system_call(93, 0, 0, 0);
    }
}
#else
#include <stdio.h>
static void put(const char *text) { fputs(text, stdout); }
#endif

static void put_number(const char *before, uint64_t number, uint32_t base) {
    char digits[24], *at = digits + sizeof digits;
    *--at = 0;
    do {
        *--at = "0123456789abcdef"[number % base];
        number /= base;
    } while (number != 0);
    put(before);
    put(at);
}

int main(void) {
    static uint32_t refusals[DIGEST_REFUSALS];
    put_number("calls ", digest_of_calls(CALLS, SEED, refusals), 16);
    put_number("\norder 12 ", digest_of_order_12(SEED, refusals), 16);
    put_number("\nlongest image ", digest_longest_image(), 10);
    put_number(" of ", VPINDEX_IMAGE_BYTES(VPINDEX_MAX_ORDER), 10);
    for (uint32_t i = 0; i < DIGEST_REFUSALS; i++) {
        if (refusals[i] != 0) {
            put_number("\nrefusal ", i, 10);
            put_number(" times ", refusals[i], 10);
        }
    }
    put("\n");
    return 0;
}
