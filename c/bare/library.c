/*
 * What the calls need of a C library or of a compiler's own, for programs that are linked with neither: memory
 * functions, and on processors of 32 bits a division of 64. Compiled so that no loop here is taken for a call of what
 * it spells.
 */
#include <stddef.h>
#include <stdint.h>

void *memcpy(void *restrict to, const void *restrict from, size_t bytes);
void *memmove(void *to, const void *from, size_t bytes);
void *memset(void *to, int byte, size_t bytes);

typedef uint32_t __attribute__((may_alias)) word;

/* By words where both places allow it, since a row is thirteen of them. */
static void copy_up(unsigned char *to, const unsigned char *from, size_t bytes) {
    if ((((uintptr_t)to | (uintptr_t)from) & 3) == 0) {
        for (; bytes >= 4; bytes -= 4, to += 4, from += 4) {
            *(word *)(void *)to = *(const word *)(const void *)from;
        }
    }
    for (; bytes != 0; bytes--) {
        *to++ = *from++;
    }
}

void *memcpy(void *restrict to, const void *restrict from, size_t bytes) {
    copy_up(to, from, bytes);
    return to;
}

void *memmove(void *to, const void *from, size_t bytes) {
    if ((uintptr_t)to - (uintptr_t)from >= bytes) {
        copy_up(to, from, bytes);
        return to;
    }
    while (bytes != 0) {
        bytes--;
        ((unsigned char *)to)[bytes] = ((const unsigned char *)from)[bytes];
    }
    return to;
}

void *memset(void *to, int byte, size_t bytes) {
    unsigned char *at = to;
    for (; bytes != 0; bytes--) {
        *at++ = (unsigned char)byte;
    }
    return to;
}

#if __SIZEOF_POINTER__ == 4 && !defined(__wasm__)
uint64_t vpindex_divided(uint64_t number, uint64_t by, uint64_t *rest);
uint64_t __udivdi3(uint64_t number, uint64_t by);
uint64_t __umoddi3(uint64_t number, uint64_t by);

/* Bit by bit. The rest is below `by`, so that what is pushed out of it says that it would be above. */
uint64_t vpindex_divided(uint64_t number, uint64_t by, uint64_t *rest) {
    uint64_t left = 0;
    for (int bit = 0; bit < 64; bit++) {
        uint64_t above = left >> 63;
        left = left << 1 | number >> 63;
        number <<= 1;
        if (above != 0 || left >= by) {
            left -= by;
            number |= 1;
        }
    }
    *rest = left;
    return number;
}

uint64_t __udivdi3(uint64_t number, uint64_t by) {
    uint64_t rest;
    return vpindex_divided(number, by, &rest);
}

uint64_t __umoddi3(uint64_t number, uint64_t by) {
    uint64_t rest;
    vpindex_divided(number, by, &rest);
    return rest;
}

#ifdef __ARM_EABI__
/* ARM's division has its quotient in r0 and r1 and its rest in r2 and r3, which no C function gives. */
__asm__(".eabi_attribute Tag_ABI_VFP_args, 3\n"
        ".syntax unified\n"
        ".thumb\n"
        ".globl __aeabi_uldivmod\n"
        ".type __aeabi_uldivmod, %function\n"
        ".thumb_func\n"
        "__aeabi_uldivmod:\n"
        "    push {r4, lr}\n"
        "    sub sp, #16\n"
        "    add r4, sp, #8\n"
        "    str r4, [sp]\n"
        "    bl vpindex_divided\n"
        "    ldr r2, [sp, #8]\n"
        "    ldr r3, [sp, #12]\n"
        "    add sp, #16\n"
        "    pop {r4, pc}\n");
#endif
#endif
