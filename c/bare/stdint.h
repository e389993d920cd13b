/* What vpindex.h takes of stdint.h, for a compiler that comes without it: the kit's, for processors with no system. */
#ifndef VPINDEX_BARE_STDINT_H
#define VPINDEX_BARE_STDINT_H
typedef __INT32_TYPE__ int32_t;
typedef __UINT8_TYPE__ uint8_t;
typedef __UINT16_TYPE__ uint16_t;
typedef __UINT32_TYPE__ uint32_t;
typedef __UINT64_TYPE__ uint64_t;
typedef __UINTPTR_TYPE__ uintptr_t;
#define UINT32_C(number) number##U
#define UINT64_C(number) number##ULL
#endif
