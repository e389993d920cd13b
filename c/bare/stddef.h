/* What vpindex.h takes of stddef.h. */
#ifndef VPINDEX_BARE_STDDEF_H
#define VPINDEX_BARE_STDDEF_H
typedef __SIZE_TYPE__ size_t;
#define offsetof(type, field) __builtin_offsetof(type, field)
#endif
