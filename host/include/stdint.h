/* The kit has a C library and no headers: this folder declares, under the
   standard names, the few things of it that the programs here use. */
#ifndef BF_STDINT_H
#define BF_STDINT_H
typedef __UINT8_TYPE__ uint8_t;
typedef __UINT16_TYPE__ uint16_t;
typedef __UINT32_TYPE__ uint32_t;
typedef __UINT64_TYPE__ uint64_t;
typedef __INT64_TYPE__ int64_t;
#define UINT32_MAX 4294967295u
#define UINT64_MAX 18446744073709551615ul
#endif
