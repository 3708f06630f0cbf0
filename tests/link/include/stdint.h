/* The kit's compiler comes without headers: what the tests need of this one. */
#ifndef LINK_STDINT_H
#define LINK_STDINT_H
typedef __INT8_TYPE__ int8_t;
typedef __UINT8_TYPE__ uint8_t;
typedef __UINT16_TYPE__ uint16_t;
typedef __UINT32_TYPE__ uint32_t;
typedef __UINT64_TYPE__ uint64_t;
#define UINT32_C(number) number##U
#define UINT64_MAX (~(uint64_t)0)
#endif
