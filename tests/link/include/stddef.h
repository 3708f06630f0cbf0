/* The kit's compiler comes without headers: what the tests need of this one. */
#ifndef LINK_STDDEF_H
#define LINK_STDDEF_H
typedef __SIZE_TYPE__ size_t;
#ifndef __cplusplus
#define NULL ((void *)0)
#endif
#endif
