/* The kit's compiler comes without headers: what the tests need of this one. */
#ifndef LINK_STDBOOL_H
#define LINK_STDBOOL_H
#ifndef __cplusplus
#define bool _Bool
#define true 1
#define false 0
#endif
#endif
