/* What the tests need of <stddef.h>: the kit's compiler comes without C's headers. */
#ifndef BARE_STDDEF_H
#define BARE_STDDEF_H
typedef __SIZE_TYPE__ size_t;
#define NULL ((void *)0)
#endif
