/* stddef.h: for a compiler that comes without headers; see tools/hosts/README.md. */
#ifndef KIT_STDDEF_H
#define KIT_STDDEF_H

typedef __SIZE_TYPE__ size_t;
#define NULL ((void *)0)
#define offsetof(type, field) __builtin_offsetof(type, field)

#endif
