/* stdint.h: for a compiler that comes without headers; see tools/hosts/README.md. */
#ifndef KIT_STDINT_H
#define KIT_STDINT_H

typedef __UINT8_TYPE__ uint8_t;
typedef __UINT64_TYPE__ uint64_t;
typedef __INT64_TYPE__ int64_t;
#define UINT64_C(n) n##UL
#define UINT64_MAX __UINT64_MAX__
#define INT64_MAX __INT64_MAX__
#define INT64_MIN (-__INT64_MAX__ - 1)

#endif
