/* string.h: the calls of glibc that the host makes, for a compiler that comes without headers; see tools/hosts/README.md. */
#ifndef KIT_STRING_H
#define KIT_STRING_H

#include <stddef.h>

void *memchr(const void *bytes, int byte, size_t count);
int memcmp(const void *a, const void *b, size_t count);
void *memcpy(void *into, const void *from, size_t count);
void *memset(void *bytes, int byte, size_t count);
int strcmp(const char *a, const char *b);
size_t strlen(const char *text);

#endif
