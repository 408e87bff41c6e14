/* stdio.h: the calls of glibc that the host makes, for a compiler that comes without headers; see tools/hosts/README.md. */
#ifndef KIT_STDIO_H
#define KIT_STDIO_H

#include <stddef.h>

typedef struct _IO_FILE FILE;
extern FILE *stdin, *stdout, *stderr;

FILE *fopen(const char *name, const char *mode);
int fclose(FILE *file);
size_t fread(void *into, size_t size, size_t count, FILE *from);
size_t fwrite(const void *from, size_t size, size_t count, FILE *into);
int ferror(FILE *file);
int fflush(FILE *file);
int fputs(const char *text, FILE *into);
int printf(const char *format, ...);
void perror(const char *what);

#endif
