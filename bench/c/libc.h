// What the bench uses of the C library. The kit's compiler has no headers.
#ifndef LIBC_H
#define LIBC_H

#include "words.h"

int printf(const char *format, ...);
__attribute__((noreturn)) void exit(int status);
void *memcpy(void *to, const void *from, u64 bytes);
void *memset(void *to, int byte, u64 bytes);
int memcmp(const void *a, const void *b, u64 bytes);
int strcmp(const char *a, const char *b);
u64 strtoul(const char *text, char **end, int base);
void qsort(void *items, u64 count, u64 bytes, int (*order)(const void *, const void *));

#endif
