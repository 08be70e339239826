#ifndef BF_STDLIB_H
#define BF_STDLIB_H
#include <stddef.h>
void *malloc(size_t size);
void free(void *memory);
void exit(int status) __attribute__((noreturn));
void abort(void) __attribute__((noreturn));
unsigned long strtoul(const char *text, char **end, int base);
void qsort(void *base, size_t count, size_t size,
           int (*compare)(const void *, const void *));
#endif
