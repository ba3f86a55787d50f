/* The functions of <stdlib.h> that guests have: guests/c/rt/heap.c and numbers.c. */
#ifndef LWC_STDLIB_H
#define LWC_STDLIB_H
#include <stddef.h>
#define EXIT_SUCCESS 0
#define EXIT_FAILURE 1
#ifdef __cplusplus
extern "C" {
#endif
void *malloc(size_t size);
void *calloc(size_t count, size_t size);
void *realloc(void *bytes, size_t size);
/* Gives back the block that was taken last, and no other one. */
void free(void *bytes);
/* Ends the thread with fault 1. */
void abort(void) __attribute__((noreturn));
void exit(int code) __attribute__((noreturn));
int abs(int number);
long labs(long number);
long long llabs(long long number);
long strtol(const char *text, char **end, int base);
long long strtoll(const char *text, char **end, int base);
/* As strtol, but for numbers up to 2^64 - 1; one with a minus is that number taken from 2^64. */
unsigned long strtoul(const char *text, char **end, int base);
unsigned long long strtoull(const char *text, char **end, int base);
int atoi(const char *text);
long atol(const char *text);
void *bsearch(const void *key, const void *all, size_t count, size_t size, int (*compare)(const void *, const void *));
void qsort(void *all, size_t count, size_t size, int (*compare)(const void *, const void *));
#ifdef __cplusplus
}
#endif
#endif
