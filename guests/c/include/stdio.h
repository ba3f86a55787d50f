/* The functions of <stdio.h> that guests have: guests/c/rt/print.c. They write to slot 1. A directive is %d, %i, %u,
   %x, %X, %o, %c, %s, %p or %%, with -, 0, +, blank, #, a width, a precision, and h, hh, l, ll, z, t or j. Any other is
   fault 1. */
#ifndef LWC_STDIO_H
#define LWC_STDIO_H
#include <stdarg.h>
#include <stddef.h>
#define EOF (-1)
#ifdef __cplusplus
extern "C" {
#endif
int printf(const char *form, ...) __attribute__((format(printf, 1, 2)));
int vprintf(const char *form, va_list given);
int snprintf(char *bytes, size_t size, const char *form, ...) __attribute__((format(printf, 3, 4)));
int vsnprintf(char *bytes, size_t size, const char *form, va_list given);
int putchar(int byte);
int puts(const char *text);
#ifdef __cplusplus
}
#endif
#endif
