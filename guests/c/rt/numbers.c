/* Numbers, sorting and ends: <stdlib.h>. */
#include "../lwc.h"
#include <ctype.h>
#include <stdlib.h>
#include <string.h>

void abort(void) { __builtin_trap(); }

void exit(int code) { lwc_exit(code); }

int abs(int number) { return number < 0 ? -number : number; }

long labs(long number) { return number < 0 ? -number : number; }

long long llabs(long long number) { return labs(number); }

static int digit(char byte) {
  if (byte >= '0' && byte <= '9')
    return byte - '0';
  byte |= 32;
  return byte >= 'a' && byte <= 'z' ? byte - 'a' + 10 : 99;
}

/* A number in a text: its size, where it begins and ends, and whether it has a minus and is above 2^64 - 1. */
struct number {
  const char *end;
  unsigned long size;
  int is_negative, is_full;
};

static struct number parse(const char *text, int base) {
  const char *at = text;
  while (isspace(*at))
    at++;
  struct number found = {.is_negative = *at == '-'};
  at += *at == '-' || *at == '+';
  if ((base == 0 || base == 16) && at[0] == '0' && (at[1] | 32) == 'x' && digit(at[2]) < 16) {
    at += 2;
    base = 16;
  } else if (base == 0) {
    base = *at == '0' ? 8 : 10;
  }
  const char *begin = at;
  for (; digit(*at) < base; at++)
    found.is_full |= __builtin_mul_overflow(found.size, (unsigned long)base, &found.size) ||
                     __builtin_add_overflow(found.size, (unsigned long)digit(*at), &found.size);
  found.end = at == begin ? text : at;
  return found;
}

long strtol(const char *text, char **end, int base) {
  struct number found = parse(text, base);
  unsigned long most = (unsigned long)INT64_MAX + (unsigned long)found.is_negative;
  if (end)
    *end = (char *)found.end;
  if (found.is_full || found.size > most)
    return found.is_negative ? INT64_MIN : INT64_MAX;
  return (long)(found.is_negative ? -found.size : found.size);
}

unsigned long strtoul(const char *text, char **end, int base) {
  struct number found = parse(text, base);
  if (end)
    *end = (char *)found.end;
  return found.is_full ? UINT64_MAX : found.is_negative ? -found.size : found.size;
}

long long strtoll(const char *text, char **end, int base) { return strtol(text, end, base); }

unsigned long long strtoull(const char *text, char **end, int base) { return strtoul(text, end, base); }

int atoi(const char *text) { return (int)strtol(text, NULL, 10); }

long atol(const char *text) { return strtol(text, NULL, 10); }

static void swap(char *a, char *b, size_t size) {
  while (size--) {
    char kept = *a;
    *a++ = *b;
    *b++ = kept;
  }
}

/* Moves an element down a heap until none below it is larger. */
static void sift(char *all, size_t at, size_t count, size_t size, int (*compare)(const void *, const void *)) {
  for (size_t below; (below = 2 * at + 1) < count; at = below) {
    if (below + 1 < count && compare(all + below * size, all + (below + 1) * size) < 0)
      below++;
    if (compare(all + at * size, all + below * size) >= 0)
      return;
    swap(all + at * size, all + below * size, size);
  }
}

/* A heap sort: it takes no memory, and no input makes it slow. */
void qsort(void *all, size_t count, size_t size, int (*compare)(const void *, const void *)) {
  for (size_t at = count / 2; at-- > 0;)
    sift(all, at, count, size, compare);
  while (count-- > 1) {
    swap(all, (char *)all + count * size, size);
    sift(all, 0, count, size, compare);
  }
}

void *bsearch(const void *key, const void *all, size_t count, size_t size, int (*compare)(const void *, const void *)) {
  const char *from = all;
  while (count > 0) {
    const char *middle = from + count / 2 * size;
    int order = compare(key, middle);
    if (order == 0)
      return (void *)middle;
    if (order > 0)
      from = middle + size;
    count = order > 0 ? count - count / 2 - 1 : count / 2;
  }
  return NULL;
}
