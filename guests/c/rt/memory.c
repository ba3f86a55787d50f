/* Bytes and texts: <string.h>. */
#include <stdint.h>
#include <string.h>

void *memcpy(void *restrict to, const void *restrict from, size_t size) {
  char *at = to;
  const char *source = from;
  if ((((uintptr_t)at ^ (uintptr_t)source) & 7) == 0) {
    for (; size && ((uintptr_t)at & 7); size--)
      *at++ = *source++;
    for (; size >= 8; size -= 8, at += 8, source += 8)
      *(uint64_t *)at = *(const uint64_t *)source;
  }
  while (size--)
    *at++ = *source++;
  return to;
}

void *memmove(void *to, const void *from, size_t size) {
  char *at = to;
  const char *source = from;
  if ((uintptr_t)at - (uintptr_t)source >= size)
    return memcpy(to, from, size);
  while (size--)
    at[size] = source[size];
  return to;
}

void *memset(void *to, int byte, size_t size) {
  char *at = to;
  uint64_t word = (unsigned char)byte * 0x0101010101010101u;
  for (; size && ((uintptr_t)at & 7); size--)
    *at++ = (char)byte;
  for (; size >= 8; size -= 8, at += 8)
    *(uint64_t *)at = word;
  while (size--)
    *at++ = (char)byte;
  return to;
}

int memcmp(const void *a, const void *b, size_t size) {
  const unsigned char *left = a, *right = b;
  for (; size; size--, left++, right++)
    if (*left != *right)
      return *left - *right;
  return 0;
}

int bcmp(const void *a, const void *b, size_t size) { return memcmp(a, b, size); }

void *memchr(const void *bytes, int byte, size_t size) {
  for (const unsigned char *at = bytes; size; size--, at++)
    if (*at == (unsigned char)byte)
      return (void *)at;
  return NULL;
}

size_t strlen(const char *text) {
  const char *end = text;
  while (*end)
    end++;
  return (size_t)(end - text);
}

size_t strnlen(const char *text, size_t most) {
  const char *end = memchr(text, 0, most);
  return end ? (size_t)(end - text) : most;
}

int strncmp(const char *a, const char *b, size_t most) {
  for (; most; most--, a++, b++)
    if (*a != *b || !*a)
      return (unsigned char)*a - (unsigned char)*b;
  return 0;
}

int strcmp(const char *a, const char *b) { return strncmp(a, b, SIZE_MAX); }

char *strcpy(char *restrict to, const char *restrict from) { return memcpy(to, from, strlen(from) + 1); }

char *strncpy(char *restrict to, const char *restrict from, size_t size) {
  size_t length = strnlen(from, size);
  memcpy(to, from, length);
  memset(to + length, 0, size - length);
  return to;
}

char *strcat(char *restrict to, const char *restrict from) {
  strcpy(to + strlen(to), from);
  return to;
}

char *strchr(const char *text, int byte) { return memchr(text, byte, strlen(text) + 1); }

char *strrchr(const char *text, int byte) {
  for (const char *at = text + strlen(text) + 1; at-- > text;)
    if (*at == (char)byte)
      return (char *)at;
  return NULL;
}

char *strstr(const char *text, const char *part) {
  size_t size = strlen(part);
  for (; strncmp(text, part, size); text++)
    if (!*text)
      return NULL;
  return (char *)text;
}
