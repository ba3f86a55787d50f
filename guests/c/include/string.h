/* The functions of <string.h> that guests have: guests/c/rt/memory.c and words.c. */
#ifndef LWC_STRING_H
#define LWC_STRING_H
#include <stddef.h>
#ifdef __cplusplus
extern "C" {
#define restrict __restrict
#endif
void *memcpy(void *restrict to, const void *restrict from, size_t size);
void *memmove(void *to, const void *from, size_t size);
void *memset(void *to, int byte, size_t size);
int memcmp(const void *a, const void *b, size_t size);
int bcmp(const void *a, const void *b, size_t size);
void *memchr(const void *bytes, int byte, size_t size);
size_t strlen(const char *text);
size_t strnlen(const char *text, size_t most);
int strcmp(const char *a, const char *b);
int strncmp(const char *a, const char *b, size_t most);
char *strcpy(char *restrict to, const char *restrict from);
char *strncpy(char *restrict to, const char *restrict from, size_t size);
char *strcat(char *restrict to, const char *restrict from);
char *strchr(const char *text, int byte);
char *strrchr(const char *text, int byte);
char *strstr(const char *text, const char *part);
size_t strspn(const char *text, const char *bytes);
size_t strcspn(const char *text, const char *bytes);
char *strpbrk(const char *text, const char *bytes);
char *strtok(char *restrict text, const char *restrict bytes);
char *strtok_r(char *restrict text, const char *restrict bytes, char **restrict rest);
char *strncat(char *restrict to, const char *restrict from, size_t most);
char *strdup(const char *text);
#ifdef __cplusplus
#undef restrict
}
#endif
#endif
