/* Replies with what the functions of <string.h>, <stdlib.h> and <ctype.h> say of the words of a text, by lines. */
#include "native.h"
#include <ctype.h>
static char request[600], out[4096];
static const int bases[] = {0, 8, 10, 16, 36};
static size_t at;

static unsigned kinds(int byte) {
  unsigned all = !!isdigit(byte) | !!islower(byte) << 1 | !!isupper(byte) << 2 | !!isalpha(byte) << 3;
  all |= !!isalnum(byte) << 4 | !!isblank(byte) << 5 | !!isspace(byte) << 6 | !!iscntrl(byte) << 7;
  all |= !!isprint(byte) << 8 | !!isgraph(byte) << 9 | !!ispunct(byte) << 10 | !!isxdigit(byte) << 11;
  return all << 16 | (unsigned)(tolower(byte) << 8) | (unsigned)toupper(byte);
}

static int compare(const void *left, const void *right) { return strcmp(*(char *const *)left, *(char *const *)right); }

/* What a word is as a number, and where that ends. */
static void number(const char *word) {
  for (size_t i = 0; i < sizeof bases / sizeof *bases && at < 3900; i++) {
    char *end, *same;
    long value = strtol(word, &end, bases[i]);
    unsigned long size = strtoul(word, &same, bases[i]);
    at += (size_t)snprintf(out + at, sizeof out - at, "%lx %lx %d %d,", value, size, (int)(end - word), end == same);
  }
}

int main(void) {
  long size = lwc_read(0, request, sizeof request - 1);
  unsigned sum = 0;
  for (long i = 0; i < size; i++)
    sum = sum * 31 + kinds((unsigned char)request[i]);
  char *words[64], *kept = strdup(request), tail[32] = "";
  size_t count = 0;
  for (char *word = strtok(request, " \n"); word && count < 64; word = strtok(NULL, " \n"))
    words[count++] = word;
  qsort(words, count, sizeof *words, compare);
  at += (size_t)snprintf(out, sizeof out, "%u %zu %zu %zu", sum, count, strspn(kept, "-0123 "), strcspn(kept, "xz"));
  for (size_t i = 0; i < count && at < 3900; i++) {
    char **found = bsearch(&words[i], words, count, sizeof *words, compare), *part = strpbrk(words[i], "xX9");
    strncat(tail, words[i], 2 * (strlen(tail) < 28));
    at += (size_t)snprintf(out + at, sizeof out - at, "\n%.20s %d %.9s:", words[i], !strcmp(*found, words[i]),
                           part ? part : "");
    number(words[i]);
  }
  at += (size_t)snprintf(out + at, sizeof out - at, "\n%s", tail);
  lwc_write(1, out, at < 4096 ? (long)at : 4096);
  return 0;
}
