/* Words of a text: the functions of <string.h> that take one apart or put it together. */
#include <stdlib.h>
#include <string.h>

size_t strspn(const char *text, const char *bytes) {
  const char *at = text;
  while (*at && strchr(bytes, *at))
    at++;
  return (size_t)(at - text);
}

size_t strcspn(const char *text, const char *bytes) {
  const char *at = text;
  while (*at && !strchr(bytes, *at))
    at++;
  return (size_t)(at - text);
}

char *strpbrk(const char *text, const char *bytes) {
  text += strcspn(text, bytes);
  return *text ? (char *)text : NULL;
}

char *strtok_r(char *restrict text, const char *restrict bytes, char **restrict rest) {
  char *word = text ? text : *rest;
  word += strspn(word, bytes);
  char *end = word + strcspn(word, bytes);
  *rest = end + (*end != 0);
  if (end == word)
    return NULL;
  *end = 0;
  return word;
}

char *strtok(char *restrict text, const char *restrict bytes) {
  static char *rest;
  return strtok_r(text, bytes, &rest);
}

char *strncat(char *restrict to, const char *restrict from, size_t most) {
  char *end = to + strlen(to);
  size_t length = strnlen(from, most);
  memcpy(end, from, length);
  end[length] = 0;
  return to;
}

char *strdup(const char *text) {
  size_t size = strlen(text) + 1;
  char *made = malloc(size);
  return made ? memcpy(made, text, size) : NULL;
}
