/* A server that parses requests of several fields: an order in JSON, as {"item": "tea", "count": 3, "to": "Ada"}, by
   jsmn, the parser of Debian's package libjsmn-dev. It replies with the price by its table; a request that is no order
   gets a line that says why. */
#include "lwc.h"
#include <stdio.h>
#include <stdlib.h>
#include <string.h>
#define JSMN_STATIC
#include "/usr/include/jsmn.h"

enum { MOST_TOKENS = 32, MOST_COUNT = 1000 };
static const struct {
  const char *name;
  long cents;
} table[] = {{"tea", 350}, {"coffee", 420}, {"milk", 120}};
static char request[LWC_REPLY_SIZE + 1];

static int is_text(const jsmntok_t *token, const char *text) {
  size_t size = (size_t)(token->end - token->start);
  return strlen(text) == size && memcmp(request + token->start, text, size) == 0;
}

static int refuse(const char *why) {
  printf("refused: %s\n", why);
  return 0;
}

/* The price of a name in the table, or -1. */
static long price_of(const jsmntok_t *name) {
  for (size_t i = 0; i < sizeof table / sizeof *table; i++)
    if (is_text(name, table[i].name))
      return table[i].cents;
  return -1;
}

int main(void) {
  jsmn_parser parser;
  jsmntok_t tokens[MOST_TOKENS];
  const jsmntok_t *item = NULL, *count = NULL, *to = NULL;
  long size = lwc_read(LWC_REQUEST, request, LWC_REPLY_SIZE);
  jsmn_init(&parser);
  int found = jsmn_parse(&parser, request, (size_t)size, tokens, MOST_TOKENS);
  if (found < 1 || tokens[0].type != JSMN_OBJECT)
    return refuse("no object of JSON");
  for (int i = 1; i + 1 < found; i += 2) {
    if (tokens[i + 1].size)
      return refuse("a field has fields of its own");
    if (is_text(&tokens[i], "item"))
      item = &tokens[i + 1];
    else if (is_text(&tokens[i], "count"))
      count = &tokens[i + 1];
    else if (is_text(&tokens[i], "to"))
      to = &tokens[i + 1];
  }
  if (!item || !count || !to)
    return refuse("item, count and to are needed");
  long cents = price_of(item), number = strtol(request + count->start, NULL, 10);
  if (cents < 0)
    return refuse("no such item");
  if (number < 1 || number > MOST_COUNT)
    return refuse("a count is 1 to 1000");
  printf("%ld %.*s for %.*s: %ld.%02ld\n", number, item->end - item->start, request + item->start, to->end - to->start,
         request + to->start, number * cents / 100, number * cents % 100);
  return 0;
}
