/* The handler of a page on the web: a table of prices, a price by name, and a sum of the numbers of a body. /break stores to
   a null pointer, and ends its own request alone. docs/C.md says how to serve it. */
#include "lwc_web.h"
#include <stdio.h>
#include <stdlib.h>

static const struct {
  const char *name;
  long cents;
} table[] = {{"tea", 350}, {"coffee", 420}, {"milk", 120}};
enum { COUNT = sizeof table / sizeof *table };

static int show_table(void) {
  printf("200 text/html; charset=utf-8\n<h1>Prices</h1>\n<table>\n");
  for (int i = 0; i < COUNT; i++)
    printf("<tr><td>%s</td><td>%ld.%02ld</td></tr>\n", table[i].name, table[i].cents / 100, table[i].cents % 100);
  printf("</table>\n");
  return 0;
}

static int show_price(const char *query) {
  char item[32];
  if (lwc_web_field(query, "item", item, sizeof item) > 0)
    for (int i = 0; i < COUNT; i++)
      if (strcmp(item, table[i].name) == 0)
        return printf("200\n%ld\n", table[i].cents) < 0;
  return printf("404\nno such item\n") < 0;
}

static int show_sum(const char *body) {
  long sum = 0;
  for (char *end; *body; body = end) {
    sum += strtol(body, &end, 10);
    if (end == body)
      end++;
  }
  return printf("200\n%ld\n", sum) < 0;
}

static struct lwc_web web;

int main(void) {
  if (lwc_web_read(&web) != 0)
    return 1;
  if (strcmp(web.path, "/") == 0)
    return show_table();
  if (strcmp(web.path, "/price") == 0)
    return show_price(web.query);
  if (strcmp(web.path, "/sum") == 0 && strcmp(web.method, "POST") == 0)
    return show_sum(web.body);
  if (strcmp(web.path, "/break") == 0)
    *(volatile char *)NULL = 1;
  return printf("404\nno such page: %s\n", web.path) < 0;
}
