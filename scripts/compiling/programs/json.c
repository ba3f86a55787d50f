/* Replies with the tokens of a text in JSON, by jsmn of Debian's package libjsmn-dev. */
#include "native.h"
#define JSMN_STATIC
#include "/usr/include/jsmn.h"
static char request[4096];
static jsmntok_t tokens[128];
static char out[4096];
static size_t at;

int main(void) {
  long size = lwc_read(0, request, sizeof request - 1);
  jsmn_parser parser;
  jsmn_init(&parser);
  int found = jsmn_parse(&parser, request, (size_t)size, tokens, 128);
  at += (size_t)snprintf(out + at, sizeof out - at, "%d\n", found);
  for (int i = 0; i < found && at < 3900; i++) {
    at += (size_t)snprintf(out + at, sizeof out - at, "%x %d:%5d", (unsigned)tokens[i].type, tokens[i].size, tokens[i].start);
    if (tokens[i].type > 2)
      at += (size_t)snprintf(out + at, sizeof out - at, " [%-8.20s]\n", request + tokens[i].start);
  }
  lwc_write(1, out, at < 4096 ? (long)at : 4096);
  return 0;
}
