/* Requests of the web, as lwcrun.asgi hands them on: the method, a blank, the path with its query, a line feed, and the
   body. A reply begins with its status and its type: printf("200 text/html\n") before the body. */
#ifndef LWC_WEB_H
#define LWC_WEB_H

#include "lwc.h"
#include <string.h>

/* A request; each text ends with a zero byte, also the body. The query is empty where the path has none. */
struct lwc_web {
  const char *method, *path, *query, *body;
  long body_size;
  char bytes[LWC_REPLY_SIZE + 1];
};

/* Reads the request. Answers 0; or -1 where it has no line as the form says, and then all texts are empty. */
LWC_INLINE long lwc_web_read(struct lwc_web *web) {
  long size = lwc_read(LWC_REQUEST, web->bytes, LWC_REPLY_SIZE);
  web->bytes[size > 0 ? size : 0] = 0;
  web->method = web->path = web->query = web->body = "";
  web->body_size = 0;
  char *line = size > 0 ? (char *)memchr(web->bytes, '\n', (size_t)size) : NULL;
  if (!line)
    return -1;
  *line = 0;
  char *blank = strchr(web->bytes, ' ');
  if (!blank)
    return -1;
  *blank = 0;
  char *mark = strchr(blank + 1, '?');
  if (mark)
    *mark = 0;
  web->method = web->bytes;
  web->path = blank + 1;
  web->query = mark ? mark + 1 : "";
  web->body = line + 1;
  web->body_size = size - (line + 1 - web->bytes);
  return 0;
}

/* The value of a field of the query or of a form, as `tea` of `item=tea&count=2`, into `value` with a zero byte behind
   it:
   + is a blank, and %20 a byte by its digits. Answers its length, or -1 where there is no such field or no room. */
LWC_INLINE long lwc_web_field(const char *fields, const char *name, char *value, long room) {
  size_t length = strlen(name);
  while (fields && !(strncmp(fields, name, length) == 0 && fields[length] == '=')) {
    fields = strchr(fields, '&');
    fields += fields != NULL;
  }
  if (!fields)
    return -1;
  long made = 0;
  for (const char *at = fields + length + 1; *at && *at != '&'; at++) {
    char byte = *at == '+' ? ' ' : *at;
    if (*at == '%' && at[1] && at[2]) {
      byte = 0;
      for (int i = 1; i < 3; i++)
        byte = (char)(byte << 4 | (at[i] <= '9' ? at[i] - '0' : (at[i] | 32) - 'a' + 10));
      at += 2;
    }
    if (made + 1 >= room)
      return -1;
    value[made++] = byte;
  }
  value[made] = 0;
  return made;
}

#endif
