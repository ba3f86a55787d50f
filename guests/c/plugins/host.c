/* A host of three plugins by different hands. A request is the number of a plugin, '0' to '2', and a text; the plugin
   gets the text in a closed context, and the reply is what it made of it. A plugin that faults or loops ends its
   request, and no other. Each request makes the context anew, so nothing of a plugin stays. */
#include "plugins.h"
#include <stdio.h>
#include <string.h>

LWC_SHARED struct desk desk;
LWC_STACK(plugin_stack, 1);
static plugin *const plugins[] = {capitals, reversed, greedy};
static char request[1 + sizeof desk.text];

/* A plugin's context begins here: it runs the plugin that the argument names, and goes back. */
static void begin(long host, long number) {
  struct lwc_arrival came;
  plugins[number]();
  lwc_switch(host, 0, &came);
  lwc_halt();
}

int main(void) {
  struct lwc_item kept[] = {lwc_pages(LWC_COPY, plugin_stack, LWC_TOP(plugin_stack)),
                            lwc_pages(LWC_SHARE, &desk, &desk + 1), lwc_pages(LWC_READ_ONLY, LWC_CONSTANTS)};
  struct lwc_item items[2 * 3 + 3];
  struct lwc_arrival came;
  long size = lwc_read(LWC_REQUEST, request, sizeof request);
  unsigned long number = (unsigned long)(request[0] - '0');
  if (size < 1 || number >= sizeof plugins / sizeof *plugins)
    return 1;
  desk.size = size - 1;
  memcpy(desk.text, request + 1, (size_t)desk.size);
  long slot = lwc_create(items, lwc_closed_items(items, kept, 3), begin, LWC_TOP(plugin_stack));
  if (slot < 0 || lwc_switch(slot, (long)number, &came) != 0)
    return 2;
  /* What comes back is a plugin's: the host looks before it trusts a number. */
  if (desk.size < 0 || desk.size > (long)sizeof desk.text)
    return 3;
  lwc_write(LWC_REPLY, desk.text, desk.size);
  return 0;
}
