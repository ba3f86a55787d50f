/* A plugin in a closed context: it shares one page with its host and has a stack of its own, and no slot. It multiplies
   what it is asked to, and tries what it can. In the end the host's word is as before. */
#include "lwc.h"
#include <stdio.h>

struct desk {
  long number, product, tried[4];
};
LWC_SHARED static struct desk desk;
LWC_STACK(plugin_stack, 1);
static volatile long secret = 42;

static void plugin(long slot, long argument) {
  struct lwc_arrival came = {slot, argument};
  for (;;) {
    struct lwc_item host_page = lwc_pages(LWC_COPY, (void *)&secret, (void *)(&secret + 1));
    desk.product = desk.number * came.argument;
    desk.tried[0] = lwc_overlay(came.slot, &host_page, 1);
    desk.tried[1] = lwc_on_behalf(came.slot, 2, 2, 1, 0, 0);
    desk.tried[2] = lwc_write(LWC_CONSOLE, &desk, 8);
    desk.tried[3] = lwc_setuid(0);
    long before = came.slot;
    if (came.argument == 9)
      secret = 1; /* its page is not there: fault 3 */
    lwc_switch(before, 0, &came);
    lwc_close(before);
  }
}

int main(void) {
  struct lwc_item kept[] = {lwc_pages(LWC_COPY, plugin_stack, LWC_TOP(plugin_stack)),
                            lwc_pages(LWC_SHARE, &desk, &desk + 1)};
  struct lwc_item items[2 * 2 + 3];
  long slot = lwc_create(items, lwc_closed_items(items, kept, 2), plugin, LWC_TOP(plugin_stack));
  struct lwc_arrival came;
  for (long factor = 3; factor < 6; factor++) {
    desk.number = 100;
    lwc_switch(slot, factor, &came);
    lwc_close(came.slot);
    printf("100 * %ld = %ld\n", factor, desk.product);
  }
  printf("refused: %ld %ld %ld %ld\n", desk.tried[0], desk.tried[1], desk.tried[2], desk.tried[3]);
  printf("the word is %ld, the uid %ld\n", secret, lwc_getuid());
  return 0;
}
