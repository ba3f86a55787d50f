/* Who asks a signer: it enters a vault with a message and gets the check value back, and tries to get at the key. Run
   it by `vault`, with sign.S and a vault whose entry is the number of `sign` (guests/c/README.md). */
#include "lwc.h"
#include <stdio.h>

enum { VAULT = 63, WRITE = 5 };

static long sign(long message) {
  struct lwc_arrival came;
  lwc_switch(VAULT, message, &came);
  lwc_close(came.slot);
  return came.argument;
}

int main(void) {
  struct lwc_item key = {LWC_KIND_PAGES, LWC_COPY, 0, 1};
  long first = sign(7), second = sign(8);
  printf("7 %016lx\n8 %016lx\n7 %s\n", first, second, sign(7) == first ? "the same again" : "another value");
  long copied = lwc_overlay(VAULT, &key, 1);
  key.mode = LWC_SHARE;
  long shared = lwc_overlay(VAULT, &key, 1);
  printf("refused: %ld %ld %ld\n", copied, shared, lwc_on_behalf(VAULT, 1, WRITE, LWC_CONSOLE, 0, 16));
  return 0;
}
