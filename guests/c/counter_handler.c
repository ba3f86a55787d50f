/* The handler of a server: each request gets the home's pages, counts there to 1, and replies with the count. A request
   other than 0 breaks it. */
#include "lwc.h"

static long counter;

int main(void) {
  unsigned char byte = 0;
  lwc_read(LWC_REQUEST, &byte, 1);
  if (byte != 0)
    *(volatile long *)1 = 0;
  counter++;
  lwc_write(LWC_REPLY, &counter, 1);
  return 0;
}
