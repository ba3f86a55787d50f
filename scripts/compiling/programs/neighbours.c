/* Two threads store to ints side by side; in the end each int has what its thread stored last, whatever the schedule. */
#include "lwc.h"
static volatile int pair[2];
static volatile short halves[2];
static volatile long ended;

long left(void) {
  for (int i = 1; i <= 8; i++) {
    pair[0] = i * 0x01010101;
    halves[0] = (short)(i * 0x0101);
  }
  while (!ended)
    ;
  lwc_write(LWC_CONSOLE, (void *)pair, 8);
  lwc_write(LWC_CONSOLE, (void *)halves, 4);
  return 0;
}

long right(void) {
  for (int i = 1; i <= 8; i++) {
    pair[1] = i * 0x10101010;
    halves[1] = (short)(i * 0x1010);
  }
  ended = 1;
  return 0;
}
