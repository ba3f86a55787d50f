/* A server of transactions: a request is commands of two bytes. +k and -k count in cell k; [0 begins a transaction, ]0
   keeps it, !0 rolls it back: memory, stack and locals are what they were at [0, but for what the switch carries over.
   Any other command ends the request with code 1, and f0 breaks it. Replies with the cells and the number of rollbacks.
 */
#include "lwc.h"

static uint8_t request[256];
static long cells[4], rollbacks;

int main(void) {
  long size = lwc_read(LWC_REQUEST, request, sizeof request), begun = -1;
  struct lwc_arrival came;
  for (long i = 0; i + 1 < size; i += 2) {
    int cell = request[i + 1] & 3;
    switch (request[i]) {
    case '+':
      cells[cell]++;
      break;
    case '-':
      cells[cell]--;
      break;
    case '[':
      begun = lwc_snapshot(NULL, 0, &came);
      if (begun == LWC_RESUMED) {
        lwc_close(came.slot);
        i = came.argument & 0xFFFF;
        rollbacks = came.argument >> 16;
      }
      break;
    case ']':
      lwc_close(begun);
      break;
    case '!':
      lwc_switch(begun, (rollbacks + 1) << 16 | i, &came);
      return 2; /* no transaction was begun: the switch was refused */
    case 'f':
      return *(volatile int *)0;
    default:
      return 1;
    }
  }
  lwc_write(LWC_REPLY, cells, sizeof cells);
  lwc_write(LWC_REPLY, &rollbacks, sizeof rollbacks);
  return 0;
}
