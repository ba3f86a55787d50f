/* Two threads in one context: a lock of Peterson's, of words of 8 bytes, guards a count, and each thread stores to an
   int beside the other's. Compile it by --entry work --threads 2. */
#include "lwc.h"
#include <stdio.h>

enum { ROUNDS = 40 };
static volatile long wants[2], turn, count, lost, ended[2];
static volatile int pair[2];

static void lock(long me) {
  wants[me] = 1;
  turn = 1 - me;
  while (wants[1 - me] && turn == 1 - me)
    ;
}

static void unlock(long me) { wants[me] = 0; }

long work(long me) {
  for (int i = 0; i < ROUNDS; i++) {
    lock(me);
    count = count + 1;
    unlock(me);
    pair[me] = i;
    if (pair[me] != i)
      lost = 1;
  }
  ended[me] = 1;
  while (!ended[1 - me])
    ;
  if (me == 0)
    printf("count %ld, pair %d %d, %s\n", count, pair[0], pair[1], lost ? "a store was lost" : "no store was lost");
  return 0;
}
