/* A monitor lets a plugin read its file and write the console, refuses all else, and counts both: run it by `monitor`.
   The plugin tries six ways round it. */
#include "lwc_trapped.h"
#include <stdio.h>

enum { PLUGIN_FILE = 2, REFUSED = -1, ENDED = 0, READ = 4, WRITE = 5, CLOSE = 2 };
/* On whose behalf a call is made, by the mask: over its memory and its slots. */
enum { OF_SLOTS = 2, OF_MEMORY_AND_SLOTS = 3 };
LWC_FILE(hello, PLUGIN_FILE, 0, 1, "hello\n");
LWC_STACK(plugin_stack, 1);

static void plugin(long slot, long argument) {
  char bytes[8];
  long size = trapped_read(PLUGIN_FILE, bytes, 6);
  trapped_write(LWC_CONSOLE, bytes, size);
  trapped_read(0, bytes, 1);
  trapped_dup(PLUGIN_FILE);
  trapped_overlay(slot, NULL, 0);
  trapped_on_behalf(slot, OF_SLOTS, CLOSE);
  trapped_create(NULL, 0);
  trapped_trap(slot);
  trapped_ask(argument, 0, 0); /* call 0 is none: the plugin says that it has ended */
}

int main(void) {
  long there = lwc_create(NULL, 0, plugin, LWC_TOP(plugin_stack)), made = 0, refused = 0, answer = 0;
  struct lwc_trapped_call call;
  lwc_trap(there);
  /* The switch to the plugin leaves a descriptor of the monitor in the plugin's lowest empty slot, whose number is that
     of the slot here: the plugin has a copy of the slots from before it was made. */
  while (lwc_resume(there, answer, &call) == 0 && call.number != ENDED) {
    lwc_close(call.slot);
    int is_good = (call.number == READ && call.a == PLUGIN_FILE) || (call.number == WRITE && call.a == LWC_CONSOLE);
    answer = is_good ? lwc_on_behalf(there, OF_MEMORY_AND_SLOTS, call.number, call.a, call.b, call.c) : REFUSED;
    made += is_good;
    refused += !is_good;
    lwc_on_behalf(there, OF_SLOTS, CLOSE, there, 0, 0);
  }
  printf("made %ld, refused %ld\n", made, refused);
  return 0;
}
