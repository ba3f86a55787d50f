/* Contexts: making one that begins at a function, and the items of a closed one. */
#include "../lwc.h"

extern char lwc_heap_begin[];

/* In the new context t0 is -1, a0 and a1 are who came there first, a2 is the function and a3 the end of the stack. */
__attribute__((naked, noinline)) long lwc_create(const struct lwc_item *items, long count, void (*begin)(long, long),
                                                 void *top) {
  __asm__(".insn i 0x0b, 0, t0, x0, 16\n"
          "li t1, -1\n"
          "beq t0, t1, 1f\n"
          "mv a0, t0\n"
          "ret\n"
          "1: mv sp, a3\n"
          "jalr a2\n"
          "unimp");
}

/* How many pages a context may have: an image of form 2 has data above the pages of form 1. */
static uint32_t page_limit(void) { return lwc_page(lwc_heap_begin) > 1024 ? 16384 : 1024; }

static struct lwc_item left_out(uint32_t from, uint32_t to) {
  struct lwc_item item = {LWC_KIND_PAGES, LWC_LEAVE_OUT, from, to};
  return item;
}

long lwc_closed_items(struct lwc_item *items, const struct lwc_item *kept, long count) {
  long made = 0;
  uint32_t next = 0;
  for (long i = 0; i < count; i++) {
    if (next < kept[i].from)
      items[made++] = left_out(next, kept[i].from);
    items[made++] = kept[i];
    next = kept[i].to;
  }
  if (next < page_limit())
    items[made++] = left_out(next, page_limit());
  items[made++] = lwc_slots(LWC_LEAVE_OUT, 0, LWC_SLOTS);
  items[made++] = lwc_uid(LWC_LEAVE_OUT);
  return made;
}
