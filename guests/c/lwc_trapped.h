/* The calls of a context that a monitor has trapped: as those of lwc.h, by the names trapped_read, trapped_write and so
   on. Each goes to the monitor, and answers what that hands back. What a number means is between the two. */
#ifndef LWC_TRAPPED_H
#define LWC_TRAPPED_H

#include "lwc.h"

#ifdef __cplusplus
extern "C" {
#endif

/* The answer of the monitor comes in a1, since it switches back with it as the argument. */
#undef LWC_CALL
#define LWC_CALL(number, a, b, c)                                                                                      \
  ({                                                                                                                   \
    register long a0_ __asm__("a0") = (long)(a), a1_ __asm__("a1") = (long)(b), a2_ __asm__("a2") = (long)(c);         \
    long refusal_;                                                                                                     \
    __asm__ volatile(".insn i 0x0b, 0, %0, x0, " #number                                                               \
                     : "=r"(refusal_), "+r"(a0_), "+r"(a1_), "+r"(a2_)                                                 \
                     :                                                                                                 \
                     : "memory", "a3", "a4");                                                                          \
    refusal_ == 0 ? a1_ : refusal_;                                                                                    \
  })
#define LWC_NAME(call) trapped_##call
#include "lwc_calls.h"
#undef LWC_NAME

/* Asks the monitor something that is no call of the kernel. */
LWC_INLINE long trapped_ask(long a, long b, long c) { return LWC_CALL(0, a, b, c); }

/* Makes a context, switches, or makes a call for another context: the monitor sees call 16, 17 or 20. */
LWC_INLINE long trapped_create(const struct lwc_item *items, long count) { return LWC_CALL(16, items, count, 0); }
LWC_INLINE long trapped_switch(long slot, long argument) { return LWC_CALL(17, slot, argument, 0); }
LWC_INLINE long trapped_on_behalf(long slot, long mask, long number) { return LWC_CALL(20, slot, mask, number); }

#undef LWC_CALL

#ifdef __cplusplus
}
#endif
#endif
