/* The calls of a guest of lwcrun in C and C++. docs/C.md is the page about it.

   A call answers a number from 0 on, or a refusal, which is below 0: one of enum lwc_refusal. A refused call has
   changed nothing. */
#ifndef LWC_H
#define LWC_H

#include <stddef.h>
#include <stdint.h>

#ifdef __cplusplus
extern "C" {
#endif

/* Why a call was refused. docs/GUESTS.md says of each what to do. */
enum lwc_refusal {
  LWC_BAD_CALL = -2,
  LWC_BAD_FD = -3,
  LWC_WRONG_KIND = -4,
  LWC_BAD_ADDRESS = -5,
  LWC_BAD_RANGE = -6,
  LWC_BAD_MODE = -7,
  LWC_OVERLAP = -8,
  LWC_TOO_MANY_ITEMS = -9,
  LWC_NOT_COVERED = -10,
  LWC_TOO_MANY_CONTEXTS = -11,
  LWC_NO_SLOT = -12,
  LWC_NO_SLOT_THERE = -13,
  LWC_NO_FRAME = -14,
  LWC_NOT_PERMITTED = -15,
  LWC_NO_FILE = -16,
  LWC_TOO_MANY_GROUPS = -17,
  LWC_TOO_MANY_RANGES = -18,
  LWC_REPLY_FULL = -19,
  LWC_TOO_LONG = -20,
  LWC_READ_ONLY_PAGE = -21,
  LWC_TRAPPED = -22,
  LWC_NOT_FRESH = -23,
};

/* The functions of this header count as the line that calls them, for trace and its kin. */
#define LWC_INLINE static inline __attribute__((nodebug))

enum { LWC_PAGE_SIZE = 4096, LWC_SLOTS = 64, LWC_REPLY_SIZE = 4096, LWC_MOST_ITEMS = 32 };

/* In a serve slot 0 has the request and slot 1 the reply; in a run both have the console. */
enum { LWC_REQUEST = 0, LWC_REPLY = 1, LWC_CONSOLE = 1 };

/* Items: what a new context, or one that takes over, gets of which pages, slots or uid. */

enum lwc_kind { LWC_KIND_PAGES, LWC_KIND_SLOTS, LWC_KIND_UID };
enum lwc_mode { LWC_COPY, LWC_SHARE, LWC_LEAVE_OUT, LWC_READ_ONLY };
struct lwc_item {
  uint32_t kind, mode, from, to;
};

/* The number of the page of an address. */
LWC_INLINE uint32_t lwc_page(const void *address) { return (uint32_t)((uintptr_t)address / LWC_PAGE_SIZE); }

/* The pages that have the bytes from `begin` up to and without `end`. */
LWC_INLINE struct lwc_item lwc_pages(enum lwc_mode mode, const void *begin, const void *end) {
  struct lwc_item item = {LWC_KIND_PAGES, (uint32_t)mode, lwc_page(begin), lwc_page((const char *)end - 1) + 1};
  return item;
}

/* The slots `from` up to and without `to`. */
LWC_INLINE struct lwc_item lwc_slots(enum lwc_mode mode, uint32_t from, uint32_t to) {
  struct lwc_item item = {LWC_KIND_SLOTS, (uint32_t)mode, from, to};
  return item;
}

/* The uid. */
LWC_INLINE struct lwc_item lwc_uid(enum lwc_mode mode) {
  struct lwc_item item = {LWC_KIND_UID, (uint32_t)mode, 0, 1};
  return item;
}

/* Where things lie: guests/c/lwc.ld. Each region is a begin and an end, for lwc_pages. */
extern char lwc_stacks_begin[], lwc_stacks_end[], lwc_own_begin[], lwc_own_end[], lwc_shared_begin[], lwc_shared_end[];
extern char lwc_constants_begin[], lwc_constants_end[], lwc_data_begin[], lwc_data_end[], lwc_heap_begin[];
#define LWC_CONSTANTS lwc_constants_begin, lwc_constants_end

/* A variable that has its pages for itself: of a plugin, or in common between contexts. */
#define LWC_OWN __attribute__((section(".lwc_own"), aligned(4096)))
#define LWC_SHARED __attribute__((section(".lwc_shared"), aligned(4096)))

/* A stack of so many pages for a context, with an absent page below it, and its end, where it begins to be used. */
#define LWC_STACK(name, pages)                                                                                         \
  __attribute__((section(".lwc_stacks"), aligned(4096))) static char name[((pages) + 1) * 4096]
#define LWC_TOP(stack) ((void *)((stack) + sizeof(stack)))

/* A file of the image, whose owner is a uid, and the slot that has it at the start; none where that is 0. Only in C. */
#define LWC_FILE(name, slot, owner, is_public, text)                                                                   \
  __attribute__((section(".lwc_files"), used, aligned(4))) static const struct {                                       \
    uint32_t slot_, owner_, public_, length_;                                                                          \
    char bytes_[sizeof(text) - 1];                                                                                     \
  } name = {slot, owner, is_public, sizeof(text) - 1, text}

/* The instruction of a call. Every call may change a0 to a4: a switch back, or a monitor, sets them. */
#define LWC_CALL(number, a, b, c)                                                                                      \
  ({                                                                                                                   \
    register long a0_ __asm__("a0") = (long)(a), a1_ __asm__("a1") = (long)(b), a2_ __asm__("a2") = (long)(c);         \
    long answer_;                                                                                                      \
    __asm__ volatile(".insn i 0x0b, 0, %0, x0, " #number                                                               \
                     : "=r"(answer_), "+r"(a0_), "+r"(a1_), "+r"(a2_)                                                  \
                     :                                                                                                 \
                     : "memory", "a3", "a4");                                                                          \
    answer_;                                                                                                           \
  })
#define LWC_NAME(call) lwc_##call
#include "lwc_calls.h"
#undef LWC_NAME

/* Ends the thread with a code; a request ends with its reply as it is. It does not return. */
LWC_INLINE void __attribute__((noreturn)) lwc_exit(long code) {
  (void)LWC_CALL(10, code, 0, 0);
  __builtin_unreachable();
}

/* Ends the thread with code 0. */
LWC_INLINE void __attribute__((noreturn)) lwc_halt(void) {
  __asm__ volatile(".insn i 0x0b, 1, x0, x0, 0");
  __builtin_unreachable();
}

/* Makes call 1 to 9 with the memory (bit 1 of the mask), the slots (2) or the uid (4) of the context in a slot. Answers
   what that call does, or BadFd, WrongKind, BadMode, NotCovered, BadCall; under a monitor Trapped too. */
LWC_INLINE long lwc_on_behalf(long slot, long mask, long number, long a, long b, long c) {
  register long a0 __asm__("a0") = slot, a1 __asm__("a1") = mask, a2 __asm__("a2") = number;
  register long a3 __asm__("a3") = a, a4 __asm__("a4") = b, a5 __asm__("a5") = c;
  long answer;
  __asm__ volatile(".insn i 0x0b, 0, %0, x0, 20"
                   : "=r"(answer), "+r"(a0), "+r"(a1), "+r"(a2), "+r"(a3), "+r"(a4)
                   : "r"(a5)
                   : "memory");
  return answer;
}

/* Who came to a context: the slot of a descriptor of theirs, without a key, and the argument that they brought. */
struct lwc_arrival {
  long slot, argument;
};

/* Goes to the context in a slot with an argument. It comes back when somebody switches here, answers 0 and fills
   `arrival`; or BadFd, WrongKind, NoSlotThere, and under a monitor Trapped. */
LWC_INLINE long lwc_switch(long slot, long argument, struct lwc_arrival *arrival) {
  register long a0 __asm__("a0") = slot, a1 __asm__("a1") = argument;
  long answer;
  __asm__ volatile(".insn i 0x0b, 0, %0, x0, 17" : "=r"(answer), "+r"(a0), "+r"(a1) : : "memory", "a2", "a3", "a4");
  if (answer == 0) {
    arrival->slot = a0;
    arrival->argument = a1;
  }
  return answer;
}

/* A call that a trapped context made: the slot of a descriptor of it, without a key, the call's number, and its first
   three arguments. */
struct lwc_trapped_call {
  long slot, number, a, b, c;
};

/* In a monitor: goes to the trapped context in a slot, whose call answers `answer` there, and comes back with its next
   call. Answers 0, or a refusal as lwc_switch. */
LWC_INLINE long lwc_resume(long slot, long answer, struct lwc_trapped_call *call) {
  register long a0 __asm__("a0") = slot, a1 __asm__("a1") = answer;
  register long a2 __asm__("a2"), a3 __asm__("a3"), a4 __asm__("a4");
  long refusal;
  __asm__ volatile(".insn i 0x0b, 0, %0, x0, 17"
                   : "=r"(refusal), "+r"(a0), "+r"(a1), "=r"(a2), "=r"(a3), "=r"(a4)
                   :
                   : "memory");
  if (refusal == 0) {
    call->slot = a0;
    call->number = a1;
    call->a = a2;
    call->b = a3;
    call->c = a4;
  }
  return refusal;
}

/* What lwc_snapshot answers in the new context. */
enum { LWC_RESUMED = -1 };

/* Makes a context that is a copy of this one, but for what `count` items say. It answers twice, as fork does: here the
   slot of the new context, or a refusal; and LWC_RESUMED in the new context once somebody switches there, with who came
   in `arrival`. The stack of the thread has to be copied: no item may share it or leave it out. Refusals: TooManyItems,
   BadAddress, BadMode, BadRange, Overlap, TooManyContexts, NoSlot, TooManyGroups, TooManyRanges. */
LWC_INLINE long __attribute__((always_inline)) lwc_snapshot(const struct lwc_item *items, long count,
                                                            struct lwc_arrival *arrival) {
  register long a0 __asm__("a0") = (long)items, a1 __asm__("a1") = count;
  long answer;
  __asm__ volatile(".insn i 0x0b, 0, %0, x0, 16" : "=r"(answer), "+r"(a0), "+r"(a1) : : "memory", "a2", "a3", "a4");
  if (answer == LWC_RESUMED) {
    arrival->slot = a0;
    arrival->argument = a1;
  }
  return answer;
}

/* Makes a context that begins at a function, on the stack that ends at `top`: LWC_TOP(stack). The function gets who
   came first, and must not return. Answers its slot, or a refusal as lwc_snapshot. */
long lwc_create(const struct lwc_item *items, long count, void (*begin)(long slot, long argument), void *top);

/* The items of a closed context: it has the pages that `count` kept items name, no other page, no slot, and the uid of
   nobody. The kept items rise and do not overlap; `items` has room for 2 * count + 3. Answers how many they are. */
long lwc_closed_items(struct lwc_item *items, const struct lwc_item *kept, long count);

#ifdef __cplusplus
}
#endif
#endif
