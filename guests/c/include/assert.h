/* assert: a condition that does not hold is fault 1, at the line that tools/trace names. The line stands in the assembly
   too, so that clang does not make one trap of several. */
#undef assert
#ifdef NDEBUG
#define assert(condition) ((void)0)
#else
#define assert(condition) ((condition) ? (void)0 : LWC_FAIL(__LINE__))
#undef LWC_FAIL
#define LWC_FAIL(line) __extension__({ __asm__ volatile("ebreak # %0" : : "i"(line)); __builtin_unreachable(); })
#endif
#ifndef __cplusplus
#undef static_assert
#define static_assert _Static_assert
#endif
