/* In the place of csmith's own header: its safe arithmetic, of Debian's package libcsmith-dev, and a sum of all values that
   the program ends with, which it writes. */
#include "native.h"
#define STATIC static
#define UNDEFINED(value) (value)
#define LOG_INDEX
#define LOG_EXEC
#define FUNC_NAME(x) (safe_##x)
#define assert(x)
/* Functions of floating point are in the header and are not called. */
#define FLT_MAX 1.0f
#define DBL_MAX 1.0
static double fabs(double x) { return x; }
static float fabsf(float x) { return x; }
#include <limits.h>
#include "/usr/include/csmith/safe_math.h"

static uint64_t sum = 1;
#define crc32_context ((uint32_t)sum)

static void transparent_crc(uint64_t value, const char *name, int shown) {
  sum = (sum ^ value) * 0x9E3779B97F4A7C15u;
  sum ^= sum >> 29;
}
static void crc32_gentab(void) {}
static void platform_main_begin(void) {}
static void platform_main_end(uint32_t end, int shown) { lwc_write(1, &sum, sizeof sum); }
