/* What the compiler calls for numbers of 128 bits, and for loads and stores that others may see. */
typedef __int128 wide;
typedef unsigned __int128 uwide;

/* Long division, a bit at a time, of what is left after the leading zeros that both have. */
static uwide divide(uwide dividend, uwide divisor, uwide *remainder) {
  if (dividend >> 64 == 0 && divisor >> 64 == 0) {
    unsigned long a = (unsigned long)dividend, b = (unsigned long)divisor;
    *remainder = a % b;
    return a / b;
  }
  uwide quotient = 0, bit = 1;
  while (divisor < dividend && !(divisor >> 127)) {
    divisor <<= 1;
    bit <<= 1;
  }
  for (; bit; bit >>= 1, divisor >>= 1)
    if (dividend >= divisor) {
      dividend -= divisor;
      quotient |= bit;
    }
  *remainder = dividend;
  return quotient;
}

uwide __udivti3(uwide a, uwide b) {
  uwide remainder;
  return divide(a, b, &remainder);
}

uwide __umodti3(uwide a, uwide b) {
  uwide remainder;
  divide(a, b, &remainder);
  return remainder;
}

static uwide magnitude(wide number) { return number < 0 ? -(uwide)number : (uwide)number; }

wide __divti3(wide a, wide b) {
  uwide remainder, quotient = divide(magnitude(a), magnitude(b), &remainder);
  return (wide)((a < 0) != (b < 0) ? -quotient : quotient);
}

wide __modti3(wide a, wide b) {
  uwide remainder;
  divide(magnitude(a), magnitude(b), &remainder);
  return (wide)(a < 0 ? -remainder : remainder);
}

/* Each load and store is one step, in the order of the program, if it is of a word of 8 bytes or of a byte. A load of
   less is a load of its word. */
#define LOAD(size, type)                                                                                               \
  type lwc_atomic_load_##size(const volatile type *at, int order) __asm__("__atomic_load_" #size);                     \
  type lwc_atomic_load_##size(const volatile type *at, int order) { return *at; }
#define STORE(size, type)                                                                                              \
  void lwc_atomic_store_##size(volatile type *at, type value, int order) __asm__("__atomic_store_" #size);             \
  void lwc_atomic_store_##size(volatile type *at, type value, int order) { *at = value; }
LOAD(1, unsigned char)
LOAD(2, unsigned short)
LOAD(4, unsigned)
LOAD(8, unsigned long)
STORE(1, unsigned char)
STORE(8, unsigned long)
