/* Arithmetic of C in 8 integer types and 128 bits, on numbers that a seed makes: bit-fields, structs, varargs, memory
   of unions, and text. A request is a seed of 8 bytes; the reply has a sum for each operation. */
#include "native.h"
#define N __attribute__((noinline))
typedef int64_t s64;
typedef uint64_t u64;
typedef int32_t s32;
typedef uint32_t u32;
typedef int16_t s16;
typedef uint16_t u16;
typedef int8_t s8;
typedef uint8_t u8;
static u64 rng;
static u64 next(void) {
  rng ^= rng << 13;
  rng ^= rng >> 7;
  rng ^= rng << 17;
  u64 x = rng * 0x2545F4914F6CDD1Dull;
  int k = (rng >> 3) & 7;
  return k == 0 ? x >> (rng & 63) : k == 1 ? -(x >> (rng & 63)) : k == 2 ? (1ull << (rng & 63)) - (rng >> 60 & 1) : x;
}
#define OP(name, T, expr)                                                                                              \
  N T name(T a, T b) { return (T)(expr); }
#define ALL(T, U, P, BITS)                                                                                             \
  OP(P##add, T, (U)a + (U)b)                                                                                           \
  OP(P##sub, T, (U)a - (U)b) OP(P##mul, T, (U)((u64)a * (u64)b)) OP(P##and, T, a &b) OP(P## or, T, a | b)              \
      OP(P## xor, T, a ^ b) OP(P##not, T, ~a) OP(P##neg, T, (U)0 - (U)a)                                               \
          OP(P##div, T, (b == 0 || (b == (T) - 1)) ? 7 : a / b) OP(P##rem, T, (b == 0 || (b == (T) - 1)) ? 9 : a % b)  \
              OP(P##shl, T, (U)a << (b & (BITS - 1))) OP(P##shr, T, a >> (b & (BITS - 1))) OP(P##lt, T, a < b)         \
                  OP(P##le, T, a <= b) OP(P##gt, T, a > b) OP(P##eq, T, a == b) OP(P##ne, T, a != b)                   \
                      OP(P##min, T, a < b ? a : b) OP(P##max, T, a > b ? a : b) OP(P##abs, T, a < 0 ? (U)0 - (U)a : a) \
                          OP(P##d3, T, a / 3) OP(P##d10, T, a / 10) OP(P##r10, T, a % 10) OP(P##d7, T, a / (T) - 7)    \
                              OP(P##d16, T, a / 16) OP(P##r16, T, a % 16) OP(P##d1000, T, a / (T)125)                  \
                                  OP(P##rot, T, ((U)a << (b & (BITS - 1))) | ((U)a >> (-b & (BITS - 1))))              \
                                      OP(P##s8, T, (s8)a) OP(P##s16, T, (s16)a) OP(P##s32, T, (s32)a)                  \
                                          OP(P##u32, T, (u32)a) OP(P##avg, T, (a >> 1) + (b >> 1) + (a & b & 1))       \
                                              OP(P##lt0, T, a < 0) OP(P##ge5, T, a >= 5) OP(P##ltm, T, a < (T) - 1000) \
                                                  OP(P##clamp, T,                                                      \
                                                     a < -100  ? -100                                                  \
                                                     : a > 100 ? 100                                                   \
                                                               : a) OP(P##sel, T, (a & 1) ? b : (T)~b)
#define LIST(P)                                                                                                        \
  P##add, P##sub, P##mul, P##and, P## or, P## xor, P##not, P##neg, P##div, P##rem, P##shl, P##shr, P##lt, P##le,       \
      P##gt, P##eq, P##ne, P##min, P##max, P##abs, P##d3, P##d10, P##r10, P##d7, P##d16, P##r16, P##d1000, P##rot,     \
      P##s8, P##s16, P##s32, P##u32, P##avg, P##lt0, P##ge5, P##ltm, P##clamp, P##sel
ALL(s64, u64, q, 64)
ALL(u64, u64, uq, 64) ALL(s32, u32, i, 32) ALL(u32, u32, ui, 32) ALL(s16, u16, h, 16) ALL(u16, u16, uh, 16)
    ALL(s8, u8, c, 8) ALL(u8, u8, uc, 8) OP(mulh, s64, ((__int128)a * b) >> 64)
        OP(mulhu, u64, ((unsigned __int128)a * b) >> 64) OP(bsw, u64, __builtin_bswap64(a) ^ __builtin_bswap32(b))
            OP(clz, u64, __builtin_clzll(a | 1) + 100 * __builtin_ctzll(b | 1ull << 63))
                OP(pop, u64, __builtin_popcountll(a) + __builtin_parityll(b) * 1000)
                    OP(mix, u64, (s32)a *(s64)(s16)b + (u8)(a >> 8) - (s8)b)
                        OP(i128, u64, ({
                             unsigned __int128 x = ((unsigned __int128)a << 64 | b);
                             x = x * x + (x >> 13) - (x << 7);
                             (u64)(x >> 64) ^ (u64)x;
                           })) OP(div128, u64, ({
                                    unsigned __int128 x = (unsigned __int128)a << 64 | (b * a),
                                                      y = ((unsigned __int128)(a >> (b & 63)) << (b & 31)) | 1;
                                    (u64)(x / y) ^ (u64)(x % y) ^ (u64)((x / y) >> 64);
                                  })) OP(sdiv128, u64, ({
                                           __int128 x = (__int128)((unsigned __int128)a << 64 | b), y = (s64)b | 1;
                                           y <<= a & 31;
                                           (u64)(x / y) * 3 ^ (u64)(x % y) ^ (u64)((x / y) >> 64);
                                         }))
                            OP(text, u64, ({
                                 char t[64];
                                 int l =
                                     snprintf(t, sizeof t, "%ld|%5d|%-7x|%lu|%c%s|%08X|%+d|%#o|%.3d", (s64)a, (s32)b,
                                              (u32)a, b, (int)(a % 26 + 65), "abc" + (b & 3), (u32)b, (s16)a, 7, (s8)b);
                                 u64 h = (u64)l;
                                 for (int i = 0; i < 64 && t[i]; i++)
                                   h = h * 31 + (u8)t[i];
                                 h;
                               })) OP(i128c, s64, ({
                                        __int128 x = (__int128)a * b, y = (__int128)b * b - a;
                                        (x < y) * 3 + (x >> 70) + (s64)(y << 3 >> 20);
                                      })) struct bits {
  s64 a : 5, b : 11;
  u64 c : 7, d : 23;
  s32 e : 9, f : 3;
  u32 g : 17;
};
N u64 bitf(u64 a, u64 b) {
  struct bits s = {0};
  s.a = a;
  s.b = b;
  s.c = a >> 3;
  s.d = b >> 5;
  s.e = a >> 9;
  s.f = b >> 11;
  s.g = a;
  s.a += s.f;
  return s.a * 3 + s.b * 5 + s.c * 7 + s.d * 11 + s.e * 13 + s.f * 17 + s.g * 19;
}
union all {
  s8 c[64];
  u8 uc[64];
  s16 h[32];
  u16 uh[32];
  s32 i[16];
  u32 ui[16];
  s64 q[8];
};
static union all mem;
N u64 memo(u64 a, u64 b) {
  mem.q[a & 7] ^= b;
  mem.c[b & 63] += a;
  mem.h[(a >> 8) & 31] -= b;
  mem.i[(b >> 8) & 15] *= (s32)a | 1;
  mem.uh[(a >> 16) & 31] = mem.uc[(a >> 24) & 63];
  mem.ui[(b >> 16) & 15] >>= mem.c[(a >> 30) & 63] & 7;
  return mem.c[(b >> 20) & 63] + mem.uh[(b >> 30) & 31] * 3 + mem.h[(a >> 40) & 31] * 5 + mem.i[(b >> 40) & 15] * 7ll +
         mem.ui[(a >> 50) & 15] * 11ull;
}
N u64 local(u64 a, u64 b) {
  union all l;
  for (int i = 0; i < 8; i++)
    l.q[i] = a + i * b;
  volatile s32 v = a;
  volatile s16 w = b;
  volatile u8 x = a >> 3;
  v += w;
  w -= x;
  return l.i[a & 15] + l.h[b & 31] * 3ll + l.uc[(a >> 4) & 63] + v * 5ll + w * 7 + l.ui[3] + l.h[5] + l.uh[7];
}
N u64 sums(int n, ...) {
  __builtin_va_list v;
  __builtin_va_start(v, n);
  u64 t = 0;
  for (int i = 0; i < n; i++)
    t = t * 31 + (i & 1 ? (u64) __builtin_va_arg(v, int) : __builtin_va_arg(v, u64));
  __builtin_va_end(v);
  return t;
}
N u64 many(u64 a, s32 b, u8 c, s16 d, u64 e, u32 f, s8 g, u64 h, s32 i) {
  return a + b * 3ll + c * 5 + d * 7 + e * 11 + f * 13ull + g * 17 + h * 19 + i * 23ll;
}
N u64 vaa(u64 a, u64 b) {
  return sums(9, a, (int)b, b, (int)a, a ^ b, (int)(a * 3), b * 5, (int)(b >> 9), a) +
         many(a, b, a, b, a * b, b, a, a + b, b >> 7);
}
struct big {
  u64 a;
  s32 b;
  u8 c[5];
};
N struct big mk(u64 a, u64 b) {
  struct big x = {a, b, {a, b, a >> 8, b >> 8, a >> 16}};
  return x;
}
N u64 use(struct big x, struct big y) { return x.a + y.b * 3ll + x.c[4] + y.c[2] * 5; }
N u64 strc(u64 a, u64 b) {
  struct big x = mk(a, b), y = mk(b, a);
  u64 t = use(x, y);
  struct big z = x;
  z.c[a % 5] ^= 3;
  return t + use(z, x) + (memcmp(&z.c, &x.c, 5) < 0);
}
N u64 sw(u64 a, u64 b) {
  switch (a & 15) {
  case 0:
    return b * 3;
  case 1:
    return b ^ 5;
  case 2:
    return ~b;
  case 3:
    return b >> 3;
  case 4:
    return b / 9;
  case 5:
    return b % 11;
  case 6:
    return (s64)b >> 4;
  case 7:
    return b + 77;
  case 9:
    return b - 1000;
  case 12:
    return b << 5;
  case 15:
    return -b;
  }
  return a;
}
N u64 fact(u64 a, u64 b) { return (a & 7) ? (a & 7) * fact((a & 7) - 1, b) + b : b; }
static u8 buf[40], buf2[40];
N u64 mf(u64 a, u64 b) {
  memset(buf, a, 40);
  buf[a % 40] = b;
  memcpy(buf2 + (a & 3), buf + (b & 3), 30 + (a >> 5 & 3));
  memmove(buf + (a >> 8 & 7), buf + (b >> 8 & 7), 20);
  memmove(buf2 + 8, buf2, 24);
  u64 t = 0;
  for (int i = 0; i < 40; i += 3)
    t = t * 33 + buf[i] * 2 + buf2[i];
  return t + (memcmp(buf, buf2, 40) > 0);
}
typedef u64 (*fn)(u64, u64);
typedef s64 (*fs64)(s64, s64);
typedef s32 (*fs32)(s32, s32);
typedef u32 (*fu32)(u32, u32);
typedef s16 (*fs16)(s16, s16);
typedef u16 (*fu16)(u16, u16);
typedef s8 (*fs8)(s8, s8);
typedef u8 (*fu8)(u8, u8);
static const fn FU[] = {LIST(uq), mulhu, bsw,  clz,   pop, mix,  i128, div128, sdiv128,
                        text,     bitf,  memo, local, vaa, strc, sw,   fact,   mf};
static const fs64 FQ[] = {LIST(q), mulh, i128c};
static const fs32 FI[] = {LIST(i)};
static const fu32 FUI[] = {LIST(ui)};
static const fs16 FH[] = {LIST(h)};
static const fu16 FUH[] = {LIST(uh)};
static const fs8 FC[] = {LIST(c)};
static const fu8 FUC[] = {LIST(uc)};
static u64 res[512];
#define RUN(F)                                                                                                         \
  for (unsigned k = 0; k < sizeof F / sizeof *F; k++) {                                                                \
    u64 h = k;                                                                                                         \
    for (int r = 0; r < ROUNDS; r++) {                                                                                 \
      u64 a = next(), b = next();                                                                                      \
      h = (h ^ (u64)F[k](a, b)) * 0x9E3779B97F4A7C15ull;                                                               \
      h ^= h >> 31;                                                                                                    \
    }                                                                                                                  \
    res[n++] = h;                                                                                                      \
  }
#ifndef ROUNDS
#define ROUNDS 12
#endif
int main(void) {
  u64 seed = 0;
  lwc_read(0, &seed, 8);
  rng = seed * 2 + 1;
  int n = 0;
  memset(&mem, 0, sizeof mem);
  memset(buf2, 0, 40);
  RUN(FU) RUN(FQ) RUN(FI) RUN(FUI) RUN(FH) RUN(FUH) RUN(FC) RUN(FUC) lwc_write(1, res, n * 8);
  return 0;
}
