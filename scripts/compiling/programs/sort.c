/* Replies with the elements of its request in order, by qsort with one of several comparisons. */
#include "native.h"

static int i32(const void *a, const void *b) {
  int32_t x = *(const int32_t *)a, y = *(const int32_t *)b;
  return (x > y) - (x < y);
}
static int i32_down(const void *a, const void *b) { return i32(b, a); }
static int i64(const void *a, const void *b) {
  int64_t x = *(const int64_t *)a, y = *(const int64_t *)b;
  return x < y ? -1 : x > y;
}
static int bytes(const void *a, const void *b) { return *(const uint8_t *)a - *(const uint8_t *)b; }
static int i16(const void *a, const void *b) { return *(const int16_t *)a - *(const int16_t *)b; }
static const struct {
  int (*compare)(const void *, const void *);
  size_t size;
} ways[] = {{i32, 4}, {i32_down, 4}, {i64, 8}, {bytes, 1}, {i16, 2}};
static uint64_t request[513];

int main(void) {
  long size = lwc_read(0, request, 200) - 8;
  if (size < 0)
    return 1;
  unsigned long way = request[0] % 5;
  qsort(request + 1, (size_t)size / ways[way].size, ways[way].size, ways[way].compare);
  lwc_write(1, request + 1, size);
  return 0;
}
