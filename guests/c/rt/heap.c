/* Memory to take: <stdlib.h>. An address is handed out once; free gives back the last block alone. Pages are mapped as
   they are needed, and one that nothing is stored to takes no frame. */
#include "../lwc.h"
#include <stdlib.h>
#include <string.h>

enum { ALIGNMENT = 16, PAGES_AT_ONCE = 16 };

/* In front of each block is its size. */
struct block {
  size_t size, unused;
};

static char *next, *end;

static char *first(void) { return (char *)(((uintptr_t)lwc_heap_begin + 4095) / 4096 * 4096); }

/* Maps pages up to an address. Answers whether they are there. */
static int reach(char *to) {
  if (!next)
    next = end = first();
  if (to <= end)
    return 1;
  long from = lwc_page(end), until = lwc_page(to - 1) + PAGES_AT_ONCE;
  if (lwc_map(from, until) != 0 && lwc_map(from, until = lwc_page(to - 1) + 1) != 0)
    return 0;
  end = (char *)(until * LWC_PAGE_SIZE);
  return 1;
}

void *malloc(size_t size) {
  if (size > (size_t)1 << 26)
    return NULL;
  size = (size + ALIGNMENT - 1) / ALIGNMENT * ALIGNMENT;
  if (!next)
    reach(first());
  if (!reach(next + sizeof(struct block) + size))
    return NULL;
  struct block *made = (struct block *)next;
  made->size = size;
  next += sizeof(struct block) + size;
  return made + 1;
}

void free(void *bytes) {
  struct block *block = (struct block *)bytes - 1;
  if (bytes && (char *)bytes + block->size == next)
    next = (char *)block;
}

void *calloc(size_t count, size_t size) {
  size_t whole;
  if (__builtin_mul_overflow(count, size, &whole))
    return NULL;
  void *made = malloc(whole);
  return made ? memset(made, 0, whole) : NULL;
}

void *realloc(void *bytes, size_t size) {
  void *made = malloc(size);
  if (made && bytes) {
    size_t before = ((struct block *)bytes - 1)->size;
    memcpy(made, bytes, before < size ? before : size);
  }
  return made;
}
