/* The calls that the programs make, on this machine: slot 0 is the standard input, slot 1 the standard output. */
#ifndef NATIVE_H
#define NATIVE_H
#ifdef NATIVE
#include <stddef.h>
#include <stdint.h>
#include <stdio.h>
#include <stdlib.h>
#include <string.h>
#include <unistd.h>
static inline long lwc_read(long slot, void *to, long size) {
  long whole = 0, part;
  while (whole < size && (part = read((int)slot, (char *)to + whole, (size_t)(size - whole))) > 0)
    whole += part;
  return whole;
}
static inline long lwc_write(long slot, const void *from, long size) { return write((int)slot, from, (size_t)size); }
#else
#include "lwc.h"
#include <stdio.h>
#include <stdlib.h>
#include <string.h>
#endif
#endif
