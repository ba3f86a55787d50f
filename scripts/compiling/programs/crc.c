/* Replies with the CRC-32 of its request, by a table that it makes. */
#include "native.h"
static uint32_t table[256];
static uint8_t request[4096];

int main(void) {
  long size = lwc_read(0, request, sizeof request);
  for (uint32_t i = 0; i < 256; i++) {
    uint32_t c = i;
    for (int k = 0; k < 8; k++)
      c = c & 1 ? c >> 1 ^ 0xEDB88320u : c >> 1;
    table[i] = c;
  }
  uint32_t crc = ~0u;
  for (long i = 0; i < size; i++)
    crc = table[(crc ^ request[i]) & 255] ^ crc >> 8;
  crc = ~crc;
  lwc_write(1, &crc, 4);
  return 0;
}
