/* Counts what one run of an image makes: count_instructions IMAGE WEIGHTS < request > reply. WEIGHTS has of each
   instruction how many of RISC-V it begins. It is for measuring alone: it knows reads of slot 0, writes to slot 1, maps
   and exits, and tests nothing. */
#include <stdint.h>
#include <stdio.h>
#include <stdlib.h>
#include <string.h>
#include <unistd.h>

struct instruction {
  uint8_t opcode, rd, ra, rb;
  int32_t imm;
};
static uint64_t r[16], counts[256];
static uint8_t memory[1 << 22], image[9000000];
static int weights[70000];

static const struct instruction *load_image(const char *name) {
  FILE *file = fopen(name, "rb");
  uint32_t head[6];
  if (!file || !fread(image, 1, sizeof image, file))
    exit(2);
  memcpy(head, image + 4, sizeof head);
  uint8_t *page = image + 28 + 8ul * head[0];
  for (uint32_t i = 0; i < head[1]; i++, page += 4100) {
    uint32_t number;
    memcpy(&number, page, 4);
    memcpy(memory + 4096 * number, page + 4, 4096);
  }
  return (const struct instruction *)(image + 28);
}

static void load_weights(const char *name) {
  FILE *file = fopen(name, "r");
  for (int i = 0; file && i < 70000 && fscanf(file, "%d", weights + i) == 1; i++)
    ;
}

/* A private instruction, given that pc is behind it. Answers where it goes. */
static uint64_t compute(const struct instruction *it, uint64_t pc) {
  uint64_t a = r[it->ra & 15], b = r[it->rb & 15], *d = r + it->rd, imm = (uint64_t)(int64_t)it->imm;
  switch (it->opcode) {
  case 1: *d = (uint32_t)it->imm; break;
  case 2: *d = (uint32_t)*d | (uint64_t)(uint32_t)it->imm << 32; break;
  case 3: *d = a; break;
  case 4: *d = a + b; break;
  case 5: *d = a - b; break;
  case 6: *d = a * b; break;
  case 7: *d = b ? a / b : ~0ul; break;
  case 8: *d = b ? a % b : a; break;
  case 9: *d = a & b; break;
  case 10: *d = a | b; break;
  case 11: *d = a ^ b; break;
  case 12: *d = a << (b & 63); break;
  case 13: *d = a >> (b & 63); break;
  case 14: *d = a < b; break;
  case 15: *d = a == b; break;
  case 16: *d = a + imm; break;
  case 17: return imm;
  case 18: return a ? pc : imm;
  case 19: return a ? imm : pc;
  case 20: *d = pc; return imm;
  case 21: return a;
  default: abort();
  }
  return pc;
}

/* A shared instruction. Answers whether the thread goes on. */
static int share(const struct instruction *it) {
  uint64_t address = r[it->ra & 15] + (uint64_t)(int64_t)it->imm;
  switch (it->opcode) {
  case 32: r[it->rd] = memory[address]; return 1;
  case 33: memcpy(r + it->rd, memory + address, 8); return 1;
  case 34: memory[address] = (uint8_t)r[it->rb]; return 1;
  case 35: memcpy(memory + address, r + it->rb, 8); return 1;
  case 36:
    if (it->imm == 4)
      r[0] = (uint64_t)read(0, memory + r[2], r[3]);
    else if (it->imm == 5)
      r[0] = (uint64_t)write(1, memory + r[2], r[3]);
    else if (it->imm == 6)
      r[0] = 0;
    else
      return 0;
    return 1;
  default: return 0;
  }
}

int main(int count, char **words) {
  if (count != 3)
    return 2;
  const struct instruction *text = load_image(words[1]);
  load_weights(words[2]);
  uint64_t pc = 0, made = 0, of_riscv = 0, steps = 0, run = 0;
  for (int goes = 1; goes; made++) {
    const struct instruction *it = text + pc;
    of_riscv += (uint64_t)weights[pc];
    pc++;
    if (it->opcode < 32) {
      pc = compute(it, pc);
      if (++run == 257) {
        steps++;
        run = 1;
      }
    } else {
      goes = share(it);
      steps++;
      run = 0;
    }
  }
  fprintf(stderr, "%lu %lu %lu\n", made, of_riscv, steps);
  return 0;
}
