"""What a program in C costs as a guest: guest instructions for each of RISC-V, steps, and the processor time beside
this machine and qemu."""

from __future__ import annotations

import os
import random
import resource
import subprocess
from collections.abc import Sequence

from compiling.bench_tools import MOST_STEPS, PROGRAMS, QEMU, Workshop
from lwcrun_tools.compiling.clang import VERSION

SIZE, REQUESTS = 1024, 100
# How often the program computes its sum natively and by qemu, so that their starts count for little.
NATIVE_ROUNDS, QEMU_ROUNDS = 20000, 2000
START = """
#include <stddef.h>
static long call(long number, long a, long b, long c) {
  register long a0 __asm__("a0") = a, a1 __asm__("a1") = b, a2 __asm__("a2") = c, a7 __asm__("a7") = number;
  __asm__ volatile("ecall" : "+r"(a0) : "r"(a1), "r"(a2), "r"(a7) : "memory");
  return a0;
}
long lwc_read(long slot, void *to, long size) { return call(63, slot, (long)to, size); }
long lwc_write(long slot, const void *from, long size) { return call(64, slot, (long)from, size); }
int main(void);
void _start(void) { call(93, main(), 0, 0); }
void *memcpy(void *to, const void *from, size_t size) {
  for (size_t i = 0; i < size; i++) ((volatile char *)to)[i] = ((const char *)from)[i];
  return to;
}
void *memset(void *to, int byte, size_t size) {
  for (size_t i = 0; i < size; i++) ((volatile char *)to)[i] = (char)byte;
  return to;
}
"""
HEADER = "#include <stdint.h>\n#include <stddef.h>\nlong lwc_read(long, void *, long);\n"
HEADER += "long lwc_write(long, const void *, long);\nvoid *memcpy(void *, const void *, size_t);\n"


def seconds(words: Sequence[str], given: bytes) -> float:
    """The least processor time of three runs of a command."""
    best = float("inf")
    for _ in range(3):
        before = resource.getrusage(resource.RUSAGE_CHILDREN)
        subprocess.run(words, input=given, stdout=subprocess.DEVNULL, check=True)
        after = resource.getrusage(resource.RUSAGE_CHILDREN)
        best = min(best, after.ru_utime + after.ru_stime - before.ru_utime - before.ru_stime)
    return best


def program_for_qemu(shop: Workshop, file: str) -> str:
    """The program for qemu: the same code, with calls of Linux."""
    start, header, made = shop.write(shop.path(".c"), START), shop.path(".folder"), shop.path(".qemu")
    os.makedirs(header)
    shop.write(os.path.join(header, "native.h"), HEADER)
    with open(file, encoding="utf-8") as text:
        code = shop.write(os.path.join(header, "program.c"), text.read())
    flags = ["--target=riscv64-unknown-elf", "-march=rv64im", "-mabi=lp64", "-O2", "-ffreestanding", "-nostdlib"]
    words = [f"clang-{VERSION}", *flags, "-fuse-ld=lld", f"-DROUNDS={QEMU_ROUNDS}", "-w", "-static", "-Wl,-e,_start"]
    shop.call([*words, f"-I{header}", code, start, "-o", made])
    return made


def measure(shop: Workshop, chance: random.Random) -> list[str]:
    """Lines for SHA-256 of 1024 bytes at -O2."""
    file, request, weights = os.path.join(PROGRAMS, "sha256.c"), chance.randbytes(SIZE), shop.path(".weights")
    image = shop.compile([file], f"-I{PROGRAMS}", "--weights", weights)
    counter = shop.path(".counter")
    shop.call([f"clang-{VERSION}", "-O2", "-w", os.path.join(PROGRAMS, "count_instructions.c"), "-o", counter])
    counted = subprocess.run([counter, image, weights], input=request, capture_output=True, check=True)
    made, of_riscv, steps = map(int, counted.stderr.split())
    native = shop.native([file], "-O2", f"-DROUNDS={NATIVE_ROUNDS}")
    by_native = seconds([native], request) / NATIVE_ROUNDS
    by_qemu = seconds([QEMU, program_for_qemu(shop, file)], request) / QEMU_ROUNDS
    requests = shop.write(shop.path(".requests"), f"{request.hex()}\n" * REQUESTS)
    serve = [shop.program, "serve", image, requests, "--workers", "1", "--budget", str(MOST_STEPS)]
    by_guest = seconds(serve, b"") / REQUESTS
    return [
        f"SHA-256 of {SIZE} bytes at -O2: {of_riscv} instructions of RISC-V, {made} of the guest, "
        f"{made / of_riscv:.2f} for each, {steps} steps",
        f"its processor time: {1e6 * by_guest:.0f} microseconds as a guest, {1e6 * by_qemu:.0f} by qemu, "
        f"{1e6 * by_native:.1f} here",
    ]
