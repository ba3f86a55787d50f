"""Each instruction of RISC-V against qemu: in every pattern of equal registers, on numbers at edges and random
ones."""

from __future__ import annotations

import random
import re
from collections.abc import Iterator, Sequence
from dataclasses import dataclass

from compiling.bench_tools import MOST_STEPS, CheckFailed, Workshop

OF_REGISTERS = (
    "add sub mul mulh mulhu mulhsu div divu rem remu and or xor sll srl sra slt sltu addw subw mulw divw divuw remw "
    "remuw sllw srlw sraw"
).split()
OF_NUMBERS = "addi addiw andi ori xori slti sltiu".split()
SHIFTS, WORD_SHIFTS = "slli srli srai".split(), "slliw srliw sraiw".split()
BRANCHES = "beq bne blt bge bltu bgeu".split()
LOADS = {"lb": 1, "lbu": 1, "lh": 2, "lhu": 2, "lw": 4, "lwu": 4, "ld": 8}
STORES = {"sb": 1, "sh": 2, "sw": 4, "sd": 8}
SMALL = [0, 1, 2, 3, 7, 31, 32, 33, 63, 64, 127, 128, 255, 32767, 32768, 65535]
EDGES = SMALL + [
    2**31 - 1,
    2**31,
    2**31 + 1,
    2**32 - 1,
    2**32,
    2**63 - 1,
    2**63,
    2**63 + 1,
    2**64 - 1,
    2**64 - 2,
]
EDGES += [2**64 - 2**31, 2**64 - 2**31 - 1, 2**64 - 2**32]
# How a result goes into a sum: whole, or its low half alone, so that its high half need not be right.
WHOLE = "  xor t2, t2, a5\n"
LOW = "  addiw t1, a5, 7\n  li a5, 0\n  xor t2, t2, t1\n"
MIX = "  li t2, 0x9E3779B97F4A7C15\n{0}  mul s0, s0, t2\n  srli t2, s0, 29\n  xor s0, s0, t2\n  addi s0, s0, 1\n"
AT_ONCE = 40


@dataclass(frozen=True)
class Form:
    """A few instructions that compute a5 of a0 and a1, or of what a3 points at."""

    name: str
    lines: str
    is_low: bool = False

    @property
    def is_memory(self) -> bool:
        return self.name in LOADS or self.name in STORES

    @property
    def steps(self) -> int:
        """At most how many steps a round of the block makes."""
        return 9 if self.is_memory else 6 if self.name == "chain" else 3

    def block(self, number: int) -> str:
        """The form for all operands, or for all pairs of them; its sum goes to its place in what is written."""
        mix = MIX.format(LOW if self.is_low else WHOLE)
        begin, end = f"  li s0, {number + 12345}\n  la a3, table\n1:\n", f"  la a2, out\n  sd s0, {8 * number}(a2)\n"
        if self.is_memory:
            return f"{begin}{self.lines}\n{mix}  addi a3, a3, 8\n  la a2, last\n  bne a3, a2, 1b\n{end}"
        return (
            f"{begin}  la a4, table\n2:\n  ld a0, 0(a3)\n  ld a1, 0(a4)\n{self.lines}\n{mix}  addi a4, a4, 8\n"
            f"  la a2, tend\n  bne a4, a2, 2b\n  addi a3, a3, 8\n  bne a3, a2, 1b\n{end}"
        )


def forms_of_registers(name: str) -> Iterator[str]:
    """An instruction of two registers, in every pattern of equal ones."""
    yield f"  {name} a5, a0, a1"
    yield f"  mv a5, a0\n  {name} a5, a5, a1"
    yield f"  mv a5, a1\n  {name} a5, a0, a5"
    yield f"  mv a5, a0\n  {name} a5, a5, a5"
    yield f"  {name} a5, x0, a1"
    yield f"  {name} a5, a0, x0"
    yield f"  li t1, -77\n  {name} a5, t1, a1"


def forms_of_numbers(name: str, numbers: Sequence[int]) -> Iterator[str]:
    """An instruction of a register and a number, and of a constant and a number."""
    for number in numbers:
        yield f"  {name} a5, a0, {number}"
        yield f"  mv a5, a0\n  {name} a5, a5, {number}"
        for constant in (-1, 2**31, 2**63 - 5, 77):
            yield f"  li a5, {constant}\n  {name} a5, a5, {number}\n  xor a5, a5, a0"


def forms_of_branches(name: str) -> Iterator[str]:
    for left, right in (("a0", "a1"), ("a1", "a0"), ("a0", "a0"), ("a0", "x0"), ("x0", "a1")):
        yield f"  li a5, 1\n  {name} {left}, {right}, 3f\n  li a5, 2\n3:"


def forms_of_loads(name: str, size: int) -> Iterator[str]:
    """A load by a pointer of which nothing is known, from the stack, and from a constant address."""
    fetch = "  ld t0, 0(a3)\n  ld t1, 8(a3)\n"
    for offset in range(0, 16, size):
        yield f"  mv t0, a3\n  {name} a5, {offset}(t0)"
        yield f"  addi t0, a3, {offset + 24}\n  {name} a5, -24(t0)"
        yield f"{fetch}  sd t0, -16(sp)\n  sd t1, -8(sp)\n  {name} a5, {offset - 16}(sp)"
        yield f"{fetch}  la a5, area\n  sd t0, 0(a5)\n  sd t1, 8(a5)\n  la a5, area\n  {name} a5, {offset}(a5)"


def forms_of_stores(name: str, size: int) -> Iterator[str]:
    """A store to the same places, over other bytes, of which the words around it show all."""
    fill, shown = "  ld a0, 0(a3)\n  not t1, a0\n", "  slli t1, t1, 1\n  xor a5, a5, t1"
    look = f"  la t0, area\n  ld a5, 0(t0)\n  ld t1, 8(t0)\n{shown}"
    for offset in range(0, 16, size):
        for value in ("a0", "x0"):
            area = f"{fill}  la t0, area\n  sd t1, 0(t0)\n  sd t1, 8(t0)\n"
            for before in (0, 8, 20):
                # A label makes the translator forget what t0 is.
                forget = f"{area}  addi t0, t0, {offset - before}\n  beq a2, a2, 9f\n9:"
                yield f"{forget} {name} {value}, {before}(t0)\n{look}"
            yield f"{area}  {name} {value}, {offset}(t0)\n{look}"
            stack = f"{fill}  sd t1, -16(sp)\n  sd t1, -8(sp)\n  {name} {value}, {offset - 16}(sp)\n"
            yield f"{stack}  ld a5, -16(sp)\n  ld t1, -8(sp)\n{shown}"


def all_forms(chance: random.Random) -> Iterator[list[Form]]:
    """The forms of each instruction."""
    for name in OF_REGISTERS:
        yield both(name, forms_of_registers(name))
    for name in OF_NUMBERS:
        yield both(name, forms_of_numbers(name, (0, 1, -1, 2047, -2048, chance.randint(-2048, 2047))))
    for name in SHIFTS:
        yield both(name, forms_of_numbers(name, (0, 1, 31, 32, 33, 63, chance.randint(0, 63))))
    for name in WORD_SHIFTS:
        yield both(name, forms_of_numbers(name, (0, 1, 15, 31, chance.randint(0, 31))))
    for name in BRANCHES:
        yield [Form(name, lines) for lines in forms_of_branches(name)]
    yield both("cut", ["  slli a5, a0, 32\n  srli a5, a5, 32", "  mv a5, a1\n  slli a5, a5, 32\n  srli a5, a5, 32"])
    yield both("chain", forms_of_chains(chance))
    constants = [*EDGES, *(chance.getrandbits(64) for _ in range(20))]
    yield [Form("li", f"  li a5, {constant}\n  xor a5, a5, a0") for constant in constants]
    for name, size in LOADS.items():
        yield both(name, forms_of_loads(name, size))
    for name, size in STORES.items():
        yield [Form(name, lines) for lines in forms_of_stores(name, size)]


def forms_of_chains(chance: random.Random) -> Iterator[str]:
    """Random instructions one after another, whose results may be asked for whole or not; half go through memory."""
    for _ in range(40):
        lines = ["  mv t0, a1", "  mv t1, a0", "  mv a5, a0"]
        for _ in range(chance.randint(2, 8)):
            made, left, right = chance.choice(("a5", "t0", "t1")), *chance.choices(("a0", "a1", "a5", "t0", "t1"), k=2)
            kind = chance.randrange(4)
            if kind == 0:
                lines.append(f"  {chance.choice((*SHIFTS, *WORD_SHIFTS))} {made}, {left}, {chance.randint(0, 31)}")
            elif kind == 1:
                lines.append(f"  {chance.choice(OF_NUMBERS)} {made}, {left}, {chance.randint(-2048, 2047)}")
            else:
                lines.append(f"  {chance.choice(OF_REGISTERS)} {made}, {left}, {right}")
        lines.append(chance.choice(("  addw a5, a5, t0", "  xor a5, a5, t0", "  subw a5, t0, t1")))
        if chance.random() < 0.5:
            lines.append(f"  sd a5, -8(sp)\n  {chance.choice(('ld', 'lw', 'lwu'))} a5, -8(sp)")
        yield "\n".join(lines)


def both(name: str, forms: Iterator[str] | Sequence[str]) -> list[Form]:
    """Each form twice: with its whole result asked for, and with the low half alone."""
    return [Form(name, lines, is_low) for lines in forms for is_low in (False, True)]


def operands(chance: random.Random, most: int) -> list[int]:
    """Numbers at edges, and random ones of random lengths."""
    more = [chance.getrandbits(chance.choice((64, chance.randint(1, 64)))) for _ in range(most)]
    return (EDGES + more)[:most] if most >= len(EDGES) else chance.sample(EDGES, most)


def source(forms: Sequence[Form], numbers: Sequence[int], is_guest: bool) -> str:
    """A program that writes the sum of each form."""
    code = "".join(form.block(number) for number, form in enumerate(forms))
    data = "".join(f"  .quad {number}\n" for number in numbers)
    size = 8 * len(forms)
    write = f"  li a0, 1\n  la a1, out\n  li a2, {size}\n"
    if is_guest:
        code = f"main:\n{code}{write}  .insn i 0x0b, 0, t0, x0, 5\n  .insn i 0x0b, 1, x0, x0, 0\n"
        code = re.sub(r"la (\w+), (\w+)", r"lui \1, %hi(\2)\n  addi \1, \1, %lo(\2)", code)
    else:
        code = f"_start:\n  la sp, stop\n{code}{write}  li a7, 64\n  ecall\n  li a0, 0\n  li a7, 93\n  ecall\n"
        code = code.replace("la ", "lla ")
    tail = f"tend: .zero 64\n.set last, tend - 8\narea: .zero 64\nout: .zero {size}\n.zero 256\nstop:\n"
    return f".text\n.globl _start, main\n{code}.data\n.balign 8\n  .zero 64\ntable:\n{data}{tail}"


def compare(shop: Workshop, forms: Sequence[Form], numbers: Sequence[int]) -> list[Form]:
    """The forms of which the guest and qemu have different sums."""
    ours_end, ours = shop.run_guest(shop.assemble(source(forms, numbers, True)))
    theirs = shop.run_by_qemu(source(forms, numbers, False))
    if ours_end == "fault 5":
        raise CheckFailed(f"the forms of {forms[0].name} take more than {MOST_STEPS} steps")
    if ours_end != "done 0":
        return list(forms)
    return [form for i, form in enumerate(forms) if ours[8 * i : 8 * i + 8] != theirs[8 * i : 8 * i + 8]]


def check(shop: Workshop, chance: random.Random, only: Sequence[str] = ()) -> tuple[int, int, list[Form]]:
    """How many forms and operands were compared, and the forms that differ. With names, of those instructions
    alone."""
    count, pairs, wrong = 0, 0, list[Form]()
    for group in all_forms(chance):
        if only and group[0].name not in only:
            continue
        for at in range(0, len(group), AT_ONCE):
            forms = group[at : at + AT_ONCE]
            most = (MOST_STEPS - 1000) // (forms[0].steps * len(forms))
            numbers = operands(chance, min(60, most) if forms[0].is_memory else min(60, int(most**0.5)))
            wrong += compare(shop, forms, numbers)
            count += len(forms)
            pairs += len(forms) * len(numbers) ** (1 if forms[0].is_memory else 2)
    return count, pairs, wrong
