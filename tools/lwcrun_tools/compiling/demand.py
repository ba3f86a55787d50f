"""Which instructions make a number of whose high half nothing later asks: those need not extend their sign.

C computes with int, and RISC-V keeps an int with its sign in 64 bits, which takes the guest two instructions more each
time. Where only the low half is used before the register gets another value, they are left out. Looked at are straight
runs of instructions; behind each all high halves count as asked for.
"""

from __future__ import annotations

from collections.abc import Iterable, Sequence

from lwcrun_tools.compiling.riscv import LOAD, LUI, OP, OP_32, OP_IMM, OP_IMM_32, STORE, Instruction

ALL = frozenset(range(32))
# Instructions whose result's low half comes of their operands' low halves: ADD, SUB, XOR, OR, AND, and MUL.
LOW_OF_LOW = {(f3, f7) for f3, f7 in ((0, 0), (0, 0x20), (4, 0), (6, 0), (7, 0), (0, 1))}
LOW_OF_LOW_WITH_NUMBER = (0, 4, 6, 7)


def not_asked_for(run: Sequence[Instruction], leaders: Iterable[int]) -> set[int]:
    """The addresses of the instructions of a section of whose results nobody asks for the high half."""
    begins, asked, found = set(leaders), set(ALL), set()
    for it in reversed(run):
        if writes(it) and it.rd not in asked:
            found.add(it.address)
        asked = asked_before(it, asked)
        if it.address in begins:
            asked = set(ALL)
    return found


def writes(it: Instruction) -> bool:
    """Whether the instruction does nothing but set a register, to a number whose high half can be left wrong."""
    return it.opcode in (OP, OP_32, OP_IMM, OP_IMM_32, LOAD)


def asked_before(it: Instruction, asked: set[int]) -> set[int]:
    """Of which registers the high half is asked for before an instruction, where it is of these behind it."""
    if it.opcode == STORE:
        return asked | ({it.rs1, it.rs2} if it.f3 == 3 else {it.rs1})
    if it.opcode == LUI:
        return asked - {it.rd}
    if not writes(it):
        return set(ALL)
    is_asked, rest = it.rd in asked, asked - {it.rd}
    return rest | operands_asked(it, is_asked)


def operands_asked(it: Instruction, is_asked: bool) -> set[int]:
    """The operands whose high half an instruction asks for, which sets a register whose high half is or is not."""
    if it.opcode in (OP_32, OP_IMM_32):
        return set()
    if it.opcode == OP:
        return {it.rs1, it.rs2} if is_asked or (it.f3, it.f7) not in LOW_OF_LOW else set()
    if it.opcode == OP_IMM and it.f3 == 1:
        return {it.rs1} if is_asked and it.shift < 32 else set()
    if it.opcode == OP_IMM and it.f3 in LOW_OF_LOW_WITH_NUMBER:
        return {it.rs1} if is_asked else set()
    return {it.rs1}
