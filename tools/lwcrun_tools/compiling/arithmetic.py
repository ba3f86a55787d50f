"""Instructions that compute: the sequence of the guest for each."""

from __future__ import annotations

from lwcrun_tools.compiling import sequences
from lwcrun_tools.compiling.guest_text import GuestText
from lwcrun_tools.compiling.riscv import OP, OP_IMM_32, SCRATCH, SECOND, WORD, ZERO, Instruction, signed

# The instruction of the guest for each of RISC-V that has one, by f3 and f7.
SAME = {(0, 0): "ADD", (0, 0x20): "SUB", (1, 0): "SHL", (3, 0): "LTU", (4, 0): "XOR", (5, 0): "SHR", (6, 0): "OR"}
SAME |= {(7, 0): "AND", (0, 1): "MUL", (5, 1): "DIVU", (7, 1): "REMU"}
BITWISE = {4: "XOR", 6: "OR", 7: "AND"}
SIGNS = {1: (True, True), 2: (True, False), 3: (False, False)}


def fold(it: Instruction, known: int) -> int | None:
    """What an instruction with an immediate makes of a known operand; None for a comparison."""
    if it.opcode == OP_IMM_32:
        shift, low = it.shift & 31, known & 0xFFFFFFFF
        right = signed(low, 32) if it.is_arithmetic_shift else low
        return {0: signed(known + it.imm, 32), 1: signed(low << shift, 32), 5: signed(right >> shift, 32)}.get(it.f3)
    whole = known & WORD
    right = signed(whole, 64) if it.is_arithmetic_shift else whole
    made = {0: whole + it.imm, 1: whole << it.shift, 5: right >> it.shift}
    made |= {4: whole ^ it.imm, 6: whole | it.imm, 7: whole & it.imm}
    return made.get(it.f3)


def with_immediate(text: GuestText, it: Instruction, rd: int, ra: int, is_low: bool) -> bool:
    """rd = ra and an immediate. Where is_low nobody asks for the high half. Answers whether it is an instruction."""
    if it.opcode == OP_IMM_32:
        return word_with_immediate(text, it, rd, ra, is_low)
    if it.f3 == 0:
        if it.imm:
            text.add_number(rd, ra, it.imm)
        else:
            text.move(rd, ra)
    elif it.f3 == 1 and it.shift == 1:
        text.three("ADD", rd, ra, ra)
    elif it.f3 == 1:
        sequences.with_number(text, "SHL", rd, ra, it.shift)
    elif it.f3 == 5 and it.is_arithmetic_shift:
        sequences.shift_signed(text, rd, ra, it.shift)
    elif it.f3 == 5:
        sequences.with_number(text, "SHR", rd, ra, it.shift)
    elif it.f3 == 2:
        sequences.less_than_number(text, rd, ra, it.imm)
    elif it.f3 == 3 and it.imm == 1:
        text.three("EQ", rd, ra, ZERO)
    else:
        sequences.with_number(text, BITWISE.get(it.f3, "LTU"), rd, ra, it.imm)
    return True


def word_with_immediate(text: GuestText, it: Instruction, rd: int, ra: int, is_low: bool) -> bool:
    """The same of the low halves, and the result has its sign."""
    shift = it.shift & 31
    if it.f3 == 0 and is_low and it.imm:
        text.add_number(rd, ra, it.imm)
    elif it.f3 == 0 and is_low:
        text.move(rd, ra)
    elif it.f3 == 0:
        sequences.extend_word(text, rd, ra, it.imm)
    elif it.f3 == 1:
        sequences.with_number(text, "SHL", rd, ra, shift)
        if not is_low:
            sequences.extend_word(text, rd, rd)
    elif it.f3 == 5 and it.is_arithmetic_shift:
        sequences.shift_word_signed(text, rd, ra, shift)
    elif it.f3 == 5:
        sequences.cut_word(text, SECOND, ra)
        sequences.with_number(text, "SHR", rd, SECOND, shift)
        if shift == 0 and not is_low:
            sequences.extend_word(text, rd, rd)
    else:
        return False
    return True


def with_registers(text: GuestText, it: Instruction, rd: int, operands: tuple[int, int], is_low: bool) -> bool:
    """rd = two registers. Answers whether it is an instruction."""
    ra, rb = operands
    if it.opcode != OP:
        return word_with_registers(text, it, rd, operands, is_low)
    name = SAME.get((it.f3, it.f7))
    if name == "ADD" and ZERO in operands:
        text.move(rd, ra if rb == ZERO else rb)
    elif name:
        text.three(name, rd, ra, rb)
    elif (it.f3, it.f7) == (5, 0x20):
        sequences.shift_signed_by(text, rd, ra, rb)
    elif (it.f3, it.f7) == (2, 0):
        sequences.less(text, rd, ra, rb)
    elif it.f7 == 1 and it.f3 in SIGNS:
        sequences.multiply_high(text, rd, ra, rb, SIGNS[it.f3])
    elif it.f7 == 1:
        text.move(SCRATCH, ra)
        text.move(SECOND, rb)
        sequences.divide(text, rd, it.f3 == 6)
    else:
        return False
    return True


def word_with_registers(text: GuestText, it: Instruction, rd: int, operands: tuple[int, int], is_low: bool) -> bool:
    """The same of the low halves, and the result has its sign."""
    ra, rb = operands
    if it.f7 == 1 and it.f3 in (4, 6):
        sequences.extend_word(text, SCRATCH, ra)
        sequences.extend_word(text, SECOND, rb)
        sequences.divide(text, rd, it.f3 == 6)
    elif it.f7 == 1 and it.f3 in (5, 7):
        sequences.cut_word(text, SCRATCH, ra)
        sequences.cut_word(text, SECOND, rb)
        text.three("DIVU" if it.f3 == 5 else "REMU", rd, SCRATCH, SECOND)
    elif it.f3 == 0 and it.f7 in (0, 1, 0x20):
        text.three(SAME[0, it.f7], rd, ra, rb)
    elif it.f3 == 1 and it.f7 == 0:
        sequences.with_number(text, "AND", SCRATCH, rb, 31)
        text.three("SHL", rd, ra, SCRATCH)
    elif it.f3 == 5 and it.f7 == 0:
        sequences.cut_word(text, SECOND, ra)
        sequences.with_number(text, "AND", SCRATCH, rb, 31)
        text.three("SHR", rd, SECOND, SCRATCH)
    elif it.f3 == 5 and it.f7 == 0x20:
        sequences.shift_word_signed_by(text, rd, ra, rb)
        return True
    else:
        return False
    if not is_low:
        sequences.extend_word(text, rd, rd)
    return True
