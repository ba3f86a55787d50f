"""Sequences for what the guest has no instruction for. Each keeps its operands until their last use, may have its
result in the same register as an operand, uses SCRATCH and SECOND, and leaves 0 in ZERO."""

from __future__ import annotations

from lwcrun_tools.compiling.guest_text import GuestText, Label
from lwcrun_tools.compiling.riscv import SCRATCH, SECOND, WORD, ZERO, signed

SIGN = 1 << 31


def constant(text: GuestText, rd: int, value: int) -> None:
    """rd = a constant of 64 bits."""
    value &= WORD
    if value < 1 << 32:
        text.load_low(rd, value)
    elif value >= WORD + 1 - SIGN and rd != ZERO:
        text.add_number(rd, ZERO, value - (1 << 64))
    else:
        text.load_low(rd, value & 0xFFFFFFFF)
        text.load_high(rd, value >> 32)


def extend_word(text: GuestText, rd: int, ra: int, plus: int = 0) -> None:
    """rd = the low half of ra + plus, with its sign: two additions of 2^31 around the cut of the high half."""
    text.add_number(rd, ra, signed(plus - SIGN, 32))
    text.load_high(rd, 0)
    text.add_number(rd, rd, -SIGN)


def cut_word(text: GuestText, rd: int, ra: int) -> None:
    """rd = the low half of ra."""
    text.move(rd, ra)
    text.load_high(rd, 0)


def with_number(text: GuestText, name: str, rd: int, ra: int, value: int) -> None:
    """rd = ra and a number, by an instruction of two registers."""
    constant(text, SCRATCH, value)
    text.three(name, rd, ra, SCRATCH)


def shift_signed(text: GuestText, rd: int, ra: int, count: int) -> None:
    """rd = ra shifted right by a number with its sign: (ra + 2^63) / 2^count - 2^(63 - count)."""
    if count == 0:
        text.move(rd, ra)
    elif count == 63:
        with_number(text, "SHR", SCRATCH, ra, 63)
        text.three("SUB", rd, ZERO, SCRATCH)
    else:
        text.load_low(SCRATCH, 0)
        text.load_high(SCRATCH, SIGN)
        text.three("ADD", SCRATCH, SCRATCH, ra)
        text.load_low(SECOND, count)
        text.three("SHR", SCRATCH, SCRATCH, SECOND)
        if count >= 32:
            text.add_number(rd, SCRATCH, -(1 << (63 - count)))
        else:
            text.load_low(SECOND, 0)
            text.load_high(SECOND, 1 << (31 - count))
            text.three("SUB", rd, SCRATCH, SECOND)


def shift_signed_by(text: GuestText, rd: int, ra: int, rb: int) -> None:
    """The same by a register: a number below 0 is shifted as its complement."""
    with_number(text, "SHR", SCRATCH, ra, 63)
    text.three("SUB", SCRATCH, ZERO, SCRATCH)
    text.three("XOR", SECOND, ra, SCRATCH)
    text.three("SHR", SECOND, SECOND, rb)
    text.three("XOR", rd, SECOND, SCRATCH)


def shift_word_signed(text: GuestText, rd: int, ra: int, count: int) -> None:
    """The same of the low half: (the low half + 2^31) / 2^count - 2^(31 - count)."""
    text.add_number(rd, ra, -SIGN)
    text.load_high(rd, 0)
    with_number(text, "SHR", rd, rd, count)
    text.add_number(rd, rd, -(1 << (31 - count)))


def shift_word_signed_by(text: GuestText, rd: int, ra: int, rb: int) -> None:
    """The same by the low five bits of a register."""
    with_number(text, "AND", SCRATCH, rb, 31)
    text.add_number(SECOND, ra, -SIGN)
    text.load_high(SECOND, 0)
    text.three("SHR", SECOND, SECOND, SCRATCH)
    text.load_low(ZERO, SIGN)
    text.three("SHR", ZERO, ZERO, SCRATCH)
    text.three("SUB", rd, SECOND, ZERO)
    text.load_low(ZERO, 0)


def less(text: GuestText, rd: int, ra: int, rb: int) -> None:
    """rd = 1 where ra is below rb, both signed, else 0: with their sign bits changed they compare unsigned."""
    if rb == ZERO:
        with_number(text, "SHR", rd, ra, 63)
        return
    text.load_low(SCRATCH, 0)
    text.load_high(SCRATCH, SIGN)
    text.three("ADD", SECOND, ra, SCRATCH)
    text.three("ADD", SCRATCH, rb, SCRATCH)
    text.three("LTU", rd, SECOND, SCRATCH)


def less_than_number(text: GuestText, rd: int, ra: int, value: int) -> None:
    """The same of a register and a number."""
    if value == 0:
        less(text, rd, ra, ZERO)
        return
    text.load_low(SCRATCH, 0)
    text.load_high(SCRATCH, SIGN)
    text.three("ADD", SECOND, ra, SCRATCH)
    text.add_number(SCRATCH, SCRATCH, value)
    text.three("LTU", rd, SECOND, SCRATCH)


def divide(text: GuestText, rd: int, is_remainder: bool) -> None:
    """rd = SCRATCH divided by SECOND, or the remainder, both signed; divided by 0 it is -1, and the remainder is the
    dividend. ZERO has the divisor's sign meanwhile, and rd the result's."""
    first, second, third, end = Label(), Label(), Label(), Label()
    text.load_low(ZERO, 63)
    text.three("SHR", rd, SCRATCH, ZERO)
    text.jump_if(rd, True, first)
    text.load_low(ZERO, 0)
    text.three("SUB", SCRATCH, ZERO, SCRATCH)
    text.place(first)
    text.load_low(ZERO, 63)
    text.three("SHR", ZERO, SECOND, ZERO)
    text.jump_if(ZERO, True, second)
    if not is_remainder:
        text.three("XOR", rd, rd, ZERO)
    text.load_low(ZERO, 0)
    text.three("SUB", SECOND, ZERO, SECOND)
    text.place(second)
    text.three("REMU" if is_remainder else "DIVU", SCRATCH, SCRATCH, SECOND)
    text.load_low(ZERO, 0)
    text.jump_if(rd, True, third)
    text.three("SUB", SCRATCH, ZERO, SCRATCH)
    text.place(third)
    text.move(rd, SCRATCH)
    if not is_remainder:
        text.jump_if(SECOND, False, end)
        text.add_number(rd, ZERO, -1)
        text.place(end)


def multiply_high(text: GuestText, rd: int, ra: int, rb: int, signs: tuple[bool, bool]) -> None:
    """rd = the high word of the product; signs says which of ra and rb are signed."""
    if ZERO in (ra, rb):
        text.load_low(rd, 0)
        return
    carry_low_products(text, ra, rb)
    text.load_low(ZERO, 32)
    text.three("SHR", SCRATCH, SCRATCH, ZERO)
    text.three("SHR", SECOND, SECOND, ZERO)
    text.three("ADD", SECOND, SECOND, SCRATCH)
    text.three("SHR", SCRATCH, ra, ZERO)
    text.three("SHR", ZERO, rb, ZERO)
    text.three("MUL", SCRATCH, SCRATCH, ZERO)
    text.three("ADD", SECOND, SECOND, SCRATCH)
    for is_signed, this, other in ((signs[0], ra, rb), (signs[1], rb, ra)):
        if is_signed:
            take_where_negative(text, this, other)
    text.load_low(ZERO, 0)
    text.move(rd, SECOND)


def carry_low_products(text: GuestText, ra: int, rb: int) -> None:
    """SECOND = (high of ra) * (low of rb) and the high half of the product of both lows; SCRATCH = (low of ra) * (high
    of rb) and the low half of SECOND. The high halves of both go into the high word of the whole product."""
    text.move(SCRATCH, rb)
    text.load_high(SCRATCH, 0)
    text.move(SECOND, ra)
    text.load_high(SECOND, 0)
    text.three("MUL", SECOND, SECOND, SCRATCH)
    text.load_low(ZERO, 32)
    text.three("SHR", SECOND, SECOND, ZERO)
    text.three("SHR", ZERO, ra, ZERO)
    text.three("MUL", ZERO, ZERO, SCRATCH)
    text.three("ADD", SECOND, SECOND, ZERO)
    text.move(SCRATCH, ra)
    text.load_high(SCRATCH, 0)
    text.load_low(ZERO, 32)
    text.three("SHR", ZERO, rb, ZERO)
    text.three("MUL", SCRATCH, SCRATCH, ZERO)
    text.move(ZERO, SECOND)
    text.load_high(ZERO, 0)
    text.three("ADD", SCRATCH, SCRATCH, ZERO)


def take_where_negative(text: GuestText, this: int, other: int) -> None:
    """SECOND loses one register where another one is below 0; ZERO is used."""
    label = Label()
    text.load_low(ZERO, 63)
    text.three("SHR", ZERO, this, ZERO)
    text.jump_if(ZERO, True, label)
    text.three("SUB", SECOND, SECOND, other)
    text.place(label)
