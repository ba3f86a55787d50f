"""Loads and stores of 1, 2, 4 and 8 bytes, by the guest's loads and stores of a byte and of a word of 8."""

from __future__ import annotations

from collections.abc import Callable
from dataclasses import dataclass

from lwcrun_tools.compiling.guest_text import GuestText, Label
from lwcrun_tools.compiling.riscv import SCRATCH, SECOND, ZERO
from lwcrun_tools.compiling.sequences import extend_word, with_number


@dataclass(frozen=True)
class Place:
    """An address: a register and an offset, and what it is modulo 8 where that is known."""

    register: int
    offset: int
    modulo: int | None

    def is_known(self, size: int) -> bool:
        """Whether the address is known to be a multiple of the size."""
        return self.modulo is not None and self.modulo % size == 0


def load(text: GuestText, size: int, is_signed: bool, rd: int, at: Place, keeps_high: bool = True) -> None:
    """rd = what is at a place. Where keeps_high is false nobody asks for the high half of rd."""
    if size == 8:
        text.memory("LDW", rd, at.register, at.offset)
    elif size == 1:
        text.memory("LDB", rd, at.register, at.offset)
        if is_signed:
            with_number(text, "XOR", rd, rd, 128)
            text.add_number(rd, rd, -128)
    elif size == 2:
        load_half(text, is_signed, rd, at)
    else:
        load_word(text, is_signed, rd, at, keeps_high)


def load_half(text: GuestText, is_signed: bool, rd: int, at: Place) -> None:
    """rd = two bytes, by one load of the word that has them. An odd address leaves one that is no multiple of 8: fault
    2."""
    if at.is_known(2):
        text.memory("LDW", rd, at.register, at.offset - (at.modulo or 0))
        if at.modulo:
            with_number(text, "SHR", rd, rd, 8 * at.modulo)
    else:
        base = at.register
        if at.offset:
            text.add_number(SCRATCH, base, at.offset)
            base = SCRATCH
        text.load_low(SECOND, 6)
        text.three("AND", SECOND, base, SECOND)
        text.three("SUB", SCRATCH, base, SECOND)
        text.memory("LDW", SCRATCH, SCRATCH, 0)
        for _ in range(3):
            text.three("ADD", SECOND, SECOND, SECOND)
        text.three("SHR", rd, SCRATCH, SECOND)
    if not (at.is_known(2) and at.modulo == 6):
        with_number(text, "AND", rd, rd, 65535)
    if is_signed:
        with_number(text, "XOR", rd, rd, 32768)
        text.add_number(rd, rd, -32768)


def load_word(text: GuestText, is_signed: bool, rd: int, at: Place, keeps_high: bool) -> None:
    """rd = four bytes, by one load of the word that has them."""
    if at.is_known(4):
        text.memory("LDW", rd, at.register, at.offset - (at.modulo or 0))
        if at.modulo:
            with_number(text, "SHR", rd, rd, 32)
        has_high = not at.modulo
    else:
        by_halves(text, at, lambda half: load_lower(text, rd, half), lambda half: load_upper(text, rd, half))
        has_high = True
    if keeps_high and is_signed:
        extend_word(text, rd, rd)
    elif keeps_high and has_high:
        text.load_high(rd, 0)


def by_halves(text: GuestText, at: Place, lower: Callable[[Place], None], upper: Callable[[Place], None]) -> None:
    """One of two sequences: the bytes are the low or the high half of a word, whose place each sequence is given. An
    address that is no multiple of 4 leaves one that is no multiple of 8: a fault."""
    if at.offset % 4:
        text.add_number(SCRATCH, at.register, at.offset)
        at = Place(SCRATCH, 0, None)
    is_upper, end = Label(), Label()
    with_four = at.offset % 8 == 4
    text.load_low(SECOND, 4)
    text.three("AND", SECOND, at.register, SECOND)
    text.jump_if(SECOND, with_four, is_upper)
    lower(Place(at.register, at.offset, 0))
    text.jump(end)
    text.place(is_upper)
    upper(Place(at.register, at.offset - 4, 0))
    text.place(end)


def load_lower(text: GuestText, rd: int, at: Place) -> None:
    text.memory("LDW", rd, at.register, at.offset)


def load_upper(text: GuestText, rd: int, at: Place) -> None:
    text.memory("LDW", rd, at.register, at.offset)
    with_number(text, "SHR", rd, rd, 32)


def store(text: GuestText, size: int, rb: int, at: Place, by_words: bool) -> None:
    """What is at a place = the low bytes of rb. By words, four bytes are a load and a store of the word that has them:
    2 steps in the place of 4."""
    if size == 8:
        text.memory("STW", rb, at.register, at.offset)
    elif size == 4 and by_words and at.offset % 4 == 0:
        if at.is_known(4):
            half = Place(at.register, at.offset - (at.modulo or 0), 0)
            (store_upper if at.modulo else store_lower)(text, rb, half)
        else:
            by_halves(text, at, lambda half: store_lower(text, rb, half), lambda half: store_upper(text, rb, half))
    else:
        store_bytes(text, size, rb, at)


def store_bytes(text: GuestText, size: int, rb: int, at: Place) -> None:
    """The same by a store for each byte."""
    text.memory("STB", rb, at.register, at.offset)
    value = rb
    if size > 1 and rb != ZERO:
        text.load_low(SCRATCH, 8)
    for i in range(1, size):
        if rb != ZERO:
            text.three("SHR", SECOND, value, SCRATCH)
            value = SECOND
        text.memory("STB", value, at.register, at.offset + i)


def store_lower(text: GuestText, rb: int, at: Place) -> None:
    """The low half of the word at a place = that of rb."""
    text.memory("LDW", SECOND, at.register, at.offset)
    text.three("XOR", SCRATCH, SECOND, rb)
    text.load_high(SCRATCH, 0)
    text.three("XOR", SECOND, SECOND, SCRATCH)
    text.memory("STW", SECOND, at.register, at.offset)


def store_upper(text: GuestText, rb: int, at: Place) -> None:
    """The high half of the word at a place = the low half of rb."""
    text.memory("LDW", SECOND, at.register, at.offset)
    text.load_high(SECOND, 0)
    if rb != ZERO:
        with_number(text, "SHL", SCRATCH, rb, 32)
        text.three("ADD", SECOND, SECOND, SCRATCH)
    text.memory("STW", SECOND, at.register, at.offset)
