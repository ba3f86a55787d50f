"""The text of a guest while it is made: instructions, and labels for places that are not known yet."""

from __future__ import annotations

from dataclasses import dataclass, field


class Label:
    """A place in the text, once `GuestText.place` was called; `name` is what the source calls it, if anything."""

    def __init__(self, name: str = "") -> None:
        self.name = name
        self.place = -1


# The address of an instruction that no instruction of RISC-V was translated to: code with which a thread begins, or
# what fills a gap.
BEGIN, PADDING = -1, -2
Operand = str | int | Label


@dataclass
class GuestInstruction:
    """An instruction of the guest, and the address of the one of RISC-V that it was made for."""

    name: str
    operands: tuple[Operand, ...]
    address: int


@dataclass
class GuestText:
    """The instructions so far."""

    made: list[GuestInstruction] = field(default_factory=list)
    placed: list[Label] = field(default_factory=list)
    # The instruction of RISC-V that is being translated.
    address: int = BEGIN

    def emit(self, name: str, *operands: Operand) -> None:
        """Adds an instruction. A number in the place of a register is written `r`, so registers come by `reg`."""
        self.made.append(GuestInstruction(name, operands, self.address))

    def place(self, label: Label) -> None:
        """The label stands for the next instruction."""
        label.place = len(self.made)
        self.placed.append(label)

    def align(self) -> None:
        """The next instruction gets an even number."""
        if len(self.made) % 2:
            self.made.append(GuestInstruction("HALT", (), PADDING))

    def take_back(self, begin: int) -> None:
        """Drops the instructions from a place on, which no label stands for."""
        del self.made[begin:]

    # Sequences name registers by their numbers.

    def three(self, name: str, rd: int, ra: int, rb: int) -> None:
        self.emit(name, f"r{rd}", f"r{ra}", f"r{rb}")

    def load_low(self, rd: int, value: Operand) -> None:
        """rd = a number below 2^32, or a label."""
        self.emit("LI", f"r{rd}", value)

    def load_high(self, rd: int, value: int) -> None:
        """The high half of rd = a number."""
        self.emit("LIH", f"r{rd}", value)

    def add_number(self, rd: int, ra: int, value: int) -> None:
        self.emit("ADDI", f"r{rd}", f"r{ra}", value)

    def move(self, rd: int, ra: int) -> None:
        if rd != ra:
            self.emit("MOV", f"r{rd}", f"r{ra}")

    def jump(self, label: Label) -> None:
        self.emit("JMP", label)

    def jump_if(self, ra: int, is_zero: bool, label: Label) -> None:
        self.emit("JZ" if is_zero else "JNZ", f"r{ra}", label)

    def memory(self, name: str, register: int, ra: int, offset: int) -> None:
        """A load or a store."""
        self.emit(name, f"r{register}", f"r{ra}", offset)
