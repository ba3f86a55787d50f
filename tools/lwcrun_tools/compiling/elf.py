"""A linked program: the sections, symbols and relocations of an ELF of 64 bits for RISC-V."""

from __future__ import annotations

import struct
from dataclasses import dataclass

from lwcrun_tools.exits import CANNOT_READ
from lwcrun_tools.refusals import Refused

REFUSED = 5
RISCV = 243
# Kinds of sections, and flags of them.
SYMBOL_TABLE, RELOCATIONS, NO_BITS = 2, 4, 8
ALLOCATED, EXECUTABLE, THREAD_LOCAL = 2, 4, 0x400
# Kinds of symbols.
NO_TYPE, FUNCTION = 0, 2


@dataclass
class Section:
    """A section. One without bytes in the file is zeros."""

    name: str
    kind: int
    flags: int
    address: int
    size: int
    applies_to: int
    data: bytes

    @property
    def is_memory(self) -> bool:
        """Whether it is data that the program finds in its memory."""
        return bool(self.flags & ALLOCATED) and not self.flags & EXECUTABLE and self.size > 0

    @property
    def is_code(self) -> bool:
        return bool(self.flags & EXECUTABLE) and self.size > 0

    def has(self, address: int) -> bool:
        return self.address <= address < self.address + self.size


@dataclass
class Symbol:
    """A name, and what it stands for."""

    name: str
    kind: int
    section: int
    value: int


@dataclass
class Relocation:
    """What the linker put at a place: its kind, and the address that it is about."""

    kind: int
    name: str
    value: int


class Elf:
    """A program that was linked statically, with its relocations kept."""

    def __init__(self, name: str, data: bytes) -> None:
        self.name, self.data = name, data
        if data[:6] != b"\x7fELF\x02\x01" or len(data) < 64 or struct.unpack_from("<H", data, 18)[0] != RISCV:
            raise Refused(f"{name} is no ELF of 64 bits for RISC-V", REFUSED)
        try:
            self.sections = self._sections()
            self.symbols = self._symbols()
            self.relocations = self._relocations()
        except (struct.error, IndexError, ValueError) as error:
            raise Refused(f"{name} is cut, or no whole ELF: {error}", REFUSED) from error

    def _sections(self) -> list[Section]:
        (offset,) = struct.unpack_from("<Q", self.data, 40)
        size, count, names = struct.unpack_from("<HHH", self.data, 58)
        raw = [struct.unpack_from("<IIQQQQIIQQ", self.data, offset + i * size) for i in range(count)]
        self._links = [fields[6] for fields in raw]
        table = raw[names][4]
        return [
            Section(
                self._text(table + fields[0]),
                fields[1],
                fields[2],
                fields[3],
                fields[5],
                fields[7],
                b"" if fields[1] == NO_BITS else self.data[fields[4] : fields[4] + fields[5]],
            )
            for fields in raw
        ]

    def _text(self, at: int) -> str:
        return self.data[at : self.data.index(b"\0", at)].decode(errors="replace")

    def _symbols(self) -> list[Symbol]:
        table = next((i for i, section in enumerate(self.sections) if section.kind == SYMBOL_TABLE), None)
        if table is None:
            raise Refused(f"{self.name} has no symbols: link it without --strip-all", REFUSED)
        data, names = self.sections[table].data, self.sections[self._links[table]].data
        found = []
        for at in range(0, len(data), 24):
            name, info, _, section, value, _ = struct.unpack_from("<IBBHQQ", data, at)
            text = names[name : names.index(b"\0", name)].decode(errors="replace")
            found.append(Symbol(text, info & 15, section, value))
        return found

    def _relocations(self) -> dict[int, list[Relocation]]:
        found: dict[int, list[Relocation]] = {}
        for section in self.sections:
            if section.kind == RELOCATIONS and self.sections[section.applies_to].flags & ALLOCATED:
                for at in range(0, section.size, 24):
                    where, info, addend = struct.unpack_from("<QQq", section.data, at)
                    symbol = self.symbols[info >> 32]
                    made = Relocation(info & 0xFFFFFFFF, symbol.name, symbol.value + addend)
                    found.setdefault(where, []).append(made)
        return found

    @property
    def code(self) -> list[Section]:
        """The sections of instructions."""
        return [section for section in self.sections if section.is_code]

    @property
    def memory(self) -> list[Section]:
        """The sections of data."""
        return [section for section in self.sections if section.is_memory]

    def is_code(self, address: int) -> bool:
        """Whether an instruction is at the address."""
        return any(section.has(address) for section in self.code)

    def section(self, name: str) -> Section | None:
        """The section of a name, if it has any bytes."""
        return next((section for section in self.sections if section.name == name and section.size), None)

    def value(self, name: str, default: int) -> int:
        """What a symbol stands for, or something else where there is none."""
        return next((symbol.value for symbol in self.symbols if symbol.name == name and symbol.section), default)

    def functions(self) -> list[Symbol]:
        """The functions, and the other names of code but those that the assembler made."""
        return [
            symbol
            for symbol in self.symbols
            if symbol.section
            and self.is_code(symbol.value)
            and (symbol.kind == FUNCTION or (symbol.kind == NO_TYPE and not symbol.name.startswith((".L", "$"))))
        ]


def read_elf(path: str, name: str = "") -> Elf:
    """The program in a file, with its name for the user."""
    try:
        with open(path, "rb") as file:
            return Elf(name or path, file.read())
    except OSError as error:
        raise Refused(f"cannot read {path}: {error.strerror}", CANNOT_READ) from error
