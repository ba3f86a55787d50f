"""The code of a linked program as the translator sees it: its instructions, the places that something jumps to, its
functions, and what to say where something is refused."""

from __future__ import annotations

import re
import struct
from bisect import bisect_right

from lwcrun_tools.compiling.debug_lines import LineTable
from lwcrun_tools.compiling.elf import REFUSED, Elf, Section
from lwcrun_tools.compiling.guest_text import Label
from lwcrun_tools.compiling.riscv import (
    BRANCHES,
    HIGH,
    HINTS,
    LOW,
    LOW_STORE,
    NAMES,
    PCREL_HIGH,
    PCREL_LOW,
    PCREL_LOW_STORE,
    PLAIN_32,
    PLAIN_64,
    THREAD_LOCALS,
    Instruction,
)
from lwcrun_tools.refusals import Refused

LONGEST_NAME = 28
OF_CODE = (*BRANCHES, HIGH, LOW, LOW_STORE, PCREL_HIGH, PCREL_LOW, PCREL_LOW_STORE, *HINTS)


class ProgramCode:
    """The instructions of a program, with a label for each place that is jumped to or pointed at."""

    def __init__(self, elf: Elf) -> None:
        self.elf, self.lines = elf, LineTable(elf)
        self.names = self._names()
        self.begins = sorted(self.names)
        self.labels: dict[int, Label] = {}
        # The addresses of functions, which get even numbers.
        self.functions = set(self.begins)
        if not elf.code:
            raise Refused(f"{elf.name} has no code", REFUSED)
        self.sections = [self._instructions(section) for section in elf.code]
        for address in self.begins:
            self.label(address)
        for run in self.sections:
            self._find_labels(run)
        self.pointers = self._pointers()

    def _names(self) -> dict[int, str]:
        """The functions by their addresses, each with a name of its own that a source takes."""
        found: dict[int, str] = {}
        taken: set[str] = set()
        for symbol in sorted(self.elf.functions(), key=lambda it: it.kind, reverse=True):
            if symbol.value in found:
                continue
            name = re.sub(r"\W", "_", symbol.name, flags=re.ASCII)[:LONGEST_NAME].lstrip("0123456789") or "code"
            while name in taken or re.fullmatch(r"(L|start)\d+", name):
                name = f"{name[:LONGEST_NAME]}_{len(taken) % 1000}"
            found[symbol.value] = name
            taken.add(name)
        return found

    @staticmethod
    def _instructions(section: Section) -> list[Instruction]:
        data = section.data or bytes(section.size)
        words = struct.unpack(f"<{len(data) // 4}I", data[: len(data) & ~3])
        return [Instruction(section.address + 4 * i, word) for i, word in enumerate(words)]

    def _find_labels(self, run: list[Instruction]) -> None:
        """Makes a label for each place to which an instruction of a section goes or points."""
        for i, it in enumerate(run):
            following = run[i + 1] if i + 1 < len(run) else None
            target = it.target_of_pair(following) if it.target is None else it.target
            if target is not None:
                self.label(target, it)
            for relocation in self.elf.relocations.get(it.address, []):
                self._check(it, relocation.kind, relocation.name)
            pointed = self.pointed_at(it)
            if pointed is not None:
                self.label(pointed, it)

    def _check(self, it: Instruction, kind: int, name: str) -> None:
        """Refuses a relocation of code that the translator does not know."""
        if kind in THREAD_LOCALS:
            self.refuse(
                it.address,
                f"{name} is a thread-local variable, and no guest has any: give each thread its own place in an array",
            )
        if kind not in OF_CODE:
            self.refuse(it.address, f"the relocation {kind} of {name}: compile it with -fno-pic -mcmodel=medlow")

    def pointed_at(self, it: Instruction) -> int | None:
        """The place of code whose pointer an instruction completes with its low half."""
        for relocation in self.elf.relocations.get(it.address, []):
            value = relocation.value
            if relocation.kind == PCREL_LOW:
                highs = self.elf.relocations.get(value, [])
                value = next((high.value for high in highs if high.kind == PCREL_HIGH), -1)
            if relocation.kind in (LOW, PCREL_LOW) and self.elf.is_code(value):
                return value
        return None

    def _pointers(self) -> list[tuple[int, int, Label]]:
        """The pointers to code in data: where each lies, how many bytes it has, and where it points."""
        found = []
        for address, relocations in sorted(self.elf.relocations.items()):
            section = next((it for it in self.elf.memory if it.has(address)), None)
            for relocation in relocations if section else []:
                if not self.elf.is_code(relocation.value):
                    continue
                if relocation.kind not in (PLAIN_32, PLAIN_64):
                    raise Refused(
                        f"{self.elf.name}: the data at {address:#x} is computed from the address of "
                        f"{relocation.name}, and a pointer to code is a number here: compile it with -fno-pic",
                        REFUSED,
                    )
                found.append((address, 4 * relocation.kind, self.label(relocation.value)))
        return found

    def label(self, address: int, source: Instruction | None = None) -> Label:
        """The label of an instruction."""
        if address not in self.labels:
            if not self.elf.is_code(address) or address & 3:
                where = source.address if source else address
                self.refuse(where, f"a jump to {address:#x}, where no instruction is")
            self.labels[address] = Label(self.names.get(address, ""))
        return self.labels[address]

    def function(self, address: int) -> str:
        """The function that an address is in, or no text."""
        found = bisect_right(self.begins, address) - 1
        return self.names[self.begins[found]] if found >= 0 else ""

    def where(self, address: int) -> str:
        """The file, the line and the function of an instruction, as compilers write it."""
        line, function = self.lines.at(address), self.function(address)
        place = f"{line[0]}:{line[1]}" if line else f"{self.elf.name} at {address:#x}"
        return f"{place}: in {function}" if function else place

    def refuse(self, address: int, why: str) -> None:
        """Refuses the program at an instruction."""
        raise Refused(f"{self.where(address)}: {why}", REFUSED, True)

    def refuse_register(self, it: Instruction, register: int) -> None:
        what = {3: "the global pointer", 4: "the thread pointer, as a thread-local variable needs it"}
        why = what.get(register, "and RV64E has x0 to x15: compile it with -march=rv64em -mabi=lp64e")
        self.refuse(it.address, f"register {NAMES[register]}, {why}")
