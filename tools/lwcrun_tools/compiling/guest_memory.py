"""Where a program's data lies in the guest: its pages, its stacks, its files, and the code with which threads
begin."""

from __future__ import annotations

import struct
from collections.abc import Iterable
from dataclasses import dataclass

from lwcrun_tools.compiling.elf import REFUSED, Section
from lwcrun_tools.compiling.guest_text import GuestText, Label
from lwcrun_tools.compiling.program_code import ProgramCode
from lwcrun_tools.compiling.riscv import ARGUMENT, REGISTERS, STACK
from lwcrun_tools.machine import EXIT, MAP, MOST_PAGES, MOST_THREADS, PAGES_OF_FORM_ONE
from lwcrun_tools.machine import PAGE_BYTES as PAGE
from lwcrun_tools.refusals import Refused

# Sections from this address on are no memory of the guest.
OUTSIDE = 0x40000000
DEFAULT_STACK_PAGES = 4
STACKS, FILES, CONSTRUCTORS = ".lwc_stacks", ".lwc_files", ".init_array"


@dataclass(frozen=True)
class File:
    """A file of the image, and the slot that has it at the start; none where that is 0."""

    slot: int
    owner: int
    is_public: int
    content: bytes


class GuestMemory:
    """The pages of a program. `entries` are the functions at which its threads begin."""

    def __init__(self, code: ProgramCode, entries: list[str]) -> None:
        self.code, self.elf, self.entries = code, code.elf, entries
        self.stack_pages = self.elf.value("lwc_stack_pages", DEFAULT_STACK_PAGES)
        self.threads = self.elf.value("lwc_threads", len(entries))
        if not 1 <= self.threads <= MOST_THREADS:
            raise Refused(f"an image has 1 to {MOST_THREADS} threads, and this would have {self.threads}", 2)
        self.sections = [section for section in self.elf.memory if section.address < OUTSIDE]
        self.last = max((section.address + section.size - 1) // PAGE for section in [*self.sections, self._stacks()])
        self.form = 1 if self.last < PAGES_OF_FORM_ONE else 2
        self._check_room()
        self.mapped = self._mapped()

    def _stacks(self) -> Section:
        """The place of all stacks together."""
        return Section("the stacks", 0, 0, 0, self.top_of(self.threads - 1), 0, b"")

    def _check_room(self) -> None:
        if self.last >= MOST_PAGES:
            raise Refused(
                f"{self.elf.name}: its data and stacks reach to page {self.last}, and an image has at most "
                f"{MOST_PAGES} pages, which are 64 MB: {self.last + 1 - MOST_PAGES} too many. Make the arrays or the "
                "stacks smaller",
                REFUSED,
            )
        lowest = min((section for section in self.sections), key=lambda it: it.address, default=None)
        if lowest and lowest.address < self.top_of(self.threads - 1):
            raise Refused(
                f"{self.elf.name}: {lowest.name} lies where the stacks are: link it by guests/c/lwc.ld", REFUSED
            )

    def top_of(self, thread: int) -> int:
        """The end of a thread's stack. Below each is an absent page, for the first one page 0."""
        return PAGE * (self.stack_pages + 1) * (thread + 1)

    def stack_of(self, thread: int) -> range:
        """The pages of a thread's stack."""
        top = self.top_of(thread) // PAGE
        return range(top - self.stack_pages, top)

    def guards(self) -> set[int]:
        """The pages below stacks for contexts, which are absent: the first of each object in their section."""
        index = next((i for i, section in enumerate(self.elf.sections) if section.name == STACKS), None)
        return {it.value // PAGE for it in self.elf.symbols if it.section == index and it.kind == 1}

    def pages(self, numbers: dict[Label, int]) -> dict[int, bytearray]:
        """The pages of all data, with the numbers of instructions in the place of pointers to code."""
        found: dict[int, bytearray] = {}
        for section in self.sections:
            data = bytearray(section.data or bytes(section.size))
            for address, size, label in self.code.pointers:
                if section.has(address):
                    at = address - section.address
                    data[at : at + size] = numbers[label].to_bytes(size, "little")
            at = 0
            while at < section.size:
                page, offset = divmod(section.address + at, PAGE)
                part = data[at : at + PAGE - offset]
                found.setdefault(page, bytearray(PAGE))[offset : offset + len(part)] = part
                at += PAGE - offset
        for page in self.guards():
            found.pop(page, None)
        return found

    def _mapped(self) -> dict[int, list[range]]:
        """The pages that each thread maps when it begins, since they are zeros and a mapped page takes no frame until
        it is stored to. With several threads each maps its stack alone: what they have in common is in the image."""
        if self.threads > 1:
            return {thread: [self.stack_of(thread)] for thread in range(self.threads)}
        pointed = {address // PAGE for address, _, _ in self.code.pointers}
        zeros = {
            page for page, data in self.pages(dict.fromkeys(self.code.labels.values(), 0)).items() if not any(data)
        }
        return {0: runs((zeros - pointed) | set(self.stack_of(0)))}

    def image_pages(self, numbers: dict[Label, int]) -> dict[int, bytes]:
        """The pages that the image has: all but those that its threads map."""
        mapped = {page for parts in self.mapped.values() for part in parts for page in part}
        return {page: bytes(data) for page, data in sorted(self.pages(numbers).items()) if page not in mapped}

    def files(self) -> list[File]:
        """The files that the program gives its image by LWC_FILE."""
        section, found, at = self.elf.section(FILES), [], 0
        while section and at < section.size:
            slot, owner, is_public, length = struct.unpack_from("<4I", section.data, at)
            found.append(File(slot, owner, is_public, section.data[at + 16 : at + 16 + length]))
            at += (16 + length + 3) // 4 * 4
        return found

    def constructors(self) -> list[Label]:
        """The functions that run before the first thread's function, as C++ makes them for objects."""
        section = self.elf.section(CONSTRUCTORS)
        if section and self.threads > 1:
            raise Refused(
                f"{self.elf.name}: with {self.threads} threads nothing runs before them, and a global object has a "
                "constructor: make it constexpr, or make it in the thread that uses it",
                REFUSED,
            )
        return [label for address, _, label in self.code.pointers if section and section.has(address)]

    def begin_threads(self, text: GuestText) -> list[Label]:
        """The code with which each thread begins: it maps pages, and calls its function with its number."""
        values = {symbol.name: symbol.value for symbol in self.elf.functions()}
        starts = []
        for thread in range(self.threads):
            name = self.entries[min(thread, len(self.entries) - 1)]
            if name not in values:
                raise Refused(
                    f"{self.elf.name}: no function is called {name}, at which thread {thread} begins", REFUSED
                )
            starts.append(Label(f"start{thread}"))
            text.place(starts[-1])
            for part in self.mapped[thread]:
                text.load_low(ARGUMENT, part.start)
                text.load_low(ARGUMENT + 1, part.stop)
                text.emit("SYS", MAP)
            text.load_low(STACK, self.top_of(thread))
            for constructor in self.constructors():
                text.emit("JAL", f"r{REGISTERS[1]}", constructor)
            text.load_low(ARGUMENT, thread)
            text.emit("JAL", f"r{REGISTERS[1]}", self.code.label(values[name]))
            text.emit("SYS", EXIT)
        return starts


def runs(pages: Iterable[int]) -> list[range]:
    """The runs of pages side by side."""
    found: list[range] = []
    for page in sorted(pages):
        if found and found[-1].stop == page:
            found[-1] = range(found[-1].start, page + 1)
        else:
            found.append(range(page, page + 1))
    return found
