"""The source of an image that was made of a program: its text, the lines of the program, and how much it is."""

from __future__ import annotations

import bisect
import hashlib
from collections.abc import Iterator
from dataclasses import dataclass

from lwcrun_tools.compiling.elf import REFUSED, Elf
from lwcrun_tools.compiling.guest_memory import GuestMemory
from lwcrun_tools.compiling.guest_text import BEGIN, PADDING, GuestInstruction, GuestText, Label
from lwcrun_tools.compiling.program_code import ProgramCode
from lwcrun_tools.compiling.translation import Translator
from lwcrun_tools.machine import MOST_INSTRUCTIONS
from lwcrun_tools.refusals import Refused


@dataclass
class MadeSource:
    """A source for `lwcrun asm`, and what it was made of."""

    code: ProgramCode
    text: GuestText
    memory: GuestMemory
    translator: Translator
    starts: list[Label]

    def names(self) -> dict[int, str]:
        """A name for each place that has a label: that of the function, or one by the number."""
        found: dict[int, str] = {}
        for label in self.text.placed:
            if label.name or label.place not in found:
                found[label.place] = label.name or f"L{label.place}"
        return found

    def source(self) -> str:
        """The source as text."""
        names = self.names()
        numbers = {label: label.place for label in self.text.placed}
        lines = [f"; {self.code.elf.name}: {len(self.text.made)} instructions, of {self.translator.count} of RISC-V"]
        lines += [".form 2"] * (self.memory.form == 2)
        lines += [f".entry {label.name}" for label in self.starts]
        for place, it in enumerate(self.text.made):
            head = f"{names[place]}: " if place in names else ""
            lines.append(f"{head}{written(it, names)}")
        for page, data in self.memory.image_pages(numbers).items():
            lines.append(f".page {page} {data.rstrip(bytes(1)).hex() or '-'}")
        files = self.memory.files()
        lines += [f".file {it.owner} {it.is_public} {it.content.hex() or '-'}" for it in files]
        lines += [
            f".slot {slot} {number}" for slot, number in sorted((it.slot, i) for i, it in enumerate(files)) if slot
        ]
        return "\n".join(lines) + "\n"

    def line_table(self, image: bytes) -> str:
        """The lines of the program, as docs/C.md says: a head with the sum of the image, and then a line for each
        place at which another line of the program or another function begins."""
        lines = [f"lwcrun lines 1 {hashlib.sha256(image).hexdigest()}"]
        last = ""
        for place, function, line in self.places():
            if (shown := f"{function or '-'} {line or '-'}") != last:
                lines.append(f"{place} {shown}")
            last = shown
        return "\n".join(lines) + "\n"

    def places(self) -> Iterator[tuple[int, str, str]]:
        """Of each instruction its number, the function and the line of the program."""
        begins = sorted((label.place, label.name) for label in self.starts)
        for place, it in enumerate(self.text.made):
            if it.address == PADDING:
                yield place, "", ""
            elif it.address == BEGIN:
                found = bisect.bisect_right(begins, (place, "~")) - 1
                yield place, begins[found][1] if found >= 0 else "", ""
            else:
                line = self.code.lines.at(it.address)
                yield place, self.code.function(it.address), f"{line[0]}:{line[1]}" if line else ""

    def weights(self) -> list[int]:
        """Of each instruction how many of RISC-V begin there."""
        return [self.translator.weights.get(place, 0) for place in range(len(self.text.made))]


def written(it: GuestInstruction, names: dict[int, str]) -> str:
    """An instruction as a source has it."""
    words = [names[word.place] if isinstance(word, Label) else str(word) for word in it.operands]
    return f"{it.name} {', '.join(words)}".rstrip()


def make_source(elf: Elf, entries: list[str], by_words: bool | None) -> MadeSource:
    """The source of a program whose threads begin at these functions. A store of four bytes is one of a word, or, by
    default, one of bytes where there are several threads."""
    code, text = ProgramCode(elf), GuestText()
    memory = GuestMemory(code, entries)
    starts = memory.begin_threads(text)
    translator = Translator(code, text, memory.threads == 1 if by_words is None else by_words)
    translator.translate()
    if any(label.place == len(text.made) for label in text.placed):
        text.address = PADDING
        text.emit("HALT")
    count = len(text.made)
    if count > MOST_INSTRUCTIONS:
        raise Refused(
            f"{elf.name}: its code is {count} instructions, {count - MOST_INSTRUCTIONS} more than an image has "
            f"({MOST_INSTRUCTIONS}): compile it with -Os, or leave code out",
            REFUSED,
        )
    return MadeSource(code, text, memory, translator, starts)
