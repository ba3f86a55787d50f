"""Which line of which file each instruction was made of: the line table of DWARF, versions 2 to 5."""

from __future__ import annotations

import bisect
import os
import struct
from dataclasses import dataclass

from lwcrun_tools.compiling.elf import Elf

# Forms of the fields of a file's entry.
STRING, LINE_STRING, UDATA, DATA1, DATA2, DATA4, DATA16, BLOCK, STRING_AT = 8, 0x1F, 15, 11, 5, 6, 0x1E, 9, 14
PATH, DIRECTORY = 1, 2


class Reader:
    """Reads numbers and texts one after another."""

    def __init__(self, data: bytes, at: int = 0) -> None:
        self.data, self.at = data, at

    def number(self, size: int) -> int:
        self.at += size
        return int.from_bytes(self.data[self.at - size : self.at], "little")

    def uleb(self) -> int:
        value = shift = 0
        while True:
            byte = self.number(1)
            value |= (byte & 127) << shift
            shift += 7
            if byte < 128:
                return value

    def sleb(self) -> int:
        begin = self.at
        value, bits = self.uleb(), 7 * (self.at - begin)
        return value - (1 << bits) if value >> (bits - 1) & 1 else value

    def text(self) -> str:
        end = self.data.index(b"\0", self.at)
        begin, self.at = self.at, end + 1
        return self.data[begin:end].decode(errors="replace")


@dataclass
class State:
    """The registers of a line program."""

    address: int = 0
    file: int = 1
    line: int = 1


class LineTable:
    """The lines of a program: at each address at which one begins, the file and the line."""

    def __init__(self, elf: Elf) -> None:
        self.texts = {
            name: found.data if (found := elf.section(name)) else b"" for name in (".debug_line_str", ".debug_str")
        }
        self.rows: list[tuple[int, str, int]] = []
        section = elf.section(".debug_line")
        if section:
            try:
                self._read(section.data)
            except (IndexError, ValueError, struct.error):
                # A table that is not as the standard says names no lines.
                self.rows = []
        self.rows.sort()
        self.begins = [row[0] for row in self.rows]

    def at(self, address: int) -> tuple[str, int] | None:
        """The file and the line of an instruction, where they are known."""
        found = bisect.bisect_right(self.begins, address) - 1
        if found < 0 or not self.rows[found][2]:
            return None
        return self.rows[found][1], self.rows[found][2]

    def _read(self, data: bytes) -> None:
        at = 0
        while at < len(data):
            (length,) = struct.unpack_from("<I", data, at)
            self._unit(Reader(data[: at + 4 + length], at + 4))
            at += 4 + length

    def _unit(self, reader: Reader) -> None:
        version = reader.number(2)
        if version >= 5:
            reader.number(2)
        header = reader.number(4)
        begin = reader.at + header
        least = reader.number(1)
        if version >= 4:
            reader.number(1)
        reader.number(1)
        base, span, first = reader.number(1), reader.number(1), reader.number(1)
        lengths = [reader.number(1) for _ in range(first - 1)]
        files = self._files_5(reader) if version >= 5 else self._files_4(reader)
        reader.at = begin
        self._program(reader, files, (least, base - 256 if base > 127 else base, span, lengths))

    @staticmethod
    def _files_4(reader: Reader) -> dict[int, str]:
        folders = [""]
        while name := reader.text():
            folders.append(name)
        files: dict[int, str] = {}
        while name := reader.text():
            folder = folders[reader.uleb()]
            reader.uleb()
            reader.uleb()
            files[len(files) + 1] = os.path.join(folder, name)
        return files

    def _files_5(self, reader: Reader) -> dict[int, str]:
        folders = [entry.get(PATH, "") for entry in self._entries(reader)]
        files = {}
        for i, entry in enumerate(self._entries(reader)):
            folder = folders[int(entry.get(DIRECTORY, "0"))]
            files[i] = os.path.join(folder, entry.get(PATH, ""))
        return files

    def _entries(self, reader: Reader) -> list[dict[int, str]]:
        forms = [(reader.uleb(), reader.uleb()) for _ in range(reader.number(1))]
        return [{kind: self._field(reader, form) for kind, form in forms} for _ in range(reader.uleb())]

    def _field(self, reader: Reader, form: int) -> str:
        if form == STRING:
            return reader.text()
        if form in (LINE_STRING, STRING_AT):
            texts = self.texts[".debug_line_str" if form == LINE_STRING else ".debug_str"]
            return Reader(texts, reader.number(4)).text()
        if form == UDATA:
            return str(reader.uleb())
        if form == BLOCK:
            reader.at += reader.uleb()
            return ""
        return str(reader.number({DATA1: 1, DATA2: 2, DATA4: 4, DATA16: 16}[form]))

    def _program(self, reader: Reader, files: dict[int, str], form: tuple[int, int, int, list[int]]) -> None:
        least, base, span, lengths = form
        state, first = State(), len(lengths) + 1
        while reader.at < len(reader.data):
            code = reader.number(1)
            if code >= first:
                state.address += (code - first) // span * least
                state.line += base + (code - first) % span
                self._add(state, files)
            elif code == 0:
                state = self._extended(reader, state)
            else:
                self._standard(reader, code, state, files, (least, (255 - first) // span * least, lengths))

    def _standard(
        self, reader: Reader, code: int, state: State, files: dict[int, str], form: tuple[int, int, list[int]]
    ) -> None:
        least, jump, lengths = form
        if code == 1:
            self._add(state, files)
        elif code == 2:
            state.address += reader.uleb() * least
        elif code == 3:
            state.line += reader.sleb()
        elif code == 4:
            state.file = reader.uleb()
        elif code == 8:
            state.address += jump
        elif code == 9:
            state.address += reader.number(2)
        else:
            for _ in range(lengths[code - 1]):
                reader.uleb()

    def _extended(self, reader: Reader, state: State) -> State:
        size = reader.uleb()
        end = reader.at + size
        code = reader.number(1)
        if code == 1:
            # Behind the last instruction of a sequence no line is known.
            self.rows.append((state.address, "", 0))
            state = State()
        elif code == 2:
            state.address = reader.number(size - 1)
        reader.at = end
        return state

    def _add(self, state: State, files: dict[int, str]) -> None:
        self.rows.append((state.address, files.get(state.file, ""), state.line))
