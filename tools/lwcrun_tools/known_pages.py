"""What the pages of contexts have, followed from step to step by what the calls are defined to do."""

from __future__ import annotations

from collections.abc import Iterable, Iterator
from dataclasses import dataclass

from lwcrun_tools.machine import LEAVE_OUT, PAGE_BYTES, PAGE_ITEM, SHARE
from lwcrun_tools.machine_words import Item

ZEROS = bytes(PAGE_BYTES)


@dataclass
class Cell:
    """A page that is there. Contexts that have it in common have the same cell."""

    data: bytes


class Pages:
    """The pages of all contexts of a run; those that are absent have no cell."""

    def __init__(self) -> None:
        self.tables: dict[str, dict[int, Cell]] = {}
        # Whether something happened whose effect does not follow, so that nothing is told any more.
        self.lost = False

    def add(self, name: str, pages: dict[int, bytes]) -> None:
        """A new context with these pages, all of its own."""
        self.tables[name] = {page: Cell(data) for page, data in pages.items()}

    def lose(self) -> None:
        """Nothing is told any more."""
        self.lost = True
        self.tables.clear()

    def keep(self, counts: dict[str, int]) -> None:
        """Drops the contexts that do not live. Nothing is told where another one lives, or has another number of
        pages."""
        self.tables = {name: table for name, table in self.tables.items() if name in counts}
        if {name: len(table) for name, table in self.tables.items()} != counts:
            self.lose()

    def page(self, name: str, page: int) -> bytes | None:
        """The bytes of a page, or None where it is absent."""
        cell = self.tables[name].get(page)
        return cell.data if cell else None

    def load(self, name: str, address: int, length: int) -> bytes | None:
        """Bytes of a context's memory; None where a page of them is absent, or nothing is told of the context."""
        numbers = range(address // PAGE_BYTES, (address + length - 1) // PAGE_BYTES + 1)
        if name not in self.tables or not all(page in self.tables[name] for page in numbers):
            return None
        whole = b"".join(self.tables[name][page].data for page in numbers)
        return whole[address % PAGE_BYTES :][:length]

    def store(self, name: str, address: int, data: bytes) -> None:
        """Bytes are put into memory, where all their pages are there."""
        if self.lost or self.load(name, address, len(data)) is None:
            self.lose()
            return
        while data:
            page, at = divmod(address, PAGE_BYTES)
            part, data = data[: PAGE_BYTES - at], data[PAGE_BYTES - at :]
            cell = self.tables[name][page]
            cell.data = cell.data[:at] + part + cell.data[at + len(part) :]
            address += len(part)

    def map(self, name: str, first: int, last: int) -> None:
        """Each page of a range becomes zeros of the context's own."""
        if name in self.tables:
            self.tables[name].update((page, Cell(ZEROS)) for page in range(first, last))

    def unmap(self, name: str, first: int, last: int) -> None:
        """Each page of a range becomes absent."""
        for page in range(first, last):
            self.tables.get(name, {}).pop(page, None)

    def create(self, name: str, new: str, items: list[Item] | None) -> None:
        """A context is made by items."""
        if items is None or name not in self.tables:
            self.lose()
            return
        modes = {page: item.mode for item in items for page in pages_of(item)}
        self.tables[new] = {
            page: cell if modes.get(page) == SHARE else Cell(cell.data)
            for page, cell in self.tables[name].items()
            if modes.get(page) != LEAVE_OUT
        }

    def overlay(self, name: str, giver: str, items: list[Item] | None) -> None:
        """A context takes pages over from a giver."""
        if items is None or name not in self.tables or giver not in self.tables:
            self.lose()
            return
        for item in items:
            for page in pages_of(item):
                cell = self.tables[giver].get(page)
                if cell is None:
                    self.tables[name].pop(page, None)
                else:
                    self.tables[name][page] = cell if item.mode == SHARE else Cell(cell.data)


def pages_of(item: Item) -> Iterable[int]:
    """The pages that an item names."""
    return range(item.first, item.last) if item.kind == PAGE_ITEM else ()


def requests_of(data: bytes) -> Iterator[bytes]:
    """The requests of a file that the program has accepted."""
    lines = data.split(b"\n")
    for line in lines if lines[-1] else lines[:-1]:
        yield bytes.fromhex(line.removesuffix(b"\r").decode())
