"""What is known of the memory of a run's contexts, of which a report tells nothing: it follows from the steps, and of
a plain run the program tells what does not."""

from __future__ import annotations

from collections.abc import Sequence

from lwcrun_tools.images import read_vault
from lwcrun_tools.known_pages import Pages, requests_of
from lwcrun_tools.known_slots import NOT_KNOWN, Slots, Value
from lwcrun_tools.machine import ITEM_BYTES, MOST_DEBUGGED_STEPS, MOST_ITEMS, PAGE_BYTES
from lwcrun_tools.machine_words import ITEMS, Item, read_items
from lwcrun_tools.replayed_run import PLAIN, SERVE, VAULT, VAULT_CONTEXT, Run
from lwcrun_tools.run_report import Report
from lwcrun_tools.step_states import Turn


class Memory:
    """The pages of a run's contexts, and the files and requests that are read to them."""

    def __init__(self, run: Run, first: Report) -> None:
        self.run, self.pages = run, Pages()
        self.requests = list(requests_of(run.files[SERVE].read())) if run.kind == SERVE else []
        vault = read_vault(run.files[VAULT].read()) if run.kind == VAULT else {}
        for name in first.contexts:
            self.pages.add(name, vault if run.kind == VAULT and name == VAULT_CONTEXT else run.image.pages)

    def compare(self, report: Report) -> None:
        """Compares what is told with the contexts of a report."""
        if not self.pages.lost:
            self.pages.keep({name: context.pages for name, context in report.contexts.items()})

    def read_call(self, name: str, slots: Slots, table: str, slot: int, address: int, count: int) -> None:
        """A call in a context has read so many bytes through a slot of a table, whose place goes on."""
        value = slots.value(table, slot)
        content = self.content(value) if value else None
        if value is None or content is None:
            if count:
                self.pages.lose()
            return
        self.pages.store(name, address, content[value.at : value.at + count])
        slots.put(table, slot, value.behind(count))

    def content(self, value: Value) -> bytes | None:
        """The bytes of a file or of a request; None where they are not told."""
        kind, _, number = value.text.partition(" ")
        if value is NOT_KNOWN or kind not in ("file", "request", "console"):
            return None
        if kind == "console":
            return b""
        return (self.run.image.files if kind == "file" else self.requests)[int(number)]

    def read(self, place: int, context: str, address: int, length: int) -> bytes | None:
        """Bytes of a context's memory at a place, up to which the steps were followed, or None where they are not
        known."""
        if not self.pages.lost:
            return self.pages.load(context, address, length)
        pages = range(address // PAGE_BYTES, (address + length - 1) // PAGE_BYTES + 1)
        if (
            self.run.kind != PLAIN
            or pages.stop > self.run.image.most_pages
            or len(self.run.steps) > MOST_DEBUGGED_STEPS
        ):
            return None
        lines = self.run.at(place, *(f"page {context} {page}" for page in pages))
        digits = [line.split(" ")[3] if line.startswith("page ") else "absent" for line in lines]
        return None if "absent" in digits else bytes.fromhex("".join(digits))[address % PAGE_BYTES :][:length]

    def items(self, turn: Turn, call: int, regs: Sequence[int]) -> list[Item] | None:
        """The items that a call reads, where they are known."""
        address, count = (regs[register] for register in ITEMS[call])
        if count == 0:
            return []
        if count > MOST_ITEMS:
            return None
        data = self.read(turn.step - 1, turn.was.ctx, address, ITEM_BYTES * count)
        return None if data is None else read_items(data)
