"""Calls, refusals, faults and items in words, as the tools write them."""

from collections.abc import Sequence
from dataclasses import dataclass

from lwcrun_tools.machine import (
    BEHALF,
    CALLS,
    CREATE,
    FAULTS,
    OVERLAY,
    PAGE_ITEM,
    REFUSALS,
    RESTRICT,
    SLOT_ITEM,
    UID_ITEM,
)

WORD = 2**64
# The arguments of a call, by the registers that have them; those of items and of call 20 are written otherwise.
ARGUMENTS = {
    1: "file {1}",
    2: "slot {1}",
    3: "slot {1}",
    4: "slot {1}, address {2}, length {3}",
    5: "slot {1}, address {2}, length {3}",
    6: "pages {1} to {2}",
    7: "pages {1} to {2}",
    8: "",
    9: "uid {1}",
    10: "code {1}",
    17: "slot {1}, argument {2}",
    21: "slot {1}",
    24: "slot {1}, fuel {2}",
}
# The registers of the address and of the number of items.
ITEMS = {CREATE: (1, 2), RESTRICT: (2, 3), OVERLAY: (2, 3)}
KINDS = {PAGE_ITEM: ("page", "pages"), SLOT_ITEM: ("slot", "slots"), UID_ITEM: ("uid", "uids")}
MODES = {0: "copy", 1: "share", 2: "leave out", 3: "read-only"}


@dataclass(frozen=True)
class Item:
    """An item of a call: its keys are those from first up to and without last."""

    kind: int
    mode: int
    first: int
    last: int

    def words(self, with_mode: bool = True) -> str:
        """The item as the tools write it."""
        if self.kind not in KINDS or self.mode not in MODES:
            return f"item {self.kind} {self.mode} {self.first} {self.last}"
        one, many = KINDS[self.kind]
        keys = (
            one
            if self.kind == UID_ITEM
            else f"{one} {self.first}"
            if self.last == self.first + 1
            else f"{many} {self.first} to {self.last}"
        )
        return f"{MODES[self.mode]} {keys}" if with_mode else keys


def read_items(data: bytes) -> list[Item]:
    """The items that bytes of memory are."""
    numbers = [int.from_bytes(data[at : at + 4], "little") for at in range(0, len(data), 4)]
    return [Item(*numbers[at : at + 4]) for at in range(0, len(numbers), 4)]


def refusal_of(value: int) -> int:
    """The number of the refusal that a call answered, or 0."""
    return WORD - value if WORD - value in REFUSALS else 0


def number(value: int) -> str:
    """A register's value, below 0 where it is just below 2^64."""
    return str(value - WORD if value > WORD - 4096 else value)


def answer(value: int) -> str:
    """What a call answered: a number, or a refusal with its name."""
    refusal = refusal_of(value)
    return f"-{refusal} {REFUSALS[refusal]}" if refusal else number(value)


def status(words: str) -> str:
    """A thread's or reply's status, with the name of its fault."""
    kind, _, code = words.partition(" ")
    return f"{words} {FAULTS[int(code)]}" if kind == "fault" and code.isdigit() and int(code) in FAULTS else words


def refusals_in(regs: Sequence[int]) -> str:
    """Which registers have a refusal's number, or no text."""
    found: dict[int, list[str]] = {}
    for register, value in enumerate(regs):
        if refusal_of(value):
            found.setdefault(value, []).append(f"r{register}")
    return "; ".join(f"{', '.join(names)}: {answer(value)}" for value, names in found.items())


def arguments(call: int, regs: Sequence[int], items: list[Item] | None) -> str:
    """The arguments of a call, by the registers that it was made with and the items, where they are known."""
    if call in ITEMS:
        address, count = (regs[register] for register in ITEMS[call])
        if not count:
            listed = "no items"
        elif items is not None:
            listed = ", ".join(item.words(call != RESTRICT) for item in items)
        else:
            listed = f"{number(count)} {'item' if count == 1 else 'items'} at {number(address)}"
        return listed if call == CREATE else f"slot {number(regs[1])}, {listed}"
    if call == BEHALF:
        inner = [0, regs[4], regs[5], regs[6]]
        return f"slot {number(regs[1])}, {mask(regs[2])}, {name_of(regs[3])}({arguments(regs[3], inner, None)})"
    if call not in ARGUMENTS:
        return ", ".join(number(value) for value in regs[1:4])
    return ARGUMENTS[call].format(*map(number, regs))


def mask(value: int) -> str:
    """What the mask of a call on behalf chooses."""
    if value > 7:
        return f"mask {number(value)}"
    return "+".join(word for bit, word in ((1, "memory"), (2, "slots"), (4, "uid")) if value & bit) or "nothing"


def name_of(call: int) -> str:
    """The name of a call, or its number."""
    return CALLS.get(call, f"call {number(call)}")


def registers_line(line: str) -> list[str]:
    """A report's line `regs` as the tools show it: values just below 2^64 as numbers below 0, and the refusals that
    are among them."""
    words = line.split(" ")
    values = [int(word) for word in words[2:]]
    found = refusals_in(values)
    return [" ".join([*words[:2], *map(number, values)]), *([found] if found else [])]
