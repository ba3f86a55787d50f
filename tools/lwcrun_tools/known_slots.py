"""What the slots of contexts have, followed from call to call, with the keys of each descriptor of a context.

A report counts the slots of a context and says no more; `debug` says what each has, of a plain run, and not which
keys. Both follow from the calls: a creation gives every key, a switch none, a restriction takes keys, and all else
moves descriptors as they are. A slot that contexts have in common is one cell. Where the items of a call are not
known, what they may have changed is not known either.
"""

from __future__ import annotations

from collections.abc import Iterable
from dataclasses import dataclass, replace

from lwcrun_tools.machine import SLOTS
from lwcrun_tools.machine_words import Item

CONTEXT = "context "


@dataclass(frozen=True)
class Keys:
    """A capability: pages and slots as sets of bits, and the credential."""

    pages: int
    slots: int
    uid: bool

    def narrow(self, items: Iterable[Item]) -> Keys:
        """The keys that items name too."""
        pages = slots = 0
        uid = False
        for item in items:
            bits = (1 << item.last) - (1 << item.first) if item.last > item.first else 0
            pages |= bits if item.kind == 0 else 0
            slots |= bits if item.kind == 1 else 0
            uid = uid or item.kind == 2
        return Keys(self.pages & pages, self.slots & slots, self.uid and uid)

    @property
    def are_none(self) -> bool:
        return not (self.pages or self.slots or self.uid)

    def words(self, most_pages: int) -> str:
        """The keys in words."""
        if self.are_none:
            return "no key"
        if self == all_keys(most_pages):
            return "every key"
        return ", ".join([*runs("page", self.pages), *runs("slot", self.slots), *(["uid"] if self.uid else [])])


def all_keys(most_pages: int) -> Keys:
    """A capability that has every key."""
    return Keys((1 << most_pages) - 1, (1 << SLOTS) - 1, True)


NO_KEYS = Keys(0, 0, False)


def runs(name: str, bits: int) -> list[str]:
    """The runs of a set of numbers, in words."""
    found, first, at = [], None, 0
    while bits >> at or first is not None:
        if bits >> at & 1:
            first = at if first is None else first
        elif first is not None:
            found.append(f"{name} {first}" if at == first + 1 else f"{name}s {first} to {at}")
            first = None
        at += 1
    return found


@dataclass(frozen=True)
class Value:
    """What a slot has: the words that `debug` has for it, without the place in a file or request; the keys of a
    context's descriptor where they are known; and that place."""

    text: str
    keys: Keys | None = None
    at: int = 0

    @property
    def context(self) -> str:
        """The context that a descriptor names, or no name."""
        return self.text.removeprefix(CONTEXT) if self.text.startswith(CONTEXT) else ""

    @property
    def whole(self) -> str:
        """The words that `debug` has for it."""
        return f"{self.text} at {self.at}" if self.text.startswith(("file ", "request ")) else self.text

    def behind(self, count: int) -> Value:
        """The same descriptor after so many bytes were read."""
        return replace(self, at=self.at + count)


NOT_KNOWN = Value("?")


@dataclass
class Cell:
    """A slot: what it has, or nothing; NOT_KNOWN where that is not told."""

    value: Value | None = None


class Slots:
    """The slots of all contexts of a run."""

    def __init__(self, most_pages: int) -> None:
        self.most_pages = most_pages
        self.tables: dict[str, list[Cell]] = {}
        # Which contexts may have slots in common that are not told.
        self.entangled: dict[str, set[str]] = {}

    def add(self, name: str, values: dict[int, Value]) -> None:
        """A new context with these values in its slots."""
        self.tables[name] = [Cell(values.get(slot)) for slot in range(SLOTS)]

    def known(self, name: str) -> dict[int, Value]:
        """What is told of the slots of a context that are not empty."""
        cells = enumerate(self.tables.get(name, []))
        return {slot: cell.value for slot, cell in cells if cell.value is not None and cell.value is not NOT_KNOWN}

    def is_whole(self, name: str) -> bool:
        """Whether all of the context's slots are told."""
        return name in self.tables and all(cell.value is not NOT_KNOWN for cell in self.tables[name])

    def value(self, name: str, slot: int) -> Value | None:
        """What a slot has."""
        return self.tables[name][slot].value if name in self.tables and slot < SLOTS else NOT_KNOWN

    def put(self, name: str, slot: int, value: Value | None) -> None:
        """A slot gets a value, wherever it is in common."""
        if name not in self.tables or slot >= SLOTS:
            return
        cell = self.tables[name][slot]
        cell.value = value
        for other in self.entangled.get(name, ()):
            if other in self.tables and self.tables[other][slot] is not cell:
                self.tables[other][slot].value = NOT_KNOWN

    def forget(self, *names: str) -> None:
        """Nothing is told any more of these contexts' slots."""
        for name in names:
            for slot in range(SLOTS) if name in self.tables else ():
                self.put(name, slot, NOT_KNOWN)

    def entangle(self, one: str, other: str) -> None:
        """Any slot of the two may be in common from now on."""
        all_of_them = {one, other} | self.entangled.get(one, set()) | self.entangled.get(other, set())
        for name in all_of_them:
            self.entangled[name] = all_of_them - {name}

    def create(self, name: str, new: str, slot: int, items: list[Item] | None) -> None:
        """A new context is made, and a descriptor of it with every key comes into a slot of its creator."""
        cells = self.tables.get(name, [])
        if items is None or not cells:
            self.tables[new] = [Cell(NOT_KNOWN) for _ in range(SLOTS)]
            self.entangle(name, new)
        else:
            mode = {
                key: item.mode for item in items if item.kind == 1 for key in range(item.first, min(item.last, SLOTS))
            }
            self.tables[new] = [
                cell if mode.get(key) == 1 else Cell(None if mode.get(key) == 2 else cell.value)
                for key, cell in enumerate(cells)
            ]
        self.put(name, slot, Value(CONTEXT + new, all_keys(self.most_pages)))

    def restrict(self, name: str, slot: int, items: list[Item] | None) -> None:
        """The keys that no item names are taken from a descriptor."""
        value = self.value(name, slot)
        if value is not None and value is not NOT_KNOWN:
            self.put(
                name, slot, Value(value.text, value.keys.narrow(items) if value.keys and items is not None else None)
            )

    def overlay(self, name: str, slot: int, items: list[Item] | None) -> None:
        """A context takes over from the one that a slot names."""
        value = self.value(name, slot)
        giver = self.tables.get(value.context) if value else None
        if items is not None and not any(item.kind == 1 for item in items):
            return
        if not value or giver is None or items is None:
            self.forget(name)
            for other in [value.context] if value and value.context else list(self.tables):
                self.entangle(name, other)
            return
        for item in items:
            for key in range(item.first, min(item.last, SLOTS)) if item.kind == 1 else ():
                self.tables[name][key] = giver[key] if item.mode == 1 else Cell(giver[key].value)
                for other in self.entangled.get(value.context, ()):
                    self.entangle(name, other)

    def opener(self, name: str) -> int | None:
        """The first slot with a descriptor that has a key of another context, as far as that is told."""
        for slot, value in self.known(name).items():
            if value.context and value.context != name and (value.keys is None or not value.keys.are_none):
                return slot
        return None

    def closed(self, name: str) -> str:
        """Whether a context is closed, in a sentence: whether no descriptor in its slots has a key of another
        context."""
        slot = self.opener(name)
        value = self.known(name)[slot] if slot is not None else None
        if value and value.keys:
            return f"not closed: slot {slot} opens {value.context} with {value.keys.words(self.most_pages)}"
        if value:
            return f"not told: slot {slot} has a descriptor of {value.context} whose keys do not follow"
        return (
            "closed: no slot has a key of another context"
            if self.is_whole(name)
            else "not told: what some slots have does not follow"
        )
