"""A line of a guest's source: its label, its words, and where the user has it."""

from __future__ import annotations

import re
from dataclasses import dataclass

from lwcrun_tools.refusals import at_place

LABEL = re.compile(r"[ \t,]*([A-Za-z_][A-Za-z0-9_]{0,31}):")
WORDS = re.compile(r"[^ \t,]+")


@dataclass
class Line:
    """A line of a source: its text, and where the user has it."""

    text: str
    file: str
    number: int

    @property
    def code(self) -> str:
        """The line without its comment."""
        return self.text.partition(";")[0].rstrip("\r")

    @property
    def label(self) -> str:
        """The label that the line defines, or no name."""
        found = LABEL.match(self.code)
        return found[1] if found else ""

    @property
    def words(self) -> list[tuple[int, str]]:
        """The words behind the label, each with its column, counted from 0."""
        found = LABEL.match(self.code)
        return [(it.start(), it[0]) for it in WORDS.finditer(self.code, found.end() if found else 0)]

    @property
    def name(self) -> str:
        """The instruction or directive, or no name."""
        return self.words[0][1] if self.words else ""

    @property
    def operands(self) -> list[str]:
        return [word for _, word in self.words[1:]]

    @property
    def is_instruction(self) -> bool:
        return bool(self.name) and not self.name.startswith(".")

    def at(self, column: int, rule: str, reason: str) -> str:
        """A refusal at a column of the line."""
        return at_place(self.file, self.number, column, rule, reason, self.text)

    def at_word(self, word: int, rule: str, reason: str) -> str:
        """A refusal at a word of the line, or behind the last one where there are fewer."""
        words = self.words
        return self.at(words[word][0] if word < len(words) else len(self.code.rstrip()), rule, reason)
