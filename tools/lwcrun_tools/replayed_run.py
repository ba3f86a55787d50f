"""A run that can be made again, and what the program answers about it."""

from __future__ import annotations

import threading
from collections.abc import Sequence
from dataclasses import dataclass, replace

from lwcrun_tools.command import WorkFolder
from lwcrun_tools.compiling.line_file import LineFile
from lwcrun_tools.guest_source import Source
from lwcrun_tools.images import Image
from lwcrun_tools.refusals import SCRIPT, Input, Refused, call_program
from lwcrun_tools.run_report import Report, ReportError, read_report

PLAIN, SERVE, MONITOR, GUARD, VAULT = "plain", "serve", "monitor", "guard", "vault"
KINDS = {
    PLAIN: "a plain run",
    SERVE: "a serve",
    MONITOR: "a run under a monitor",
    GUARD: "a run under a guard",
    VAULT: "a run beside a vault",
}
VAULT_CONTEXT = "0.1"


@dataclass
class Run:
    """A run that can be made again, as often as one likes. `place` is a number of its kept steps."""

    program: str
    files: dict[str, Input]
    kind: str
    options: list[str]
    work: WorkFolder
    image: Image
    # What names places of the text: a source, or the file of lines of a compiled image.
    source: Source | LineFile | None
    steps: str = ""

    @property
    def name(self) -> str:
        """What the run is of, in words."""
        return KINDS[self.kind]

    def words(self, schedule: str) -> list[str]:
        """The words for the program that make the run with a schedule in a file."""
        mode = {MONITOR: "monitor", GUARD: "guard", VAULT: "vault"}.get(self.kind, "replay")
        between, behind = [self.files[VAULT].path] if self.kind == VAULT else [], [
            self.files[SERVE].path
        ] if self.kind == SERVE else []
        return [self.program, mode, *self.options, "--", self.files["image"].path, *between, schedule, *behind]

    def with_options(self, options: list[str]) -> Run:
        """The same run with other options for the program."""
        return replace(self, options=options)

    def text_of(self, schedule: str) -> str:
        """The report of the run with a schedule in a file."""
        return call_program(self.words(schedule), self.files.values()).decode()

    def text_at(self, place: int) -> str:
        """The report of the first steps."""
        return self.text_of(self.write("schedule", self.steps[:place]))

    def write(self, name: str, content: bytes | str) -> str:
        """Writes a file for one call of the program. Each of the threads that ask side by side has its own."""
        return self.work.write(f"{name}.{threading.get_ident()}", content)

    def report(self, place: int) -> Report:
        """The same, read."""
        return self.read(self.text_at(place))

    def read(self, text: str) -> Report:
        """The report that the program wrote."""
        try:
            return read_report(text)
        except ReportError as error:
            raise Refused(f"{self.program} writes what is no report for these tools: {error}", 1) from error

    def answers(self, commands: Sequence[str]) -> list[str]:
        """What the program's mode `debug` answers to a script of at most 64 commands, which only a plain run has."""
        script = self.write("script", "".join(f"{command}\n" for command in commands))
        files = [self.files["image"].path, self.write("schedule", self.steps), script]
        words = [self.program, "debug", *self.options, "--", *files]
        return call_program(words, [*self.files.values(), Input(SCRIPT, "the command", script)]).decode().splitlines()

    def at(self, place: int, *commands: str) -> list[str]:
        """What `debug` answers to commands at a place."""
        return self.answers([f"goto {place}", *commands])[1:]

    def slots(self, place: int, context: str) -> dict[int, str]:
        """What the slots of a context have at a place of a plain run, by `debug`; those that are empty are left
        out."""
        lines = [
            line
            for first in (0, 32)
            for line in self.at(place, *(f"slot {context} {slot}" for slot in range(first, first + 32)))
        ]
        found = {int(words[2]): words[3] for line in lines if len(words := line.split(" ", 3)) == 4}
        return {slot: value for slot, value in found.items() if value != "empty"}


def in_order(text: str) -> list[str]:
    """The lines of a report; those of replies, which a stream writes first, at one place."""
    lines = text.splitlines()
    return sorted(lines, key=lambda line: not line.startswith("reply "))
