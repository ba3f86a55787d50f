"""A guest's source: its lines and labels, and what m4 makes of one with macros."""

from __future__ import annotations

from collections.abc import Iterator
from dataclasses import dataclass, field

from lwcrun_tools.command import WorkFolder
from lwcrun_tools.macros import Expansion
from lwcrun_tools.refusals import SOURCE, Refused, read_file
from lwcrun_tools.source_line import Line


@dataclass
class Source:
    """A source, with the file in which the program reads it: the user's own, or what m4 has made of that."""

    name: str
    path: str
    lines: list[Line]
    labels: dict[int, list[str]] = field(default_factory=dict)
    # The line of each instruction.
    made: list[Line] = field(default_factory=list)

    def __post_init__(self) -> None:
        for line in self.lines:
            if line.label:
                self.labels.setdefault(len(self.made), []).append(line.label)
            if line.is_instruction:
                self.made.append(line)

    def label(self, place: int | None) -> str:
        """A place by the last label in front of it, as `loop+2`; no text where there is none."""
        before = [at for at in self.labels if place is not None and at <= place]
        if place is None or not before:
            return ""
        nearest = max(before)
        return self.labels[nearest][0] + (f"+{place - nearest}" if place > nearest else "")

    def listing(self) -> Iterator[str]:
        """Each instruction: its place, its label, the instruction, and the user's line."""
        texts = [f"{line.name} {', '.join(line.operands)}".strip() for line in self.made]
        names = [name for at in self.labels.values() for name in at]
        wide, long = max(map(len, names), default=0) + 1, min(max(map(len, texts), default=0), 40)
        for place, (line, text) in enumerate(zip(self.made, texts)):
            *others, last = self.labels.get(place, [""])
            yield from (f"{place:5}  {name}:" for name in others)
            yield f"{place:5}  {last + ':' if last else '':{wide}}  {text:{long}}  {line.file}:{line.number}"


def is_image(data: bytes) -> bool:
    """Whether the bytes of a file begin as those of an image do, and not as a source may."""
    return data.startswith(b"LWC")


def read_source(name: str, work: WorkFolder) -> Source:
    """The source in a file."""
    return source_of(name, read_file(name, SOURCE), work)


def source_of(name: str, data: bytes, work: WorkFolder) -> Source:
    """The source that bytes are. Where their file's name ends in .m4 it is what m4 makes of them, with the macros of
    guests/lwc.m4."""
    if is_image(data):
        raise Refused(f"{name} is an image, and no source", 5)
    if name.endswith(".m4"):
        lines = Expansion(name, data, work).expand()
        data = "\n".join(line.text for line in lines).encode("latin-1")
    else:
        lines = [Line(line, name, i) for i, line in enumerate(data.decode("latin-1").split("\n"), 1)]
    return Source(name, work.write("source.s", data), lines)
