"""The file of lines beside an image that was made of a program: which function and which line each instruction is
of."""

from __future__ import annotations

import bisect
import hashlib
import os
from dataclasses import dataclass, field

HEAD = "lwcrun lines 1 "


def lines_name(image: str) -> str:
    """The name of the file of lines beside an image."""
    return os.path.splitext(image)[0] + ".lines"


@dataclass
class LineFile:
    """Where functions and lines of a program begin in an image. It answers what a source of assembly answers."""

    places: list[int] = field(default_factory=list)
    names: list[str] = field(default_factory=list)

    def label(self, place: int | None) -> str:
        """The function and the line of an instruction, as `main counter.c:7`; no text where neither is known."""
        found = bisect.bisect_right(self.places, place) - 1 if place is not None else -1
        return self.names[found] if found >= 0 else ""

    @property
    def labels(self) -> dict[int, list[str]]:
        """The places at which another line or function begins, each with its name."""
        return {place: [name] for place, name in zip(self.places, self.names)}


def read_lines(image: str, data: bytes) -> LineFile | None:
    """The file of lines beside an image, if there is one and it is of this image."""
    try:
        with open(lines_name(image), encoding="utf-8", errors="replace") as file:
            head, *lines = file.read().splitlines()
    except (OSError, ValueError):
        return None
    if head != HEAD + hashlib.sha256(data).hexdigest():
        return None
    found = LineFile()
    for line in lines:
        place, function, where = line.split(" ", 2)
        shown = where if where == "-" else f"{os.path.basename(where)}"
        found.places.append(int(place))
        found.names.append(" ".join(part for part in (function, shown) if part != "-"))
    return found
