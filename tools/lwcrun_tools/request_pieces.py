"""A request file of any length, cut into pieces that one serve takes."""

from __future__ import annotations

import os
import stat
from collections.abc import Iterator
from typing import BinaryIO

from lwcrun_tools.command import WorkFolder
from lwcrun_tools.machine import MOST_REQUESTS, MOST_REQUEST_BYTES, MOST_STEPS
from lwcrun_tools.refusals import first_byte, open_at_once

# The digits of the longest request, and what ends a line.
MOST_LINE_BYTES = 2 * MOST_REQUEST_BYTES + 2


class Piece:
    """Consecutive lines of the request file: the first one's number, counted from 0, how many, and where they begin;
    then why it failed, if it did, and the peak of its report."""

    def __init__(self, name: str, first: int, offset: int) -> None:
        self.name, self.first, self.offset, self.count = name, first, offset, 0
        self.failure: str | None = None
        self.peak = 0

    def requests(self) -> str:
        """Which requests these are, in words."""
        last = self.first + self.count - 1
        return f"requests {self.first} to {last}, lines {self.first + 1} to {last + 1}"


def lines_of(file: BinaryIO) -> Iterator[bytes]:
    """The lines of a request file. One that is too long for a request is cut short, and is the last one."""
    while line := file.readline(MOST_LINE_BYTES + 1):
        yield line
        if len(line) > MOST_LINE_BYTES:
            return


def kept(path: str, work: WorkFolder) -> str:
    """A file that can be read again: the same one, or a copy of what is a pipe."""
    if stat.S_ISREG(os.stat(path).st_mode):
        return path
    with open(path, "rb", opener=open_at_once) as file, open(work.path("requests"), "wb") as copy:
        copy.write(first_byte(file, path))
        copy.writelines(lines_of(file))
    return work.path("requests")


def most_lines(budget: str, workers: str) -> int:
    """How many requests one serve takes, whose steps and workers together are at most the steps of a serve. The
    program refuses values that are no numbers."""
    if not (budget.isdigit() and workers.isdigit()):
        return MOST_REQUESTS
    return max(1, min(MOST_REQUESTS, (MOST_STEPS - int(workers)) // (int(budget) + 1)))


def lines_a_piece(path: str, most: int, jobs: int) -> int:
    """How many lines a piece has: all alike, a piece for each job or a multiple, and no more than one serve takes."""
    with open(path, "rb") as file:
        count = sum(1 for _ in lines_of(file))
    pieces = jobs * max(1, -(-count // (most * jobs)))
    return max(1, -(-count // pieces))


def cut(path: str, size: int, work: WorkFolder) -> list[Piece]:
    """Writes the pieces of a request file, each into a file of its name. Of an empty file there is none."""
    pieces: list[Piece] = []
    out, offset = None, 0
    with open(path, "rb") as file:
        for number, line in enumerate(lines_of(file)):
            # A line that is too long is a piece by itself, which the program can read up to the byte that it refuses.
            if out is None or pieces[-1].count == size or len(line) > MOST_LINE_BYTES:
                if out:
                    out.close()
                pieces.append(Piece(f"piece-{len(pieces) + 1}", number, offset))
                out = open(work.path(pieces[-1].name), "wb")
            out.write(line)
            pieces[-1].count += 1
            offset += len(line)
    if out:
        out.close()
    return pieces
