"""The lines of the pages that a reader types, and a script of a shell that types them."""

from __future__ import annotations

import re
from dataclasses import dataclass
from pathlib import Path

PAGES = ["README.md", "docs/USES.md", "docs/GUESTS.md"]
# How a typed line begins; what else is indented is output, or a source. A page of the download has typed lines alone.
TYPED = re.compile(r"    (?:\./lwcrun |tools/|sed |printf |\{ head )")
# The source that docs/GUESTS.md tells to write, line after line.
WRITTEN = re.compile(r" {7}(?! )(.*)")


def lines_of(page: Path) -> list[str]:
    """The lines that a page has for typing, in order. The one that proves is left out."""
    lines = page.read_text(encoding="utf-8").splitlines()
    typed = [line.strip() for line in lines if TYPED.match(line) and "--prove" not in line]
    written = [found[1] for line in lines if (found := WRITTEN.fullmatch(line))]
    if not written:
        return typed
    first = next(place for place, line in enumerate(typed) if "mine.s" in line)
    return [*typed[:first], f"printf '%s\\n' {' '.join(map(quoted, written))} > mine.s", *typed[first:]]


def all_lines_of(page: Path) -> list[str]:
    """All lines of a page that are indented, which it has for typing."""
    return [line.strip() for line in page.read_text(encoding="utf-8").splitlines() if line.startswith("    ")]


def quoted(text: str) -> str:
    """A text as one word of a shell."""
    return "'" + text.replace("'", "'\\''") + "'"


def script_of(lines: list[str]) -> str:
    """A script that types lines and stops at one that fails. It says of each, to its file 3, its status and how many
    milliseconds it took."""
    parts = ["say() { printf '%s %s %s\\n' $1 $(( ($(date +%s%N) - began) / 1000000 )) \"$2\" >&3; }\n"]
    for line in lines:
        parts.append(f"began=$(date +%s%N)\n{line}\nstatus=$?\n")
        parts.append(f"say $status {quoted(line)}\n[ $status = 0 ] || exit 1\n")
    return "".join(parts)


@dataclass
class Typed:
    """A line that was typed: its status, how long it took, and its text."""

    status: int
    seconds: float
    line: str


def typed_of(text: str) -> list[Typed]:
    """What the script has said of its lines."""
    words = [line.split(" ", 2) for line in text.splitlines()]
    return [Typed(int(status), int(milliseconds) / 1000, line) for status, milliseconds, line in words]


def tell(name: str, typed: list[Typed], shown: int = 3) -> bool:
    """Says how the lines of a page went, and the slowest of them. Answers whether all ended well."""
    failed = [it for it in typed if it.status]
    print(f"{name}: {len(typed)} lines" + "".join(f"; FAILED with status {it.status}: {it.line}" for it in failed))
    for it in sorted(typed, key=lambda it: -it.seconds)[:shown]:
        print(f"  {it.seconds:.2f} s  {it.line[:90]}", flush=True)
    return bool(typed) and not failed
