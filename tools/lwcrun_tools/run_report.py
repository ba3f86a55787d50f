"""A report, as the program writes it, read into Python's values."""

from __future__ import annotations

import re
from dataclasses import dataclass, field


class ReportError(ValueError):
    """A text that is no report, or not a whole one, and why."""


@dataclass
class Thread:
    """A thread: its status, as `done 0`, the context that it is in, its place and its registers."""

    status: str
    ctx: str
    pc: int
    regs: list[int]


@dataclass
class Context:
    """A context that lives: how many pages and slots it has, and its uid."""

    pages: int
    slots: int
    uid: int


@dataclass
class Report:
    """A report. The keys of contexts, traps and fuel are names of contexts; a reply is as `done 0 01` or `none`."""

    threads: list[Thread] = field(default_factory=list)
    contexts: dict[str, Context] = field(default_factory=dict)
    traps: dict[str, str] = field(default_factory=dict)
    fuel: dict[str, int] = field(default_factory=dict)
    groups: int = 0
    replies: list[str] = field(default_factory=list)
    console: str = ""
    used: int = 0
    peak: int = 0
    steps: int = 0
    schedule: str = ""


CTX = r"\d+\.\d+"
STATUS = r"idle|running|done \d+|fault \d+"
LINES = {
    kind: re.compile(f"{kind} {rest}")
    for kind, rest in {
        "thread": rf"(\d+) ({STATUS}) ctx ({CTX}) pc (\d+)",
        "regs": r"(\d+)((?: \d+){16})",
        "context": rf"({CTX}) pages (\d+) slots (\d+) uid (\d+)",
        "trap": rf"({CTX}) by ({CTX})(?: fuel (\d+))?",
        "groups": r"(\d+)",
        "reply": rf"(\d+) (none|(?:{STATUS}) (?:[0-9a-f]+|-))",
        "console": r"([0-9a-f]+|-)",
        "used": r"(\d+)",
        "peak": r"(\d+)",
        "steps": r"(\d+)",
        "schedule": r"([0-9a-f]+|-)",
    }.items()
}
# What every report has.
ALWAYS = ["thread", "regs", "groups", "console", "used", "peak", "steps", "schedule"]


def read_report(text: str) -> Report:
    """The report that a text is, of any mode; a stream has the lines of replies before the others."""
    report, seen = Report(), set()
    for number, line in enumerate(text.splitlines(), 1):
        kind = line.partition(" ")[0]
        found = LINES[kind].fullmatch(line) if kind in LINES else None
        if not found or not take_line(report, kind, found):
            raise ReportError(f"line {number} is no line of a report there: {line[:80]}")
        seen.add(kind)
    for kind in ALWAYS:
        if kind not in seen:
            raise ReportError(f"the report is not whole: it has no line {kind}")
    return report


def take_line(report: Report, kind: str, found: re.Match[str]) -> bool:
    """Takes a line into the report. Answers whether its place is there: threads and replies are numbered through."""
    first = found[1]
    if kind == "thread":
        report.threads.append(thread_of(found.string.split(" ")))
        return int(first) == len(report.threads) - 1
    if kind == "regs":
        if int(first) != len(report.threads) - 1:
            return False
        report.threads[-1].regs = [int(word) for word in found[2].split()]
    elif kind == "context":
        report.contexts[first] = Context(int(found[2]), int(found[3]), int(found[4]))
    elif kind == "trap":
        report.traps[first] = found[2]
        if found[3]:
            report.fuel[first] = int(found[3])
    elif kind == "reply":
        report.replies.append(found[2])
        return int(first) == len(report.replies) - 1
    elif kind in ("console", "schedule"):
        setattr(report, kind, first.replace("-", ""))
    else:
        setattr(report, kind, int(first))
    return True


def thread_of(words: list[str]) -> Thread:
    """The thread of the words of its line: thread T STATUS ctx J.K pc P, where STATUS is one word or two."""
    at = words.index("ctx")
    return Thread(" ".join(words[2:at]), words[at + 1], int(words[at + 3]), [])


def shows_alone(report: Report, frames: int) -> bool:
    """Whether the report of a serve shows that each reply is the one that its request gets alone: its peak is at most
    the frames less two, so that no step of a request found too few. One less is not enough: a read of 4096 bytes can
    take two frames, and its refusal leaves the peak one below."""
    return report.peak <= frames - 2
