"""Refusals with a place: the program names a rule and an offset, and this says the file, the line and the column, with
the line and a caret below it.

The grammar of every file is the program's alone. What is added here is a sentence for each rule, and what stands at
the offset.
"""

import os
import re
import stat
import subprocess
import sys
from collections.abc import Callable, Iterable, Sequence
from dataclasses import dataclass
from io import BufferedReader
from typing import BinaryIO

from lwcrun_tools.command import WorkFolder
from lwcrun_tools.exits import CANNOT_READ, NAME, give_up
from lwcrun_tools.machine import (
    FIRST_SLOT,
    MOST_COMMANDS,
    MOST_DEBUGGED_STEPS,
    MOST_FILE_BYTES,
    MOST_IMAGE_BYTES,
    MOST_REPORT_BYTES,
    MOST_REQUESTS,
    MOST_REQUEST_BYTES,
    MOST_REQUEST_FILE_BYTES,
    MOST_SCHEDULE_BYTES,
    MOST_SCRIPT_BYTES,
    MOST_SOURCE_BYTES,
    MOST_STEPS,
    MOST_VAULT_BYTES,
    SLOTS,
    VAULT_SLOT,
)

WIDE = 100
REFUSAL = re.compile(r"lwcrun: (image|input) refused: (\w+) at (\d+)$")
SCHEDULE, REQUESTS, SCRIPT, VAULT, IMAGE = "schedule", "requests", "script", "vault", "image"
SOURCE, REPORT = "source", "report"
# Which file a rule of an input is about, where the rule alone tells; TooLong is told by its offset, the most bytes
# that the file may have.
ROLES = {
    "BadThread": SCHEDULE,
    "TooManySteps": SCHEDULE,
    "BadHex": REQUESTS,
    "OddLength": REQUESTS,
    "RequestTooLong": REQUESTS,
    "TooManyRequests": REQUESTS,
    "TooMuchWork": REQUESTS,
    "BadCommand": SCRIPT,
    "TooManyCommands": SCRIPT,
    "Truncated": VAULT,
    "BadEntry": VAULT,
    "BadPage": VAULT,
    "SlotTaken": VAULT,
}
# The most bytes of each file, as the program takes them. A source is read as an image may be, since an image may stand
# in its place, and a report as a schedule.
MOST_BYTES = {
    SCHEDULE: MOST_SCHEDULE_BYTES,
    REQUESTS: MOST_REQUEST_FILE_BYTES,
    SCRIPT: MOST_SCRIPT_BYTES,
    VAULT: MOST_VAULT_BYTES,
    IMAGE: MOST_IMAGE_BYTES,
    SOURCE: MOST_SOURCE_BYTES,
    REPORT: MOST_REPORT_BYTES,
}
LONGEST = {MOST_BYTES[role]: role for role in (SCHEDULE, REQUESTS, SCRIPT, VAULT)}
CHUNK = 1 << 20
REASONS = {
    "TooManySteps": f"a schedule has at most {MOST_STEPS} steps, and for debug {MOST_DEBUGGED_STEPS}",
    "OddLength": "a request is pairs of hexadecimal digits, and the last digit of this line is alone",
    "RequestTooLong": f"a request has at most {MOST_REQUEST_BYTES} bytes, which are {2 * MOST_REQUEST_BYTES} digits",
    "TooManyRequests": f"a request file has at most {MOST_REQUESTS} lines; tools/serve-many takes more",
    "TooMuchWork": f"requests * (budget + 1) + workers is above {MOST_STEPS}; lower --budget or take fewer requests",
    "BadCommand": "no command of the debugger: its words are parted by one space, and a number has one to nine digits",
    "TooManyCommands": f"a script has at most {MOST_COMMANDS} commands",
    "TooLong": "the file is longer than the program takes",
    "Truncated": "the file ends here, inside a part of it or before one that has to be there",
    "SlotTaken": f"the image has a file in slot {VAULT_SLOT}, which the vault needs",
    "Trailing": "bytes follow the last entry of the image",
    "BadMagic": "an image begins with LWC1 or LWC2; a source has to be assembled first, as tools/assemble does",
    "BadCount": "a count of the header is out of its range",
    "BadInstruction": "these eight bytes are no instruction",
    "BadTarget": "a jump to an instruction behind the last one",
    "BadPage": "the page's number is too large, or does not rise, or begins a 65th run of pages",
    "BadFile": f"public is neither 0 nor 1, or the files have more than {MOST_FILE_BYTES} bytes in all",
    "BadSlot": f"the slot is none of {FIRST_SLOT} to {SLOTS - 1}, or does not rise, or the image has no such file",
    "BadEntry": "the entry is behind the last instruction of the image",
}


class Refused(Exception):
    """What a tool cannot do, in a sentence, and the status with which it ends. A line of the program, or one with a
    place, has its own head; before any other one the script's name is printed."""

    def __init__(self, line: str, status: int, has_head: bool = False) -> None:
        super().__init__(line)
        self.line, self.status, self.has_head = line, status, has_head


@dataclass
class Input:
    """A file that the program reads: what it is, its name for the user, where it lies, from where in the user's file
    it was taken, and the bytes of that one, where they are others."""

    role: str
    name: str
    path: str = ""
    base: int = 0
    whole: bytes | None = None

    def __post_init__(self) -> None:
        self.path = self.path or self.name
        try:
            self.path.encode()
        except UnicodeEncodeError as error:
            raise Refused(f"the name {self.name!r} is no UTF-8, and the program takes no such name", 2) from error

    def read(self) -> bytes:
        """The bytes that the program reads."""
        return read_file(self.path, self.role)

    def shown(self) -> bytes:
        """The bytes of the user's own file, in which a place is shown."""
        return self.read() if self.whole is None else self.whole


def read_file(name: str, role: str) -> bytes:
    """The bytes of a file, or of the standard input under the name `-`; refuses one that has more than the program
    takes, without reading on, and a pipe that nobody writes to, without waiting."""
    try:
        if name == "-":
            return read_most(sys.stdin.buffer, name, role, b"")
        with open(name, "rb", opener=open_at_once) as file:
            return read_most(file, name, role, first_byte(file, name))
    except OSError as error:
        raise Refused(f"cannot read {name}: {error.strerror}", CANNOT_READ) from error


def open_at_once(name: str, flags: int) -> int:
    """Opens a file, and of a pipe does not wait for its writer."""
    return os.open(name, flags | os.O_NONBLOCK)


def first_byte(file: BufferedReader, name: str) -> bytes:
    """The first byte of a file that was opened without waiting, if it is there yet; from then on reads wait. Refuses a
    pipe that nobody writes to."""
    begin = file.raw.read(1)
    if begin == b"" and stat.S_ISFIFO(os.fstat(file.fileno()).st_mode):
        raise Refused(f"cannot read {name}: it is a pipe, and nobody writes to it", CANNOT_READ)
    os.set_blocking(file.fileno(), True)
    return begin or b""


def read_most(file: BinaryIO, name: str, role: str, begin: bytes) -> bytes:
    """All bytes of a file whose first one may have been read, which are at most those that the program takes of it."""
    most, data = MOST_BYTES[role], bytearray(begin)
    while chunk := file.read(min(CHUNK, most + 1 - len(data))):
        data += chunk
        if len(data) > most:
            status = 5 if role in (IMAGE, SOURCE) else 6
            raise Refused(f"{name}: TooLong at {most}: a file of this kind has at most {most} bytes", status, True)
    return bytes(data)


def take(role: str, name: str, work: WorkFolder) -> Input:
    """A file of the user, read once: what is asked about it later is asked about the bytes that were read, also where
    the file changes or was a pipe."""
    return Input(role, name, work.write(role, read_file(name, role)))


def call_program(
    words: Sequence[str], inputs: Iterable[Input] = (), explain: Callable[[str, int], str] | None = None
) -> bytes:
    """What the program writes for the words. Where its status is not 0 it is refused with the program's status, and
    with a place where the program tells an offset. Of an image `explain` may know more than its bytes do."""
    try:
        done = subprocess.run(words, capture_output=True, check=False)
    except OSError as error:
        raise Refused(f"cannot run {words[0]}: {error.strerror}", 1) from error
    if done.returncode == 0:
        return done.stdout
    said = done.stderr.decode(errors="replace").strip().rpartition("\n")[2]
    found = REFUSAL.search(said)
    status = done.returncode if done.returncode > 0 else 128 - done.returncode
    if not found:
        raise Refused(said or f"{words[0]}: ended with status {status}", status, True)
    what, rule, offset = found[1], found[2], int(found[3])
    if what == IMAGE and explain:
        raise Refused(explain(rule, offset), status, True)
    role = IMAGE if what == IMAGE else ROLES.get(rule) or LONGEST.get(offset, "")
    for each in inputs:
        if each.role == role:
            raise Refused(refusal(each, rule, offset), status, True)
    raise Refused(said, status, True)


def refusal(file: Input, rule: str, offset: int) -> str:
    """A refusal of a file, with its place and its reason."""
    if file.role in (IMAGE, VAULT) or rule == "TooLong":
        return f"{file.name}: {rule} at {offset}: {REASONS.get(rule, 'the program refuses it')}"
    data, at = file.shown(), offset + file.base
    found = data[at : at + 1]
    reason = REASONS.get(rule) or of_byte(rule, found)
    if rule == "TooMuchWork":
        return f"{file.name}: {rule}: {reason}"
    begin = data.rfind(b"\n", 0, at) + 1
    end = data.find(b"\n", at)
    line = data[begin : end if end >= 0 else len(data)].decode("latin-1").rstrip("\r")
    return at_place(file.name, data.count(b"\n", 0, at) + 1, at - begin, rule, reason, line)


def of_byte(rule: str, found: bytes) -> str:
    """The reason for a rule about one byte."""
    shown = repr(found.decode("latin-1")) if found else "the end of the file"
    if rule == "BadHex":
        return f"a request is hexadecimal digits alone, and here is {shown}"
    if found and found in b"0123456789abcdef":
        return f"this run has no thread {found.decode()}: an image has one for each .entry, a serve for each worker"
    return f"a schedule is digits 0 to 9 and a to f, and here is {shown}"


def at_place(name: str, line: int, column: int, rule: str, reason: str, text: str) -> str:
    """A refusal as compilers write it: the place, the rule and the reason, and below them the line with a caret. The
    column counts from 0."""
    before, text = (plain(part) for part in (text[:column], text))
    at, column = column, len(before)
    cut = max(0, column - WIDE // 2) if len(text) > WIDE else 0
    shown = text[cut : cut + WIDE]
    return f"{name}:{line}:{at + 1}: {rule}: {reason}\n    {shown}\n    {' ' * (column - cut)}^"


def plain(text: str) -> str:
    """A line of bytes, each of which is a character here, as it is shown."""
    shown = text.encode("latin-1", "replace").decode("utf-8", "replace").replace("\t", " ")
    return "".join(it if it.isprintable() else "." for it in shown)


def refusing(main: Callable[[], int]) -> Callable[[], int]:
    """A script's main that ends with a line where it cannot do something."""

    def refused() -> int:
        try:
            return main()
        except Refused as error:
            return give_up(error.line if error.has_head else f"{NAME}: {error.line}", error.status)

    return refused
