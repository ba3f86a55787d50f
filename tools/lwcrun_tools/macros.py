"""Sources with macros, of which GNU m4 makes plain ones. m4 runs no command for them and reads no file by itself.

Strangers' sources are what the tools are for. So those of m4's own macros that run commands, or read, write or name
files, are not defined while a source is read. A line that begins with include and the quoted name of a file is
replaced here, before m4 sees it, by the lines of that file, if it lies below the source's folder or guests/.
"""

from __future__ import annotations

import os
import re
import resource
import signal
import subprocess

from lwcrun_tools.checkout import GUESTS
from lwcrun_tools.command import WorkFolder
from lwcrun_tools.exits import FAILED
from lwcrun_tools.machine import MOST_SOURCE_BYTES
from lwcrun_tools.refusals import SOURCE, Refused, read_file
from lwcrun_tools.source_line import Line

MACROS = os.path.join(GUESTS, "lwc.m4")
INCLUDE = re.compile(r"include\(`([^`']*)'\)")
MARK = re.compile(r'#line (\d+)(?: "(.*)")?$')
SAID = re.compile(r"(?:m4:)?(.+?):(\d+): (?:m4: )?(.*)")
QUOTED = re.compile(r"`([^`']+)'|(\w+)$")
MOST_NESTED = 16
# How deep calls of macros may stand in each other's arguments. Where m4's own stack ends it names no line.
MOST_CALLS = 1000
MOST_SECONDS, MOST_MEMORY = 5, 1 << 30
# What m4 reads first.
CLOSED = """divert(-1)
undefine(`syscmd', `esyscmd', `sysval', `builtin', `maketemp', `mkstemp', `debugfile', `sinclude', `undivert')
define(`include', `ifelse(`$#', 0, ``$0'',
    `errprint(__file__:__line__: `include' stands at the beginning of a line, with a name in quotes
)m4exit(1)')')
divert(0)dnl
"""


class Expansion:
    """A source and the files that it includes, as one file for m4."""

    def __init__(self, name: str, data: bytes, work: WorkFolder) -> None:
        self.name, self.work = name, work
        self.roots = [os.path.realpath(os.path.dirname(os.path.abspath(name))), os.path.realpath(GUESTS)]
        self.left = MOST_SOURCE_BYTES
        self.lines: list[Line] = []
        self.add(name, data, 0)
        text = "\n".join(line.text for line in self.lines)
        self.path = work.write("source.m4", text.encode("latin-1"))

    def add(self, file: str, data: bytes, nested: int) -> None:
        """Adds the lines of a file, with those of the files that it includes in the places of their includes."""
        for number, text in enumerate(data.decode("latin-1").split("\n"), 1):
            line = Line(text, file, number)
            self.left -= len(text) + 1
            if self.left < 0:
                raise Refused(line.at(0, "TooLong", f"a source has at most {MOST_SOURCE_BYTES} bytes"), 5, True)
            found = INCLUDE.match(text)
            if not found:
                self.lines.append(line)
                continue
            self.include(line, found[1], nested)
            rest = text[found.end() :]
            if not rest.startswith("dnl"):
                self.lines.append(Line(rest, file, number))

    def include(self, line: Line, name: str, nested: int) -> None:
        """Adds the lines of an included file."""
        column = line.text.index("`") + 1
        path = self.find(line, name, column)
        if path == os.path.realpath(MACROS):
            return
        if nested == MOST_NESTED:
            raise Refused(line.at(column, "m4", f"includes are nested at most {MOST_NESTED} deep"), FAILED, True)
        data = read_file(path, SOURCE)
        # The line feed at its end is that of the line behind the include.
        self.add(os.path.relpath(path) if path.startswith(os.getcwd() + os.sep) else path, data, nested + 1)
        if data.endswith(b"\n"):
            self.lines.pop()

    def find(self, line: Line, name: str, column: int) -> str:
        """The file of a name, which lies below the source's folder or guests/."""
        for root in self.roots:
            path = os.path.realpath(os.path.join(root, name))
            if os.path.exists(path) and not os.path.isfile(path):
                reason = f"{name} is no plain file, and only such are included"
                raise Refused(line.at(column, "m4", reason), FAILED, True)
            if os.path.isfile(path):
                if any(path.startswith(it + os.sep) for it in self.roots):
                    return path
                reason = f"a file is included from below {self.roots[0]} or {self.roots[1]} alone"
                raise Refused(line.at(column, "m4", reason), FAILED, True)
        raise Refused(line.at(column, "m4", f"there is no file {name}, here or in {GUESTS}"), FAILED, True)

    def expand(self) -> list[Line]:
        """The lines that m4 makes, each with the place of the user's line that made it."""
        out, said = (self.work.path(name) for name in ("expanded", "said"))
        words = ["m4", "-s", "-L", str(MOST_CALLS), self.work.write("closed.m4", CLOSED)]
        words += [MACROS] if os.path.exists(MACROS) else []
        settings = {"PATH": os.environ.get("PATH", os.defpath), "LC_ALL": "C", "TMPDIR": self.work.folder}
        with open(out, "wb") as output, open(said, "wb") as errors:
            try:
                done = subprocess.run(
                    [*words, self.path],
                    stdin=subprocess.DEVNULL,
                    stdout=output,
                    stderr=errors,
                    env=settings,
                    preexec_fn=limit,
                    check=False,
                )
            except FileNotFoundError as error:
                raise Refused(f"{self.name}: GNU m4 is needed (Debian's package m4)", FAILED) from error
        if done.returncode != 0:
            with open(said, encoding="utf-8", errors="replace") as file:
                self.refuse(done.returncode, file.read())
        with open(out, "rb") as made:
            return self.unmarked(made.read().decode("latin-1"))

    def refuse(self, status: int, said: str) -> None:
        """Refuses what m4 did not make, at the place that it names, as far as it names one."""
        if status == -signal.SIGXFSZ:
            raise Refused(f"{self.name}: TooLong: m4 makes more than {MOST_SOURCE_BYTES} bytes of it", 5, True)
        if status == -signal.SIGXCPU:
            raise Refused(f"{self.name}: m4 takes longer than {MOST_SECONDS} seconds for it", FAILED)
        for text in said.splitlines():
            found = SAID.fullmatch(text)
            if found and found[1] == self.path and 0 < int(found[2]) <= len(self.lines):
                line, reason = self.lines[int(found[2]) - 1], found[3].removesuffix(", use -L<N> to change it")
                raise Refused(line.at(column_of(line.text, reason), "m4", reason), FAILED, True)
        raise Refused(f"{self.name}: {said.strip()[:1000] or f'm4 ends with status {status}'}", FAILED, True)

    def unmarked(self, text: str) -> list[Line]:
        """The lines that m4 writes, each with the place that its marks tell."""
        lines, file, number = [], self.path, 1
        for line in text.split("\n"):
            mark = MARK.match(line)
            if mark:
                file, number = mark[2] or file, int(mark[1])
                continue
            if file == self.path:
                made_of = self.lines[min(number, len(self.lines)) - 1]
                lines.append(Line(line, made_of.file, made_of.number))
            else:
                lines.append(Line(line, file, number))
            number += 1
        return lines


def limit() -> None:
    """Limits what m4 may take: its time, its memory, and what it writes."""
    for kind, most in (
        (resource.RLIMIT_CPU, MOST_SECONDS),
        (resource.RLIMIT_AS, MOST_MEMORY),
        (resource.RLIMIT_FSIZE, MOST_SOURCE_BYTES),
    ):
        _, hard = resource.getrlimit(kind)
        allowed = most if hard == resource.RLIM_INFINITY else min(most, hard)
        resource.setrlimit(kind, (allowed, hard))
    resource.setrlimit(resource.RLIMIT_CORE, (0, resource.getrlimit(resource.RLIMIT_CORE)[1]))
    # Python ignores this signal, and what it begins would too.
    signal.signal(signal.SIGXFSZ, signal.SIG_DFL)


def column_of(text: str, reason: str) -> int:
    """The column, from 0, of what a reason names in a line; else that of the line's first word."""
    for quoted, last in QUOTED.findall(reason):
        at = text.find(quoted or last)
        if at >= 0:
            return at
    return len(text) - len(text.lstrip())
