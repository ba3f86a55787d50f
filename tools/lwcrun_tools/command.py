"""What all commands have in common: how one begins and ends, reads its words, and shows its progress."""

from __future__ import annotations

import argparse
import io
import os
import signal
import sys
import tempfile
import time
from collections.abc import Callable
from typing import TYPE_CHECKING, NoReturn

from lwcrun_tools.exits import CANNOT_READ, CANNOT_WRITE, FAILED, NAME, Ended, end_by, give_up, raise_signals, say

if TYPE_CHECKING:
    from _typeshed import SupportsWrite


def run_script(main: Callable[[], int]) -> NoReturn:
    """Runs a command and ends with the status that it answers. A signal, a closed pipe, an error of a file ends it
    too. Each is raised in the command, so that its temporary folders and its programs go, and is told by a line at
    most; by a signal the command ends itself, as if it had not caught it."""
    if sys.stderr is None:
        sys.stderr = open(os.devnull, "w", encoding="ascii")
    if sys.stdout is None:
        give_up(f"{NAME}: standard output is closed", FAILED)
    raise_signals()
    for stream in (sys.stdout, sys.stderr):
        # A file's name may be no text: then it is shown by escapes.
        if isinstance(stream, io.TextIOWrapper):
            stream.reconfigure(errors="backslashreplace")
    ended = ending_of(main)
    try:
        sys.stdout.flush()
    except OSError:
        # What could not be written is let go: Python would try again at the end, and fail in many lines.
        os.dup2(os.open(os.devnull, os.O_WRONLY), sys.stdout.fileno())
    if ended < 0:
        end_by(-ended)
    sys.exit(ended)


def ending_of(main: Callable[[], int]) -> int:
    """The status with which a command ends, or below 0 the signal; and a line on standard error where it could not go
    on."""
    try:
        try:
            status = main()
        except Ended as ended:
            return -ended.number
        except SystemExit as ended:
            status = ended.code if isinstance(ended.code, int) else FAILED if ended.code else 0
            if isinstance(ended.code, str):
                print(ended.code, file=sys.stderr)
        sys.stdout.flush()
        return status
    except KeyboardInterrupt:
        return -signal.SIGINT
    except BrokenPipeError:
        return -signal.SIGPIPE
    except MemoryError:
        say("no memory")
        return FAILED
    except OSError as error:
        say(f"{error.filename}: {error.strerror}" if error.filename else f"cannot write: {error.strerror}")
        return CANNOT_READ if error.filename else CANNOT_WRITE
    except UnicodeDecodeError as error:
        say(f"a file that should be text is not: {error.reason} at {error.start}")
        return FAILED


class Parser(argparse.ArgumentParser):
    """A parser that does not let a failed write of its help pass in silence."""

    def print_help(self, file: SupportsWrite[str] | None = None) -> None:
        (file or sys.stdout).write(self.format_help())
        sys.stdout.flush()


def parser_of(doc: str | None) -> argparse.ArgumentParser:
    """A parser of a script's words. Its --help is the text of the script: what it does and prints, its statuses."""
    layout = argparse.RawDescriptionHelpFormatter
    return Parser(prog=NAME, description=doc, formatter_class=layout, allow_abbrev=False)


def at_least(least: int) -> Callable[[str], int]:
    """Reads a word of a script's line that is a number, and refuses one that is smaller."""

    def number(word: str) -> int:
        if not (word.isascii() and word.isdigit()) or int(word) < least:
            raise argparse.ArgumentTypeError(f"{word!r} is no number from {least} on")
        return int(word)

    return number


class WorkFolder:
    """A folder for the files of a script, which goes when the script ends: `with WorkFolder() as folder`."""

    def __init__(self) -> None:
        self._made = tempfile.TemporaryDirectory(prefix=f"{NAME}-")
        self.folder = self._made.name

    def __enter__(self) -> WorkFolder:
        return self

    def __exit__(self, *_: object) -> None:
        self._made.cleanup()

    def path(self, name: str) -> str:
        """The path of a file in the folder."""
        return os.path.join(self.folder, name)

    def write(self, name: str, content: bytes | str) -> str:
        """Writes a file in the folder. Answers its path."""
        with open(self.path(name), "wb") as file:
            file.write(content.encode() if isinstance(content, str) else content)
        return self.path(name)


class Progress:
    """One line on a terminal that says how far the work is, written five times a second at most; none elsewhere."""

    def __init__(self, name: str = NAME) -> None:
        self.name, self.began, self.shown, self.last = name, time.monotonic(), sys.stderr.isatty(), 0.0

    def show(self, line: str) -> None:
        now = time.monotonic()
        if self.shown and now - self.last > 0.2:
            self.last = now
            print(f"\r\033[K{self.name}: {line}, {now - self.began:.0f} s"[:120], end="", file=sys.stderr, flush=True)

    def clear(self) -> None:
        if self.shown and self.last:
            print("\r\033[K", end="", file=sys.stderr, flush=True)
