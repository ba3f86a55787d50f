"""How a command says why it ends, and how it ends. The launcher needs this each time, so it imports nothing that takes
long."""

from __future__ import annotations

import os
import sys

# The module `signal` is this one with enums, which take longer to import than all that the launcher does.
signal = __import__("_signal")

TYPE_CHECKING = False
if TYPE_CHECKING:
    from typing import NoReturn

NAME = os.path.basename(sys.argv[0])
# Statuses of the commands, of which the program has the first three too; one of tests; and one of the launcher.
FAILED, CANNOT_READ, CANNOT_WRITE, SKIPPED, NOT_BUILT = 1, 3, 4, 77, 125


class Ended(SystemExit):
    """A signal that ends the command, raised so that its folders and programs go first."""

    def __init__(self, number: int) -> None:
        super().__init__(128 + number)
        self.number = number


def say(line: str) -> None:
    """Says a line on standard error, with the command's name before it."""
    print(f"{NAME}: {line}", file=sys.stderr, flush=True)


def give_up(line: str, status: int) -> NoReturn:
    """Ends the command with a line on standard error. The status is above 128 where a signal ended what it is of."""
    print(line, file=sys.stderr)
    sys.exit(status if status >= 0 else 128 - status)


def raise_signals() -> None:
    """Has the signals that end a command raised in it, so that what is to be removed is removed; Ctrl-C by Python's
    KeyboardInterrupt. A signal that the command was told to ignore stays ignored, as under `nohup`."""

    def end(number: int, _: object) -> None:
        for other in (signal.SIGTERM, signal.SIGHUP, signal.SIGINT):
            signal.signal(other, signal.SIG_IGN)
        raise Ended(number)

    for number, handler in (
        (signal.SIGTERM, end),
        (signal.SIGHUP, end),
        (signal.SIGINT, signal.default_int_handler),
    ):
        if signal.getsignal(number) != signal.SIG_IGN:
            signal.signal(number, handler)


def end_by(number: int) -> NoReturn:
    """Ends the command by a signal itself, so that a shell's loop ends with it."""
    signal.signal(number, signal.SIG_DFL)
    signal.pthread_sigmask(signal.SIG_UNBLOCK, [number])
    os.kill(os.getpid(), number)
    sys.exit(128 + number)


def let_signals_end() -> None:
    """Lets a closed pipe and a too large file end the process by a signal, which Python ignores."""
    for number in (signal.SIGPIPE, signal.SIGXFSZ):
        signal.signal(number, signal.SIG_DFL)
