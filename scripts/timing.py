"""Runs of the program that are timed, and the files that they read."""

from __future__ import annotations

import os
import signal
import time
from collections.abc import Sequence
from functools import cache

from lwcrun_tools.checkout import TOP
from lwcrun_tools.exits import NAME, give_up
from lwcrun_tools.program import find_program

MOST_SECONDS = 120


@cache
def program() -> str:
    """The program that is measured."""
    return find_program()


def start(words: Sequence[str], out: str = os.devnull) -> int:
    """Starts the program on the words, with its output to a file."""
    output = (os.POSIX_SPAWN_OPEN, 1, out, os.O_WRONLY | os.O_CREAT | os.O_TRUNC, 0o644)
    return os.posix_spawn(program(), [program(), *words], os.environ, file_actions=[output])


def end_of(pid: int) -> int:
    """The status of a program, which ends if the script is ended meanwhile."""
    try:
        return os.waitpid(pid, 0)[1]
    except BaseException:
        os.kill(pid, signal.SIGKILL)
        raise


def check(words: Sequence[str], status: int) -> None:
    """Gives up where the program did not end with 0."""
    if status != 0:
        ended = os.waitstatus_to_exitcode(status)
        give_up(f"{NAME}: lwcrun {' '.join(words)}: status {ended}", ended)


def seconds_of(words: Sequence[str], out: str = os.devnull) -> float:
    """The seconds that the program takes for the words, with its output to a file. Where it hangs, the script ends."""
    began = time.monotonic()
    pid = start(words, out)

    def hang(*_: object) -> None:
        os.kill(pid, signal.SIGKILL)
        give_up(f"HANG: lwcrun {' '.join(words)} has not ended after {MOST_SECONDS} seconds", 1)

    signal.signal(signal.SIGALRM, hang)
    signal.alarm(MOST_SECONDS)
    status = end_of(pid)
    signal.alarm(0)
    check(words, status)
    return time.monotonic() - began


def memory_of(words: Sequence[str]) -> float:
    """The most memory in megabytes that the program had while it ran, as far as it was looked at."""
    most = 0
    pid = start(words)
    while os.waitid(os.P_PID, pid, os.WEXITED | os.WNOHANG | os.WNOWAIT) is None:
        with open(f"/proc/{pid}/status", encoding="ascii") as file:
            most = max([most] + [int(line.split()[1]) for line in file if line.startswith("VmHWM")])
        time.sleep(0.001)
    check(words, end_of(pid))
    return most / 1024


def source_of(guest: str) -> str:
    """The source of a guest: one of the loops of bench/, or else one of guests/."""
    paths = [os.path.join(TOP, folder, guest + ".s") for folder in ("bench", "guests")]
    with open(next(path for path in paths if os.path.exists(path)), encoding="utf-8") as source:
        return source.read()


def image_of(folder: str, name: str, text: str) -> str:
    """The image of a source."""
    name = os.path.join(folder, name)
    with open(name + ".s", "w", encoding="utf-8") as source:
        source.write(text)
    words = ["asm", name + ".s"]
    check(words, end_of(start(words, name + ".lwc")))
    return name + ".lwc"


def image_with(folder: str, guest: str, lines: list[str]) -> str:
    """The image of a guest's source with some more lines."""
    return image_of(folder, f"{guest}_{len(lines)}", source_of(guest) + "".join(line + "\n" for line in lines))


def written(folder: str, name: str, text: str) -> str:
    """A file of the folder with this text."""
    name = os.path.join(folder, name)
    with open(name, "w", encoding="ascii") as file:
        file.write(text)
    return name


def text_of(name: str) -> str:
    """What a file holds."""
    with open(name, encoding="ascii") as file:
        return file.read()
