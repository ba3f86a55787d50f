"""Processes that a command begins, and which end with it."""

from __future__ import annotations

import os
import signal
import subprocess
import time
from collections.abc import Iterator, Sequence
from contextlib import contextmanager, suppress
from typing import IO, Any

from lwcrun_tools.exits import give_up


def run_child(words: Sequence[str], out: int | None = None) -> int:
    """Runs a script, which ends what it has begun when it is told to end. Answers its status."""
    with subprocess.Popen(words, stdin=subprocess.DEVNULL, stdout=out) as child:
        try:
            status = child.wait()
        except BaseException:
            child.terminate()
            raise
    return status if status >= 0 else 128 - status


def run_program(words: Sequence[str]) -> bytes:
    """What the program writes for the words; where its status is not 0, the script ends with its line and status."""
    done = subprocess.run(words, stdin=subprocess.DEVNULL, capture_output=True, check=False)
    if done.returncode != 0:
        said = done.stderr.decode(errors="replace").strip()
        give_up(said or f"{words[0]}: status {done.returncode}", done.returncode)
    return done.stdout


@contextmanager
def in_session(words: Sequence[str], folder: str, out: IO[Any], **more: str) -> Iterator[subprocess.Popen[bytes]]:
    """A program that runs in a folder, with more variables, in a session of its own. When the script leaves it, also
    by a signal, whatever the program has begun is ended. What it writes and says goes to one file."""
    process = subprocess.Popen(
        words,
        cwd=folder,
        env={**os.environ, **more},
        stdin=subprocess.DEVNULL,
        stdout=out,
        stderr=out,
        start_new_session=True,
    )
    try:
        yield process
    finally:
        while members := processes_of(process.pid):
            for member in members:
                with suppress(ProcessLookupError):
                    os.kill(member, signal.SIGKILL)
            process.wait()
            time.sleep(0.01)


def processes_of(session: int) -> list[int]:
    """The processes of a session that have not ended."""
    found = []
    for name in filter(str.isdigit, os.listdir("/proc")):
        with suppress(OSError):
            if os.getsid(int(name)) == session:
                with open(f"/proc/{name}/stat", encoding="ascii", errors="replace") as file:
                    state = file.read().rpartition(")")[2].split()[0]
                if state not in "ZX" or int(name) == session:
                    found.append(int(name))
    return found


def output_of(words: Sequence[str]) -> str:
    """What a command prints, without the last line feed; nothing where it is not there or fails."""
    try:
        done = subprocess.run(words, stdin=subprocess.DEVNULL, capture_output=True, check=False)
    except OSError:
        return ""
    return done.stdout.decode(errors="replace").strip() if done.returncode == 0 else ""
