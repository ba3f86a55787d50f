"""Proves and builds the program: each crate that it stands on, after those that this one uses.

The toolchain's prover proves each crate, without tests. Of the crates below it reads what they state, and not their
proofs. As many processes prove side by side as processors and memory allow.
"""

from __future__ import annotations

import contextlib
import fcntl
import hashlib
import os
import shlex
import shutil
import signal
import subprocess
import sys
import time
from collections.abc import Iterable

from lwcrun_tools.checkout import (
    BUILT,
    HOME,
    LIBRARIES,
    PROGRAM,
    TOP,
    Look,
    crates_of_program,
    files_of,
    files_of_kit,
    is_built,
    looks_of,
    state_of,
    uses_of_crates,
)
from lwcrun_tools.exits import say
from lwcrun_tools.toolchain import NotMade, needed_kit, sum_of

# What a check may take, in bytes.
MEMORY = 4_000_000_000


class Progress:
    """One line on a terminal that says what is being proved; else a line at the beginning alone."""

    def __init__(self, count: int) -> None:
        self.count, self.start, self.shown, self.told = count, time.monotonic(), sys.stderr.isatty(), False

    def show(self, done: int, names: Iterable[str]) -> None:
        if names and not self.shown and not self.told:
            self.told = True
            say(f"proving and building up to {self.count - done} crates, which takes some minutes the first time")
        if self.shown:
            minutes, seconds = divmod(int(time.monotonic() - self.start), 60)
            line = f"lwcrun: {done} of {self.count} crates proved, {minutes}:{seconds:02}, now {' '.join(names)}"
            columns = shutil.get_terminal_size().columns - 1
            print(f"\r\033[K{line[:columns]}", end="", file=sys.stderr, flush=True)

    def clear(self) -> None:
        if self.shown:
            print("\r\033[K", end="", file=sys.stderr, flush=True)


class Crate:
    """A crate that the program stands on, with what is made of it: its library, or the program."""

    def __init__(self, name: str, uses: dict[str, list[str]], kit: str) -> None:
        self.name, self.uses, self.kit = name, uses[name], kit
        self.below = [it for it in self.uses if it in uses]
        self.is_program = name == "lwcrun"
        self.made = PROGRAM if self.is_program else os.path.join(LIBRARIES, f"{name}.rlib")
        self.stamp_file = os.path.join(LIBRARIES, f"{name}.stamp")
        self.log = os.path.join(LIBRARIES, f"{name}.log")
        # What a proof costs goes mostly by the code, and less by what is written in specs/ and proofs/.
        self.size = sum(file.stat().st_size for file in files_of(name) if file.name.endswith(".rt"))
        self.looks: list[Look] = []
        self.stamp = ""
        self.process: subprocess.Popen[bytes] | None = None

    def read(self, crates: dict[str, Crate]) -> bool:
        """Takes the stamp of all that the proof reads, after the crates below. Answers whether what is made has it."""
        self.looks = looks_of([self.name])
        read = [(os.path.relpath(file.path, TOP), sum_of(file.path)) for file in files_of(self.name)]
        kit = [sum_of(it) for it in files_of_kit(self.kit)]
        told = (kit, self.commands(0), [crates[it].stamp for it in self.below], read)
        self.stamp = hashlib.sha256(repr(told).replace(TOP, "").encode()).hexdigest()
        try:
            with open(self.stamp_file, encoding="utf-8") as file:
                return file.read() == self.stamp_of_made() and os.path.exists(self.made)
        except OSError:
            return False

    def stamp_of_made(self) -> str:
        """The stamp; of the program with its sum, since `rt` makes it too."""
        return self.stamp + (sum_of(PROGRAM) if self.is_program else "")

    def commands(self, jobs: int) -> list[list[str]]:
        """The commands that prove the crate and make its library, or the program."""
        kit_libraries = os.path.join(self.kit, "rlibs")
        words = [os.path.join(self.kit, "bin", "rattle"), "build", "--crate-name", self.name]
        words += ["src/main.rt" if self.is_program else "src/lib.rt", "--links", f"{self.name}=", "--jobs", str(jobs)]
        for name in ("std", *self.uses):
            words += ["--extern", f"{name}={LIBRARIES if name in self.below else kit_libraries}/{name}.rlib"]
        words += ["-L", f"dependency={kit_libraries}", "-L", f"dependency={LIBRARIES}"]
        words += ["--antt-project", f"{self.kit}/rattle/logic/antt-project.json"]
        words += ["--logic-built", f"{self.kit}/logic_built"]
        if not self.is_program:
            return [[*words, "--statements", "-o", self.made]]
        code = os.path.join(LIBRARIES, "lwcrun.o")
        link = [f"{self.kit}/bin/rattle-link", "--target", "x86_64-unknown-linux-gnu"]
        link += ["--toolchain", f"{self.kit}/toolchain", "-o", f"{LIBRARIES}/lwcrun.new", code]
        link += [f"{self.kit}/c/libos_c.a", f"{self.kit}/c/liblibc_c.a"]
        return [[*words, "--toolchain", f"{self.kit}/toolchain", "-o", code], link]

    def start(self, jobs: int, lock: int) -> None:
        """Begins to prove the crate by so many processes, which hold the lock while they run."""
        with contextlib.suppress(FileNotFoundError):
            os.remove(self.stamp_file)
        words = " && ".join(map(shlex.join, self.commands(jobs)))
        inside = os.path.join(TOP, "crates", self.name)
        with open(self.log, "wb") as log:
            self.process = subprocess.Popen(
                ["sh", "-c", words],
                cwd=inside,
                stdin=subprocess.DEVNULL,
                stdout=log,
                stderr=log,
                start_new_session=True,
                pass_fds=[lock],
            )

    def has_ended(self) -> bool:
        """Whether the proof was begun and has ended."""
        return self.process is not None and self.process.poll() is not None

    def was_proved(self) -> bool:
        """Whether the proof has ended well."""
        return self.process is not None and self.process.returncode == 0

    def stop(self) -> None:
        """Ends the proof, if it runs."""
        if self.process is None:
            return
        with contextlib.suppress(ProcessLookupError):
            os.killpg(self.process.pid, signal.SIGTERM)

    def keep(self) -> bool:
        """Keeps what was made by a proof that has ended. Answers whether the crate, as it is, was proved."""
        if not self.was_proved() or self.looks != looks_of([self.name]):
            return False
        if self.is_program:
            os.replace(f"{LIBRARIES}/lwcrun.new", PROGRAM)
        with open(self.stamp_file, "w", encoding="utf-8") as file:
            file.write(self.stamp_of_made())
        os.remove(self.log)
        return True


def chain_of(name: str, crates: dict[str, Crate]) -> int:
    """How much there is to prove along the longest chain from a crate to the program."""
    above = [it for it in crates if name in crates[it].below]
    return crates[name].size + max((chain_of(it, crates) for it in above), default=0)


class Build:
    """The proofs of all crates, each after those that it uses."""

    def __init__(self, crates: dict[str, Crate], lock: int) -> None:
        memory = os.sysconf("SC_PHYS_PAGES") * os.sysconf("SC_PAGE_SIZE")
        self.processors = max(1, min(len(os.sched_getaffinity(0)), memory // MEMORY))
        self.crates, self.lock, self.waiting = crates, lock, list(crates)
        self.done: set[str] = set()
        # Which of those that wait have to be proved, and how many processes prove each crate that is being proved.
        self.stale: set[str] = set()
        self.running: dict[str, int] = {}
        self.chain = {name: chain_of(name, crates) for name in crates}

    def ready(self) -> list[str]:
        """The crates that wait for no other one, those with the longest chain first."""
        ready = [it for it in self.waiting if self.done.issuperset(self.crates[it].below)]
        return sorted(ready, key=lambda it: -self.chain[it])

    def jobs(self, name: str, free: int, others: int) -> int:
        """How many of the free processors prove a crate, while so many others are to be begun. What the longest chain
        waits for gets two, if two are free and there are more in all. Where more are free each gets its share."""
        is_first = all(self.chain[name] >= self.chain[it] for it in [*self.waiting, *self.running])
        return min(free, max(2 if is_first and self.processors > 2 else 1, free // (others + 1)))

    def take_kept(self) -> list[str]:
        """Takes the crates that are proved as they are. Answers those that are to be proved and wait for no other."""
        while True:
            ready = self.ready()
            new = [it for it in ready if it not in self.stale]
            for name in new:
                if self.crates[name].read(self.crates):
                    self.waiting.remove(name)
                    self.done.add(name)
                else:
                    self.stale.add(name)
            if not new:
                return ready

    def start_ready(self) -> None:
        """Begins crates that wait for no other one, while there are processors."""
        ready = self.take_kept()
        for place, name in enumerate(ready, 1):
            free = self.processors - sum(self.running.values())
            if free <= 0:
                return
            self.running[name] = self.jobs(name, free, len(ready) - place)
            self.waiting.remove(name)
            # Once more, since a file may have changed while the crate waited for a processor.
            self.crates[name].read(self.crates)
            self.crates[name].start(self.running[name], self.lock)

    def end_ready(self) -> Crate | None:
        """Takes what has ended. Answers a crate that was not proved, if there is one."""
        for name in [it for it in self.running if self.crates[it].has_ended()]:
            if not self.crates[name].keep():
                return self.crates[name]
            del self.running[name]
            self.done.add(name)
        return None

    def run(self) -> Crate | None:
        """Proves the crates. Answers one that was not proved, if there is one."""
        looks, progress = looks_of(crates_of_program(uses_of_crates())), Progress(len(self.crates))
        try:
            while self.waiting or self.running:
                self.start_ready()
                progress.show(len(self.done), self.running)
                time.sleep(0.1)
                if failed := self.end_ready():
                    return failed
        finally:
            progress.clear()
            for name in self.running:
                self.crates[name].stop()
        with open(BUILT, "w", encoding="utf-8") as file:
            file.write(state_of(looks))
        return None


def lock_home() -> int:
    """Takes the lock by which `rt` keeps others out of a crate, so that nothing else builds here meanwhile."""
    lock = os.open(HOME, os.O_RDONLY)
    try:
        fcntl.flock(lock, fcntl.LOCK_EX | fcntl.LOCK_NB)
    except BlockingIOError:
        say("waiting for another build, or for rt")
        fcntl.flock(lock, fcntl.LOCK_EX)
    return lock


def prove_and_build(beside: Iterable[str] = ()) -> bool:
    """Proves and builds the program where it has to be, and crates that are wanted beside those that it stands on.
    Answers whether all is there."""
    lock = lock_home()
    failed = None
    if beside or not is_built():
        try:
            kit = needed_kit()
        except NotMade as error:
            say(str(error))
            return False
        uses = uses_of_crates()
        os.makedirs(LIBRARIES, exist_ok=True)
        names = dict.fromkeys([*crates_of_program(uses), *beside])
        failed = Build({it: Crate(it, uses, kit) for it in names}, lock).run()
    os.close(lock)
    if failed:
        why = "changed while it was proved" if failed.was_proved() else f"not proved or built; its log is {failed.log}"
        say(f"the crate {failed.name} was {why}")
    return not failed
