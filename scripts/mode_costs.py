"""The kinds of steps of single modes whose host instructions are counted, and what runs take of memory."""

from __future__ import annotations

import os
import statistics
from collections.abc import Iterator

from lwcrun_tools.checkout import GUESTS
from lwcrun_tools.processes import run_program
from step_costs import Kinds
from timing import check, memory_of, start

LOOPS = {"256 private instructions": "counting", "a load": "loading"}
# Beside one thread that ends at once, 256 private instructions a turn: each is advanced outside the lock, or it is
# advanced twice.
BESIDE = ".entry 0\n.entry 2\nADDI r1, r1, 1\nJMP 0\nHALT\n"
# Replies with the bytes of its request.
ECHO = ".entry 0\n.page 0 -\nLI r3, 4096\nSYS 4\nMOV r3, r0\nLI r1, 1\nSYS 5\nHALT\n"
# How often a run is measured, and the bytes of each request of the runs whose memory is measured.
TIMES = 5
LENGTHS = (56, 4096)


def long_source(count: int) -> str:
    """A source of many lines without comments: this often the same loop, each with its own labels."""
    loop = "loop{0}: LI r2, 8\nSYS 4\nLDB r5, r4, 8\nJNZ r5, end{0}\nADDI r6, r6, 1\nSTW r6, r4, 0\n"
    loop += "JMP loop{0}\nend{0}: MOV r7, r6\n"
    return ".entry 0\n" + "".join(loop.format(i) for i in range(count)) + "HALT\n"


def of_modes(kinds: Kinds) -> Iterator[tuple[str, float]]:
    """Each kind of step under a monitor and beside a vault, of turns beside others, and of lines that are read or
    written, and its host instructions."""
    vault, budget = os.path.join(GUESTS, "signer.vault"), ["--budget", "100000"]
    for what, name in LOOPS.items():
        image = kinds.guest(name)
        yield (
            f"{what} under a monitor",
            kinds.each(lambda n: ["monitor", image, kinds.schedules[n], *budget], (500, 2500)),
        )
        yield (
            f"{what} beside a vault",
            kinds.each(lambda n: ["vault", image, vault, kinds.schedules[n], *budget], (500, 2500)),
        )
    yield "a turn of 256 private instructions beside another thread", kinds.turn(kinds.image("beside", BESIDE))
    four = kinds.image("four", BESIDE.replace(".entry 2\n", ".entry 0\n" * 3))
    yield "256 private instructions of each of 4 threads", kinds.turn(four)
    sources = {n: kinds.work.write(f"long_{n}.s", long_source(n)) for n in (1000, 4000)}
    images = {n: kinds.work.write(f"long_{n}.lwc", run_program([kinds.program, "asm", sources[n]])) for n in sources}
    yield "8 lines of a source", kinds.each(lambda n: ["asm", sources[n]], (1000, 4000))
    yield "8 lines of a listing", kinds.each(lambda n: ["dis", images[n]], (1000, 4000))
    yield "8 instructions that are lifted", kinds.each(lambda n: ["lift", images[n]], (1000, 4000))


def pages_of(words: list[str]) -> float:
    """The pages that a run of the program touches, in the middle of some runs."""
    found: list[int] = []
    for _ in range(TIMES):
        _, status, usage = os.wait4(start(words), 0)
        check(words, status)
        found.append(usage.ru_minflt)
    return float(statistics.median(found))


def of_memory(kinds: Kinds) -> Iterator[tuple[str, float]]:
    """The pages that 1024 requests touch, more than none do, in a serve that stores and in serves and streams of
    replies of so many bytes, and the peak of the longest replies."""
    image, none = kinds.image("echo", ECHO), kinds.work.write("none", "")
    handler = kinds.guest("counter_handler", "guests")
    line = ["serve", handler, kinds.work.write("storing", "00\n" * 1024), "--workers", "1"]
    yield "pages that a serve of 1024 requests touches", pages_of(line) - pages_of([*line[:2], none, *line[3:]])
    for length in LENGTHS:
        requests = kinds.work.write(f"requests_of_{length}", ("a5" * length + "\n") * 1024)
        for mode in ("serve", "stream"):
            line = [mode, image, requests, "--workers", "1"]
            touched = pages_of(line) - pages_of([mode, image, none, *line[3:]])
            yield f"pages that a {mode} of 1024 replies of {length} bytes touches", touched
            if length == max(LENGTHS):
                peak = statistics.median(memory_of(line) for _ in range(TIMES))
                yield f"the peak of a {mode} of 1024 replies of {length} bytes in kilobytes", peak * 1024
