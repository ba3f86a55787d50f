"""Random programs in C by csmith: each has to print the same sum as a guest and on this machine."""

from __future__ import annotations

import random
import subprocess

from compiling.bench_tools import PROGRAMS, Workshop

# What csmith leaves out: packed structs, whose misaligned accesses fault in a guest, and floating point. Programs are
# small, since a guest has 100000 steps.
SHAPE = "--no-argc --concise --no-packed-struct --no-float --max-funcs 4 --max-block-depth 2 --max-array-len-per-dim 4"


EQUAL, NOT_COMPARED = "equal", ("out of budget", "does not end here")


def program(seed: int) -> bytes:
    """The program of a seed. Its header is the one of scripts/compiling/programs."""
    words = ["csmith", "--seed", str(seed), *SHAPE.split()]
    return subprocess.run(words, stdout=subprocess.PIPE, stderr=subprocess.DEVNULL, check=True).stdout


def check(shop: Workshop, chance: random.Random, count: int) -> tuple[dict[str, int], list[int]]:
    """How many programs ended how, and the seeds of those whose sums differ. It goes on until so many were compared, or
    thrice as many were made."""
    ends: dict[str, int] = {}
    wrong: list[int] = []
    for _ in range(3 * count):
        seed = chance.getrandbits(31)
        end = run(shop, seed, chance.choice("0123s"))
        ends[end] = ends.get(end, 0) + 1
        if end not in (EQUAL, *NOT_COMPARED):
            wrong.append(seed)
        if ends.get(EQUAL, 0) + len(wrong) == count:
            break
    return ends, wrong


def run(shop: Workshop, seed: int, level: str) -> str:
    """How a program compares."""
    file = shop.write(shop.path(".c"), program(seed))
    native = shop.native([file], "-fwrapv", "-fno-strict-aliasing")
    try:
        expected = subprocess.run([native], stdout=subprocess.PIPE, timeout=5, check=False)
    except subprocess.TimeoutExpired:
        return NOT_COMPARED[1]
    words = ["--clang=-w", "--clang=-fwrapv", "--clang=-fno-strict-aliasing"]
    image = shop.compile([file], f"-I{PROGRAMS}", f"-O{level}", *words)
    end, console = shop.run_guest(image)
    if end == "fault 5":
        return NOT_COMPARED[0]
    return (
        EQUAL if (end, console) == ("done 0", expected.stdout) and expected.returncode == 0 else f"{end}, other sum"
    )
