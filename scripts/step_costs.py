"""The kinds of steps whose host instructions are counted: guests, and how many instructions one thing of each is."""

from __future__ import annotations

import os
import struct
from collections.abc import Callable, Iterator

from counting import counts_of
from lwcrun_tools.checkout import TOP
from lwcrun_tools.command import WorkFolder
from lwcrun_tools.processes import run_program

# The steps of a short and a long run, fewer where they are dear, and the requests of such serves: what is counted is
# the difference.
STEPS, DEAR, REQUESTS = (500, 2500), (200, 400), (24, 224)
# The steps of a thread that come after those of all threads that make the contexts.
LIVE = (6, 12)
LOOPS = {
    "256 private instructions": "counting",
    "a store": "storing",
    "a load": "loading",
    "a refused call": "refused",
    "a create or close": "forgetting",
    "a switch or close": "switching",
}
# An item of one shared page, and pages that go with it.
SHARED = ".page 0 00000000010000000100000002000000\n.page 1 -\n"
# A thread that loads without end, beside one that halts at once.
BESIDE = ".entry 0\n.entry 2\nLDW r1, r0, 0\nJMP 0\nHALT\n.page 0 -\n"
# A context that shares page 1 lives on, and others are made and closed.
CUT_WITH_GROUP = ".entry 0\nLI r2, 1\nSYS 16\nloop: LI r2, 0\nSYS 16\nMOV r1, r0\nSYS 2\nJMP loop\n" + SHARED
# What a loop does whose context has 63 ranges, pages 0, 2 .. 124. An item that leaves page 400 out is at address 0.
AMONG_63 = {
    "a change of one range among 63": "LI r1, 126\nLI r2, 127\nSYS 6\nLI r1, 126\nSYS 7\n",
    "a map of one page among 63 ranges": "LI r1, 0\nLI r2, 1\nSYS 6\n",
    "a create or close among 63 ranges": "LI r2, 0\nSYS 16\nMOV r1, r0\nSYS 2\n",
    "a create or close with an item among 63 ranges": "LI r1, 0\nLI r2, 1\nSYS 16\nMOV r1, r0\nSYS 2\n",
    "a load in the last of 63 ranges": f"LDW r3, r5, {124 * 4096}\n",
    "a store in the last of 63 ranges": f"STW r3, r5, {124 * 4096}\n",
}
# What a loop does while other contexts live and one shares page 900 with this one, whose slot is in r11.
WHILE_A_GROUP_LIVES = {
    "a setuid": "LI r1, 0\nSYS 9\n",
    "an overlay of one page": f"MOV r1, r11\nLI r2, {900 * 4096}\nLI r3, 1\nSYS 19\n",
}
# An overlay of a slot may cut links, so that a reap might search among all contexts.
OVERLAY_OF_A_SLOT = f"MOV r1, r11\nLI r2, {900 * 4096 + 16}\nLI r3, 1\nSYS 19\n"
# Six steps that make a context, and another one in it, and drop both at once, for which a reap searches all contexts.
DROP_OF_TWO = (
    "LI r2, 0\nSYS 16\nADDI r9, r0, 1\nJZ r9, inner\nMOV r12, r0\nMOV r1, r0\nLI r2, 0\nSYS 17\nSYS 2\n"
    "MOV r1, r12\nSYS 2\nJMP loop\ninner: MOV r10, r1\nLI r2, 0\nSYS 16\nMOV r1, r10\nLI r2, 0\nSYS 17\n"
)
# How many threads make how many contexts each, of how many ranges.
LIVING = {
    "4 contexts": (1, 3, 2),
    "497 contexts": (16, 31, 2),
    "497 contexts of 63 ranges": (16, 31, 63),
}


def item(kind: int, mode: int, start: int, end: int) -> str:
    """An item of a specifier in hexadecimal."""
    return struct.pack("<IIII", kind, mode, start, end).hex()


def among(ranges: int, body: str, items: int = 1) -> str:
    """A source that goes on doing this without end, in a context of so many ranges of one page, of which the first has
    so many items that each leave a page out."""
    left_out = "".join(item(0, 2, page, page + 1) for page in range(400, 400 + 2 * items, 2))
    pages = [f".page 0 {left_out}\n", *(f".page {2 * page} -\n" for page in range(1, ranges))]
    return f".entry 0\nloop: {body}JMP loop\n" + "".join(pages)


def living(threads: int, contexts: int, ranges: int, body: str) -> str:
    """A source whose threads make so many contexts each of so many ranges, and that then goes on doing this."""
    pages = [f".page {2 * page} -\n" for page in range(ranges - 1)]
    make = "LI r2, 0\nSYS 16\nADDI r9, r0, 1\n"
    return "".join(
        [
            ".entry 0\n" * threads,
            make + "JZ r9, child\nMOV r1, r0\nLI r2, 0\nSYS 17\nHALT\n",
            f"child: LI r13, {contexts - 2}\nmore: JZ r13, ready\n{make}JZ r9, lost\nADDI r13, r13, -1\nJMP more\n",
            f"lost: HALT\nready: LI r1, {900 * 4096}\nLI r2, 1\nSYS 16\nADDI r9, r0, 1\nJZ r9, lost\nMOV r11, r0\n",
            f"loop: {body}JMP loop\n",
            *pages,
            f".page 900 {item(0, 1, 0, 1)}{item(1, 0, 20, 21)}\n",
        ]
    )


class Kinds:
    """The program, and a folder for what it reads."""

    def __init__(self, program: str, work: WorkFolder) -> None:
        self.program, self.work = program, work
        self.schedules = {n: work.write(f"schedule_{n}", "0" * n) for n in (0, *DEAR, *STEPS)}

    def count(self, *words: str) -> int:
        """The host instructions of the program for the words."""
        return counts_of(self.work.folder, [self.program, *words])["all"]

    def each(self, words: Callable[[int], list[str]], numbers: tuple[int, int]) -> float:
        """The host instructions of one thing, by the difference of two runs with these numbers of it."""
        short, long = (self.count(*words(n)) for n in numbers)
        return (long - short) / (numbers[1] - numbers[0])

    def image(self, name: str, source: str) -> str:
        """The file of the image that a source makes."""
        text = run_program([self.program, "asm", self.work.write(f"{name}.s", source)])
        return self.work.write(f"{name}.lwc", text)

    def guest(self, name: str, folder: str = "bench") -> str:
        """The file of the image of a guest."""
        with open(os.path.join(TOP, folder, f"{name}.s"), encoding="utf-8") as source:
            return self.image(name, source.read())

    def step(self, image: str, steps: tuple[int, int] = STEPS) -> float:
        """The host instructions of a step of a guest that goes on without end."""
        return self.each(lambda n: ["replay", image, self.schedules[n], "--budget", "100000"], steps)

    def turn(self, image: str) -> float:
        """The host instructions of a turn of a thread that goes on until its budget ends."""
        return self.each(lambda n: ["run", image, "--budget", str(n)], STEPS)

    def request(self, image: str) -> float:
        """The host instructions of a request of a serve."""
        requests = {n: self.work.write(f"requests_{n}", "00\n" * n) for n in REQUESTS}
        return self.each(lambda n: ["serve", image, requests[n], "--workers", "1"], REQUESTS)

    def step_beside(self, threads: int, contexts: int, ranges: int, body: str) -> float:
        """The host instructions of a step beside the contexts that threads make, of which the first one shares a
        page."""
        image = self.image("living", living(threads, contexts, ranges, body))
        first = "".join("%x" % thread * contexts for thread in reversed(range(threads)))
        names = {n: self.work.write(f"beside_{n}", f"{first}0{'0' * n}") for n in LIVE}
        return self.each(lambda n: ["replay", image, names[n], "--budget", "100000"], LIVE)

    def plain(self) -> Iterator[tuple[str, float]]:
        """Each kind of step, turn and request of plain guests, and its host instructions."""
        for kind, name in LOOPS.items():
            yield kind, self.step(self.guest(name))
        yield "a create or close while a group lives", self.step(self.image("group", CUT_WITH_GROUP), DEAR)
        loading = self.guest("loading")
        yield "a turn of a run of one thread", self.turn(loading)
        yield "a turn beside another thread", self.turn(self.image("beside", BESIDE))
        script = self.work.write("script", "goto 400\nthread 0\ngoto 0\nthread 0\n" * 16)
        yield (
            "a step under the debugger",
            self.each(lambda n: ["debug", loading, self.schedules[n], script, "--budget", "100000"], STEPS),
        )
        yield "an opening", self.count("replay", loading, self.schedules[0])
        # A stream's count depends on how often its caller finds nothing to write.
        yield "a request of a serve", self.request(self.guest("counter_handler", "guests"))

    def dear(self) -> Iterator[tuple[str, float]]:
        """Each kind of step that a guest can make dear within the limits, and its host instructions."""
        for kind, body in AMONG_63.items():
            yield kind, self.step(self.image("among", among(63, body)), DEAR)
        alone = among(1, AMONG_63["a create or close with an item among 63 ranges"])
        yield "a create or close with an item", self.step(self.image("item", alone), DEAR)
        with_32 = among(63, "LI r1, 0\nLI r2, 32\nSYS 16\nMOV r1, r0\nSYS 2\n", items=32)
        yield "a create or close with 32 items among 63 ranges", self.step(self.image("items", with_32), DEAR)
        # One range of many pages: a walk from page to page is dear here.
        many = "".join(f".page {page} -\n" for page in range(1, 1024))
        mapping = among(1, AMONG_63["a map of one page among 63 ranges"]) + many
        yield "a map of one page among 1024", self.step(self.image("mapping", mapping), DEAR)
        yield "a create or close with an item among 1024 pages", self.step(self.image("leaving", alone + many), DEAR)
        with open(os.path.join(TOP, "guests", "counter_handler.s"), encoding="utf-8") as source:
            handler = source.read()
        pages = "".join(f".page {2 * page} -\n" for page in range(200, 262))
        yield "a request of a serve with 63 ranges", self.request(self.image("handler", handler + pages))
        for kind, body in WHILE_A_GROUP_LIVES.items():
            for beside, numbers in LIVING.items():
                yield f"{kind} beside {beside} while a group lives", self.step_beside(*numbers, body)
        for beside in ("4 contexts", "497 contexts"):
            slot = self.step_beside(*LIVING[beside], OVERLAY_OF_A_SLOT)
            yield f"an overlay of one slot beside {beside} while a group lives", slot
        yield "a step that makes or drops two contexts beside 465", self.step_beside(16, 29, 2, DROP_OF_TWO)
