"""Host instructions of steps, turns, digits and bytes, for `bench --count`: those of a long run less a short one's."""

from __future__ import annotations

import os
import re
import shutil
from collections.abc import Callable

from counting import NO_STRINGS, counts_of
from lwcrun_tools.command import WorkFolder
from lwcrun_tools.exits import NAME, SKIPPED, give_up
from mode_costs import long_source
from step_costs import Kinds
from timing import image_of, image_with, program, text_of, written

COUNTED = (1000, 11000)


def count_each(
    folder: str, words: Callable[[int], list[str]], part: str = ".*", statuses: tuple[int, ...] = (0,)
) -> float:
    """The host instructions of one thing: words(n) are a run with n of them; part is a pattern for functions."""
    short, long = (counts_of(folder, [program(), *words(n)], statuses) for n in COUNTED)
    if part == ".*":
        return (long["all"] - short["all"]) / (COUNTED[1] - COUNTED[0])
    of_part = [sum(count for name, count in counts.items() if re.match(part, name)) for counts in (short, long)]
    return (of_part[1] - of_part[0]) / (COUNTED[1] - COUNTED[0])


def count_bytes(
    folder: str, words: Callable[[str], list[str]], names: list[str], tunables: str = NO_STRINGS
) -> float:
    """The host instructions of a byte: the difference of two files' runs by that of their sizes."""
    short, long = (counts_of(folder, [program(), *words(name)], tunables=tunables)["all"] for name in names)
    return (long - short) / (os.path.getsize(names[1]) - os.path.getsize(names[0]))


def replays(image: str, schedules: dict[int, str], options: list[str]) -> Callable[[int], list[str]]:
    """The words of a replay of so many steps."""
    return lambda n: ["replay", image, schedules[n], *options]


def debugs(
    image: str, schedules: dict[int, str], scripts: dict[int, str], options: list[str]
) -> Callable[[int], list[str]]:
    """The words of a debugger's run of so many steps."""
    return lambda n: ["debug", image, schedules[n], scripts[n], *options]


def runs(image: str) -> Callable[[int], list[str]]:
    """The words of a run of so many turns."""
    return lambda n: ["run", image, "--budget", str(n)]


def counts(work: WorkFolder) -> None:
    """Prints the host instructions of each kind of step, of a turn, of a digit and of a byte."""
    if not shutil.which("valgrind"):
        give_up(f"{NAME}: valgrind is not there", SKIPPED)
    folder = work.folder
    schedules = {n: written(folder, f"schedule_{n}", "0" * n) for n in COUNTED}
    budget = ["--budget", "100000"]
    names = ("counting", "storing", "loading", "forgetting", "switching")
    guests = {name: image_with(folder, name, []) for name in names}
    guests["forgetting_1024"] = image_with(folder, "forgetting", [f".page {p} -" for p in range(1024)])
    steps = {name: count_each(folder, replays(image, schedules, budget)) for name, image in guests.items()}
    for name, what in (
        ("counting", "256 private instructions"),
        ("storing", "a store"),
        ("loading", "a load"),
        ("forgetting", "a create or close"),
        ("forgetting_1024", "a create or close of 1024 pages"),
        ("switching", "a switch or close"),
    ):
        print(f"{what}: {steps[name]:.0f}")
    for name in ("counting", "loading"):
        turn = count_each(folder, runs(guests[name]))
        print(f"{name}: a turn of `run` over a step of `replay`: {turn - steps[name]:+.0f}")
    # Each place is far from the one before it.
    scripts = {n: written(folder, f"script_{n}", f"goto {n}\npage 0.0 0\ngoto 0\nthread 0\n" * 16) for n in COUNTED}
    for name in ("counting", "loading", "storing", "forgetting"):
        debugged = count_each(folder, debugs(guests[name], schedules, scripts, budget))
        ratio = debugged / steps[name]
        print(f"{name}: a step under a script of 64 commands, to and fro, by a step of `replay`: {ratio:.2f}")
    refused = {n: written(folder, f"refused_{n}", "0" * n + "x") for n in COUNTED}
    read = count_each(folder, lambda n: ["replay", guests["loading"], refused[n]], statuses=(6,))
    wrote = count_each(folder, replays(guests["loading"], schedules, budget), part="lwc_text::(lines|digits)::")
    print(f"a digit of the schedule: {read:.1f} read, {wrote:.1f} written")
    counts_of_bytes(folder)
    for kind, number in Kinds(program(), work).dear():
        print(f"{kind}: {number:.0f}", flush=True)


def counts_of_bytes(folder: str) -> None:
    """Prints the host instructions of a byte of an image's pages, of its text, and of a source."""
    empty = written(folder, "empty", "")
    pages = [image_with(folder, "loading", [f".page {p} -" for p in range(1, count)]) for count in (1, 1024)]

    def replay(image: str) -> list[str]:
        return ["replay", image, empty]

    with_tunables, without = (count_bytes(folder, replay, pages, tunables=t) for t in (NO_STRINGS, ""))
    print(f"a byte of an image's pages: {with_tunables:.2f}, without the tunables {without:.2f}")
    sources = [written(folder, f"long_{count}.s", long_source(count)) for count in (100, 1000)]
    texts = [image_of(folder, os.path.basename(name)[:-2], text_of(name)) for name in sources]
    print(f"a byte of an image's text: {count_bytes(folder, replay, texts):.1f}")
    print(f"a byte of a source: {count_bytes(folder, lambda name: ['asm', name], sources):.1f}")
