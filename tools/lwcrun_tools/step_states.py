"""The steps of a run: of each the thread before and after it, the reports, and where it came to."""

import concurrent.futures
import os
from collections.abc import Callable, Iterable, Iterator
from dataclasses import dataclass
from typing import TypeVar

from lwcrun_tools import probes
from lwcrun_tools.command import Progress
from lwcrun_tools.machine import MOST_COMMANDS
from lwcrun_tools.machine_words import Item
from lwcrun_tools.refusals import call_program
from lwcrun_tools.replayed_run import PLAIN, Run
from lwcrun_tools.run_report import Report, Thread, thread_of

JOBS = len(os.sched_getaffinity(0))
Given = TypeVar("Given")
Made = TypeVar("Made")


@dataclass
class Turn:
    """A step of the run: its thread before and after it, where it came to, and the items that its call read, where
    they are known."""

    step: int
    thread: int
    was: Thread
    now: Thread
    stop: probes.Stop | None = None
    items: list[Item] | None = None
    before: Report | None = None
    after: Report | None = None


def side_by_side(work: Callable[[Given], Made], given: Iterable[Given], said: Callable[[int], str]) -> Iterator[Made]:
    """The results of some work, done side by side and handed out in order; no more than a few are begun ahead, so that
    a failure ends soon."""
    progress = Progress()
    with concurrent.futures.ThreadPoolExecutor(JOBS) as pool:
        waiting: list[concurrent.futures.Future[Made]] = []
        try:
            for made, it in enumerate(given, 1):
                waiting.append(pool.submit(work, it))
                if len(waiting) > 4 * JOBS:
                    yield waiting.pop(0).result()
                progress.show(said(made - len(waiting)))
            while waiting:
                yield waiting.pop(0).result()
        finally:
            for future in waiting:
                future.cancel()
            progress.clear()


def beginnings(run: Run, last: int) -> Iterator[Report]:
    """The reports after 0, 1, 2 .. steps."""
    yield from side_by_side(run.report, range(last + 1), lambda made: f"{made} of {last + 1} beginnings replayed")


def threads_by_debug(run: Run, last: int) -> Iterator[Thread]:
    """The thread of each step of a plain run after it: the program answers for as many steps at once as a script has
    commands."""

    def ask(first: int) -> list[Thread]:
        steps = range(first, min(first + MOST_COMMANDS // 2, last + 1))
        lines = run.answers(
            [line for step in steps for line in (f"goto {step}", f"thread {int(run.steps[step - 1], 16)}")]
        )
        found = [thread_of(line.split(" ")) for line in lines[1::3]]
        for thread, line in zip(found, lines[2::3]):
            thread.regs = [int(word) for word in line.split(" ")[2:]]
        return found

    starts = range(1, last + 1, MOST_COMMANDS // 2)
    for found in side_by_side(ask, starts, lambda made: f"{made * MOST_COMMANDS // 2} of {last} steps"):
        yield from found


def turns_of(run: Run, last: int, whole: bool) -> list[Turn]:
    """The first steps of a run. With `whole` each has the reports before and after it; of a plain run the threads
    alone are fewer questions."""
    if whole or run.kind != PLAIN:
        reports = list(beginnings(run, last))
        made = [
            Turn(i + 1, t := int(run.steps[i], 16), old.threads[t], new.threads[t], before=old, after=new)
            for i, (old, new) in enumerate(zip(reports, reports[1:]))
        ]
    else:
        latest, made = dict(enumerate(run.report(0).threads)), []
        for i, now in enumerate(threads_by_debug(run, last)):
            thread = int(run.steps[i], 16)
            made.append(Turn(i + 1, thread, latest[thread], now))
            latest[thread] = now
    ask_stops(run, made)
    return made


def ask_stops(run: Run, turns: list[Turn]) -> None:
    """Notes where each step came to."""
    asked = []
    for turn in turns:
        if turn.was.status == "idle":
            continue
        if turn.now.status.startswith(("done", "fault")) and turn.now.status != "fault 5":
            turn.stop = probes.Stop(turn.now.pc, False, turn.now.regs)
        else:
            asked.append(turn)
    most = probes.room(run.image)
    if most <= 0:
        return
    parts = [asked[at : at + most] for at in range(0, len(asked), most)]

    def ask(part: list[Turn]) -> list[probes.Stop]:
        image = run.write("probe", probes.probe_image(run.image, [it.was for it in part]))
        words = [run.program, "replay", image, run.write("schedule", probes.probe_schedule(len(part)))]
        return probes.stops_in(call_program(words).decode())

    for part, stops in zip(
        parts, side_by_side(ask, parts, lambda made: f"{made} of {len(parts)} questions where steps went")
    ):
        for turn, stop in zip(part, stops):
            turn.stop = stop
