"""How serves do with more workers, and beside a slow request."""

from __future__ import annotations

import os
import signal
import statistics
import time
from collections import Counter
from collections.abc import Sequence

from step_costs import WHILE_A_GROUP_LIVES, living
from timing import check, image_of, seconds_of, source_of, start, text_of, written

REQUESTS = 1024
ONE, WORKERS = "1 worker", (2, 4, 16)
REPLY = "LI r1, 1\nLI r2, 0\nLI r3, 1\nSYS 5\nHALT\n"
HANDLERS = {
    "9000 stores": f".entry 0\n.page 0 -\nLI r5, 9000\nl: STW r5, r4, 0\nADDI r5, r5, -1\nJNZ r5, l\n{REPLY}",
    "1000 x 256 private": ".entry 0\n.page 0 -\nLI r5, 64000\nl: ADDI r1, r1, 1\nXOR r3, r3, r1\n"
    f"ADDI r5, r5, -1\nJNZ r5, l\n{REPLY}",
    "1000 x 128 private and a store": ".entry 0\n.page 0 -\nLI r5, 1000\nl: LI r6, 42\nm: ADDI r1, r1, 1\n"
    f"ADDI r6, r6, -1\nJNZ r6, m\nSTW r1, r4, 0\nADDI r5, r5, -1\nJNZ r5, l\n{REPLY}",
}
# A request whose first byte is not 0 overlays a page again and again in a context of 63 ranges, while 32 contexts and
# a group live; another one replies at once.
SLOW = (
    f".entry 0\nLI r2, 0\nLI r3, 1\nLI r1, 0\nSYS 4\nLDB r5, r4, 0\nJNZ r5, slow\n{REPLY}slow: LI r0, 0\n"
    + living(1, 31, 63, WHILE_A_GROUP_LIVES["an overlay of one page"]).removeprefix(".entry 0\n")
)
# How long the slow request takes at most, the steps of the run that tells how many these are, and the most steps: a
# serve of 1024 may make 16,000,000.
SLOW_SECONDS, PROBE, MOST_BUDGET = 8.0, 1000, 15000


def timed(lines: Sequence[Sequence[str]]) -> tuple[float, float]:
    """The seconds of runs side by side, by the clock and of the processors."""
    began, spent = time.monotonic(), 0.0
    pids = [start(words) for words in lines]
    try:
        for words, pid in zip(lines, pids):
            _, status, usage = os.wait4(pid, 0)
            check(words, status)
            spent += usage.ru_utime + usage.ru_stime
    except KeyboardInterrupt:
        for pid in pids:
            os.kill(pid, signal.SIGKILL)
        raise
    return time.monotonic() - began, spent


def scale(folder: str, rounds: int) -> None:
    """Prints for each handler how fast its serves are by those with one worker: the medians of rounds, in each of
    which all are run by turns."""
    whole, part = (written(folder, f"requests_{n}", "00\n" * n) for n in (REQUESTS, REQUESTS // 4))
    for name, text in {"7 steps": source_of("counter_handler"), **HANDLERS}.items():
        image = image_of(folder, "handler", text)
        line = [image, whole, "--budget", "12000", "--workers"]
        lines = {ONE: [["serve", *line, "1"]]}
        lines |= {f"{count} workers": [["serve", *line, str(count)]] for count in WORKERS}
        lines["a stream with 4 workers"] = [["stream", *line, "4"]]
        lines["4 processes"] = [["serve", image, part, "--budget", "12000", "--workers", "1"]] * 4
        runs = [{kind: timed(words) for kind, words in lines.items()} for _ in range(rounds)]
        medians = {kind: [statistics.median(it) for it in zip(*(run[kind] for run in runs))] for kind in lines}
        one = medians[ONE][0]
        for kind, (seconds, spent) in medians.items():
            print(
                f"1024 requests of {name}, {kind}: {seconds * 1e3:.1f} ms, {one / seconds:.2f} times as fast as one"
                f" worker; {spent * 1e3:.1f} ms of the processors",
                flush=True,
            )


def neighbour(folder: str) -> None:
    """Prints how far a slow request was when parts of the steps of 1023 others were made, with 4 workers."""
    image = image_of(folder, "slow", SLOW)
    alone, among = (written(folder, f"beside_{n}", "01\n" + "00\n" * n) for n in (0, REQUESTS - 1))
    step = seconds_of(["serve", image, alone, "--budget", str(PROBE)]) / PROBE
    budget = str(min(MOST_BUDGET, round(SLOW_SECONDS / step)))
    report = os.path.join(folder, "report")
    whole = seconds_of(["serve", image, alone, "--budget", budget])
    seconds_of(["serve", image, among, "--budget", budget, "--workers", "4"], report)
    steps = text_of(report).rsplit("\nschedule ", 1)[1].strip()
    [(slow, most)] = Counter(steps).most_common(1)
    others = len(steps) - most
    print(
        f"a request of {most} steps takes {whole:.2f} s alone; beside it, with 4 workers, of {others} steps of others"
    )
    made, own = 0, 0
    parts = {"half": others / 2, "nine of ten": others * 0.9, "all": others}
    for digit in steps:
        own += digit == slow
        made += digit != slow
        for part, count in list(parts.items()):
            if made >= count:
                print(f"  {part} were made when it had done {own} of its own, about {own / most * whole:.3f} s")
                del parts[part]
