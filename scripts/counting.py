"""Host instructions of a program, as valgrind's callgrind counts them. They hardly differ from run to run."""

from __future__ import annotations

import os
import re
import subprocess
from collections.abc import Sequence

from lwcrun_tools.exits import FAILED, NAME, give_up

# Tells the C library to clear and copy no memory by single bytes, which callgrind would count one by one.
NO_STRINGS = "glibc.cpu.x86_rep_stosb_threshold=1000000000:glibc.cpu.x86_rep_movsb_threshold=1000000000"


def counts_of(
    folder: str, words: Sequence[str], statuses: tuple[int, ...] = (0,), tunables: str = NO_STRINGS
) -> dict[str, int]:
    """The host instructions of a program and its words, by function, and of all together under the name `all`."""
    out = os.path.join(folder, "callgrind")
    command = ["valgrind", "--tool=callgrind", f"--callgrind-out-file={out}", *words]
    done = subprocess.run(command, env={**os.environ, "GLIBC_TUNABLES": tunables}, capture_output=True, check=False)
    if done.returncode not in statuses:
        give_up(f"{NAME}: lwcrun {' '.join(words[1:])}: status {done.returncode}", FAILED)
    counts: dict[str, int] = {}
    names: dict[str, str] = {}
    own, called = "", False
    with open(out, encoding="utf-8", errors="replace") as file:
        for line in file:
            name = re.match(r"(c?)fn=\((\d+)\)(?: (.*))?", line)
            cost = re.match(r"(?:\d+|[+*-]\d*) (\d+)", line)
            if name:
                names.setdefault(name[2], name[3])
                own = own if name[1] else names[name[2]]
            elif line.startswith("calls="):
                called = True
            elif cost and not called:
                counts[own] = counts.get(own, 0) + int(cost[1])
            elif cost:
                called = False
    [collected] = re.findall(rb"Collected : (\d+)", done.stderr)
    return {**counts, "all": int(collected)}
