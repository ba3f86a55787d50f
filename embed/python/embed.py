#!/usr/bin/env python3
"""Serves the requests of a guest and compares the replies, and makes a run step by step."""

import os
import sys

import lwcrun

GUESTS = os.path.join(lwcrun.TOP, "guests")
STORING = ".entry 0\n.page 0 -\nLI r1, 7\nSTW r1, r0, 0\nHALT\n"


def main():
    with open(os.path.join(GUESTS, "counter_handler.lwc"), "rb") as file:
        image = file.read()
    with open(os.path.join(GUESTS, "counter_handler.requests"), encoding="ascii") as file:
        requests = [bytes.fromhex(line) for line in file]
    report = lwcrun.serve(image, requests)
    print("replies:", ", ".join(report.replies))
    if report.replies != ["done 0 01", "done 0 01", "fault 2 -", "done 0 01"]:
        return 1
    with lwcrun.Run(lwcrun.assemble(STORING), frames=4) as run:
        thread = run.thread()
        while not thread.has_ended:
            thread = run.step()
            print(f"step {run.totals().steps}: {thread.status}, the page begins with {run.page(thread.context, 0)[0]}")
        return 0 if run.page("0.0", 0)[0] == 7 and run.totals().steps == 2 else 1


if __name__ == "__main__":
    sys.exit(main())
