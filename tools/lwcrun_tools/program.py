"""Where the program is: the best one that is there for these sources."""

from __future__ import annotations

import os
import subprocess
import sys

from lwcrun_tools.checkout import GUESTS, PACKED, PROGRAM, UNPROVED, has_sources, is_built
from lwcrun_tools.exits import FAILED, NAME, NOT_BUILT, give_up, say

NOT_PROVED = "not proved: the sources are compiled as they are; ./lwcrun --prove proves them"


def best_program() -> str:
    """The program of a download, or the proved program of this checkout's sources; else one that is compiled of them
    with nothing proved, which takes about a minute where there is none yet, and is said to be so each time."""
    if not has_sources():
        return PACKED
    if is_built():
        return PROGRAM
    # Only a call without a proved program pays for this.
    from lwcrun_tools.toolchain import NotMade
    from lwcrun_tools.unproved import make_program

    try:
        make_program()
    except (NotMade, OSError) as error:
        say(f"the program was not compiled: {error}")
        sys.exit(NOT_BUILT)
    say(NOT_PROVED)
    return UNPROVED


def find_program(given: str | None = None) -> str:
    """The program that is given, or that LWCRUN names; else the best one that is there."""
    named = given or os.environ.get("LWCRUN")
    if not named:
        return best_program()
    if not (os.path.isfile(named) and os.access(named, os.X_OK)):
        give_up(f"{NAME}: no program is at {named}", FAILED)
    words = [named, "dis", os.path.join(GUESTS, "store_load.lwc")]
    try:
        done = subprocess.run(words, stdin=subprocess.DEVNULL, capture_output=True, check=False)
    except OSError as error:
        give_up(f"{NAME}: {named} cannot be run: {error.strerror}", FAILED)
    if b"HALT" not in done.stdout:
        give_up(f"{NAME}: {named} is no lwcrun: it lists no instruction of {words[2]}", FAILED)
    return os.path.realpath(named)
