"""The toolchain that proves and compiles: whether it is there, and sums of what it reads."""

from __future__ import annotations

import hashlib

from lwcrun_tools.checkout import kit_of

NO_TOOLCHAIN = (
    "the toolchain's command rt is not on the path: docs/CONTRIBUTING.md says where it is from; a download needs none"
)


class NotMade(Exception):
    """The program could not be made, and why."""


def needed_kit() -> str:
    """The folder of the toolchain. Raises NotMade where it is not on the path."""
    kit = kit_of()
    if not kit:
        raise NotMade(NO_TOOLCHAIN)
    return kit


def sum_of(file: str) -> str:
    """The sum of a file's bytes."""
    with open(file, "rb") as content:
        return hashlib.sha256(content.read()).hexdigest()
