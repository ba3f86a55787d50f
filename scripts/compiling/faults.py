"""Faults that are put into the translator by hand, each of which the check of instructions has to find."""

from __future__ import annotations

import os
import random
import shutil
from dataclasses import dataclass

from compiling import instructions
from compiling.bench_tools import CheckFailed, Workshop
from lwcrun_tools.checkout import TOOLS

FOLDER = os.path.join("lwcrun_tools", "compiling")


@dataclass(frozen=True)
class Fault:
    """One changed place of a file, and the instructions by which it shows."""

    file: str
    old: str
    new: str
    shown_by: tuple[str, ...]

    @property
    def name(self) -> str:
        return f"{self.file}: `{self.old.strip()}` as `{self.new.strip()}`"


WAYS_OF_STORES = (["--word-stores"], ["--byte-stores"])
FAULTS = [
    Fault("sequences.py", "text.add_number(rd, ZERO, -1)", "text.add_number(rd, ZERO, -2)", ("div", "divw")),
    Fault("sequences.py", "signed(plus - SIGN, 32)", "signed(plus - SIGN + (plus == 2047), 32)", ("addiw",)),
    Fault(
        "sequences.py",
        "text.load_high(SECOND, 1 << (31 - count))",
        "text.load_high(SECOND, 1 << (30 - count))",
        ("srai",),
    ),
    Fault(
        "sequences.py",
        'with_number(text, "AND", SCRATCH, rb, 31)',
        'with_number(text, "AND", SCRATCH, rb, 63)',
        ("sraw",),
    ),
    Fault(
        "sequences.py",
        "    text.load_low(ZERO, 0)\n    text.move(rd, SECOND)",
        "    text.move(rd, SECOND)",
        ("mulhu",),
    ),
    Fault(
        "sequences.py", 'text.three("ADD", SCRATCH, rb, SCRATCH)', 'text.three("SUB", SCRATCH, rb, SCRATCH)', ("blt",)
    ),
    Fault("arithmetic.py", "2: (True, False)", "2: (True, True)", ("mulhsu",)),
    Fault("arithmetic.py", "5: signed(right >> shift, 32)", "5: signed(low >> shift, 32)", ("sraiw",)),
    Fault("memory_access.py", "text.load_low(SECOND, 6)", "text.load_low(SECOND, 4)", ("lh",)),
    Fault("memory_access.py", "with_four = at.offset % 8 == 4", "with_four = False", ("lw",)),
    Fault("memory_access.py", "at.modulo == 6", "at.modulo >= 4", ("lhu",)),
    Fault(
        "memory_access.py", 'text.three("XOR", SCRATCH, SECOND, rb)', 'text.three("OR", SCRATCH, SECOND, rb)', ("sw",)
    ),
    Fault("memory_access.py", "at.offset + i)", "at.offset + (i ^ (i == 3)))", ("sw",)),
    Fault("demand.py", "(7, 0), (0, 1))", "(7, 0), (0, 1), (5, 0))", ("chain",)),
    Fault("demand.py", "return asked | ({it.rs1, it.rs2} if it.f3 == 3 else {it.rs1})", "return asked", ("chain",)),
    Fault(
        "translation.py", "offset & 7 if it.rs1 == 2 else None", "offset & 3 if it.rs1 == 2 else None", ("lw", "sw")
    ),
    Fault("translation.py", "else a, is_equal, label)", "else a, not is_equal, label)", ("beq",)),
]


def copy_with(shop: Workshop, fault: Fault) -> str:
    """A copy of the tools with a fault in it."""
    tools = shop.work.path("tools-with-a-fault")
    shutil.rmtree(tools, ignore_errors=True)
    shutil.copytree(TOOLS, tools, ignore=shutil.ignore_patterns("__pycache__"))
    file = os.path.join(tools, FOLDER, fault.file)
    with open(file, encoding="utf-8") as content:
        text = content.read()
    if text.count(fault.old) < 1:
        raise CheckFailed(f"{fault.file} has no `{fault.old}`: change scripts/compiling/faults.py")
    shop.write(file, text.replace(fault.old, fault.new, 1))
    return tools


def find_faults(shop: Workshop, chance: random.Random) -> tuple[int, list[str]]:
    """How many faults were put in, and the ones that were not found."""
    missed = []
    for fault in FAULTS:
        broken = Workshop(shop.program, shop.work, copy_with(shop, fault), shop.made)
        found = False
        for words in WAYS_OF_STORES if "sw" in fault.shown_by else WAYS_OF_STORES[:1]:
            broken.told = list(words)
            try:
                found = found or bool(instructions.check(broken, chance, fault.shown_by)[2])
            except CheckFailed:
                # A translator that stops at its own fault has shown it too.
                found = True
        shop.made = broken.made
        if not found:
            missed.append(fault.name)
        print(f"{'found' if found else 'NOT FOUND'}: {fault.name}", flush=True)
    return len(FAULTS), missed
