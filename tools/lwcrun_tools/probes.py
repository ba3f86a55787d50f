"""Where the steps of a run went, by asking the program.

A report tells a thread before and after a step, and not the instruction at which the step ended, or the registers
there: a call writes over its arguments. The program tells these if it is asked by another image: the same private
instructions, each shared one being HALT, and in front of them lines that set the registers. Its report has the place
of the HALT and all registers. Nothing here runs an instruction.
"""

import struct
from dataclasses import dataclass

from lwcrun_tools.images import Image
from lwcrun_tools.machine import MOST_INSTRUCTIONS, MOST_THREADS
from lwcrun_tools.run_report import Thread, read_report

FIRST_SHARED, LI, LIH, ADDI, JMP, JNZ, HALT = 32, 1, 2, 16, 17, 19, 37
# The lines that set the registers are one whole step of 256 private instructions: a loop of twice LOOPS, and 34
# others.
LOOPS, PROLOGUE = 111, 36


@dataclass
class Stop:
    """Where a step that began at some place with some registers came to: at a shared instruction, or else at a pause;
    and the registers as they are there."""

    place: int
    is_pause: bool
    regs: list[int]


def code(op: int, rd: int = 0, ra: int = 0, imm: int = 0) -> bytes:
    """The bytes of an instruction."""
    return struct.pack("<4BI", op, rd, ra, 0, imm % 2**32)


def prologue(place: int, thread: Thread) -> bytes:
    """The lines, from an instruction's place on, that set the registers of a thread and go where it is."""
    lines = [code(LI, 0, imm=LOOPS), code(ADDI, 0, 0, -1), code(JNZ, ra=0, imm=place + 1)]
    for register, value in enumerate(thread.regs):
        lines += [code(LI, register, imm=value % 2**32), code(LIH, register, imm=value // 2**32)]
    return b"".join([*lines, code(JMP, imm=thread.pc)])


def room(image: Image) -> int:
    """How many threads one image can ask for."""
    return min(MOST_THREADS, (MOST_INSTRUCTIONS - 1 - len(image.text)) // PROLOGUE)


def probe_image(image: Image, threads: list[Thread]) -> bytes:
    """The image that asks where threads go by private instructions."""
    private = b"".join(line if line[0] < FIRST_SHARED else code(HALT) for line in image.text) + code(HALT)
    entries = [len(image.text) + 1 + PROLOGUE * i for i in range(len(threads))]
    text = private + b"".join(prologue(*it) for it in zip(entries, threads))
    header = struct.pack("<4s6I", b"LWC1", len(text) // 8, 0, 0, 0, len(threads), 0)
    return header + text + struct.pack(f"<{len(entries)}I", *entries)


def probe_schedule(threads: int) -> str:
    """Two steps of each thread: the one that sets its registers, and the one that is asked for."""
    return "".join(2 * f"{thread:x}" for thread in range(threads))


def stops_in(report: str) -> list[Stop]:
    """The answers of the program, one for each thread. A place behind the text is that of a jump which fails there."""
    return [Stop(it.pc, it.status == "running", it.regs) for it in read_report(report).threads]
