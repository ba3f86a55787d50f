"""The words of a trace, of debug and of find-change, on guests whose steps docs/GUESTS.md tells."""

from __future__ import annotations

import subprocess
from pathlib import Path

import pytest
from conftest import TOOLS, TOP

GUESTS = TOP / "guests"

# A subroutine that is left by a jump to a register: where a step ends cannot be told from the places alone.
SUBROUTINE = """.entry top
.page 0 -
top: JAL r9, count
JAL r9, count
HALT
count: LDW r5, r4, 0
ADDI r5, r5, 1
STW r5, r4, 0
JR r9
"""
# It closes a slot that is empty, takes more than it may, and stores to a page that is not there.
REFUSALS = """.entry top
.page 0 00000000000000000000000001000000
top: LI r1, 9
SYS 2
LI r2, 0
SYS 16
MOV r1, r0
LI r2, 0
LI r3, 0
SYS 18
LI r3, 1
SYS 19
LI r4, 8192
STW r4, r4, 0
"""


def trace(source: Path | str, schedule: Path, *words: str | Path) -> list[list[str]]:
    """The lines of a trace, each as the words in front of the call, and the call."""
    done = subprocess.run(
        [TOOLS / "trace", source, schedule, *words], capture_output=True, text=True, timeout=500, check=True
    )
    return [line.split() for line in done.stdout.splitlines()[1:]]


def traced(folder: Path, source: str, steps: int, *words: str) -> list[str]:
    """The words of a trace of thread 0 of a source, without the step, the thread and the context."""
    (folder / "mine.s").write_text(source)
    (folder / "schedule").write_text("0" * steps)
    return [" ".join(line[3:]) for line in trace(folder / "mine.s", folder / "schedule", *words)]


def answers(commands: str, *words: str | Path) -> list[str]:
    """What debug answers to commands."""
    done = subprocess.run(
        [TOOLS / "debug", *words], input=commands, capture_output=True, text=True, timeout=500, check=True
    )
    return done.stdout.splitlines()


def test_a_rollback(program: str) -> None:
    assert program
    lines = trace(GUESTS / "rollback.s", GUESTS / "rollback.schedule", "--to", "6")
    # GUESTS: a round makes a snapshot, loads, stores and writes; then it switches to the snapshot, which closes.
    assert [" ".join(line) for line in lines] == [
        "1 t0 0.0 1 <top+1> create(no items) = 2, 1.0 is made",
        "4 t0 0.0 16 <work+7> write(slot 1, address 0, length 8) = 8",
        "5 t0 0.0 23 <work+14> switch(slot 2, argument 1) -> 1.0, slot 2 there",
        "6 t0 1.0 7 <top+7> close(slot 2) = 0",
    ]


def test_a_subroutine(program: str, tmp_path: Path) -> None:
    assert program
    assert traced(tmp_path, SUBROUTINE, 5, "--all") == [
        "3 <count> load word at 0 (page 0) = 0",
        "5 <count+2> store word 1 at 0 (page 0)",
        "3 <count> load word at 0 (page 0) = 1",
        "5 <count+2> store word 2 at 0 (page 0)",
        "2 <top+2> halt",
    ]


def test_refusals_and_faults_by_name(program: str, tmp_path: Path) -> None:
    assert program
    assert traced(tmp_path, REFUSALS, 9) == [
        "1 <top+1> close(slot 9) = -3 BadFd",
        "3 <top+3> create(no items) = 2, 1.0 is made",
        "7 <top+7> restrict(slot 2, no items) = 0",
        "9 <top+9> overlay(slot 2, copy page 0) = -10 NotCovered",
        "11 <top+11> store word 8192 at 8192 (page 2): fault 3 BadStore",
    ]


def test_a_pause_and_a_jump_behind_the_text(program: str, tmp_path: Path) -> None:
    assert program
    # The first step makes 256 private instructions, and stays at a private one; then the thread runs off the text.
    source = ".entry 0\nLI r1, 200\nloop: ADDI r1, r1, -1\nJNZ r1, loop\n"
    found = traced(tmp_path, source, 2, "--all")
    assert found == ["runs 256 private instructions and pauses", "finds no instruction 3: fault 1 BadPc"]


def test_a_run_under_a_monitor(program: str) -> None:
    assert program
    lines = trace(GUESTS / "monitor.s", GUESTS / "monitor.schedule", "--monitor", "--to", "6")
    assert [" ".join(line) for line in lines] == [
        "1 t0 0.0 0 create(no items) = 3, 1.0 is made",
        "2 t0 0.0 5 trap(slot 3) = 0, 1.0 is trapped by 0.0",
        "3 t0 0.0 45 <resume+2> switch(slot 3, argument 0) -> 1.0, slot 3 there",
        "4 t0 1.0 51 <plugin+3> read(slot 2, address 64, length 6) -> its monitor 0.0, slot 4 there",
        "5 t0 0.0 13 <seen+5> close(slot 4) = 0",
        "6 t0 0.0 36 <call+3> on_behalf(slot 3, memory+slots, read(slot 2, address 64, length 6)) = 6",
    ]


def test_a_vault(program: str) -> None:
    assert program
    words: list[str | Path] = ["--vault", GUESTS / "signer.vault"]
    lines = [" ".join(line[3:]) for line in trace(GUESTS / "signer.s", GUESTS / "signer.schedule", *words)]
    # The vault is entered at slot 63, and each try to take its page or to write it is refused by 10.
    assert lines[0] == "23 <asking+2> switch(slot 63, argument 7) -> 0.1, slot 0 there"
    assert [line for line in lines if "NotCovered" in line] == [
        "39 <asking+18> overlay(slot 63, copy page 0) = -10 NotCovered",
        "43 <asking+22> overlay(slot 63, share page 0) = -10 NotCovered",
        "50 <asking+29> on_behalf(slot 63, memory, write(slot 1, address 0, length 16)) = -10 NotCovered",
    ]


def test_a_serve(program: str, tmp_path: Path) -> None:
    assert program
    requests = tmp_path / "requests"
    requests.write_text("00\n01\n")
    (tmp_path / "schedule").write_text("0" * 20)
    words: list[str | Path] = ["--requests", requests, "--workers", "1"]
    lines = [" ".join(line) for line in trace(GUESTS / "counter_handler.s", tmp_path / "schedule", *words)]
    # A request of eight steps with the idle one: read, load, load, store, write, halt; a broken one ends at its word.
    assert [line for line in lines if "request" in line] == [
        "1 t0 0.1 begins request 0 in 1.0",
        "7 t0 1.0 12 halt, ends request 0: done 0 01",
        "8 t0 0.1 begins request 1 in 2.0",
        "11 t0 2.0 13 <bad> load word at 1 (page 0), ends request 1: fault 2 BadLoad -",
        "12 t0 0.1 finds no request left, and ends",
    ]


def test_whether_a_context_is_closed(program: str) -> None:
    assert program
    words: list[str | Path] = [GUESTS / "monitor.s", GUESTS / "monitor.schedule", "--monitor"]
    assert answers("goto 3\ncontext 0.0\nc 1.0\n", *words) == [
        "at 3",
        "context 0.0 pages 1 slots 4 uid 0",
        "not closed: slot 3 opens 1.0 with every key",
        "context 1.0 pages 1 slots 4 uid 0",
        "closed: no slot has a key of another context",
    ]


def test_what_debug_says_is_missing(program: str) -> None:
    assert program
    words = [GUESTS / "store_load.lwc", GUESTS / "store_load.schedule"]
    assert answers("goto\nend\nforward\nb 9\ngoto x\np\nt x\nslot 0.0\nreplies\nlook\n", *words) == [
        "goto needs a number of steps, 0 to 3",
        "at 3",
        "no step: places are 0 to 3",
        "no step: places are 0 to 3",
        "no number of steps: x",
        "page needs the number of a page, as in `page 0.0 0`",
        "no number of a thread: x",
        "slot needs the number of a slot, as in `slot 0.0 0`",
        "no replies",
        "no command: look; `help` lists them",
    ]


def test_debug_shows_labels(program: str) -> None:
    assert program
    found = answers("forward 5\nt\n", GUESTS / "rollback.s", GUESTS / "rollback.schedule")
    # The snapshot begins with 2^64 - 1 in r0; r1 is the slot of the descriptor that was left, r2 the argument.
    assert found == [
        "at 5",
        "thread 0 running ctx 1.0 pc 2",
        "next 2 <top+2>: LI r8, 0",
        "regs 0 -1 2 1" + " 0" * 13,
    ]


def test_items_that_lie_over_two_pages(program: str, tmp_path: Path) -> None:
    assert program
    items = "00000000" + "00000000" + "00000000" + "01000000"
    pages = f".page 0 {'00' * 4088}{items[:16]}\n.page 1 {items[16:]}\n"
    lines = traced(tmp_path, f".entry 0\n{pages}LI r1, 4088\nLI r2, 1\nSYS 16\nHALT\n", 2)
    assert lines[0] == "2 create(copy page 0) = 2, 1.0 is made"


@pytest.mark.parametrize(
    ("what", "said"),
    [
        (["0.0", "0", "0"], "step 1, by thread 0: 00, and then 07"),
        (["register", "0", "2"], "step 2, by thread 0: 0, and then 7"),
        (["used"], "it is the same after 0 steps and after 3"),
        (["slot", "0.0", "0"], "it is the same after 0 steps and after 3"),
        (["console"], "it is the same after 0 steps and after 3"),
    ],
)
def test_find_change(program: str, what: list[str], said: str) -> None:
    assert program
    words = [str(it) for it in (TOOLS / "find-change", GUESTS / "store_load.lwc", GUESTS / "store_load.schedule")]
    done = subprocess.run([*words, *what], capture_output=True, text=True, timeout=300, check=False)
    assert (done.stdout.splitlines()[0], done.returncode) == (said, 1 if "same" in said else 0)
