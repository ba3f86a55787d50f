"""The names of calls, refusals, faults and items, places in files, and the image that asks where steps went."""

from __future__ import annotations

from pathlib import Path

import pytest
from lwcrun_tools.images import Image
from lwcrun_tools.machine_words import Item, answer, arguments, number, read_items, refusals_in, registers_line, status
from lwcrun_tools.probes import probe_image, probe_schedule, room
from lwcrun_tools.refusals import Input, refusal
from lwcrun_tools.run_report import Thread

TWO_64 = 2**64


def test_answers() -> None:
    assert answer(TWO_64 - 10) == "-10 NotCovered"
    assert answer(TWO_64 - 22) == "-22 Trapped"
    # 2^64 - 1 is what a new context has in r0, and no refusal.
    assert answer(TWO_64 - 1) == "-1"
    assert (answer(0), number(2**63)) == ("0", "9223372036854775808")


def test_faults() -> None:
    assert (status("fault 3"), status("done 3"), status("running")) == ("fault 3 BadStore", "done 3", "running")


def test_items() -> None:
    items = read_items(bytes.fromhex("0000000001000000010000000200000001000000020000000000000040000000"))
    assert items == [Item(0, 1, 1, 2), Item(1, 2, 0, 64)]
    assert [it.words() for it in items] == ["share page 1", "leave out slots 0 to 64"]


def test_arguments() -> None:
    assert arguments(20, [0, 3, 2, 2, 4, 0, 0], None) == "slot 3, slots, close(slot 4)"
    assert arguments(16, [0, 4096, 0], []) == "no items"
    assert arguments(16, [0, 4096, 2], None) == "2 items at 4096"
    assert arguments(18, [0, 2, 0, 1], [Item(0, 0, 3, 5)]) == "slot 2, pages 3 to 5"


def test_registers() -> None:
    line = f"regs 0 {TWO_64 - 10} 5 {TWO_64 - 10}" + " 0" * 13
    assert registers_line(line) == ["regs 0 -10 5 -10" + " 0" * 13, "r0, r2: -10 NotCovered"]
    assert refusals_in([0, 1]) == ""


NO_THREAD = "this run has no thread 2: an image has one for each .entry, a serve for each worker"
NO_COMMAND = "no command of the debugger: its words are parted by one space, and a number has one to nine digits"
PLACES = [
    ("schedule", b"0101\n012x\n", "BadThread", 7, f"2:3: BadThread: {NO_THREAD}", "012x"),
    ("schedule", b"0101\n011x\n", "BadThread", 8, "2:4: BadThread: a schedule is digits 0 to 9 and a to f", "011x"),
    ("requests", b"00\n0g\n", "BadHex", 4, "2:2: BadHex: a request is hexadecimal digits alone", "0g"),
    ("requests", b"00\n012", "OddLength", 6, "2:4: OddLength: a request is pairs of hexadecimal digits", "012"),
    ("script", b"goto 1\nback  2\n", "BadCommand", 7, f"2:1: BadCommand: {NO_COMMAND}", "back  2"),
]


@pytest.mark.parametrize(("role", "data", "rule", "offset", "said", "line"), PLACES)
def test_places(tmp_path: Path, role: str, data: bytes, rule: str, offset: int, said: str, line: str) -> None:
    path = tmp_path / "f"
    path.write_bytes(data)
    first, shown, caret = refusal(Input(role, str(path)), rule, offset).split("\n")
    assert first.startswith(f"{path}:{said}")
    assert (shown, caret) == (f"    {line}", f"    {' ' * (int(said.split(':')[1]) - 1)}^")


def test_a_place_in_a_long_line(tmp_path: Path) -> None:
    path = tmp_path / "f"
    path.write_bytes(b"0" * 500 + b"x" + b"0" * 500)
    first, line, caret = refusal(Input("requests", str(path)), "BadHex", 500).split("\n")
    assert first.startswith(f"{path}:1:501: ")
    assert line[caret.index("^")] == "x" and len(line) < 120


def test_a_place_in_a_report_whose_schedule_was_taken(tmp_path: Path) -> None:
    path, taken = tmp_path / "report", tmp_path / "taken"
    path.write_bytes(b"steps 2\nschedule 02\n")
    taken.write_bytes(b"02")
    said = refusal(Input("schedule", str(path), str(taken), 17, path.read_bytes()), "BadThread", 1)
    assert said.startswith(f"{path}:2:11: BadThread: ")


def test_the_image_that_asks_where_a_step_went() -> None:
    text = [bytes.fromhex("0101000007000000"), bytes.fromhex("2300000100000000")]
    image = Image(b"LWC1", text, {}, {}, [], 1, [("LI", ["r1", "7"]), ("STW", ["r1", "r0", "0"])])
    made = probe_image(image, [Thread("running", "0.0", 1, list(range(16)))])
    halt = bytes.fromhex("2500000000000000")
    # Two instructions, a HALT behind them, and 36 that set the registers.
    assert made[4:8] == (2 + 1 + 36).to_bytes(4, "little")
    # The private instruction is kept, and the shared one is HALT.
    assert made[28:52] == text[0] + halt + halt
    # The last instruction jumps to where the thread is; the entry is the first of the 36.
    assert made[-12:] == bytes.fromhex("1100000001000000") + (3).to_bytes(4, "little")
    # They are one whole step: LI, twice 111 in a loop, two for each register, and the jump.
    assert 1 + 2 * 111 + 2 * 16 + 1 == 256
    assert (probe_schedule(2), room(image)) == ("0011", 16)
