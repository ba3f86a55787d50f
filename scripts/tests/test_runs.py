"""What a run is of: found out from its report or the options, and refused where it cannot be shown."""

from __future__ import annotations

import subprocess
from pathlib import Path

from conftest import TOOLS, TOP
from lwcrun_tools.replayed_run import MONITOR, SERVE, VAULT, in_order
from lwcrun_tools.run_of_line import difference, kind_of, schedule_in
from lwcrun_tools.run_report import read_report

GUESTS = TOP / "guests"
PLAIN_REPORT = """thread 0 done 0 ctx 0.0 pc 3
regs 0 0 7 7 0 0 0 0 0 0 0 0 0 0 0 0 0
context 0.0 pages 1 slots 2 uid 0
groups 0
console -
used 1
peak 1
steps 3
schedule 000
"""
SERVE_REPORT = """thread 0 done 0 ctx 0.1 pc 0
regs 0 0 0 0 0 0 0 0 0 0 0 0 0 0 0 0 0
context 0.1 pages 1 slots 0 uid 0
groups 0
reply 0 done 0 01
console -
used 1
peak 2
steps 8
schedule 00000000
"""


def lines(*words: str | Path) -> tuple[int, list[str], list[str]]:
    """The status and the lines of a script."""
    done = subprocess.run(
        [TOOLS / words[0], *words[1:]], input="", capture_output=True, text=True, timeout=300, check=False
    )
    return done.returncode, done.stdout.splitlines(), done.stderr.splitlines()


def test_what_a_report_is_of() -> None:
    assert kind_of(read_report(PLAIN_REPORT)) is None
    assert kind_of(read_report(SERVE_REPORT)) == SERVE
    # A serve of no request has its homes alone.
    assert kind_of(read_report(SERVE_REPORT.replace("reply 0 done 0 01\n", ""))) == SERVE
    trap = PLAIN_REPORT.replace("groups", "trap 1.0 by 0.0\ngroups")
    assert kind_of(read_report(trap)) == MONITOR
    vault = PLAIN_REPORT.replace("groups", "context 0.1 pages 1 slots 0 uid 65534\ngroups")
    assert kind_of(read_report(vault)) == VAULT


def test_the_schedule_of_a_report() -> None:
    assert schedule_in(PLAIN_REPORT) == "000"
    assert schedule_in(PLAIN_REPORT.replace("000\n", "-\n")) == ""
    assert schedule_in("0101\n") is None


def test_a_stream_has_its_replies_first() -> None:
    reply = "reply 0 done 0 01\n"
    assert in_order(reply + SERVE_REPORT.replace(reply, "")) == in_order(SERVE_REPORT)


def test_where_a_replay_and_a_report_differ() -> None:
    said = difference("a plain run", PLAIN_REPORT, PLAIN_REPORT.replace("used 1", "used 2"))
    assert said == "  as a plain run: the replay has `used 1` where the report has `used 2`"


def test_a_report_of_a_serve_needs_its_requests(program: str, tmp_path: Path) -> None:
    assert program
    report = tmp_path / "report"
    report.write_text(SERVE_REPORT)
    status, out, said = lines("trace", GUESTS / "counter_handler.lwc", report)
    needed = f"trace: {report} is the report of a serve: its requests are needed, by --requests FILE"
    assert (status, out, said) == (1, [], [needed])
    status, out, said = lines("debug", GUESTS / "counter_handler.lwc", report, "--monitor")
    assert (status, said) == (1, [f"debug: {report} is the report of a serve, and not of a run under a monitor"])


def test_a_report_of_another_run_is_refused(program: str, tmp_path: Path) -> None:
    assert program
    report = tmp_path / "report"
    report.write_text(PLAIN_REPORT.replace("regs 0 0 7 7", "regs 0 0 7 8"))
    status, out, said = lines("trace", GUESTS / "store_load.lwc", report)
    assert (status, out) == (1, [])
    head = f"trace: {report} is not what the program makes of this image"
    assert said[0] == f"{head}, whatever --frames and --budget are:"
    assert said[1].startswith("  as a plain run: the replay has `regs 0 0 7 7 ")


def test_the_same_report_is_shown(program: str, tmp_path: Path) -> None:
    assert program
    report = tmp_path / "report"
    report.write_text(PLAIN_REPORT)
    status, out, said = lines("trace", GUESTS / "store_load.lwc", report)
    assert (status, said) == (0, [])
    assert out == [f"# a plain run of {GUESTS / 'store_load.lwc'}, 3 steps", "3 t0 0.0 3  halt"]


def test_a_schedule_of_a_guest_that_traps(program: str) -> None:
    assert program
    status, out, said = lines("debug", GUESTS / "monitor.s", GUESTS / "monitor.schedule")
    assert (status, out) == (1, [])
    assert said[0].endswith("makes call 21, which only a run under a monitor has: give --monitor, or --plain")


def test_a_run_is_of_one_kind(program: str) -> None:
    assert program
    status, out, said = lines("trace", "image", "schedule", "--monitor", "--requests", "requests")
    assert (status, out) == (2, []) and "not allowed with" in said[-1]
    status, out, said = lines("draw-run", GUESTS / "store_load.lwc", GUESTS / "store_load.schedule", "--workers", "2")
    assert (status, out, said) == (2, [], ["draw-run: --workers is for a serve, with --requests FILE"])


def test_a_bad_schedule_has_its_place(program: str, tmp_path: Path) -> None:
    assert program
    (tmp_path / "schedule").write_text("00\n1\n")
    status, out, said = lines("trace", GUESTS / "store_load.lwc", tmp_path / "schedule")
    assert (status, out) == (6, [])
    assert said[0].startswith(f"{tmp_path / 'schedule'}:2:1: BadThread: this run has no thread 1")
    assert said[1:] == ["    1", "    ^"]


def test_a_file_that_is_not_there(program: str) -> None:
    assert program
    status, out, said = lines("trace", GUESTS / "store_load.lwc", "/nowhere/schedule")
    assert (status, out) == (3, []) and said == ["trace: cannot read /nowhere/schedule: No such file or directory"]


def test_another_source(program: str) -> None:
    assert program
    image, schedule, source = GUESTS / "store_load.lwc", GUESTS / "store_load.schedule", GUESTS / "zero_page.s"
    status, out, said = lines("trace", image, schedule, "--source", source)
    assert (status, out) == (1, []) and said[0].endswith("the program makes another image of it")
