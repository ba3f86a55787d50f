"""Reports, as docs/FORMATS.md has them, and report-json."""

from __future__ import annotations

import json
import subprocess

import pytest
from conftest import TOOLS
from lwcrun_tools.run_report import Context, ReportError, read_report, shows_alone

REGISTERS = " ".join(["0"] * 14 + ["18446744073709551615", "7"])
# What README's server prints.
SERVE = """thread 0 done 0 ctx 0.1 pc 0
regs 0 0 0 0 0 0 0 0 0 0 0 0 0 0 0 0 0
context 0.1 pages 1 slots 0 uid 0
groups 0
reply 0 done 0 01
reply 1 done 0 01
reply 2 fault 2 -
reply 3 none
console -
used 1
peak 2
steps 26
schedule 00000000000000000000000000
"""
MONITORED = f"""thread 0 done 18446744073709551615 ctx 0.0 pc 47
regs 0 {REGISTERS}
thread 1 fault 1 ctx 1.0 pc 18446744073709551615
regs 1 {REGISTERS}
context 0.0 pages 1 slots 4 uid 0
context 1.0 pages 1024 slots 64 uid 65534
trap 1.0 by 0.0
groups 2
console 68656c6c6f0a
used 2
peak 2
steps 3
schedule 011
"""


def streamed(text: str) -> str:
    """The report of a serve as a stream writes it."""
    lines = text.splitlines(keepends=True)
    replies = [line for line in lines if line.startswith("reply")]
    return "".join([*replies, *(line for line in lines if line not in replies)])


def test_a_serve() -> None:
    for text in (SERVE, streamed(SERVE)):
        report = read_report(text)
        assert report.replies == ["done 0 01", "done 0 01", "fault 2 -", "none"]
        assert (report.used, report.peak, report.steps, report.schedule) == (1, 2, 26, "0" * 26)
        assert report.contexts == {"0.1": Context(1, 0, 0)}
        assert (report.threads[0].status, report.threads[0].ctx, report.console) == ("done 0", "0.1", "")


def test_a_monitored_run() -> None:
    report = read_report(MONITORED)
    assert report.traps == {"1.0": "0.0"}
    assert [it.status for it in report.threads] == ["done 18446744073709551615", "fault 1"]
    assert report.threads[1].regs[14] == 2**64 - 1 and report.threads[1].pc == 2**64 - 1
    assert report.console == "68656c6c6f0a"


@pytest.mark.parametrize(
    ("text", "line"),
    [
        ("at 1\n", "line 1 is no line of a report there: at 1"),
        (SERVE.replace("reply 1", "reply 5"), "line 6 is no line of a report there: reply 5 done 0 01"),
        (SERVE.replace("regs 0", "regs 1"), "line 2 is no line of a report there"),
        (SERVE.replace("groups 0\n", ""), "the report is not whole: it has no line groups"),
        (SERVE[: SERVE.index("steps")], "the report is not whole: it has no line steps"),
        (SERVE.replace("fault 2 -", "fault two -"), "line 7 is no line of a report there"),
        ("", "the report is not whole: it has no line thread"),
    ],
)
def test_what_is_no_report(text: str, line: str) -> None:
    with pytest.raises(ReportError, match=f"^{line}"):
        read_report(text)


def test_what_shows_that_replies_are_those_alone() -> None:
    report = read_report(SERVE)
    assert [shows_alone(report, frames) for frames in (2, 3, 4, 4096)] == [False, False, True, True]


def in_json(text: str) -> "subprocess.CompletedProcess[str]":
    return subprocess.run([TOOLS / "report-json"], input=text, capture_output=True, text=True, check=False)


def test_json_of_a_serve() -> None:
    found = json.loads(in_json(SERVE).stdout)
    assert found["threads"] == [
        {"status": "done", "code": "0", "fault": None, "context": "0.1", "pc": "0", "registers": ["0"] * 16}
    ]
    assert found["replies"][1:] == [
        {"status": "done", "code": "0", "fault": None, "bytes": "01"},
        {"status": "fault", "code": None, "fault": 2, "bytes": ""},
        {"status": "none", "code": None, "fault": None, "bytes": None},
    ]
    assert found["contexts"] == [{"name": "0.1", "pages": 1, "slots": 0, "uid": 0}]
    assert (found["traps"], found["groups"], found["console"]) == ([], 0, "")
    assert (found["used"], found["peak"], found["steps"]) == (1, 2, 26)
    assert json.loads(in_json(streamed(SERVE)).stdout) == found


def test_json_of_a_monitored_run() -> None:
    found = json.loads(in_json(MONITORED).stdout)
    assert found["traps"] == [{"context": "1.0", "monitor": "0.0", "fuel": None}]


def test_json_of_a_guarded_run() -> None:
    guarded = MONITORED.replace("trap 1.0 by 0.0\n", "trap 1.0 by 0.0 fuel 7\n")
    assert guarded != MONITORED
    found = json.loads(in_json(guarded).stdout)
    assert found["traps"] == [{"context": "1.0", "monitor": "0.0", "fuel": 7}]
    assert found["threads"][0]["code"] == found["threads"][1]["pc"] == "18446744073709551615"
    assert found["threads"][1]["registers"][14:] == ["18446744073709551615", "7"]
    assert found["threads"][1]["fault"] == 1 and found["schedule"] == "011"


def test_json_of_no_report() -> None:
    done = in_json("at 1\n")
    assert (done.returncode, done.stdout) == (1, "")
    assert done.stderr == "report-json: -: line 1 is no line of a report there: at 1\n"
