"""tools/assemble: where a refusal is, why, and what an image's parts come from."""

from __future__ import annotations

import os
import shutil
import subprocess
from pathlib import Path

import pytest
from conftest import TOOLS
from lwcrun_tools.assembling import Reasons
from lwcrun_tools.command import WorkFolder
from lwcrun_tools.guest_source import Source
from lwcrun_tools.source_line import Line

HEAD = ".entry 0\n"


def source_of(text: str) -> Source:
    """A source of these lines."""
    return Source("mine.s", "mine.s", [Line(line, "mine.s", i) for i, line in enumerate(text.split("\n"), 1)])


def assemble(folder: Path, name: str, text: str, *words: str) -> subprocess.CompletedProcess[str]:
    """Runs tools/assemble on a source in a folder of its own."""
    (folder / name).write_text(text, encoding="latin-1")
    command = [str(TOOLS / "assemble"), name, *words]
    return subprocess.run(command, cwd=folder, capture_output=True, text=True, timeout=120, check=False)


def test_labels_and_instructions() -> None:
    source = source_of(".entry top\n; none\ntop: LI r1, 5\nloop: X\n JMP loop ; a: comment\nend:\nHALT")
    assert [line.number for line in source.made] == [3, 4, 5, 7]
    assert (source.label(0), source.label(2), source.label(3)) == ("top", "loop+1", "end")


def test_listing() -> None:
    lines = list(source_of(".entry a\na: LI r1, 5\nHALT").listing())
    assert [line.split() for line in lines] == [["0", "a:", "LI", "r1,", "5", "mine.s:2"], ["1", "HALT", "mine.s:3"]]


def test_parts_of_an_image() -> None:
    # The header has 28 bytes, an instruction 8, a page 4 + 4096, a file 12 and its bytes, a slot 8, an entry 4.
    source = source_of(".entry 0\n.slot 2 0\n.file 0 1 aabbcc\n.page 0 -\nHALT")
    with WorkFolder() as work:
        found = [(begin, end, line.number) for begin, end, line in Reasons("lwcrun", source, work).parts()]
    assert found == [(28, 36, 5), (36, 4136, 4), (4136, 4151, 3), (4151, 4159, 2), (4159, 4163, 1)]


REFUSED = [
    ("LI r1, 5\nADD r1, r16, r2 ; x\nHALT\n", "3:9: BadOperand: registers are r0 to r15", "ADD r1, r16, r2 ; x"),
    ("LI r1, 007\n", "2:8: BadOperand: a number is 0 to 4294967295 without a leading zero", "LI r1, 007"),
    (".page 0 0g\nHALT\n", "2:9: BadOperand: bytes are pairs of hexadecimal digits", ".page 0 0g"),
    (".form 3\nHALT\n", "2:7: BadOperand: the form is 1 or 2", ".form 3"),
    ("li r1, 5\nHALT\n", "2:1: BadLine: there is no instruction or directive li; LI is one", "li r1, 5"),
    ("LI r1\nHALT\n", "2:6: BadLine: LI takes a register and a number, and this line has 1 operand", "LI r1"),
    ("  x: ADDD r1\nHALT\n", "2:6: BadLine: there is no instruction or directive ADDD; ADD is one", "  x: ADDD r1"),
    (".uid 3\n.uid 4\nHALT\n", "3:1: BadLine: a second .uid: line 2 has one", ".uid 4"),
    ("HALT \xe9\n", "2:6: BadLine: outside a comment each byte is printable ASCII or a tab", None),
    ("1a: HALT\n", "2:1: BadLine: a line has at most one label", "1a: HALT"),
    ("a: HALT\na: HALT\n", "3:1: BadLabel: line 2 defines a too", "a: HALT"),
    ("loop: JMP lopp\n", "2:11: BadLabel: no line defines lopp; line 2 defines loop", "loop: JMP lopp"),
    ("JMP 9\nHALT\n", "2:5: BadTarget: the last instruction is 1", "JMP 9"),
    (".page 3 -\n.page 2 -\nHALT\n", "3:7: BadPage: .page lines are in rising order, and line 2 has 3", ".page 2 -"),
    (".page 1024 -\nHALT\n", "2:7: BadPage: a page is below 1024, with .form 2 below 16384", ".page 1024 -"),
    (".file 0 2 aa\nHALT\n", "2:9: BadFile: public is 0 or 1", ".file 0 2 aa"),
    (".slot 1 0\n.file 0 1 aa\nHALT\n", "2:7: BadSlot: a slot is 2 to 63: 0 and 1 have the console", ".slot 1 0"),
    (".slot 2 1\n.file 0 1 aa\nHALT\n", "2:9: BadSlot: the image has 1 file, numbered from 0", ".slot 2 1"),
]


@pytest.mark.parametrize(("text", "said", "line"), REFUSED)
def test_a_refusal_has_its_place(program: str, tmp_path: Path, text: str, said: str, line: str | None) -> None:
    assert program
    done = assemble(tmp_path, "mine.s", HEAD + text, "-o", "mine.lwc")
    first, shown, caret = done.stderr.splitlines()
    assert (done.returncode, done.stdout) == (5, "")
    assert first.startswith(f"mine.s:{said}")
    if line is not None:
        column = int(said.split(":")[1])
        assert (shown, caret) == (f"    {line}", f"    {' ' * (column - 1)}^")
    assert [it.name for it in tmp_path.iterdir()] == ["mine.s"]


def test_a_source_without_a_thread(program: str, tmp_path: Path) -> None:
    assert program
    done = assemble(tmp_path, "mine.s", "HALT\n")
    said = "mine.s: BadCount: there is no .entry line, and a thread begins at one\n"
    assert (done.returncode, done.stderr) == (5, said)


def test_the_image_lies_beside_the_source(program: str, tmp_path: Path) -> None:
    assert program
    done = assemble(tmp_path, "mine.s", HEAD + "HALT\n")
    assert (done.returncode, done.stdout) == (0, "")
    assert done.stderr == "mine.lwc: 1 instruction, 0 pages, 1 thread\n"
    # The magic; 1 instruction, no page, file or slot, 1 thread, uid 0; HALT; the entry.
    counts = "01000000" + 3 * "00000000" + "01000000" + "00000000"
    assert (tmp_path / "mine.lwc").read_bytes().hex() == "4c574331" + counts + "2500000000000000" + "00000000"


@pytest.mark.parametrize(("mask", "mode"), [(0o022, 0o644), (0o077, 0o600), (0o002, 0o664)])
def test_who_may_read_the_image(program: str, tmp_path: Path, mask: int, mode: int) -> None:
    """An image is a file as any other that the user makes."""
    assert program
    before = os.umask(mask)
    try:
        assert assemble(tmp_path, "mine.s", HEAD + "HALT\n").returncode == 0
    finally:
        os.umask(before)
    assert (tmp_path / "mine.lwc").stat().st_mode & 0o777 == mode


def expanded(folder: Path, text: str, *words: str) -> subprocess.CompletedProcess[str]:
    """Runs assemble on a source with macros."""
    if not shutil.which("m4"):
        pytest.skip("GNU m4 is not there")
    return assemble(folder, "mine.s.m4", text, "-o", "-", *words)


def test_places_behind_m4(program: str, tmp_path: Path) -> None:
    assert program
    text = ".entry 0\n.page 0 pages(share, 1, 2)\nSYS call(close)\nADDI r2, r99, refusal(BadFd)\nHALT\n"
    done = expanded(tmp_path, f"include(`lwc.m4')dnl\n{text}")
    assert done.returncode == 5
    shown = ["mine.s.m4:5:10: BadOperand: registers are r0 to r15", "    ADDI r2, r99, -3"]
    assert done.stderr.splitlines()[:2] == shown


def test_places_in_an_included_file(program: str, tmp_path: Path) -> None:
    assert program
    (tmp_path / "parts").mkdir()
    (tmp_path / "parts" / "one.m4").write_text("LI r1, 1\ninclude(`parts/two.m4')dnl\nLI r99, 4\n")
    (tmp_path / "parts" / "two.m4").write_text("LI r2, 2\nLI r2, 3\n")
    done = expanded(tmp_path, ".entry 0\ninclude(`parts/one.m4')dnl\nHALT\n")
    assert done.stderr.splitlines()[0].startswith("parts/one.m4:3:4: BadOperand: registers are r0 to r15")
    (tmp_path / "parts" / "one.m4").write_text("LI r1, 1\ninclude(`parts/two.m4')dnl\nLI r3, 4")
    done = expanded(tmp_path, ".entry 0\ninclude(`parts/one.m4')\nHALT\n", "--listing")
    assert done.returncode == 2
    listed = assemble(tmp_path, "mine.s.m4", (tmp_path / "mine.s.m4").read_text(), "--listing").stdout
    assert listed.splitlines() == [
        "    0     LI r1, 1  parts/one.m4:1",
        "    1     LI r2, 2  parts/two.m4:1",
        "    2     LI r2, 3  parts/two.m4:2",
        "    3     LI r3, 4  parts/one.m4:3",
        "    4     HALT      mine.s.m4:3",
    ]


COMMANDS = [
    "syscmd(`touch planted')",
    "esyscmd(`touch planted')",
    "builtin(`syscmd', `touch planted')",
    "indir(`syscmd', `touch planted')",
    "define(`f', defn(`syscmd'))f(`touch planted')",
    "pushdef(`syscmd', `x')popdef(`syscmd')syscmd(`touch planted')",
    "debugfile(`planted')",
    "maketemp(`plantedXXXXXX')",
    "mkstemp(`plantedXXXXXX')",
    "undefine(`include')syscmd(`touch planted')",
]


@pytest.mark.parametrize("command", COMMANDS)
def test_a_source_runs_no_command(program: str, tmp_path: Path, command: str) -> None:
    assert program
    done = expanded(tmp_path, f"{command}dnl\n.entry 0\nHALT\n")
    assert done.stdout == "" or done.stdout.startswith("LWC1")
    assert [it.name for it in tmp_path.iterdir()] == ["mine.s.m4"]


READS = [
    "include(`{secret}')dnl",
    "include(`../secret.m4')dnl",
    "include(`link.m4')dnl",
    "include(`/etc/passwd')dnl",
    "include(`/dev/zero')dnl",
    "sinclude(`{secret}')dnl",
    "undivert(`{secret}')dnl",
    " include(`{secret}')dnl",
    "builtin(`include', `{secret}')dnl",
    "indir(`include', `{secret}')dnl",
    "define(`f', `include(`{secret}')')f`'dnl",
]


@pytest.mark.parametrize("command", READS)
def test_a_source_reads_no_file_of_others(program: str, tmp_path: Path, command: str) -> None:
    assert program
    folder, secret = tmp_path / "mine", tmp_path / "secret.m4"
    folder.mkdir()
    secret.write_text("LI r1, 4242\n")
    (folder / "link.m4").symlink_to(secret)
    done = expanded(folder, f".entry 0\n{command.format(secret=secret)}\nHALT\n")
    assert "4242" not in done.stdout + done.stderr and "root:" not in done.stderr
    assert done.returncode in (1, 5) and done.stderr.startswith("mine.s.m4:2:")


def test_an_error_of_m4_has_its_column(program: str, tmp_path: Path) -> None:
    assert program
    done = expanded(tmp_path, ".entry 0\nLI r1, 2\n    SYS call(raed)\n")
    shown = ["mine.s.m4:3:14: m4: there is no call raed", "        SYS call(raed)", "                 ^"]
    assert (done.returncode, done.stderr.splitlines()) == (1, shown)
    done = expanded(tmp_path, ".entry 0\nHALT\n  text(`x\n")
    assert done.returncode == 1 and done.stderr.startswith("mine.s.m4:3:3: m4: ")


def test_calls_in_each_other_without_end(program: str, tmp_path: Path) -> None:
    assert program
    done = expanded(tmp_path, "define(`f', `f(f(1))')dnl\n.entry 0\n  f(1)\nHALT\n")
    shown = ["mine.s.m4:3:3: m4: recursion limit of 1000 exceeded", "      f(1)", "      ^"]
    assert (done.returncode, done.stderr.splitlines()) == (1, shown)


def test_no_pipe_is_included(program: str, tmp_path: Path) -> None:
    assert program
    os.mkfifo(tmp_path / "pipe.m4")
    done = expanded(tmp_path, ".entry 0\ninclude(`pipe.m4')dnl\nHALT\n")
    said = "mine.s.m4:2:10: m4: pipe.m4 is no plain file, and only such are included"
    assert (done.returncode, done.stderr.splitlines()[0]) == (1, said)


@pytest.mark.parametrize(
    ("text", "said"),
    [
        ("define(`a', `a')a\n", "m4 takes longer than 5 seconds"),
        ("define(`a', `a`'a')a\n", "m4"),
        ("format(`%0999999999d', 0)\n", "m4"),
        ("include(`mine.s.m4')dnl\n", "includes are nested at most 16 deep"),
    ],
)
def test_a_source_without_end(program: str, tmp_path: Path, text: str, said: str) -> None:
    assert program
    done = expanded(tmp_path, text)
    assert done.returncode in (1, 5) and said in done.stderr and "Traceback" not in done.stderr
    assert len(done.stderr) < 2000
