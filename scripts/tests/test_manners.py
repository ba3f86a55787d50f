"""The manners of each script: --help, words that it does not take, and how it ends."""

from __future__ import annotations

import ast
import os
import signal
import subprocess
import sys
import time
from pathlib import Path

import pytest
from conftest import SCRIPTS, TOOLS, TOP

# Scripts in shell, and ones that take what they are given to the program, read no options of their own.
COMMANDS = {
    it.name: it
    for folder in (SCRIPTS, TOOLS)
    for it in sorted(folder.iterdir())
    if it.is_file() and os.access(it, os.X_OK) and "run_script" in it.read_text()
}
NAMES = list(COMMANDS)
NEED_PROGRAM = [
    "bench", "check-all", "check-alloc-faults", "check-guests", "check-io-faults", "check-replays", "check-serves",
    "check-vaults",
]  # fmt: skip


def ended(name: str, *words: str, **more: str) -> subprocess.CompletedProcess[str]:
    """How a script ends on these words."""
    command, settings = [str(COMMANDS[name]), *words], {**os.environ, **more}
    return subprocess.run(command, env=settings, capture_output=True, text=True, timeout=120, check=False)


ENTRIES = [TOP / "lwcrun", TOP / "embed" / "build", *COMMANDS.values()]


@pytest.mark.parametrize("entry", ENTRIES, ids=lambda entry: str(entry.name))
def test_an_old_python_is_told(entry: Path) -> None:
    """A Python from 3.6 on can read the command, up to the import that says what is missing."""
    text = entry.read_text()
    tree = ast.parse(text, feature_version=(3, 6))
    imports = [node for node in tree.body if isinstance(node, (ast.Import, ast.ImportFrom))]
    own = [it for it in imports if "lwcrun_tools" in ast.unparse(it) or ast.unparse(it).startswith("from __future__")]
    assert ast.unparse(own[0]) == "import lwcrun_tools.start"
    first = ["import os", "import shlex", "import shutil", "import subprocess", "import sys"]
    assert {ast.unparse(it) for it in imports[: imports.index(own[0])]} <= set(first)


@pytest.mark.parametrize("module", ["__init__", "start"])
def test_an_old_python_reads_the_first_import(module: str) -> None:
    ast.parse((TOOLS / "lwcrun_tools" / f"{module}.py").read_text(), feature_version=(3, 6))


def started(before: str) -> subprocess.CompletedProcess[str]:
    """How a command ends whose first import comes after this, and which gets Ctrl-C then."""
    words = f"import os, signal, sys\nsys.argv = ['trace']\n{before}\nimport lwcrun_tools.start\n"
    words += "os.kill(os.getpid(), signal.SIGINT)\n"
    return subprocess.run([sys.executable, "-c", words], cwd=TOOLS, capture_output=True, text=True, check=False)


@pytest.mark.parametrize(
    ("before", "said"),
    [
        ("sys.version_info = (3, 9, 2)", "trace: needs Python 3.11 or later, and python3 here is 3.9\n"),
        (
            "os.uname = lambda: os.uname_result(('Darwin', '', '', '', 'arm64'))",
            "trace: needs Linux on x86-64, and this is Darwin on arm64\n",
        ),
    ],
)
def test_what_is_missing(before: str, said: str) -> None:
    done = started(before)
    assert (done.returncode, done.stderr) == (1, said)


def test_ctrl_c_while_modules_are_imported() -> None:
    done = started("")
    assert (done.returncode, done.stderr) == (-signal.SIGINT, "")


@pytest.mark.parametrize("entry", ENTRIES, ids=lambda entry: str(entry.name))
def test_ctrl_c_waits_for_the_first_import(entry: Path) -> None:
    first = entry.read_text().splitlines()[0]
    assert first.startswith("#!/usr/bin/env -S --block-signal=INT python3")


@pytest.mark.parametrize("entry", [TOP / "lwcrun", TOOLS / "trace"], ids=lambda entry: str(entry.name))
def test_ctrl_c_while_python_starts(entry: Path) -> None:
    for moment in range(20):
        out, err = subprocess.DEVNULL, subprocess.PIPE
        with subprocess.Popen([entry, "--help"], stdout=out, stderr=err, text=True) as begun:
            time.sleep(moment / 200)
            begun.send_signal(signal.SIGINT)
            _, said = begun.communicate(timeout=60)
        assert begun.returncode in (0, -signal.SIGINT) and said == ""


@pytest.mark.parametrize("name", NAMES)
def test_help(name: str) -> None:
    done = ended(name, "--help", LWCRUN="/nowhere")
    assert (done.returncode, done.stderr) == (0, "")
    assert done.stdout.startswith("usage: ") and "tatus" in done.stdout


@pytest.mark.parametrize("name", NAMES)
def test_an_option_that_it_does_not_take(name: str) -> None:
    done = ended(name, "--no-such-option", LWCRUN="/nowhere")
    assert (done.returncode, done.stdout) == (2, "")
    assert "Traceback" not in done.stderr


@pytest.mark.parametrize("name", NAMES)
def test_a_full_disk(name: str) -> None:
    with open("/dev/full", "wb") as full:
        done = subprocess.run([COMMANDS[name], "--help"], stdout=full, stderr=subprocess.PIPE, text=True, check=False)
    assert done.returncode != 0
    assert len(done.stderr.splitlines()) == 1 and "Traceback" not in done.stderr


@pytest.mark.parametrize("name", NAMES)
def test_a_closed_pipe(name: str) -> None:
    reading, writing = os.pipe()
    os.close(reading)
    done = subprocess.run([COMMANDS[name], "--help"], stdout=writing, stderr=subprocess.PIPE, text=True, check=False)
    os.close(writing)
    assert (done.returncode, done.stderr) == (-signal.SIGPIPE, "")


@pytest.mark.parametrize("name", NEED_PROGRAM)
def test_no_program(name: str, tmp_path: Path) -> None:
    done = ended(name, LWCRUN="/nowhere", TMPDIR=str(tmp_path))
    assert done.returncode == 1
    assert done.stderr.splitlines()[-1].endswith("no program is at /nowhere") and "Traceback" not in done.stderr
    assert not list(tmp_path.iterdir())


# What a slow program answers at once, so that it is taken for the program.
DIS = '[ "$1" = dis ] && echo HALT && exit\n'
HANDLER = [str(TOP / "guests" / f"counter_handler.{kind}") for kind in ("lwc", "requests")]
LOADING = [str(TOP / "guests" / f"store_load.{kind}") for kind in ("lwc", "schedule")]
WORDS = {"serve-many": HANDLER, "trace": LOADING, "debug": LOADING, "draw-run": LOADING}
WORDS |= {"find-change": [*LOADING, "used"], "assemble": [str(TOP / "guests" / "store_load.s"), "-o", "/dev/null"]}


@pytest.mark.parametrize("number", [signal.SIGTERM, signal.SIGINT, signal.SIGHUP])
@pytest.mark.parametrize("name", [*(name for name in NEED_PROGRAM if name != "check-all"), *WORDS])
def test_a_signal_leaves_nothing(name: str, number: signal.Signals, tmp_path: Path) -> None:
    slow = tmp_path / "slow"
    slow.write_text(f"#!/bin/sh\n{DIS}echo $$ >>'{tmp_path}/begun'\nexec sleep 60\n")
    slow.chmod(0o755)
    work = tmp_path / "work"
    work.mkdir()
    words = [str(COMMANDS[name]), *WORDS.get(name, [])]
    settings = {**os.environ, "LWCRUN": str(slow), "TMPDIR": str(work)}
    with subprocess.Popen(words, env=settings, stdout=subprocess.DEVNULL, stderr=subprocess.PIPE, text=True) as begun:
        while not (tmp_path / "begun").exists() and begun.poll() is None:
            time.sleep(0.05)
        time.sleep(0.1)
        begun.send_signal(number)
        _, said = begun.communicate(timeout=60)
    if begun.returncode == 77 or "not there" in said:
        pytest.skip("something that it needs is not there")
    assert (begun.returncode, said) == (-number, "")
    assert not list(work.iterdir())
    for line in (tmp_path / "begun").read_text().split():
        assert not is_running(int(line))


def is_running(number: int) -> bool:
    """Whether a process runs, or has ended and was not waited for yet, ten seconds from now at most."""
    for _ in range(100):
        if not os.path.exists(f"/proc/{number}"):
            return False
        time.sleep(0.1)
    return True


def macros(tmp_path: Path, text: str) -> subprocess.CompletedProcess[str]:
    """What m4 makes of a source with the macros of guests/lwc.m4."""
    source = tmp_path / "source.s.m4"
    source.write_text(f"include(`lwc.m4')dnl\n{text}")
    words = ["m4", "-I", str(TOP / "guests"), str(source)]
    try:
        return subprocess.run(words, capture_output=True, text=True, check=False)
    except FileNotFoundError:
        pytest.skip("GNU m4 is not there")


@pytest.mark.parametrize(
    ("text", "made"),
    [
        ("pages(share, 1, 3)", "00000000010000000100000003000000"),
        ("slots(leave_out, 0, size(slots))", "01000000020000000000000040000000"),
        ("uid(copy)", "02000000000000000000000001000000"),
        ("closed()closed", "0100000002000000000000004000000002000000020000000000000001000000closed"),
        ("pages(read_only, 2748, 2749)", "0000000003000000bc0a0000bd0a0000"),
        ("pages(copy, 10, 11)pages(copy, 171, 172)", 16 * "0" + "0a0000000b000000" + 16 * "0" + "ab000000ac000000"),
        ("byte(10)half(258)word(4294967295)word(-1)zeros(2)", "0a02010000ffffffff00000000" + "f" * 16 + "0000"),
        ("text(`Hi, (you); #1 $1 %')byte(255)text(`x')", b"Hi, (you); #1 $1 %\xffx".hex()),
        ("SYS call(on_behalf)", "SYS 20"),
        ("ADDI r1, r2, refusal( NotFresh )", "ADDI r1, r2, -23"),
        ("LI r1, page(3)", "LI r1, 12288"),
        ("call: JMP call ; call(read), page(1) and `quotes'", "call: JMP call ; call(read), page(1) and `quotes'"),
        (".page 0 -", ".page 0 -"),
    ],
)
def test_macros(tmp_path: Path, text: str, made: str) -> None:
    assert macros(tmp_path, f"{text}\n").stdout == f"{made}\n"


def test_a_name_that_no_macro_knows(tmp_path: Path) -> None:
    done = macros(tmp_path, "HALT\nSYS call(raed)\n")
    assert done.returncode == 1
    assert done.stderr == f"{tmp_path}/source.s.m4:3: there is no call raed\n"
