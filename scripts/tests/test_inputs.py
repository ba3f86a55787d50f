"""What the tools read: no more than the program takes of it, once, and from pipes too."""

from __future__ import annotations

import os
import subprocess
import sys
from pathlib import Path

import pytest
from conftest import TOOLS, TOP
from lwcrun_tools.command import WorkFolder
from lwcrun_tools.refusals import MOST_BYTES, Refused, read_file, take
from lwcrun_tools.request_pieces import cut, kept, lines_a_piece, most_lines

GUESTS = TOP / "guests"
LOADING = [GUESTS / "store_load.lwc", GUESTS / "store_load.schedule"]
HANDLER = [GUESTS / "counter_handler.lwc", GUESTS / "counter_handler.requests"]
MEMORY = 600000


def run(*words: str | Path, given: bytes = b"", limit: bool = False, **more: str) -> subprocess.CompletedProcess[str]:
    """Runs a tool, with a limit of its memory in KB if it is asked for."""
    command = [str(TOOLS / words[0]), *map(str, words[1:])]
    if limit:
        command = ["sh", "-c", f'ulimit -v {MEMORY} && exec "$@"', "sh", *command]
    done = subprocess.run(
        command, input=given, env={**os.environ, **more}, capture_output=True, timeout=120, check=False
    )
    return subprocess.CompletedProcess(command, done.returncode, done.stdout.decode(), done.stderr.decode())


@pytest.mark.parametrize(
    ("words", "status"),
    [
        (["assemble", "/dev/zero", "-o", "-"], 5),
        (["trace", "/dev/zero", LOADING[1]], 5),
        (["trace", LOADING[0], "/dev/zero"], 6),
        (["trace", *HANDLER[:1], LOADING[1], "--requests", "/dev/zero"], 6),
        (["trace", LOADING[0], LOADING[1], "--vault", "/dev/zero"], 6),
        (["trace", LOADING[0], LOADING[1], "--source", "/dev/zero"], 5),
        (["debug", "/dev/zero", LOADING[1]], 5),
        (["draw-run", LOADING[0], "/dev/zero"], 6),
        (["find-change", LOADING[0], "/dev/zero", "used"], 6),
        (["report-json", "/dev/zero"], 6),
        (["serve-many", *HANDLER[:1], "/dev/zero"], 6),
        (["serve-many", "/dev/zero", *HANDLER[1:]], 5),
    ],
)
def test_a_file_without_end(program: str, words: list[str | Path], status: int) -> None:
    assert program
    if words[0] == "serve-many" and not any(Path(it, "parallel").exists() for it in os.environ["PATH"].split(":")):
        pytest.skip("GNU parallel is not there")
    done = run(*words, limit=True)
    assert (done.returncode, done.stdout) == (status, "")
    assert "Traceback" not in done.stderr and len(done.stderr.splitlines()) < 4
    assert "TooLong" in done.stderr or "BadHex" in done.stderr or "image refused" in done.stderr


def test_commands_without_end(program: str) -> None:
    assert program
    with open("/dev/zero", "rb") as zeros:
        words = [TOOLS / "debug", *LOADING]
        done = subprocess.run(words, stdin=zeros, capture_output=True, timeout=120, check=False)
    assert done.returncode == 6 and b"TooLong" in done.stderr


def test_want_of_memory_is_said() -> None:
    words = "import sys; sys.argv = ['trace']; from lwcrun_tools.command import run_script\n"
    words += "def main():\n    raise MemoryError\nrun_script(main)"
    done = subprocess.run([sys.executable, "-c", words], cwd=TOOLS, capture_output=True, text=True, check=False)
    assert (done.returncode, done.stderr) == (1, "trace: no memory\n")


def test_a_file_at_its_limit(tmp_path: Path) -> None:
    file, most = tmp_path / "script", MOST_BYTES["script"]
    file.write_bytes(bytes(most))
    assert len(read_file(str(file), "script")) == most
    file.write_bytes(bytes(most + 1))
    with pytest.raises(Refused, match=f"TooLong at {most}"):
        read_file(str(file), "script")


def test_pipes_are_read(program: str) -> None:
    assert program
    image = LOADING[0].read_bytes()
    done = run("trace", "/dev/stdin", LOADING[1], given=image)
    assert done.stdout.splitlines()[1:] == ["3 t0 0.0 3  halt"]
    done = run("serve-many", HANDLER[0], "/dev/stdin", "--jobs", "2", given=HANDLER[1].read_bytes())
    if "not there" not in done.stderr:
        assert done.stdout.splitlines() == [f"reply {i} {'fault 2 -' if i == 2 else 'done 0 01'}" for i in range(4)]


@pytest.mark.parametrize(
    "words",
    [
        ["assemble", "PIPE", "-o", "-"],
        ["trace", "PIPE", LOADING[1]],
        ["trace", LOADING[0], "PIPE"],
        ["trace", *HANDLER[:1], LOADING[1], "--requests", "PIPE"],
        ["trace", *LOADING, "--vault", "PIPE"],
        ["trace", *LOADING, "--source", "PIPE"],
        ["report-json", "PIPE"],
        ["serve-many", "PIPE", *HANDLER[1:]],
        ["serve-many", *HANDLER[:1], "PIPE"],
    ],
)
def test_a_pipe_that_nobody_writes_to(program: str, tmp_path: Path, words: list[str | Path]) -> None:
    assert program
    pipe = tmp_path / "pipe"
    os.mkfifo(pipe)
    done = run(*(pipe if word == "PIPE" else word for word in words))
    if "not there" in done.stderr:
        pytest.skip("GNU parallel is not there")
    assert (done.returncode, done.stdout) == (3, "")
    assert done.stderr == f"{words[0]}: cannot read {pipe}: it is a pipe, and nobody writes to it\n"


def test_a_named_pipe_is_waited_for_while_it_is_written(program: str, tmp_path: Path) -> None:
    assert program
    pipe = tmp_path / "pipe"
    os.mkfifo(pipe)
    late = f"exec >'{pipe}'; sleep 1; cat '{LOADING[0]}'"
    with subprocess.Popen(["sh", "-c", late]) as writer:
        done = run("trace", pipe, LOADING[1])
    assert writer.returncode == 0 and done.stdout.splitlines()[1:] == ["3 t0 0.0 3  halt"]


def test_a_file_is_read_once(tmp_path: Path) -> None:
    """What is shown is of the bytes that were read first, whatever becomes of the file."""
    file = tmp_path / "image"
    file.write_bytes(b"LWC1 first")
    with WorkFolder() as work:
        taken = take("image", str(file), work)
        file.write_bytes(b"LWC1 another")
        assert taken.read() == taken.shown() == b"LWC1 first"
        file.unlink()
        assert taken.read() == b"LWC1 first"


@pytest.mark.parametrize("name", ["trace", "debug", "draw-run", "find-change"])
def test_another_program_is_told(name: str) -> None:
    done = run(name, *LOADING, *(["used"] if name == "find-change" else []), LWCRUN="/bin/true")
    assert done.returncode == 1
    assert done.stderr.startswith(f"{name}: /bin/true is no lwcrun")


def test_a_file_that_cannot_be_read() -> None:
    done = run("report-json", "/proc/self/mem")
    assert (done.returncode, done.stderr) == (3, "report-json: cannot read /proc/self/mem: Input/output error\n")
    done = run("report-json", "/nowhere")
    assert (done.returncode, done.stderr) == (3, "report-json: cannot read /nowhere: No such file or directory\n")


@pytest.mark.parametrize(
    ("budget", "workers", "most"),
    [
        # A serve takes requests * (budget + 1) + workers steps, at most 16000000, and 1024 requests.
        ("10000", "1", 1024),
        ("15624", "1", 1023),
        ("15623", "1", 1024),
        ("99999", "16", 159),
        ("100000", "4", 159),
        ("x", "1", 1024),
    ],
)
def test_how_many_requests_one_serve_takes(budget: str, workers: str, most: int) -> None:
    assert most_lines(budget, workers) == most
    if budget.isdigit():
        assert most * (int(budget) + 1) + int(workers) <= 16000000
        assert most == 1024 or (most + 1) * (int(budget) + 1) + int(workers) > 16000000


def test_pieces_of_a_request_file(tmp_path: Path) -> None:
    file = tmp_path / "requests"
    file.write_bytes(b"00\n" * 10)
    with WorkFolder() as work:
        assert kept(str(file), work) == str(file)
        size = lines_a_piece(str(file), 4, 1)
        pieces = cut(str(file), size, work)
        assert [(it.first, it.count, it.offset) for it in pieces] == [(0, 4, 0), (4, 4, 12), (8, 2, 24)]
        assert pieces[1].requests() == "requests 4 to 7, lines 5 to 8"


@pytest.mark.parametrize("options", [["--budget", "300"], ["--frames", "70"], ["--budget", "9", "--frames", "65536"]])
def test_the_options_of_a_report_are_found(program: str, tmp_path: Path, options: list[str]) -> None:
    # It stores to a page after another without end, as far as frames and budget let it.
    source = ".entry 0\n.page 0 -\nLI r1, 0\nLI r2, 1000\nSYS 6\nl: STW r2, r3, 0\nADDI r3, r3, 4096\nJMP l\n"
    (tmp_path / "mine.s").write_text(source)
    image = subprocess.run([program, "asm", tmp_path / "mine.s"], capture_output=True, check=True).stdout
    (tmp_path / "mine.lwc").write_bytes(image)
    report = subprocess.run([program, "run", tmp_path / "mine.lwc", *options], capture_output=True, check=True).stdout
    (tmp_path / "report").write_bytes(report)
    done = run("debug", tmp_path / "mine.lwc", tmp_path / "report", given=b"e\n")
    steps = report.decode().split("steps ")[1].split()[0]
    assert (done.returncode, done.stdout) == (0, f"at {steps}\n")
    assert done.stderr == "" or done.stderr.startswith(f"debug: {tmp_path}/report was made with --")


def test_the_budget_of_a_serve_is_found(program: str, tmp_path: Path) -> None:
    serve = [program, "serve", *map(str, HANDLER), "--workers", "2", "--budget", "3"]
    report = subprocess.run(serve, capture_output=True, check=True).stdout
    assert report.count(b"fault 5") == 3
    (tmp_path / "report").write_bytes(report)
    done = run("debug", HANDLER[0], tmp_path / "report", "--requests", HANDLER[1], given=b"e\nr\n")
    assert done.stderr == f"debug: {tmp_path}/report was made with --workers 2 --budget 3, and is shown so\n"
    assert done.stdout.splitlines()[1:] == [f"reply {i} fault {2 if i == 2 else 5} -" for i in range(4)]
    # What is given is not changed.
    done = run("debug", HANDLER[0], tmp_path / "report", "--requests", HANDLER[1], "--budget", "7", given=b"e\n")
    assert done.returncode == 1 and "is not what the program makes of this image" in done.stderr
