"""The kernel from Python: replays and serves of guests over bytes in memory, and runs that are made step by step.

The shared library is the one that the variable LWCRUN_LIBRARY names; else the one that lies in this package, as in the
wheel; else the one that embed/build makes. A call that library answers with another status than 0 raises
`LwcrunError`, which has the status and the program's message. Reports are read by the module of the tools,
tools/lwcrun_tools/run_report.py.
"""

from __future__ import annotations

import ctypes
import os
from collections.abc import Iterable, Mapping, Sequence
from dataclasses import dataclass
from enum import IntEnum

TOP = os.path.dirname(os.path.dirname(os.path.dirname(os.path.dirname(os.path.realpath(__file__)))))
# In a checkout the module of reports is that of the tools; the wheel has a copy of it.
__path__.append(os.path.join(TOP, "tools", "lwcrun_tools"))

from lwcrun.run_report import Report, read_report  # noqa: E402

PAGE_BYTES = 4096
MOST_STEPS = 16_000_000
FRAMES = 4096
BUDGET = 10_000
WORKERS = 4
# How many steps a serve is given at first.
FIRST_STEPS = 4096


class Status(IntEnum):
    """The statuses of include/lwcrun.h."""

    OK = 0
    NO_MEMORY = 1
    USAGE = 2
    CANNOT_READ = 3
    CANNOT_WRITE = 4
    IMAGE_REFUSED = 5
    INPUT_REFUSED = 6
    IMAGE_TOO_LARGE = 7
    NEEDS_THREADS = 8
    NOT_TEXT = 9
    BAD_SETTINGS = 10
    BAD_STEP = 11
    MISSING = 12
    BAD_LENGTH = 13
    NULL = 14
    UNKNOWN_RUN = 15


class LwcrunError(Exception):
    """A call that did not end well: its status, and what the program says of it."""

    def __init__(self, status: Status, message: str = "") -> None:
        super().__init__(message.strip() or status.name.lower().replace("_", " "))
        self.status = status
        self.message = message


@dataclass(frozen=True)
class Answer:
    """What came of a line: its status, what it wrote, and its message."""

    status: Status
    output: bytes
    message: str


@dataclass(frozen=True)
class Thread:
    """A thread of a run: its status as a report prints it, its registers, the next instruction, its context J.K."""

    status: str
    registers: tuple[int, ...]
    pc: int
    context: str

    @property
    def has_ended(self) -> bool:
        """Whether the thread makes no more steps."""
        return self.status.startswith(("done", "fault"))


@dataclass(frozen=True)
class Totals:
    """The size of a run, as struct lwcrun_totals of include/lwcrun.h has it."""

    threads: int
    steps: int
    work: int
    contexts: int
    frames: int
    peak: int


class _Bytes(ctypes.Structure):
    _fields_ = [("at", ctypes.c_void_p), ("length", ctypes.c_size_t)]


class _File(ctypes.Structure):
    _fields_ = [("name", _Bytes), ("bytes", _Bytes)]


class _Answer(ctypes.Structure):
    _fields_ = [("output", _Bytes), ("message", _Bytes)]


class _Thread(ctypes.Structure):
    _fields_ = [
        ("code", ctypes.c_uint64),
        ("pc", ctypes.c_uint64),
        ("registers", ctypes.c_uint64 * 16),
        ("status", ctypes.c_uint32),
        ("job", ctypes.c_uint32),
        ("context", ctypes.c_uint32),
    ]


class _Totals(ctypes.Structure):
    _fields_ = [(name, ctypes.c_uint32) for name in ("threads", "steps", "work", "contexts", "frames", "peak")]


class _Slot(ctypes.Structure):
    _fields_ = [(name, ctypes.c_uint32) for name in ("kind", "first", "second")]


def _load() -> ctypes.CDLL:
    """The library, with the types of its functions."""
    packed, built = (
        os.path.join(folder, "liblwcrun.so")
        for folder in (os.path.dirname(os.path.realpath(__file__)), os.path.join(TOP, "embed", "out"))
    )
    library = ctypes.CDLL(os.environ.get("LWCRUN_LIBRARY") or (packed if os.path.exists(packed) else built))
    number, size, run = ctypes.c_uint32, ctypes.c_size_t, ctypes.c_uint64
    pointer = ctypes.POINTER
    types = {
        "lwcrun_line": [pointer(_Bytes), size, pointer(_File), size, pointer(_Answer)],
        "lwcrun_open": [_Bytes, _Bytes, number, number, number, pointer(run)],
        "lwcrun_step": [run, number, pointer(_Thread)],
        "lwcrun_thread": [run, number, pointer(_Thread)],
        "lwcrun_totals": [run, pointer(_Totals)],
        "lwcrun_page": [run, number, number, number, ctypes.c_char_p],
        "lwcrun_slot": [run, number, number, number, pointer(_Slot)],
        "lwcrun_close": [run],
    }
    for name, arguments in types.items():
        function = getattr(library, name)
        function.argtypes, function.restype = arguments, ctypes.c_int
    library.lwcrun_free.argtypes, library.lwcrun_free.restype = [pointer(_Answer)], None
    return library


_library: ctypes.CDLL | None = None


def _call() -> ctypes.CDLL:
    """The library, loaded at the first call."""
    global _library  # pylint: disable=global-statement
    if _library is None:
        _library = _load()
    return _library


def _lend(data: bytes) -> _Bytes:
    """The bytes as the library takes them. They have to live until it has answered."""
    return _Bytes(ctypes.cast(ctypes.c_char_p(data), ctypes.c_void_p), len(data))


def carry_out(words: Sequence[str], files: Mapping[str, bytes]) -> Answer:
    """Carries out a line of the program, its words from the mode on, over these files."""
    word_bytes = [word.encode() for word in words]
    named = [(name.encode(), bytes(data)) for name, data in files.items()]
    lent_words = (_Bytes * len(word_bytes))(*map(_lend, word_bytes))
    lent_files = (_File * len(named))(*(_File(_lend(name), _lend(data)) for name, data in named))
    answer = _Answer()
    library = _call()
    status = library.lwcrun_line(lent_words, len(word_bytes), lent_files, len(named), ctypes.byref(answer))
    try:
        output = ctypes.string_at(answer.output.at, answer.output.length) if answer.output.at else b""
        message = ctypes.string_at(answer.message.at, answer.message.length) if answer.message.at else b""
    finally:
        library.lwcrun_free(ctypes.byref(answer))
    return Answer(Status(status), output, message.decode())


def _output(words: Sequence[str], files: Mapping[str, bytes]) -> bytes:
    """What a line writes that ends well."""
    answer = carry_out(words, files)
    if answer.status != Status.OK:
        raise LwcrunError(answer.status, answer.message)
    return answer.output


def assemble(source: str | bytes) -> bytes:
    """The image of a source."""
    return _output(["asm", "source"], {"source": source.encode() if isinstance(source, str) else source})


def replay_text(
    image: bytes,
    schedule: str,
    requests: Iterable[bytes] | None = None,
    *,
    frames: int = FRAMES,
    budget: int = BUDGET,
    workers: int = WORKERS,
) -> bytes:
    """The text of a replay, byte for byte what the program writes. With requests it is a serve by the workers."""
    words = ["replay", "image", "schedule"]
    options = ["--frames", str(frames), "--budget", str(budget)]
    files = {"image": image, "schedule": schedule.encode()}
    if requests is not None:
        words += ["requests"]
        options += ["--workers", str(workers)]
        files["requests"] = request_file(requests)
    return _output(words + options, files)


def replay(
    image: bytes,
    schedule: str,
    requests: Iterable[bytes] | None = None,
    *,
    frames: int = FRAMES,
    budget: int = BUDGET,
    workers: int = WORKERS,
) -> Report:
    """The report of a replay. With requests it is that of a serve by the workers."""
    return read_report(
        replay_text(image, schedule, requests, frames=frames, budget=budget, workers=workers).decode("ascii")
    )


def serve(
    image: bytes, requests: Iterable[bytes], *, frames: int = FRAMES, budget: int = BUDGET, workers: int = WORKERS
) -> Report:
    """The report of a serve in which the workers take turns, one step each.

    The library starts no threads, so this is a replay, with more and more steps until each request has its reply.
    """
    asked = list(requests)
    turns = "".join(f"{thread:x}" for thread in range(workers))
    most = min(MOST_STEPS, len(asked) * (budget + 1) * max(workers, 1) + workers)
    count = min(FIRST_STEPS, most)
    while True:
        schedule = (turns * (count // max(workers, 1) + 1))[:count]
        report = replay(image, schedule, asked, frames=frames, budget=budget, workers=workers)
        if count == most or "none" not in report.replies:
            return report
        count = min(4 * count, most)


def request_file(requests: Iterable[bytes]) -> bytes:
    """The requests as a file has them."""
    return b"".join(request.hex().encode() + b"\n" for request in requests)


def _check(status: int) -> None:
    """Raises the error of a status that is not 0."""
    if status != Status.OK:
        raise LwcrunError(Status(status))


def _name(context: str) -> tuple[int, int]:
    """The two numbers of a context's name J.K."""
    job, _, number = context.partition(".")
    return int(job), int(number)


def _thread(state: _Thread) -> Thread:
    status = ["idle", "running", f"done {state.code}", f"fault {state.code}"][state.status]
    return Thread(status, tuple(state.registers), state.pc, f"{state.job}.{state.context}")


class Run:
    """A run of an image, or where there are requests a serve, that is made step by step.

    Use it in a `with`, or close it. Each step replays the run from its start, so long runs are better replayed whole.
    """

    def __init__(
        self,
        image: bytes,
        requests: Iterable[bytes] | None = None,
        *,
        frames: int = FRAMES,
        budget: int = BUDGET,
        workers: int = WORKERS,
    ) -> None:
        number = ctypes.c_uint64()
        asked = b"" if requests is None else request_file(requests)
        count = 0 if requests is None else workers
        _check(_call().lwcrun_open(_lend(image), _lend(asked), frames, budget, count, ctypes.byref(number)))
        self._number = number.value

    def __enter__(self) -> Run:
        return self

    def __exit__(self, *_: object) -> None:
        self.close()

    def close(self) -> None:
        """Closes the run. A second call does nothing; every other method raises `UNKNOWN_RUN` from here on."""
        if self._number:
            _check(_call().lwcrun_close(self._number))
            self._number = 0

    def step(self, thread: int = 0) -> Thread:
        """Makes one step of a thread, and gives how it is then. A thread that has ended makes none."""
        state = _Thread()
        _check(_call().lwcrun_step(self._number, thread, ctypes.byref(state)))
        return _thread(state)

    def thread(self, thread: int = 0) -> Thread:
        """How a thread is."""
        state = _Thread()
        _check(_call().lwcrun_thread(self._number, thread, ctypes.byref(state)))
        return _thread(state)

    def totals(self) -> Totals:
        """The size of the run: threads, steps, contexts and frames."""
        totals = _Totals()
        _check(_call().lwcrun_totals(self._number, ctypes.byref(totals)))
        return Totals(totals.threads, totals.steps, totals.work, totals.contexts, totals.frames, totals.peak)

    def page(self, context: str, page: int) -> bytes:
        """The bytes of a page of the context of the name J.K; an error of status `MISSING` where it is absent."""
        buffer = ctypes.create_string_buffer(PAGE_BYTES)
        _check(_call().lwcrun_page(self._number, *_name(context), page, buffer))
        return buffer.raw

    def slot(self, context: str, slot: int) -> str:
        """What a slot of the context of the name J.K has, in the words of the program's debugger."""
        state = _Slot()
        _check(_call().lwcrun_slot(self._number, *_name(context), slot, ctypes.byref(state)))
        first, second = state.first, state.second
        kinds = [
            "empty",
            "console",
            f"file {first} at {second}",
            f"request {first} at {second}",
            f"reply {first}",
            f"context {first}.{second}",
        ]
        kind: int = state.kind
        return kinds[kind]
