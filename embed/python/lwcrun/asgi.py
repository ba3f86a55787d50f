"""A web application whose handler is a guest: `app = lwcrun.asgi.App("image.lwc")`, for any server of ASGI, as
uvicorn.

A request goes to the guest as its method, a blank, its path with its query, a line feed, and its body:

    POST /orders?to=Ada
    {"item": "tea"}

The guest replies with a status, and if it likes a blank and a type, a line feed, and the body:

    200 text/html; charset=utf-8
    <h1>Tea</h1>

Each request is answered in a fresh copy of the guest, with a budget of its own; no header of it goes to the guest. A
fault is status 500, with its number in the header `lwcrun-fault`; another code than 0 is status 500 with
`lwcrun-exit`; a reply without a status line is 500 with `lwcrun-error`. A request of more than 4096 bytes in this form
is status 413, and no guest sees it. A reply has at most 4096 bytes: the guest's write of more is refused, and what it
wrote before goes out.

Requests that wait at the same time are served together, by the program that `program` or LWCRUN names, or else by the
library, if embed/build has made it, or else by this checkout's program. Nothing of this module is proved; what is
proved is the serve.
"""

from __future__ import annotations

import asyncio
import logging
import os
import re
import tempfile
from collections.abc import Awaitable, Callable, Mapping, MutableMapping, Sequence
from dataclasses import dataclass, field
from typing import Any
from urllib.parse import quote

import lwcrun
from lwcrun.run_report import read_report

REQUEST_BYTES = 4096
MOST_AT_ONCE = 1024
LAUNCHER = os.path.join(lwcrun.TOP, "lwcrun")
STATUS_LINE = re.compile(rb"([2-5][0-9][0-9])(?: ([\x21-\x7e][\x20-\x7e]*))?\n")
PLAIN = b"text/plain; charset=utf-8"
LOG = logging.getLogger("lwcrun.asgi")

Scope = Mapping[str, Any]
Message = MutableMapping[str, Any]
Receive = Callable[[], Awaitable[Message]]
Send = Callable[[Message], Awaitable[None]]


@dataclass(frozen=True)
class Answer:
    """What goes back to the client."""

    status: int
    kind: bytes
    body: bytes
    headers: tuple[tuple[bytes, bytes], ...] = ()


def answer_of(reply: str) -> Answer:
    """The answer for a reply as a report has it: `done 0` or `fault 2`, and the bytes as digits."""
    end, code, digits = reply.split(" ")
    if end == "fault":
        return failure(f"the handler ended with fault {code}", (b"lwcrun-fault", code.encode()))
    if code != "0":
        return failure(f"the handler ended with code {code}", (b"lwcrun-exit", code.encode()))
    written = b"" if digits == "-" else bytes.fromhex(digits)
    line = STATUS_LINE.match(written)
    if not line:
        return failure("the handler's reply has no status line", (b"lwcrun-error", b"no status line"))
    return Answer(int(line[1]), line[2] or PLAIN, written[line.end() :])


def failure(why: str, *headers: tuple[bytes, bytes], status: int = 500) -> Answer:
    """An answer that is not the guest's."""
    return Answer(status, PLAIN, why.encode() + b"\n", headers)


def has_library() -> bool:
    """Whether there is a library to call."""
    made = os.path.join(lwcrun.TOP, "embed", "out", "liblwcrun.so")
    return os.path.exists(os.environ.get("LWCRUN_LIBRARY", made))


@dataclass
class App:
    """An application of ASGI. `image` is the name of an image, or its bytes; the settings are those of a serve, and
    `jobs` is how many serves may run at once."""

    image: str | bytes
    program: str | None = None
    frames: int = lwcrun.FRAMES
    budget: int = 100_000
    workers: int = lwcrun.WORKERS
    jobs: int = 2
    _waiting: list[tuple[bytes, asyncio.Future[str]]] = field(default_factory=list, init=False, repr=False)
    _serves: set[asyncio.Task[None]] = field(default_factory=set, init=False, repr=False)

    def __post_init__(self) -> None:
        self.program = self.program or os.environ.get("LWCRUN") or (None if has_library() else LAUNCHER)
        if isinstance(self.image, str):
            with open(self.image, "rb") as file:
                self.image = file.read()
        # A serve makes at most MOST_STEPS steps.
        self._most = min(MOST_AT_ONCE, (lwcrun.MOST_STEPS - self.workers) // (self.budget + 1))
        if self._most < 1:
            raise ValueError(f"budget is at most {lwcrun.MOST_STEPS - self.workers - 1}")

    async def __call__(self, scope: Scope, receive: Receive, send: Send) -> None:
        if scope["type"] == "lifespan":
            await live(receive, send)
        elif scope["type"] == "http":
            await self._respond(scope, receive, send)
        else:
            await send({"type": "websocket.close"})

    async def _respond(self, scope: Scope, receive: Receive, send: Send) -> None:
        request = await request_of(scope, receive)
        if request is None:
            answer = failure(f"a request has at most {REQUEST_BYTES} bytes", status=413)
        else:
            try:
                answer = answer_of(await self.reply(request))
            except (OSError, lwcrun.LwcrunError) as error:
                LOG.error("the serve failed: %s", error)
                answer = failure("the serve failed", status=503)
        headers = [
            (b"content-type", answer.kind),
            (b"content-length", str(len(answer.body)).encode()),
            *answer.headers,
        ]
        await send({"type": "http.response.start", "status": answer.status, "headers": headers})
        await send({"type": "http.response.body", "body": answer.body})

    async def reply(self, request: bytes) -> str:
        """The reply to a request, as a report has it. It waits for the others that came at the same time."""
        future: asyncio.Future[str] = asyncio.get_running_loop().create_future()
        self._waiting.append((request, future))
        if len(self._serves) < self.jobs:
            task = asyncio.create_task(self._serve_waiting())
            self._serves.add(task)
            task.add_done_callback(self._serves.discard)
        return await future

    async def _serve_waiting(self) -> None:
        """Serves what waits until nothing does."""
        while self._waiting:
            taken, self._waiting = self._waiting[: self._most], self._waiting[self._most :]
            try:
                replies = await self._serve([request for request, _ in taken])
            except Exception as error:  # pylint: disable=broad-exception-caught
                for _, future in taken:
                    if not future.done():
                        future.set_exception(error)
                continue
            for (_, future), reply in zip(taken, replies, strict=True):
                # A client that went away has cancelled its own.
                if not future.done():
                    future.set_result(reply)

    async def _serve(self, requests: Sequence[bytes]) -> list[str]:
        assert isinstance(self.image, bytes)
        if self.program:
            return await serve_by_program(self, self.program, self.image, requests)
        settings = {"frames": self.frames, "budget": self.budget, "workers": self.workers}
        report = await asyncio.to_thread(lwcrun.serve, self.image, requests, **settings)
        return list(report.replies)


async def serve_by_program(app: App, program: str, image: bytes, requests: Sequence[bytes]) -> list[str]:
    """The replies of a serve by the program, over files of its own."""
    with tempfile.TemporaryDirectory(prefix="lwcrun-asgi-") as folder:
        names = [os.path.join(folder, name) for name in ("image", "requests")]
        for name, data in zip(names, (image, lwcrun.request_file(requests))):
            with open(name, "wb") as file:
                file.write(data)
        workers = min(app.workers, len(requests))
        words = ["--frames", str(app.frames), "--budget", str(app.budget), "--workers", str(workers)]
        process = await asyncio.create_subprocess_exec(
            program,
            "serve",
            *words,
            *names,
            stdin=asyncio.subprocess.DEVNULL,
            stdout=asyncio.subprocess.PIPE,
            stderr=asyncio.subprocess.PIPE,
        )
        try:
            output, said = await process.communicate()
        except BaseException:
            if process.returncode is None:
                process.kill()
                await process.wait()
            raise
    if process.returncode != 0:
        raise OSError(f"status {process.returncode}: {said.decode(errors='replace').strip()}")
    report = read_report(output.decode("ascii"))
    return list(report.replies)


async def request_of(scope: Scope, receive: Receive) -> bytes | None:
    """A request in the form for the guest; None where it is too long."""
    path = scope.get("raw_path") or quote(scope["path"]).encode()
    query = scope.get("query_string", b"")
    request = bytearray(scope["method"].encode() + b" " + path + (b"?" + query if query else b"") + b"\n")
    has_more = True
    while has_more:
        message = await receive()
        if message["type"] == "http.disconnect":
            break
        request += message.get("body", b"")
        if len(request) > REQUEST_BYTES:
            return None
        has_more = message.get("more_body", False)
    return bytes(request) if len(request) <= REQUEST_BYTES else None


async def live(receive: Receive, send: Send) -> None:
    """Answers that the application is ready, and that it has ended."""
    while True:
        message = await receive()
        await send({"type": f"{message['type']}.complete"})
        if message["type"] == "lifespan.shutdown":
            return
