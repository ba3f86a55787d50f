"""Tests of lwcrun.asgi: what goes to a guest, and what comes back of its reply."""

from __future__ import annotations

import asyncio
import os
import subprocess
import tempfile
from typing import Any

import pytest

import lwcrun
from lwcrun.asgi import App, answer_of

# Replies with the whole request behind a status line; a request of the method Z breaks it, one of X ends with code 3.
ECHO = """.entry 0
.page 0 3230300a
LI r2, 4
LI r3, 4092
SYS 4
MOV r5, r0
LDB r6, r4, 4
LI r7, 90
EQ r8, r6, r7
JNZ r8, bad
LI r7, 88
EQ r8, r6, r7
JNZ r8, code
LI r1, 1
ADDI r3, r5, 4
LI r2, 0
SYS 5
HALT
code: LI r1, 3
SYS 10
bad: LDW r6, r4, 1
"""


def ask(
    app: App, method: str, path: str, body: bytes = b"", query: bytes = b""
) -> tuple[int, dict[bytes, bytes], bytes]:
    """The status, the headers and the body of the answer to a request."""
    sent: list[Any] = []
    parts = [body[:10], body[10:]]

    async def receive() -> dict[str, Any]:
        return {"type": "http.request", "body": parts.pop(0), "more_body": bool(parts)}

    async def send(message: Any) -> None:
        sent.append(message)

    scope = {"type": "http", "method": method, "path": path, "query_string": query}
    asyncio.run(app(scope, receive, send))
    start, end = sent
    return start["status"], dict(start["headers"]), end["body"]


@pytest.fixture(name="echo")
def make_echo() -> App:
    """By the program that LWCRUN names, or else by the library."""
    program = os.environ.get("LWCRUN")
    if not program:
        return App(lwcrun.assemble(ECHO))
    with tempfile.NamedTemporaryFile("w", suffix=".s", encoding="ascii") as file:
        file.write(ECHO)
        file.flush()
        return App(subprocess.run([program, "asm", file.name], stdout=subprocess.PIPE, check=True).stdout)


def test_the_request_comes_to_the_guest(echo: App) -> None:
    status, headers, body = ask(echo, "POST", "/a b", b"some bytes\0\xff", b"x=1")
    assert (status, body) == (200, b"POST /a%20b?x=1\nsome bytes\0\xff")
    assert headers[b"content-type"] == b"text/plain; charset=utf-8"


def test_a_fault_is_500_with_its_number(echo: App) -> None:
    status, headers, _ = ask(echo, "Z", "/")
    assert (status, headers[b"lwcrun-fault"]) == (500, b"2")
    status, headers, _ = ask(echo, "X", "/")
    assert (status, headers[b"lwcrun-exit"]) == (500, b"3")


def test_a_request_of_more_than_4096_bytes_is_413(echo: App) -> None:
    assert ask(echo, "POST", "/", bytes(4096 - len("POST /\n")))[0] == 200
    assert ask(echo, "POST", "/", bytes(4097 - len("POST /\n")))[0] == 413


def test_a_reply_has_a_status_line() -> None:
    assert answer_of("done 0 " + b"404 text/html\n<p>".hex()).status == 404
    assert answer_of("done 0 " + b"404 text/html\n<p>".hex()).kind == b"text/html"
    for reply in (b"", b"hello", b"99\n", b"200", b"200  \n"):
        made = answer_of(f"done 0 {reply.hex() or '-'}")
        assert made.status == 500 and (b"lwcrun-error", b"no status line") in made.headers


def test_requests_that_wait_are_all_answered(echo: App) -> None:
    async def all_at_once() -> list[str]:
        return await asyncio.gather(*(echo.reply(b"Z" if i % 10 == 0 else b"%d" % i) for i in range(100)))

    replies = asyncio.run(all_at_once())
    expected = [
        "fault 2 -" if i % 10 == 0 else f"done 0 {(b'200' + bytes([10]) + b'%d' % i).hex()}" for i in range(100)
    ]
    assert replies == expected
