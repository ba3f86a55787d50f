"""The guests of guests/c: what each has to reply or to write, as its assembly does or as its head says."""

from __future__ import annotations

import os
import re

from compiling.bench_tools import LIBRARY, Workshop, bytes_of
from lwcrun_tools.checkout import GUESTS

# The key of guests/signer.vault.
KEY = b"a key of 16 byte"
ORDERS = {
    b'{"item": "tea", "count": 3, "to": "Ada"}': "3 tea for Ada: 10.50\n",
    b"x": "refused: no object of JSON\n",
    b'{"item":"gold","count":1,"to":"me"}': "refused: no such item\n",
    b'{"item":"milk","count":-1,"to":"me"}': "refused: a count is 1 to 1000\n",
    b'{"a":{"b":1}}': "refused: a field has fields of its own\n",
    b'{"item":"milk"}': "refused: item, count and to are needed\n",
}
PLUGINS = {b"0hello": "done 0 HELLO", b"1hello": "done 0 olleh", b"2hello": "done 0 hello", b"2size": "done 3 "}
PLUGINS |= {b"2loop": "fault 5 ", b"2store": "fault 3 ", b"7x": "done 1 ", b"0abc": "done 0 ABC"}
SANDBOX = """100 * 3 = 300
100 * 4 = 400
100 * 5 = 500
refused: -10 -10 -3 -15
the word is 42, the uid 0
"""


ASSERTS = """#include "lwc.h"
#include <assert.h>
int main(void) {
  char what = 0;
  lwc_read(LWC_REQUEST, &what, 1);
  assert(what != 'a');
  assert(what != 'b');
  return 0;
}
"""


def cells(*numbers: int) -> bytes:
    """What rollback.c replies: four cells, and how many rollbacks there were."""
    return b"".join(number.to_bytes(8, "little") for number in numbers)


ROLLBACKS = {
    b"+0+1[0+0+0!0+2": ("done 0", cells(1, 1, 1, 0, 1)),
    b"+0[0+0]0": ("done 0", cells(2, 0, 0, 0, 0)),
    b"f0": ("fault 2", b""),
    b"zz": ("done 1", b""),
    b"!0": ("done 2", b""),
    b"+0": ("done 0", cells(1, 0, 0, 0, 0)),
}


def check_value(message: int) -> int:
    """What guests/signer.s answers, by its definition."""
    first, second = int.from_bytes(KEY[:8], "little"), int.from_bytes(KEY[8:], "little")
    for word in (first, second):
        message = ((message ^ word) * 1540483477) % 2**64
        message ^= message >> 29
    return message


def check(shop: Workshop) -> list[str]:
    """What is wrong of them."""
    found = [*check_serves(shop), *check_runs(shop), *check_traps(shop), *check_monitor(shop), *check_signer(shop)]
    print(f"the guests of guests/c: {len(found)} wrong", flush=True)
    return found


def source(name: str) -> str:
    return os.path.join(LIBRARY, name)


def check_serves(shop: Workshop) -> list[str]:
    found = []
    for name, expected in (("orders.c", ORDERS), ("plugins", PLUGINS)):
        folder = source(name)
        files = [folder] if name.endswith(".c") else [os.path.join(folder, it) for it in sorted(os.listdir(folder))]
        replies = shop.serve(shop.compile([it for it in files if it.endswith(".c")]), list(expected))
        for request, (end, reply) in zip(expected, replies):
            shown = reply.decode() if name == "orders.c" else f"{end} {reply.decode()}"
            if shown != expected[request]:
                found.append(f"{name}: {request!r} has {end} {reply!r}")
    if dict(zip(ROLLBACKS, shop.serve(shop.compile([source("rollback.c")]), list(ROLLBACKS)))) != ROLLBACKS:
        found.append("rollback.c")
    with open(os.path.join(GUESTS, "counter_handler.requests"), encoding="ascii") as file:
        requests = [bytes.fromhex(line) for line in file]
    counted = shop.serve(shop.compile([source("counter_handler.c")]), requests)
    if counted != [("done 0", b"\1"), ("done 0", b"\1"), ("fault 3", b""), ("done 0", b"\1")]:
        found.append(f"counter_handler.c: {counted}")
    return found


def check_runs(shop: Workshop) -> list[str]:
    sandbox = shop.run_guest(shop.compile([source("sandbox.c")]))
    found = [] if sandbox == ("done 0", SANDBOX.encode()) else [f"sandbox.c: {sandbox}"]
    image = shop.compile([source("two_threads.c")], "--entry", "work", "--threads", "2")
    counted = shop.run_guest(image)
    if counted != ("done 0", b"count 80, pair 39 39, no store was lost\n"):
        found.append(f"two_threads.c: {counted}")
    return found


def check_traps(shop: Workshop) -> list[str]:
    """A trace names the line of each assert that failed, though all end alike."""
    file = shop.write(shop.path(".c"), ASSERTS)
    image, requests = shop.compile([file]), shop.write(shop.path(".requests"), "61\n62\n63\n")
    report = shop.write(shop.path(".report"), shop.call([shop.program, "serve", image, requests, "--workers", "1"]))
    words = [os.path.join(shop.tools, "trace"), image, report, "--requests", requests]
    ends = [line for line in shop.call(words).decode().splitlines() if ": fault 1 BadPc" in line]
    found = [re.findall(r":(\d+)> +trap, ends request (\d)", line) for line in ends]
    return [] if found == [[("6", "0")], [("7", "1")]] else [f"traps: {ends}"]


def console_of(report: bytes) -> str:
    """What the console has in a report."""
    line = next(it for it in report.decode().splitlines() if it.startswith("console "))
    return bytes_of(line.split()[1]).decode()


def check_monitor(shop: Workshop) -> list[str]:
    steps = shop.write(shop.path(".schedule"), "0" * 4000)
    report = shop.call([shop.program, "monitor", shop.compile([source("monitor.c")]), steps])
    is_right = console_of(report) == "hello\nmade 2, refused 6\n" and b"\ntrap 1.0 by 0.0\n" in report
    return [] if is_right else [f"monitor.c: {console_of(report)!r}"]


def check_signer(shop: Workshop) -> list[str]:
    image = shop.compile([source("signer.c"), source("sign.S")])
    with open(os.path.splitext(image)[0] + ".lines", encoding="utf-8") as file:
        entry = next(int(words[0]) for line in file if (words := line.split(" "))[1] == "sign")
    vault = shop.write(shop.path(".vault"), entry.to_bytes(4, "little") + bytes(4) + KEY + bytes(4096 - len(KEY)))
    steps = shop.write(shop.path(".schedule"), "0" * 4000)
    console = console_of(shop.call([shop.program, "vault", image, vault, steps]))
    values = [f"{message} {check_value(message):016x}" for message in (7, 8)]
    expected = "\n".join([*values, "7 the same again", "refused: -10 -10 -10", ""])
    return [] if console == expected else [f"signer.c: {console!r}"]
