"""Programs in C and C++: the same requests to a guest and to the same program of this machine."""

from __future__ import annotations

import hashlib
import json
import os
import random
import struct
import subprocess
import zlib
from collections.abc import Callable, Sequence
from dataclasses import dataclass

from compiling.bench_tools import PROGRAMS, CheckFailed, Workshop

LEVELS = "0123s"
SIZES = (0, 1, 3, 55, 56, 63, 64, 65, 119, 120, 127, 128, 200, 1000, 1024, 1500)
# The console of neighbours.c: what each of four places had last.
NEIGHBOURS = struct.pack("<2I2H", 8 * 0x01010101, 8 * 0x10101010, 8 * 0x0101, 8 * 0x1010)


@dataclass(frozen=True)
class Compared:
    """How many replies were compared, how many of them differ, and how many requests ran out of budget."""

    name: str
    count: int
    wrong: int
    cut: int

    def line(self) -> str:
        cut = f", {self.cut} out of budget" if self.cut else ""
        return f"{self.name}: {self.count} replies, {self.wrong} wrong{cut}"


def random_bytes(chance: random.Random) -> bytes:
    return chance.randbytes(chance.choice(SIZES))


def random_elements(chance: random.Random) -> bytes:
    """The way to sort, and elements, some of them often the same."""
    count = chance.randint(0, 24)
    some = chance.randbytes(8 * count) if chance.random() < 0.6 else bytes(chance.choices((0, 1, 255), k=8 * count))
    return chance.randrange(5).to_bytes(8, "little") + some


def random_value(chance: random.Random, depth: int) -> object:
    kind = chance.randrange(7 if depth < 4 else 5)
    if kind < 5:
        return [None, True, chance.randint(-(10**6), 10**6), 'a "text"\\ \u00e9\n' * chance.randrange(3), ""][kind]
    parts = [random_value(chance, depth + 1) for _ in range(chance.randrange(6))]
    return parts if kind == 5 else {f"k{i}" * chance.randint(1, 3): part for i, part in enumerate(parts)}


def random_json(chance: random.Random) -> bytes:
    """A text in JSON, of which a fourth has a byte changed."""
    made = {"a": random_value(chance, 0), "b": random_value(chance, 0)}
    text = bytearray(json.dumps(made, indent=chance.choice((None, 1))).encode()[:1500])
    if chance.random() < 0.25:
        text[chance.randrange(len(text))] = chance.choice(b'{}[]":,x\\')
    return bytes(text)


def random_png(chance: random.Random) -> bytes:
    """A small picture, compressed by zlib; a fifth has a bit changed."""
    wide, high = chance.randint(1, 16), chance.randint(1, 16)
    kind, parts = chance.choice(((0, 1), (2, 3), (4, 2), (6, 4), (3, 1)))
    values = [0, 7, chance.randrange(256)] if kind != 3 else range(16)
    rows = b"".join(bytes([chance.randrange(5), *chance.choices(values, k=wide * parts)]) for _ in range(high))

    def chunk(name: bytes, data: bytes) -> bytes:
        return struct.pack(">I", len(data)) + name + data + struct.pack(">I", zlib.crc32(name + data))

    made = b"\x89PNG\r\n\x1a\n" + chunk(b"IHDR", struct.pack(">IIBBBBB", wide, high, 8, kind, 0, 0, 0))
    made += chunk(b"PLTE", chance.randbytes(768)) if kind == 3 else b""
    made += chunk(b"IDAT", zlib.compress(rows, chance.choice((0, 1, 6, 9)))) + chunk(b"IEND", b"")
    if chance.random() < 0.2:
        broken = bytearray(made)
        broken[chance.randrange(len(broken))] ^= 1 << chance.randrange(8)
        return bytes(broken)
    return made


def random_words(chance: random.Random) -> bytes:
    """Words that are numbers, almost numbers, at the ends of what 64 bits hold, or any bytes."""
    words = []
    for _ in range(chance.randrange(12)):
        number = chance.choice((0, 7, 2**63 - 1, 2**63, 2**64 - 1, 2**64, chance.getrandbits(70), chance.getrandbits(9)))
        digits = format(number, chance.choice("xXob")) if chance.random() < 0.7 else str(number)
        start = chance.choice(("", "", "-", "+", "--", "0x", "-0X", "0"))
        words.append(f"{start}{digits[:40]}{chance.choice(('', '', 'z', '.5'))}".encode())
    words += [bytes(chance.choices(range(1, 256), k=chance.randrange(9))) for _ in range(chance.randrange(4))]
    chance.shuffle(words)
    return b" ".join(words)[:599]


REQUESTS: dict[str, Callable[[random.Random], bytes]] = {
    "sha256": random_bytes,
    "crc": random_bytes,
    "sort": random_elements,
    "words": random_words,
    "json": random_json,
    "inflate": random_png,
}
# What a reply has to be by another program still.
BY_PYTHON: dict[str, Callable[[bytes], bytes]] = {
    "sha256": lambda request: hashlib.sha256(request).digest(),
    "crc": lambda request: zlib.crc32(request).to_bytes(4, "little"),
}
NEEDED_FILES = {"json": "/usr/include/jsmn.h", "inflate": "/usr/include/stb/stb_image.h"}
PACKAGES = {"json": "libjsmn-dev", "inflate": "libstb-dev"}


def run_native(program: str, request: bytes) -> bytes:
    return subprocess.run([program], input=request, stdout=subprocess.PIPE, timeout=20, check=False).stdout


def compare(shop: Workshop, name: str, level: str, requests: Sequence[bytes], *words: str) -> Compared:
    """A program of scripts/compiling/programs, at one level of optimization, against itself on this machine."""
    file = os.path.join(PROGRAMS, f"{name}.c")
    image = shop.compile([file], f"-I{PROGRAMS}", f"-O{level}", "--clang=-w", "--clang=-fwrapv", *words)
    native = shop.native([file], "-fwrapv", *words)
    wrong = cut = 0
    for request, (end, reply) in zip(requests, shop.serve(image, requests), strict=True):
        if end == "fault 5":
            cut += 1
            continue
        expected = run_native(native, request)
        by_python = BY_PYTHON.get(name)
        if by_python and by_python(request) != expected:
            raise CheckFailed(f"{name}: the program of this machine is wrong itself")
        wrong += not end.startswith("done") or reply != expected
    return Compared(f"{name} -O{level}", len(requests) - cut, wrong, cut)


def check_arithmetic(shop: Workshop, chance: random.Random, count: int, level: str) -> Compared:
    """A sum for each of 323 operations of C."""
    rounds = 2 if level == "0" else 4
    return compare(shop, "arithmetic", level, [chance.randbytes(8) for _ in range(count)], f"-DROUNDS={rounds}")


def check_program(shop: Workshop, chance: random.Random, name: str, count: int) -> Compared:
    """A program on random requests."""
    if name in NEEDED_FILES and not os.path.exists(NEEDED_FILES[name]):
        raise CheckFailed(f"{name} needs Debian's package {PACKAGES[name]}")
    return compare(shop, name, "2", [REQUESTS[name](chance) for _ in range(count)])


def check_objects(shop: Workshop) -> Compared:
    """C++ with virtual functions, pointers to members and constructors, against this machine."""
    file = os.path.join(PROGRAMS, "objects.cc")
    native = shop.write(
        shop.path(".cc"),
        f'#include "{PROGRAMS}/native.h"\n#define LWC_H\nenum {{ LWC_CONSOLE = 1 }};\n'
        + read(file).replace('#include "lwc.h"', ""),
    )
    expected = run_native(shop.native([native], "-fno-rtti"), b"")
    wrong = sum(shop.run_guest(shop.compile([file], f"-O{level}")) != ("done 0", expected) for level in LEVELS)
    return Compared("objects.cc", len(LEVELS), wrong, 0)


def read(name: str) -> str:
    with open(name, encoding="utf-8") as file:
        return file.read()


def check_neighbours(shop: Workshop, chance: random.Random, count: int, *words: str) -> Compared:
    """Two threads store to ints and shorts side by side, in random schedules."""
    file = os.path.join(PROGRAMS, "neighbours.c")
    image, wrong = shop.compile([file], "--entry", "left", "--entry", "right", *words), 0
    for _ in range(count):
        weight = chance.random()
        digits = "".join(chance.choices("01", (weight, 1 - weight), k=400)) + "01" * 4000
        schedule = shop.write(shop.path(".schedule"), digits)
        report = shop.call([shop.program, "replay", image, schedule]).decode()
        wrong += f"console {NEIGHBOURS.hex()}\n" not in report
    return Compared(" ".join(["neighbours.c", *words]), count, wrong, 0)
