"""Programs that tools/compile has to refuse, with what its message has to name."""

from __future__ import annotations

import os
import re
import subprocess
from collections.abc import Sequence
from dataclasses import dataclass

from compiling.bench_tools import Workshop


@dataclass(frozen=True)
class Case:
    """A program, the words of the line, the status, and what the message has."""

    name: str
    text: str
    status: int
    says: str
    words: Sequence[str] = ()


FIVE = 5
CASES = [
    Case(
        "floating.c",
        "double x = 1;\nint main(void) {\n  return x * 3 > 2;\n}\n",
        FIVE,
        r"floating\.c:3: in main: .*floating point",
    ),
    Case(
        "atomic.c",
        "long n;\nint main(void) {\n  return __atomic_fetch_add(&n, 1, 5);\n}\n",
        FIVE,
        r"atomic\.c:3: in main: .*atomic read-modify-write",
    ),
    Case(
        "local.c",
        "_Thread_local int n = 1;\nint main(void) {\n  return n;\n}\n",
        FIVE,
        r"local\.c:3: in main: n is a thread-local variable",
    ),
    Case(
        "missing.c", "int f(void);\nint main(void) {\n  return f();\n}\n", FIVE, r"missing\.c:3: in main: f: no file"
    ),
    Case(
        "scans.c",
        "#include <math.h>\n#include <string.h>\nint main(void) {\n  return 0;\n}\n",
        1,
        r"the library of guests has no math\.h \(guests/c/include",
    ),
    Case(
        "undeclared.c",
        "int main(void) {\n  int n;\n  strlen(0);\n  return sscanf(\"5\", \"%d\", &n);\n}\n",
        1,
        r"the library of guests has no sscanf \(guests/c/include",
    ),
    Case("large.c", "char all[70 << 20];\nint main(void) {\n  return all[5];\n}\n", FIVE, r"64 MB: \d+ too many"),
    Case(
        "long.c",
        "#define A x = x * 3 + y; y ^= x >> 7; x += z; z = z * 5 ^ y;\n"
        "#define B A A A A A A A A\n#define C B B B B B B B B\n"
        "long x, y, z;\nint main(void) {\n  volatile long *p = &x;\n"
        "#define D *p = x; C *p = y; C\n  D D D D D D D D D D D D D D D D D D D D D D D D D D\n"
        "  D D D D D D D D D D D D D D D D D D D D D D D D D D\n  return x;\n}\n",
        FIVE,
        r"\d+ more than an image has \(65536\): compile it with -Os",
    ),
    Case("entry.c", "int main(void) {\n  return 0;\n}\n", FIVE, r"go", ("--entry", "go")),
    Case("wrong.c", "int main(void) {\n  return 0\n}\n", 1, r"wrong\.c:2:11: .*error: expected ';'"),
    Case("register.S", ".globl main\nmain:\n  addi a6, a0, 1\n", 1, r"register\.S:3:8: error: invalid operand"),
    Case("code.S", ".globl main\nmain:\n  auipc a0, 5\n  jr 4(a0)\n  jalr a1, 8(a0)\n", FIVE, r"in main: a jump to"),
    Case("page.txt", "text", 2, r"page\.txt: a file's name ends in"),
]


def check(shop: Workshop) -> list[str]:
    """The programs that are not refused as they should be."""
    found = []
    for case in CASES:
        file = shop.write(shop.work.path(case.name), case.text)
        image = shop.path(".lwc")
        words = [os.path.join(shop.tools, "compile"), file, "-o", image, *case.words]
        ran = subprocess.run(words, stdin=subprocess.DEVNULL, capture_output=True, check=False, env=shop.environment())
        said = ran.stderr.decode(errors="replace")
        if ran.returncode != case.status or not re.search(case.says, said) or os.path.exists(image):
            found.append(f"{case.name}: status {ran.returncode}: {said.strip()[-500:]}")
    print(f"{len(CASES)} programs that no guest can be: {len(found)} not refused as they should be", flush=True)
    return found
