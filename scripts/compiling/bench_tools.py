"""What the checks of the compiler share: how a program is made and run natively, by qemu and as a guest."""

from __future__ import annotations

import os
import shutil
import subprocess
import sys
from collections.abc import Iterable, Sequence
from dataclasses import dataclass, field

from lwcrun_tools.checkout import GUESTS, TOOLS, TOP
from lwcrun_tools.command import WorkFolder
from lwcrun_tools.compiling.clang import PACKAGES, TARGET, VERSION

MOST_STEPS = 100000
QEMU, NATIVE = "qemu-riscv64", f"clang-{VERSION}"
NEEDED = {**{f"{name}-{VERSION}": package for name, package in PACKAGES.items()}, QEMU: "qemu-user"}
LIBRARY = os.path.join(GUESTS, "c")
PROGRAMS = os.path.join(TOP, "scripts", "compiling", "programs")


def missing_packages(commands: Iterable[str] = tuple(NEEDED)) -> list[str]:
    """Debian's packages of the commands that are not there."""
    return sorted({NEEDED.get(name, name) for name in commands if not shutil.which(name)})


class CheckFailed(Exception):
    """A check found something wrong, or a command of it failed."""


@dataclass
class Workshop:
    """Where programs are made: the program lwcrun, a folder for files, and the folder of the tools, which may be a
    copy with a fault in it."""

    program: str
    work: WorkFolder
    tools: str = TOOLS
    made: int = 0
    told: list[str] = field(default_factory=list)

    def path(self, ending: str) -> str:
        """The name of a new file."""
        self.made += 1
        return self.work.path(f"{self.made}{ending}")

    def call(self, words: Sequence[str], given: bytes | None = None, status: int | None = 0) -> bytes:
        """What a command writes, which has to end with a status, if one is named."""
        ran = subprocess.run(words, input=given, capture_output=True, check=False, env=self.environment())
        if status is not None and ran.returncode != status:
            said = ran.stderr.decode(errors="replace").strip()[-2000:]
            raise CheckFailed(f"{' '.join(words)[:300]}: status {ran.returncode}\n{said}")
        return ran.stdout

    def environment(self) -> dict[str, str]:
        return {**os.environ, "LWCRUN": self.program}

    def compile(self, files: Sequence[str], *words: str) -> str:
        """The image of files by tools/compile."""
        image = self.path(".lwc")
        self.call([os.path.join(self.tools, "compile"), *files, "-o", image, *words])
        return image

    def native(self, files: Sequence[str], *words: str) -> str:
        """The same as a program of this machine, over scripts/compiling/programs/native.h."""
        made = self.path(".native")
        self.call([NATIVE, "-w", "-O1", "-DNATIVE", "-I", PROGRAMS, *words, *files, "-o", made])
        return made

    def assemble(self, source: str) -> str:
        """The image of a source in assembly of RISC-V that needs no library, by tools/translate."""
        file, made, linked, image = (self.path(ending) for ending in (".S", ".o", ".elf", ".lwc"))
        self.write(file, source)
        self.call([f"clang-{VERSION}", *TARGET, "-c", file, "-o", made])
        words = ["-m", "elf64lriscv", "--emit-relocs", "--no-relax", "-static", "-T", os.path.join(LIBRARY, "lwc.ld")]
        self.call([f"ld.lld-{VERSION}", *words, "-o", linked, made])
        self.call([sys.executable, os.path.join(self.tools, "translate"), linked, "-o", image, *self.told])
        return image

    def run_by_qemu(self, source: str) -> bytes:
        """What a source in assembly writes under qemu."""
        file, made, linked = (self.path(ending) for ending in (".S", ".o", ".elf"))
        self.write(file, source)
        flags = ["--target=riscv64-unknown-elf", "-march=rv64im", "-mabi=lp64", "-mno-relax"]
        self.call([f"clang-{VERSION}", *flags, "-c", file, "-o", made])
        self.call([f"ld.lld-{VERSION}", "-static", "-e", "_start", "-o", linked, made])
        return self.call([QEMU, linked])

    @staticmethod
    def write(name: str, text: str | bytes) -> str:
        with open(name, "wb") as file:
            file.write(text.encode() if isinstance(text, str) else text)
        return name

    def run_guest(self, image: str) -> tuple[str, bytes]:
        """How the first thread of a run ends, and what the console has."""
        report = self.call([self.program, "run", image, "--budget", str(MOST_STEPS)]).decode().splitlines()
        words = report[0].split()
        console = next(line for line in report if line.startswith("console "))
        return f"{words[2]} {words[3]}", bytes_of(console.split()[1])

    def serve(self, image: str, requests: Sequence[bytes]) -> list[tuple[str, bytes]]:
        """How each request ends, and its reply."""
        file = self.write(self.path(".requests"), "".join(f"{request.hex()}\n" for request in requests))
        words = [self.program, "serve", image, file, "--workers", "1", "--budget", str(MOST_STEPS)]
        lines = [line.split() for line in self.call(words).decode().splitlines() if line.startswith("reply ")]
        return [(f"{line[2]} {line[3]}", bytes_of(line[4])) for line in lines]


def bytes_of(digits: str) -> bytes:
    """The bytes of a line of a report."""
    return b"" if digits == "-" else bytes.fromhex(digits)
