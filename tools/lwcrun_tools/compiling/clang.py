"""Compiling and linking by clang and lld: where they are, how they are called, and what their errors mean."""

from __future__ import annotations

import argparse
import concurrent.futures
import hashlib
import os
import pathlib
import re
import shutil
import subprocess
import sys

from lwcrun_tools.checkout import GUESTS, TOP
from lwcrun_tools.command import WorkFolder
from lwcrun_tools.compiling.elf import REFUSED, Elf, read_elf
from lwcrun_tools.refusals import Refused
from lwcrun_tools.toolchain import sum_of

# RV64E came with version 18; 19 is the one that everything was tried with.
VERSION = "19"
PACKAGES = {"clang": f"clang-{VERSION}", "ld.lld": f"lld-{VERSION}"}
LIBRARY = os.path.join(GUESTS, "c")
PARTS = ("context", "memory", "words", "numbers", "heap", "print", "wide")
RUNTIME = [os.path.join(LIBRARY, "rt", f"{name}.c") for name in PARTS]
TARGET = ["--target=riscv64-unknown-elf", "-march=rv64em", "-mabi=lp64e", "-mno-relax", "-mcmodel=medlow", "-fno-pic"]
# Sections for each function, so that what is not called takes no place; no tables, since a load is a step.
CODE = ["-ffunction-sections", "-fdata-sections", "-fno-jump-tables", "-fno-asynchronous-unwind-tables"]
CODE += ["-fno-common", "-gdwarf-4", "-gline-tables-only", "-nostdlibinc"]
ALWAYS = [*TARGET, *CODE, "-c", "-I", LIBRARY, "-isystem", os.path.join(LIBRARY, "include")]
IN_LIBRARY = ["-O2", "-ffreestanding", "-fno-builtin"]
IN_CPP = ["-fno-exceptions", "-fno-rtti", "-fno-threadsafe-statics", "-fno-use-cxa-atexit"]
KINDS = (".c", ".cc", ".cpp", ".S", ".o", ".a")
UNDEFINED = re.compile(r"undefined symbol: (.*)\n>>> referenced by (.*)\n(?:>>> +(.*)\n)?")
UNDECLARED = re.compile(r"undeclared library function '(\w+)'|error: '([\w/.]+)' file not found")
FLOATING = re.compile(r"__\w*(?:[sdt]f2?|[sdt]f[23]|f[sdt][idt]\w*|[sdt]f[sdt]\w*|[sdt]i)\d?$")
ATOMIC = re.compile(r"__(atomic|sync)_")


def find_tools() -> dict[str, str]:
    """Where clang and lld are, by the names that Debian gives them."""
    found = {name: shutil.which(f"{name}-{VERSION}") for name in PACKAGES}
    missing = [PACKAGES[name] for name, path in found.items() if not path]
    if missing:
        raise Refused(
            f"clang and lld of version {VERSION} are needed: install Debian's packages, "
            f"`apt-get install {' '.join(missing)}`",
            1,
        )
    return {name: path for name, path in found.items() if path}


def add_options(parser: argparse.ArgumentParser) -> None:
    """The options that say how files are compiled."""
    parser.add_argument(
        "-O", dest="level", default="2", metavar="LEVEL", help="0, 1, 2, 3 or s, as clang's; 2 if left out"
    )
    parser.add_argument("-I", dest="folders", action="append", default=[], metavar="FOLDER", help="as clang's")
    parser.add_argument("-D", dest="defined", action="append", default=[], metavar="NAME[=VALUE]", help="as clang's")
    parser.add_argument(
        "--clang",
        dest="flags",
        action="append",
        default=[],
        metavar="FLAG",
        help="one more flag for clang, as --clang=-Wall",
    )
    parser.add_argument(
        "--threads", type=int, metavar="N", help="so many threads: as many as --entry, or 1, if left out"
    )
    parser.add_argument(
        "--stack", type=int, default=4, metavar="PAGES", help="the pages of a thread's stack; 4 if left out"
    )


class Compiler:
    """Compiles files and links them."""

    def __init__(self, given: argparse.Namespace, work: WorkFolder) -> None:
        self.given, self.work, self.tools = given, work, find_tools()

    def flags_of(self, file: str) -> list[str]:
        """The flags for a file of the user's, by its name."""
        given = self.given
        flags = [f"-O{given.level}", *(f"-I{it}" for it in given.folders), *(f"-D{it}" for it in given.defined)]
        return [*ALWAYS, *flags, *(IN_CPP if file.endswith((".cc", ".cpp")) else []), *given.flags]

    def objects(self, files: list[str]) -> list[str]:
        """The objects of the user's files."""
        for file in files:
            if not file.endswith(KINDS):
                raise Refused(f"{file}: a file's name ends in {', '.join(KINDS[:-1])} or {KINDS[-1]}", 2)
            if not os.path.isfile(file):
                raise Refused(f"cannot read {file}: no such file", 3)
        ready = [file for file in files if file.endswith((".o", ".a"))]
        sources = [file for file in files if file not in ready]
        made = [self.work.path(f"{number}.o") for number in range(len(sources))]
        words = [[self.tools["clang"], *self.flags_of(file), file, "-o", it] for file, it in zip(sources, made)]
        run_side_by_side(words)
        return made + ready

    def library(self) -> list[str]:
        """The objects of the library, which are kept in out/ for each state of its files."""
        kept = os.path.join(TOP, "out", "c-library", sum_of_library(self.tools["clang"]))
        names = [f"{os.path.splitext(os.path.basename(file))[0]}.o" for file in RUNTIME]
        if not os.path.isdir(kept):
            new = self.work.path("library")
            os.makedirs(new)
            words = [
                [self.tools["clang"], *ALWAYS, *IN_LIBRARY, file, "-o", os.path.join(new, name)]
                for file, name in zip(RUNTIME, names)
            ]
            run_side_by_side(words)
            kept = keep(new, kept)
        return [os.path.join(kept, name) for name in names]

    def link(self, files: list[str], threads: int, entries: list[str]) -> Elf:
        """The linked program of files."""
        made = self.work.path("program.elf")
        words = [self.tools["ld.lld"], "-m", "elf64lriscv", "--emit-relocs", "--gc-sections", "-static", "--no-relax"]
        words += [f"--defsym=lwc_given_threads={threads}", f"--defsym=lwc_given_stack_pages={self.given.stack}"]
        words += ["-T", os.path.join(LIBRARY, "lwc.ld"), *(f"--undefined={name}" for name in entries)]
        # The library's members are taken as they are needed, so a program may have functions of its own of these
        # names.
        words += [*self.objects(files), "--start-lib", *self.library(), "--end-lib", "-o", made]
        ran = subprocess.run(words, stdin=subprocess.DEVNULL, capture_output=True, check=False)
        if ran.returncode != 0:
            raise Refused(explain(ran.stderr.decode(errors="replace")), REFUSED, True)
        return read_elf(made, os.path.basename(files[0]))


def run_side_by_side(lines: list[list[str]]) -> None:
    """Runs lines of clang side by side. What it says comes through as it is."""
    colour = ["-fcolor-diagnostics"] * sys.stderr.isatty()

    def run(words: list[str]) -> subprocess.CompletedProcess[bytes]:
        return subprocess.run([*words, *colour], stdin=subprocess.DEVNULL, stderr=subprocess.PIPE, check=False)

    with concurrent.futures.ThreadPoolExecutor(len(os.sched_getaffinity(0))) as pool:
        done = list(pool.map(run, lines))
    said = "".join(ran.stderr.decode(errors="replace") for ran in done)
    sys.stderr.write(said)
    failed = [ran.returncode for ran in done if ran.returncode != 0]
    if failed:
        raise Refused("; ".join([*missing_of_library(said), "no image was made"]), failed[0] if failed[0] > 0 else 1)


def missing_of_library(said: str) -> list[str]:
    """A line about functions and headers of a usual C library which clang names and which guests do not have."""
    folder = os.path.join(LIBRARY, "include")
    headers = os.listdir(folder)
    there = "".join(pathlib.Path(folder, name).read_text(encoding="utf-8") for name in headers)
    names = {first or second for first, second in UNDECLARED.findall(said)}
    gone = sorted(name for name in names if name not in headers and not re.search(rf"\b{re.escape(name)}\(", there))
    return [f"the library of guests has no {', '.join(gone)} (guests/c/include has all that is there)"] if gone else []


def sum_of_library(clang: str) -> str:
    """The sum of all that the library's objects are made of."""
    look = os.stat(clang)
    made_of = [repr((ALWAYS, IN_LIBRARY, os.path.realpath(clang), look.st_mtime_ns, look.st_size))]
    for folder, _, names in sorted(os.walk(LIBRARY)):
        if folder == LIBRARY or os.path.basename(folder) in ("rt", "include"):
            files = [os.path.join(folder, name) for name in sorted(names) if name.endswith((".h", ".c"))]
            made_of += [sum_of(file) for file in files if folder != LIBRARY or file.endswith(".h")]
    return hashlib.sha256("".join(made_of).encode()).hexdigest()[:32]


def keep(new: str, kept: str) -> str:
    """Moves a folder to where it is kept; where that cannot be written, it stays. Answers where it is."""
    try:
        os.makedirs(os.path.dirname(kept), exist_ok=True)
        part = f"{kept}.{os.getpid()}"
        shutil.copytree(new, part)
        os.rename(part, kept)
    except OSError:
        return kept if os.path.isdir(kept) else new
    return kept


def explain(said: str) -> str:
    """What the linker says, with a reason where something is called that no guest has."""
    lines = []
    for symbol, place, thing in UNDEFINED.findall(said):
        function = re.search(r":\((?:\.text\.)?(\w+)", thing or place)
        where = f"{re.sub(r' [(].*', '', place)}: in {function[1]}" if function else place
        if ATOMIC.match(symbol):
            why = (
                "an atomic read-modify-write, which no guest has: order threads by 8-byte flags that one thread stores"
            )
        elif FLOATING.match(symbol):
            why = "floating point, which no guest has: compute with integers"
        else:
            why = "no file and no library of guests/c defines it"
        lines.append(f"{where}: {symbol}: {why}")
    if re.search(r"will not fit in region|overflow|unable to move location counter", said) and not lines:
        lines.append("the data does not fit below the code: make the arrays smaller")
    return "\n".join(lines) or said.strip()
