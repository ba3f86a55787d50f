"""Programs and libraries that are made over proved crates, with what the prover says of each."""

from __future__ import annotations

import os
import re
import shlex
import subprocess
import sys

from lwcrun_tools.checkout import LIBRARIES, TOP, below_of, is_built, looks_of, uses_of_crates
from lwcrun_tools.exits import FAILED, NAME, SKIPPED, give_up
from lwcrun_tools.proving import prove_and_build

VERDICT = re.compile(rb"^logic=proved .*$", re.MULTILINE)


def call(words: list[str], folder: str = TOP, given: bytes | None = None) -> bytes:
    """What a command prints, on both its outputs; gives up where it fails."""
    out, err = subprocess.PIPE, subprocess.STDOUT
    ran = subprocess.run(words, cwd=folder, input=given, stdout=out, stderr=err, check=False)
    if ran.returncode != 0:
        sys.stderr.buffer.write(ran.stdout)
        give_up(f"{NAME}: {shlex.join(words[:4])} .. failed with status {ran.returncode}", FAILED)
    return ran.stdout


def libraries_of_gate(names: list[str]) -> dict[str, str] | None:
    """The libraries that `rt ci` proved of these crates, if all are there and no source has changed since it began."""
    libraries = {name: os.path.join(TOP, "crates", name, "out", "rlib", f"{name}.rlib") for name in names}
    try:
        begun = os.stat(os.path.join(TOP, ".git", "rt-ci.lock")).st_mtime_ns
    except OSError:
        return None
    unchanged = all(max(written, changed) <= begun for _, written, changed, _ in looks_of(names))
    return libraries if unchanged and all(map(os.path.exists, libraries.values())) else None


def libraries_of_launcher(names: list[str]) -> dict[str, str]:
    """The libraries of these crates, proved where they have to be, with the program, which stands on most of them."""
    libraries = {name: os.path.join(LIBRARIES, f"{name}.rlib") for name in names}
    if not prove_and_build(names) or not all(map(os.path.exists, libraries.values())):
        give_up(f"{NAME}: the crates were not proved", FAILED)
    return libraries


def libraries_below(name: str, only_if_proved: bool) -> dict[str, str]:
    """The proved libraries of the crates below this one. Gives up where the program is not proved, if that is not to
    be done; the few crates on which the program does not stand are proved all the same."""
    names = sorted(below_of(name, uses_of_crates()))
    libraries = libraries_of_gate(names)
    if libraries is None:
        if only_if_proved and not is_built():
            give_up(f"{NAME}: nothing is made: the crates are not proved (rt ci or ./lwcrun --prove does it)", SKIPPED)
        libraries = libraries_of_launcher(names)
    return libraries


def build(name: str, libraries: dict[str, str], kit: str, flags: list[str], made: str) -> str:
    """Proves a crate over proved libraries, and compiles it with all that it calls. Answers the prover's verdict."""
    root = "src/lib.rt" if "staticlib" in flags else "src/main.rt"
    words = [f"{kit}/bin/rattle", "build", "--crate-name", name, root, "--links", f"{name}="]
    for used in ("std", *uses_of_crates()[name]):
        words += ["--extern", f"{used}={libraries.get(used, f'{kit}/rlibs/{used}.rlib')}"]
    for folder in sorted({f"{kit}/rlibs", *(os.path.dirname(it) for it in libraries.values())}):
        words += ["-L", f"dependency={folder}"]
    words += ["--antt-project", f"{kit}/rattle/logic/antt-project.json", "--logic-built", f"{kit}/logic_built"]
    words += ["--toolchain", f"{kit}/toolchain", "--jobs", "1", *flags, "-o", made]
    said = VERDICT.search(call(words, os.path.join(TOP, "crates", name)))
    return said[0].decode() if said else "logic=proved"


def build_program(kit: str, made: str, only_if_proved: bool) -> str:
    """Proves and links the program. Answers the prover's verdict of its crate."""
    verdict = build("lwcrun", libraries_below("lwcrun", only_if_proved), kit, [], f"{made}.o")
    link = [f"{kit}/bin/rattle-link", "--target", "x86_64-unknown-linux-gnu", "--toolchain", f"{kit}/toolchain"]
    call([*link, "-o", made, f"{made}.o", f"{kit}/c/libos_c.a", f"{kit}/c/liblibc_c.a"])
    os.remove(f"{made}.o")
    return verdict


def build_library(kit: str, out: str, only_if_proved: bool) -> str:
    """Proves the library for C, and makes liblwcrun.a and liblwcrun.so in a folder. Answers the prover's verdict."""
    archive = os.path.join(out, "liblwcrun_c.a")
    libraries = libraries_below("lwcrun_c", only_if_proved)
    verdict = build("lwcrun_c", libraries, kit, ["--crate-type", "staticlib"], archive)
    link_library(kit, out, archive)
    return verdict


def link_library(kit: str, out: str, archive: str) -> None:
    """Makes liblwcrun.a and liblwcrun.so of the compiled crate and of the layer in C, by CC or cc."""
    layer, whole = os.path.join(out, "lwcrun.o"), os.path.join(out, "liblwcrun.a")
    compiler = shlex.split(os.environ.get("CC", "cc"))
    system = [f"{kit}/c/liblibc_c.a", f"{kit}/c/libos_c.a"]
    flags = ["-std=c11", "-Wall", "-Wextra", "-Wpedantic", "-O2", "-fPIC", f"-I{TOP}/include"]
    call([*compiler, *flags, "-c", os.path.join(TOP, "embed", "c", "lwcrun.c"), "-o", layer])
    # One archive, so that a program links one file.
    added = "".join(f"addlib {it}\n" for it in (archive, *system))
    call(["ar", "-M"], given=f"create {whole}\n{added}addmod {layer}\nsave\nend\n".encode())
    # A library that lacks a function fails here, and not where it is used.
    shared = [*compiler, "-shared", "-Wl,-z,defs", "-o", os.path.join(out, "liblwcrun.so")]
    call([*shared, layer, archive, *system, "-pthread"])
