"""Writes what was made of a program: the image, its lines, its source and its listing."""

from __future__ import annotations

import argparse
import os
import sys
from collections.abc import Iterator

from lwcrun_tools.command import WorkFolder
from lwcrun_tools.compiling.elf import Elf
from lwcrun_tools.compiling.line_file import lines_name
from lwcrun_tools.compiling.made_source import MadeSource, make_source, written
from lwcrun_tools.assembling import plural
from lwcrun_tools.program import find_program
from lwcrun_tools.refusals import IMAGE, Input, Refused, call_program


def add_options(parser: argparse.ArgumentParser) -> None:
    """The options that say what an image is made of and what is written."""
    parser.add_argument("-o", dest="image", metavar="IMAGE", help="the image's name")
    parser.add_argument(
        "--entry",
        action="append",
        metavar="FUNCTION",
        help="the function at which a thread begins, given once for each thread; main if left out",
    )
    stores = parser.add_mutually_exclusive_group()
    stores.add_argument(
        "--word-stores",
        dest="by_words",
        action="store_true",
        default=None,
        help="store 4 bytes by a load and a store of 8, 2 steps; so it is if left out where there is one thread",
    )
    stores.add_argument(
        "--byte-stores",
        dest="by_words",
        action="store_false",
        help="store 4 bytes by 4 stores of a byte, 4 steps; so it is if left out where there are several threads",
    )
    parser.add_argument("--listing", action="store_true", help="print each instruction with its place and its line")
    parser.add_argument("--keep-source", action="store_true", help="write the image's source too, with .s for .lwc")
    parser.add_argument("--weights", metavar="FILE", help=argparse.SUPPRESS)
    parser.add_argument("--program", help="the program; else what LWCRUN names, else this checkout's")


def write_made(elf: Elf, given: argparse.Namespace, name: str, work: WorkFolder) -> None:
    """Makes the image of a linked program, and writes it and what else is asked for."""
    name = given.image or name
    made = make_source(elf, given.entry or ["main"], given.by_words)
    source = made.source()
    path = work.write("made.s", source)
    image = call_program([find_program(given.program), "asm", "--", path], [Input(IMAGE, name, path)])
    write(name, image)
    write(lines_name(name), made.line_table(image).encode())
    if given.keep_source:
        write(os.path.splitext(name)[0] + ".s", source.encode())
    if given.weights:
        write(given.weights, " ".join(map(str, made.weights())).encode())
    print(f"{name}: {told(made)}", file=sys.stderr)
    if given.listing:
        print("\n".join(listing(made)))


def write(name: str, data: bytes) -> None:
    """Writes a file whole or not at all."""
    new = f"{name}.{os.getpid()}.new"
    try:
        with open(new, "wb") as file:
            file.write(data)
        os.replace(new, name)
    except OSError as error:
        if os.path.exists(new):
            os.unlink(new)
        raise Refused(f"cannot write {name}: {error.strerror}", 4) from error


def told(made: MadeSource) -> str:
    """How much an image has."""
    numbers = {label: label.place for label in made.text.placed}
    zeros = sum(len(part) for parts in made.memory.mapped.values() for part in parts)
    return ", ".join(
        [
            plural(len(made.text.made), "instruction"),
            f"{plural(len(made.memory.image_pages(numbers)), 'page')} and {zeros} of zeros",
            plural(made.memory.threads, "thread"),
        ]
    )


def listing(made: MadeSource) -> Iterator[str]:
    """Each instruction: its place, its label, the instruction, and the program's line."""
    names = made.names()
    wide = max((len(name) for name in names.values()), default=0) + 1
    for (place, _, line), it in zip(made.places(), made.text.made):
        label = f"{names[place]}:" if place in names else ""
        yield f"{place:5}  {label:{wide}}  {written(it, names):32}  {line}".rstrip()
