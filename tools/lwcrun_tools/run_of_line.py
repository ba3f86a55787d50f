"""The run that the words of a tool's line name.

A schedule alone does not tell whether its steps are those of a plain run, of a serve, of a run under a monitor or
beside a vault. A report does, or the options do; and where there is a report, the replay has to end as it says. A run
that cannot be made again is refused here.
"""

from __future__ import annotations

import argparse
import re
from collections.abc import Callable

from lwcrun_tools.assembling import assemble, compare
from lwcrun_tools.command import WorkFolder
from lwcrun_tools.command_line import OPTIONS
from lwcrun_tools.exits import say
from lwcrun_tools.compiling.line_file import read_lines
from lwcrun_tools.guest_source import Source, is_image, read_source, source_of
from lwcrun_tools.images import Image, read_image
from lwcrun_tools.machine import TRAP
from lwcrun_tools.program import find_program
from lwcrun_tools.refusals import (
    IMAGE,
    REPORT,
    REQUESTS,
    SCHEDULE,
    SOURCE,
    Input,
    Refused,
    call_program,
    read_file,
    take,
)
from lwcrun_tools.replayed_run import GUARD, KINDS, MONITOR, PLAIN, SERVE, VAULT, Run, in_order
from lwcrun_tools.report_options import found_options
from lwcrun_tools.run_report import Report, ReportError, read_report

FILES = """IMAGE is an image, or a source, which is assembled first. SCHEDULE is a schedule, or a report of a run of
the image: its line `schedule` is taken, and the end of the run is compared with it. A report tells what it is a run
of. A schedule alone does not: give --monitor, --guard, --vault FILE or --requests FILE where it is no plain run.
Places have the labels of a source; of an image that tools/compile made they have functions and lines, by the file
beside it.

Status 0: success; 1: the run cannot be shown; 2: the line is not accepted; 3 to 7: as the program's."""


def add_options(parser: argparse.ArgumentParser) -> None:
    """The files and options that say which run it is."""
    parser.add_argument("image", metavar="IMAGE")
    parser.add_argument("schedule", metavar="SCHEDULE")
    kind = parser.add_mutually_exclusive_group()
    kind.add_argument("--requests", metavar="FILE", help="the run is a serve of these requests")
    kind.add_argument("--vault", metavar="FILE", help="the run is one beside this vault")
    kind.add_argument("--monitor", action="store_true", help="the run is one under a monitor")
    kind.add_argument("--guard", action="store_true", help="the run is one under a guard")
    kind.add_argument("--plain", action="store_true", help="the run is none of these, though the guest makes call 21")
    for name, option in OPTIONS.items():
        default = "as many as the report has, or 4" if name == "--workers" else str(option.default)
        said = f"{option.means}, 1 to {option.most}; {default} if left out"
        parser.add_argument(name, metavar=option.letter, type=within(option.most), help=said)
    parser.add_argument("--source", metavar="SOURCE", help="the source of the image, for labels")
    parser.add_argument("--program", help="the program; else what LWCRUN names, else this checkout's")


def within(most: int) -> Callable[[str], str]:
    """Reads the value of an option as the program does: a number from 1 on, of one to nine digits."""

    def value(word: str) -> str:
        if not re.fullmatch(r"[0-9]{1,9}", word) or not 1 <= int(word) <= most:
            raise argparse.ArgumentTypeError(f"{word!r} is no number from 1 to {most}")
        return word

    return value


def schedule_in(text: str) -> str | None:
    """The schedule of a report's line `schedule`, or None where the text has no such line."""
    found = re.search(r"^schedule ([0-9a-f]+|-)$", text, re.MULTILINE)
    return found[1].replace("-", "") if found else None


def kind_of(report: Report) -> str | None:
    """What a report is of by its lines, or None where these do not tell."""
    homes = {f"0.{worker + 1}" for worker in range(len(report.threads))}
    if (
        report.replies
        or homes <= report.contexts.keys()
        and all(it.status in ("idle", "done 0") for it in report.threads)
        and ("0.0" not in report.contexts)
    ):
        return SERVE
    if report.fuel:
        return GUARD
    if report.traps:
        return MONITOR
    return VAULT if "0.1" in report.contexts else None


def given_kind(given: argparse.Namespace) -> str | None:
    """What the run is of by the options, or None."""
    return (
        SERVE
        if given.requests
        else VAULT
        if given.vault
        else MONITOR
        if given.monitor
        else GUARD
        if given.guard
        else PLAIN
        if given.plain
        else None
    )


NEEDED = {SERVE: "its requests are needed, by --requests FILE", VAULT: "its vault is needed, by --vault FILE"}


def kinds_to_try(given: argparse.Namespace, image: Image, report: Report | None) -> list[str]:
    """What the run may be of, in the order in which that is tried."""
    said, told = given_kind(given), kind_of(report) if report else None
    # Under a guard a context may have no fuel.
    if said and told and said != told and (said, told) != (GUARD, MONITOR):
        raise Refused(f"{given.schedule} is the report of {KINDS[told]}, and not of {KINDS[said]}", 1)
    if told and told in NEEDED and not said:
        raise Refused(f"{given.schedule} is the report of {KINDS[told]}: {NEEDED[told]}", 1)
    if said or told:
        return [said or told or PLAIN]
    if image.has_call(TRAP) and not report:
        raise Refused(
            f"{given.image} makes call {TRAP}, which only a run under a monitor has: give --monitor, or --plain", 1
        )
    return [PLAIN, MONITOR, GUARD] if report else [PLAIN]


def open_image(given: argparse.Namespace, program: str, work: WorkFolder) -> tuple[Input, Source | None]:
    """The image of a line, which is assembled where a source stands in its place; and the source, if there is one."""
    data = read_file(given.image, SOURCE)
    if not is_image(data):
        source = source_of(given.image, data, work)
        made = assemble(source, program, work)
    else:
        source, made = None, Input(IMAGE, given.image, work.write("image.lwc", data))
    if given.source:
        source = read_source(given.source, work)
        compare(source, program, made, work)
    return made, source


def open_run(given: argparse.Namespace, work: WorkFolder) -> Run:
    """The run that the words of a line name, made once to its end."""
    program = find_program(given.program)
    image_file, source = open_image(given, program, work)
    listing = call_program([program, "dis", "--", image_file.path], [image_file]).decode()
    image = read_image(image_file.read(), listing)
    names = source or read_lines(given.image, image_file.read())
    files = {"image": image_file}
    files |= {
        kind: take(role, name, work)
        for kind, role, name in ((SERVE, REQUESTS, given.requests), (VAULT, VAULT, given.vault))
        if name
    }
    written, report, files["schedule"] = read_schedule(given.schedule, work)
    differ: list[str] = []
    for kind in kinds_to_try(given, image, report):
        run = Run(program, files, kind, options_of(given, kind, report), work, image, names)
        text = run.text_of(files["schedule"].path)
        if report and in_order(text) != in_order(written):
            found = found_options(run, written, report)
            if not found:
                differ.append(difference(KINDS[kind], text, written))
                continue
            say(f"{given.schedule} was made with {' '.join(found)}, and is shown so")
            run, text = run.with_options(found), written
        run.steps = run.read(text).schedule
        return run
    raise Refused(
        f"{given.schedule} is not what the program makes of this image, whatever --frames and --budget are:\n"
        + "\n".join(differ),
        1,
    )


def difference(name: str, text: str, written: str) -> str:
    """The first line at which a replay and a report differ."""
    for ours, theirs in zip(in_order(text) + [""], in_order(written) + [""]):
        if ours != theirs:
            return f"  as {name}: the replay has `{ours[:100]}` where the report has `{theirs[:100]}`"
    return f"  as {name}: the replay has more lines, or fewer"


def read_schedule(name: str, work: WorkFolder) -> tuple[str, Report | None, Input]:
    """The text of a schedule or report in a file, or in the standard input under the name `-`; the report, where it is
    one; and the schedule as a file for the program."""
    data = read_file(name, REPORT)
    text = data.decode("latin-1")
    schedule = schedule_in(text)
    if schedule is None:
        return text, None, Input(SCHEDULE, name, work.write("schedule", data))
    try:
        report = read_report(text)
    except ReportError as error:
        raise Refused(f"{name} has a line `schedule`, but is no report: {error}", 1) from error
    base = text.index("schedule ") + len("schedule ")
    return text, report, Input(SCHEDULE, name, work.write("schedule", schedule), base, data)


def options_of(given: argparse.Namespace, kind: str, report: Report | None) -> list[str]:
    """The options for the program. The number of workers is that of the report's threads, where it is not given."""
    workers = given.workers or (str(len(report.threads)) if report and kind == SERVE else None)
    if workers and kind != SERVE:
        raise Refused("--workers is for a serve, with --requests FILE", 2)
    return [
        word
        for name, value in (("frames", given.frames), ("budget", given.budget), ("workers", workers))
        if value
        for word in (f"--{name}", value)
    ]
