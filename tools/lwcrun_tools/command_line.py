"""The line of the program: its modes, options and statuses, and what is wrong with a line that is not accepted."""

from __future__ import annotations

from lwcrun_tools.machine import (
    DEFAULT_BUDGET,
    DEFAULT_FRAMES,
    DEFAULT_WORKERS,
    MOST_BUDGET,
    MOST_FRAMES,
    MOST_THREADS,
)


class LineError(Exception):
    """A line that the program does not accept, and why."""


# The launcher reads this module each time, so it imports nothing that takes long.
class Mode:
    """A mode: the names of what it works on, how many of these it needs, its options, and what it does."""

    def __init__(self, files: list[str], options: list[str], does: str, least: int | None = None) -> None:
        self.files, self.options, self.does = files, options, does
        self.least = len(files) if least is None else least


class Option:
    """An option, whose value is a number from 1 on."""

    def __init__(self, letter: str, most: int, default: int, means: str) -> None:
        self.letter, self.most, self.default, self.means = letter, most, default, means


RUNS = ["--frames", "--budget"]
SERVES = [*RUNS, "--workers"]
OPTIONS = {
    "--frames": Option("F", MOST_FRAMES, DEFAULT_FRAMES, "how many frames of 4096 bytes there are"),
    "--budget": Option("B", MOST_BUDGET, DEFAULT_BUDGET, "how many steps a thread, or a request, may make"),
    "--workers": Option("W", MOST_THREADS, DEFAULT_WORKERS, "how many workers serve"),
}
MODES = {
    "run": Mode(["IMAGE"], RUNS, "runs the image's threads, each by itself to its end"),
    "serve": Mode(["IMAGE", "REQUESTS"], SERVES, "answers each request in a fresh copy of the server"),
    "stream": Mode(["IMAGE", "REQUESTS"], SERVES, "the same, each reply as soon as it and all earlier ones are there"),
    "replay": Mode(["IMAGE", "SCHEDULE", "REQUESTS"], SERVES, "makes the steps of a schedule, in a run or a serve", 2),
    "monitor": Mode(["IMAGE", "SCHEDULE"], RUNS, "the same of a run, in which a context may trap another's calls"),
    "guard": Mode(["IMAGE", "SCHEDULE"], RUNS, "the same under a monitor that may give fuel and gets threads back"),
    "vault": Mode(["IMAGE", "VAULT", "SCHEDULE"], RUNS, "the same of a run, beside a context that is only entered"),
    "debug": Mode(["IMAGE", "SCHEDULE", "SCRIPT"], RUNS, "answers a script's questions about moments of a run"),
    "asm": Mode(["SOURCE"], [], "writes the image that a source makes"),
    "dis": Mode(["IMAGE"], [], "writes a source of an image"),
    "lift": Mode(["IMAGE"], [], "writes the image in form 2, whose contexts may have 16384 pages"),
    "gen": Mode(["NUMBER"], [], "makes a generated serve, 1 to 100, and sums it up"),
}
STATUSES = {
    0: "what was asked for was written",
    1: "no memory",
    2: "the line is not accepted",
    3: "a file cannot be read",
    4: "standard output cannot be written",
    5: "the image, or the source, is refused",
    6: "the schedule, the requests, the script or the vault is refused",
    7: "the image has more pages than there are frames",
    125: "there is no program, and it could not be made",
}
MOST_DIGITS = 9


def help_text(can_prove: bool) -> str:
    """What --help prints: in a checkout, which can prove its program, or in a download."""
    lines = ["usage: ./lwcrun MODE FILE .. [OPTION ..]", ""]
    lines += ["Modes, and what each does. Reports go to standard output.", ""]
    for mode, it in MODES.items():
        files = [f"[{file}]" if place >= it.least else file for place, file in enumerate(it.files)]
        lines.append(f"  {' '.join([mode, *files]):36}{it.does}")
    lines += ["", "Options, anywhere in the line:", ""]
    for option, value in OPTIONS.items():
        values = f"1 to {value.most}, {value.default} if left out"
        lines.append(f"  {option + ' ' + value.letter:14}{value.means}: {values};")
        lines.append(f"{'':16}of {modes_with(option)}")
    lines += [f"  {'--':14}what follows are files, also where one begins with a dash"]
    lines += [f"  {'-h, --help':14}this text", f"  {'--version':14}which sources, which toolchain and which program"]
    if can_prove:
        lines += [f"  {'--prove':14}alone in its line: proves and builds the program, which every line then runs"]
    lines += ["", "Statuses:", "", *(f"  {status:<5}{means}" for status, means in STATUSES.items())]
    lines += ["", "docs/FORMATS.md has all of this in full, and docs/USES.md lines to type."]
    return "\n".join(lines) + "\n"


def modes_with(option: str) -> str:
    """The modes that take an option, in words."""
    names = [name for name, mode in MODES.items() if option in mode.options]
    if option == "--workers":
        names[names.index("replay")] = "replay with REQUESTS"
    return f"{', '.join(names[:-1])} and {names[-1]}"


def is_asked(words: list[str], *options: str) -> bool:
    """Whether one of these options is among the words that may be options."""
    before = words[: words.index("--")] if "--" in words else words
    return any(word in options for word in before)


def files_of_line(words: list[str]) -> list[str]:
    """The files that a line names. Raises LineError exactly where the program does not accept the line."""
    places, options = split_line(words)
    if not places:
        raise LineError("a mode is missing")
    mode, files = MODES.get(places[0]), places[1:]
    if mode is None:
        raise LineError(f"no mode is called {places[0]!r}{meant(places[0])}")
    if len(files) < mode.least:
        raise LineError(f"{places[0]} also needs {' and '.join(mode.files[len(files):mode.least])}")
    if len(files) > len(mode.files):
        raise LineError(f"{places[0]} takes {' '.join(mode.files)}, and not {files[len(mode.files)]!r} too")
    for option, value in options.items():
        check_option(places[0], mode, files, option, value)
    if mode.files != ["NUMBER"]:
        return files
    if not is_number(files[0], 100):
        raise LineError(f"gen takes a number from 1 to 100, and not {files[0]!r}")
    return []


def image_of_line(words: list[str]) -> str:
    """The image that an accepted line names; no name where it names none."""
    places, _ = split_line(words)
    return places[1] if MODES[places[0]].files[0] == "IMAGE" else ""


def split_line(words: list[str]) -> tuple[list[str], dict[str, str]]:
    """The words of a line that are no options, and the value of each option."""
    places: list[str] = []
    options: dict[str, str] = {}
    rest = iter(words)
    for word in rest:
        if word == "--":
            places += rest
        elif word == "-" or not word.startswith("-"):
            places.append(word)
        else:
            name, is_given, value = word.partition("=")
            if name not in OPTIONS:
                raise LineError(f"there is no option {name}")
            if name in options:
                raise LineError(f"{name} is given twice")
            options[name] = value if is_given else next(rest, "")
    return places, options


def check_option(name: str, mode: Mode, files: list[str], option: str, value: str) -> None:
    """Raises LineError where a mode, with these files, does not take an option or its value."""
    if option not in mode.options:
        raise LineError(f"{name} does not take {option}")
    if option == "--workers" and name == "replay" and len(files) < len(mode.files):
        raise LineError("replay takes --workers only with REQUESTS")
    if not is_number(value, OPTIONS[option].most):
        raise LineError(f"{option} takes a number from 1 to {OPTIONS[option].most}, and not {value!r}")


def is_number(word: str, most: int) -> bool:
    """Whether a word is one to nine digits, of a number from 1 to the most."""
    return word.isascii() and word.isdigit() and len(word) <= MOST_DIGITS and 1 <= int(word) <= most


def meant(word: str) -> str:
    """A question, where a word is nearly a mode."""
    # Only a line that is wrong pays for this.
    from difflib import get_close_matches

    close = get_close_matches(word, MODES, 1)
    return f"; is {close[0]} meant?" if close else ""
