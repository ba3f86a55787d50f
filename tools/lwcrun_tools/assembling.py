"""The image of a guest's source, which the program makes, and why it refuses one.

The grammar stays the program's: what a line should be is found by asking the program to assemble the line with other
words in it.
"""

from __future__ import annotations

import difflib
import itertools
import subprocess
from collections.abc import Iterator

from lwcrun_tools.command import WorkFolder
from lwcrun_tools.guest_source import Source
from lwcrun_tools.images import FIRST_INSTRUCTION
from lwcrun_tools.machine import (
    FIRST_SLOT,
    MOST_BYTES_OF_FORM_ONE,
    MOST_FILES,
    MOST_FILE_BYTES,
    MOST_IMAGE_BYTES,
    MOST_IMAGE_SLOTS,
    MOST_INSTRUCTIONS,
    MOST_PAGES,
    MOST_RANGES,
    MOST_SOURCE_BYTES,
    MOST_THREADS,
    PAGES_OF_FORM_ONE,
    PAGE_BYTES,
    SLOTS,
)
from lwcrun_tools.refusals import IMAGE, REASONS, REFUSAL, Input, Refused, call_program
from lwcrun_tools.source_line import LABEL, Line

MOST_OPERANDS = 3
DIRECTIVES = (".page", ".file", ".slot", ".entry")
# Names that are offered where one is misspelt.
NAMES = (
    "LI LIH MOV ADD SUB MUL DIVU REMU AND OR XOR SHL SHR LTU EQ ADDI JMP JZ JNZ JAL JR LDB LDW STB STW SYS HALT "
    ".form .uid .entry .page .file .slot"
).split()
# A word of each kind of operand, with the name of the kind and what is accepted. A register's name is a label too
# where a number may be, so it comes later.
KINDS = {
    "0": (
        "a number",
        "a number is 0 to 4294967295 without a leading zero, 0x and up to eight hex digits, or -1 to -2147483648",
    ),
    "r0": ("a register", "registers are r0 to r15"),
    "-": (
        "bytes",
        f"bytes are pairs of hexadecimal digits without blanks, or - for none, and a page has at most {PAGE_BYTES}",
    ),
    "1": ("a form", "the form is 1 or 2"),
}
NO_LABEL = "zz_no_label_has_this_name_zz"


def image_of(source: Source, program: str, work: WorkFolder) -> bytes:
    """The image that the program makes of a source; where it refuses, with the place and a reason."""
    return call_program(
        [program, "asm", "--", source.path],
        [Input(IMAGE, source.name, source.path)],
        lambda rule, at: Reasons(program, source, work).of(rule, at),
    )


def assemble(source: Source, program: str, work: WorkFolder) -> Input:
    """The image in a file of its own."""
    return Input(IMAGE, source.name, work.write("image.lwc", image_of(source, program, work)))


def compare(source: Source, program: str, image: Input, work: WorkFolder) -> None:
    """Refuses a source that does not make this image."""
    if image_of(source, program, work) != image.read():
        raise Refused(f"{source.name} is not the source of {image.name}: the program makes another image of it", 1)


class Reasons:
    """Why the program refuses a source."""

    def __init__(self, program: str, source: Source, work: WorkFolder) -> None:
        self.program, self.source, self.work = program, source, work

    def of(self, rule: str, offset: int) -> str:
        """A refusal with its place and its reason."""
        if rule in ("BadLine", "BadOperand", "BadLabel"):
            return self.of_line(rule, self.line_at(offset))
        if rule == "TooLong":
            image = f"its image {MOST_BYTES_OF_FORM_ONE}, or {MOST_IMAGE_BYTES} of form 2"
            return f"{self.source.name}: {rule}: a source has at most {MOST_SOURCE_BYTES} bytes, and {image}"
        return self.of_image(rule, offset)

    def line_at(self, offset: int) -> Line:
        """The line that begins at an offset of what the program has read."""
        with open(self.source.path, "rb") as file:
            return self.source.lines[file.read(offset).count(b"\n")]

    # Rules of the source, by asking about its lines.

    def rule_of(self, text: str) -> str:
        """The rule that the program answers to a source of one line; no text where it is about no line."""
        path = self.work.write("line.s", f"{text}\n".encode("latin-1"))
        done = subprocess.run([self.program, "asm", path], capture_output=True, check=False)
        found = REFUSAL.search(done.stderr.decode(errors="replace").strip())
        return found[2] if found and found[2] in ("BadLine", "BadOperand", "BadLabel") else ""

    def of_line(self, rule: str, line: Line) -> str:
        if rule == "BadLine":
            return self.bad_line(line)
        return self.bad_operand(line) if rule == "BadOperand" else self.bad_label(line)

    def bad_line(self, line: Line) -> str:
        """No such instruction, other operands, a second line of its kind, or a byte that may not be there."""
        for column, byte in enumerate(line.code):
            if not " " <= byte <= "~" and byte != "\t":
                return line.at(column, "BadLine", "outside a comment each byte is printable ASCII or a tab")
        if self.rule_of(line.text) != "BadLine":
            first = next(it for it in self.source.lines if it.name == line.name)
            return line.at_word(0, "BadLine", f"a second {line.name}: line {first.number} has one")
        behind = found.end() if (found := LABEL.match(line.code)) else 0
        if (colon := line.code.find(":", behind)) >= 0:
            reason = "a line has at most one label: a letter or _, up to 31 letters, digits or _, and directly `:`"
            begin = line.code.rfind(" ", 0, colon) + 1
            return line.at(begin, "BadLine", reason)
        taken = self.kinds_of(line.name)
        if taken is None:
            return line.at_word(0, "BadLine", self.misspelt(line.name))
        has = len(line.operands)
        reason = f"{line.name} takes {listed(taken)}, and this line has {plural(has, 'operand')}"
        return line.at_word(1 + min(len(taken), has), "BadLine", reason)

    def misspelt(self, name: str) -> str:
        near = (
            [name.upper()]
            if name.upper() in NAMES
            else [name.lower()]
            if name.lower() in NAMES
            else difflib.get_close_matches(name.upper(), NAMES, 1)
        )
        offered = f"; {near[0]} is one" if near else ""
        return f"there is no instruction or directive {name}{offered}"

    def kinds_of(self, name: str) -> list[str] | None:
        """A word of each kind of operand that an instruction or directive takes, or None where there is none of the
        name."""
        counts = [
            count for count in range(MOST_OPERANDS + 1) if self.rule_of(" ".join([name, *["x"] * count])) != "BadLine"
        ]
        if not counts:
            return None
        words = itertools.product(KINDS, repeat=counts[0])
        return next((list(them) for them in words if self.rule_of(" ".join([name, *them])) != "BadOperand"), None)

    def bad_operand(self, line: Line) -> str:
        """The first operand that is not in its form: one of the fewest with which the program accepts the line."""
        operands = line.operands
        places = range(len(operands))
        for count in range(1, len(operands) + 1):
            for bad in itertools.combinations(places, count):
                for words in itertools.product(KINDS, repeat=count):
                    other = list(operands)
                    for place, word in zip(bad, words):
                        other[place] = word
                    if self.rule_of(" ".join([line.name, *other])) != "BadOperand":
                        return line.at_word(1 + bad[0], "BadOperand", self.accepted(line.name, other, bad[0]))
        return line.at_word(1, "BadOperand", "an operand is not in its form")

    def accepted(self, name: str, words: list[str], place: int) -> str:
        """What is accepted as an operand, where this word of it is."""
        reason = KINDS[words[place]][1]
        if words[place] != "0":
            return reason
        with_label = [*words[:place], NO_LABEL, *words[place + 1 :]]
        return (
            f"{reason}, or the name of a label"
            if self.rule_of(" ".join([name, *with_label])) == "BadLabel"
            else reason
        )

    def bad_label(self, line: Line) -> str:
        """A label that is defined twice, or one that no line defines."""
        same = [it for it in self.source.lines if it.label == line.label and line.label]
        defined = {it.label: it for it in self.source.lines if it.label}
        if len(same) > 1 and same[0] is not line:
            return line.at(line.code.index(line.label), "BadLabel", f"line {same[0].number} defines {line.label} too")
        for place, word in enumerate(line.operands):
            if (
                word not in defined
                and self.rule_of(" ".join([line.name, *line.operands[:place], "0", *line.operands[place + 1 :]]))
                != "BadLabel"
            ):
                near = difflib.get_close_matches(word, defined, 1)
                offered = f"; line {defined[near[0]].number} defines {near[0]}" if near else ""
                return line.at_word(1 + place, "BadLabel", f"no line defines {word}{offered}")
        return line.at_word(0, "BadLabel", "a label that no line defines")

    # Rules of the image, by what each line puts there.

    def parts(self) -> Iterator[tuple[int, int, Line]]:
        """Where in the image each line's part begins and ends."""
        at = FIRST_INSTRUCTION
        for line in self.source.made:
            yield at, at + 8, line
            at += 8
        for name, size in zip(DIRECTIVES, (4 + PAGE_BYTES, 12, 8, 4)):
            for line in self.source.lines:
                if line.name == name:
                    end = at + size + (len(line.operands[-1].replace("-", "")) // 2 if name == ".file" else 0)
                    yield at, end, line
                    at = end

    def of_image(self, rule: str, offset: int) -> str:
        """A rule of images, at the line that made what is at the offset."""
        if rule == "BadCount":
            return self.bad_count(offset)
        for begin, end, line in self.parts():
            if begin <= offset < end:
                field = (offset - begin) // 4
                word = (
                    field + 1 if line.name in (".slot", ".file") else len(line.operands) if rule == "BadTarget" else 1
                )
                return line.at_word(word, rule, self.of_part(rule, line, field))
        return f"{self.source.name}: {rule} at {offset} of the image: {REASONS.get(rule, 'the program refuses it')}"

    def of_part(self, rule: str, line: Line, field: int) -> str:
        """The reason for a rule about a field of what a line makes."""
        if rule in ("BadTarget", "BadEntry"):
            return f"the last instruction is {len(self.source.made) - 1}"
        if rule == "BadFile":
            return "public is 0 or 1" if field == 1 else f"the files have more than {MOST_FILE_BYTES} bytes in all"
        if rule == "BadSlot" and field == 1:
            return f"the image has {plural(len(self.of_name('.file')), 'file')}, numbered from 0"
        before = self.of_name(line.name)
        place = before.index(line)
        if place and int(before[place - 1].operands[0], 0) >= int(line.operands[0], 0):
            last = before[place - 1]
            return f"{line.name} lines are in rising order, and line {last.number} has {last.operands[0]}"
        if rule == "BadSlot":
            return f"a slot is {FIRST_SLOT} to {SLOTS - 1}: 0 and 1 have the console"
        other = "" if self.most_pages() == MOST_PAGES else f", with .form 2 below {MOST_PAGES}"
        return f"a page is below {self.most_pages()}{other}, and pages are in at most {MOST_RANGES} runs"

    def of_name(self, name: str) -> list[Line]:
        """The lines that have this directive."""
        return [line for line in self.source.lines if line.name == name]

    def most_pages(self) -> int:
        """How many pages a context may have."""
        return MOST_PAGES if any(line.operands == ["2"] for line in self.of_name(".form")) else PAGES_OF_FORM_ONE

    def bad_count(self, offset: int) -> str:
        """Too many or too few lines of one kind."""
        kind, one, most = {
            4: ("", "instruction", MOST_INSTRUCTIONS),
            8: (".page", "page", self.most_pages()),
            12: (".file", "file", MOST_FILES),
            16: (".slot", "slot", MOST_IMAGE_SLOTS),
            20: (".entry", ".entry line", MOST_THREADS),
        }[offset]
        lines = self.of_name(kind) if kind else self.source.made
        if not lines:
            return f"{self.source.name}: BadCount: there is no {one}" + (
                ", and a thread begins at one" if kind else ""
            )
        return lines[min(most, len(lines) - 1)].at_word(0, "BadCount", f"an image has at most {plural(most, one)}")


def plural(count: int, one: str) -> str:
    """A number of things."""
    return f"{count} {one}{'' if count == 1 else 's'}"


def listed(words: list[str]) -> str:
    """Kinds of operands in words."""
    names = [KINDS[word][0] for word in words]
    return ", ".join(names[:-1]) + (" and " if len(names) > 1 else "") + names[-1] if names else "no operand"
