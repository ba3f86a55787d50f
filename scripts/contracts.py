"""The definitions, types and public calls of the crates, as they stand in the sources, for the pages about them."""

from __future__ import annotations

import re
import textwrap
from collections.abc import Iterator
from dataclasses import dataclass, field
from functools import cache
from pathlib import Path

TOP = Path(__file__).resolve().parent.parent
CRATES = TOP / "crates"
PAGES = [TOP / "README.md", *sorted((TOP / "docs").glob("*.md"))]

WORD = re.compile(r"(?<![\w.'])[A-Za-z_][\w']*(?:\.[A-Za-z_]\w*)?")
HEADER = re.compile(r"(?:abbrev|unfoldable)(?: pub)? (?!pub )(\S+)|pub (record|data) (\w+)")
IMPORT = re.compile(r"^(?:pub |ghost )?use Rattle\.(\w+)\.specs\.([\w.]+?)(?:\.\{([^}]*)\})?(?: as (\w+))?;?$", re.M)
FIELD = re.compile(r"(?m)^\s+pub \w+ :|(?<=[{;])\s*\w+ =(?!=)")
ITEM = re.compile(r"^pub (?:struct|enum|const|type|trait) (\w+)", re.M)


@dataclass
class Definition:
    """A definition or a type: the module that has it, its name, its text, and what it names."""

    module: str
    name: str
    text: str
    cites: list[tuple[str, str]] = field(default_factory=list)

    @property
    def key(self) -> tuple[str, str]:
        return self.module, self.name

    @property
    def lines(self) -> int:
        """Its lines, comments and blank lines aside."""
        kept = (line.strip() for line in self.text.split("\n"))
        return sum(1 for line in kept if line and not line.startswith(("--", "//", "#[")))


@dataclass
class Clause:
    """A clause of a contract: its name, if it has one, and the comment before it."""

    name: str
    comment: str
    kind: str


@dataclass
class Call:
    """A public call: its crate, its name with its type's, its comment and its clauses; a law has no body."""

    crate: str
    file: str
    name: str
    comment: str
    clauses: list[Clause]
    is_law: bool


def crate_names() -> list[str]:
    """The crates, in the order of crates.txt."""
    lines = (TOP / "crates.txt").read_text(encoding="utf-8").split("\n")
    return [re.split(r"[ :]", line)[0] for line in lines if line and not line.startswith("#")]


def module_name(file: Path) -> str:
    return str(file.relative_to(CRATES).with_suffix(""))


def wrapped(text: str, later: str = "") -> str:
    """A paragraph in lines of under 120 columns, the later ones with an indentation."""
    return textwrap.fill(text, 118, subsequent_indent=later, break_long_words=False, break_on_hyphens=False)


# Definitions


def blocks_of(text: str, starts: re.Pattern[str], marks: tuple[str, ...]) -> Iterator[tuple[re.Match[str], str]]:
    """The parts of a file that begin at such lines, each with the comment before it and all up to the next one."""
    lines = text.split("\n")
    heads = [(n, found) for n, line in enumerate(lines) if (found := starts.match(line))]
    firsts = []
    for n, found in heads:
        first = n
        while first and lines[first - 1].startswith(marks):
            first -= 1
        firsts.append((first, found))
    ends = [*(first for first, _ in firsts[1:]), len(lines)]
    for (first, found), end in zip(firsts, ends, strict=False):
        yield found, "\n".join(lines[first:end]).strip("\n")


def in_spec(file: Path) -> Iterator[tuple[list[str], Definition]]:
    """The definitions of a module of definitions, each with the names that stand for it: its own and its cases."""
    for found, text in blocks_of(file.read_text(encoding="utf-8"), HEADER, ("--",)):
        name = found[1] or found[3]
        cases = re.findall(r"^  (?:pub )?([A-Z]\w*) :", text, re.M) if found[2] == "data" else []
        yield [name, *cases], Definition(module_name(file), name, re.sub(r"(?m)^infix.*\n?", "", text))


def end_of_item(text: str, at: int) -> int:
    """Where an item of code ends: at its semicolon or at the brace that closes it."""
    depth = 0
    while at < len(text):
        if text.startswith("//", at):
            at = text.find("\n", at)
            continue
        depth += {"{": 1, "(": 1, "}": -1, ")": -1}.get(text[at], 0)
        if depth == 0 and (text[at] == ";" or text[at] == "}"):
            return at + 1
        at += 1
    return len(text)


def in_code(file: Path) -> Iterator[Definition]:
    """The types, constants and traits of a file of code, each with the comment before it."""
    text = file.read_text(encoding="utf-8")
    for found in ITEM.finditer(text):
        before = text[: found.start()].split("\n")[:-1]
        first = len(before)
        while first and before[first - 1].startswith(("///", "#[")):
            first -= 1
        start = sum(len(line) + 1 for line in before[:first])
        yield Definition(module_name(file), found[1], text[start : end_of_item(text, found.start())])


class Sources:
    """All definitions and types, found by module and name."""

    def __init__(self) -> None:
        self.found: dict[tuple[str, str], Definition] = {}
        self.files: dict[str, Path] = {}
        self.types: dict[tuple[str, str], Definition] = {}
        self.imported: dict[str, tuple[dict[str, Definition], dict[str, tuple[str, list[str]]]]] = {}
        for file in sorted(CRATES.glob("*/specs/**/*.antt")):
            self.files[module_name(file)] = file
            for names, one in in_spec(file):
                for name in names:
                    self.found.setdefault((one.module, name), one)
        for file in sorted(CRATES.glob("*/src/**/*.rt")):
            self.files[module_name(file)] = file
            for one in in_code(file):
                self.types.setdefault((one.module.split("/")[0], one.name), one)

    def module(self, crate: str, path: list[str]) -> str | None:
        """The module of definitions that a path names, if it is one of the repository's."""
        name = f"{crate}/specs/{'/'.join(path)}"
        return name if name in self.files else None

    def named(self, crate: str, path: list[str], name: str) -> Definition | None:
        """What a name stands for behind a path: a definition, or a type or constant of the code."""
        if path[0] != "declared":
            module = self.module(crate, path)
            return self.found.get((module, name)) if module else None
        tail = path[1:]
        if tail[-1] == "TheConstants":
            return self.types.get((crate, name))
        owner = tail[-2] if tail[-1] == "TheVariants" else tail[-1]
        return self.types.get((crate, owner))

    def imports(self, module: str) -> tuple[dict[str, Definition], dict[str, tuple[str, list[str]]]]:
        """What the names of a module stand for, and which modules its short names stand for."""
        if module in self.imported:
            return self.imported[module]
        names: dict[str, Definition] = {}
        short: dict[str, tuple[str, list[str]]] = {}
        for crate, path, listed, alias in IMPORT.findall(self.files[module].read_text(encoding="utf-8")):
            parts = path.split(".")
            if alias and not listed:
                short[alias] = (crate, parts)
            for word in listed.split(","):
                name, _, other = word.strip().partition(" as ")
                one = self.named(crate, parts, name)
                if one:
                    names[other or name] = one
        self.imported[module] = names, short
        return names, short

    def cited(self, text: str, module: str) -> list[Definition]:
        """What a text of a module names, in the order of the text."""
        crate = module.split("/")[0]
        names, short = self.imports(module)
        plain = without_comments(text)
        is_trait = re.search(r"^pub trait ", plain, re.M)
        found: list[Definition] = []
        mine = [name for one, name in self.found if one == module]
        operators = [name for name in [*mine, *names] if "◌" in name and name.strip("◌") in plain]
        for word in operators + WORD.findall(FIELD.sub(" ", plain)):
            head, _, rest = word.partition(".")
            if head in short and rest:
                one = self.named(*short[head], rest)
            else:
                one = self.found.get((module, head)) or names.get(head)
                if not one and "/src/" in module and not is_trait:
                    one = self.types.get((crate, head)) or self.imported_type(module, head)
            if one and one not in found:
                found.append(one)
        return found

    def imported_type(self, module: str, name: str) -> Definition | None:
        """The type of a name, in one of the crates that a file of code imports from."""
        used = re.findall(r"^use (\w+)::", self.files[module].read_text(encoding="utf-8"), re.M)
        return next((self.types[crate, name] for crate in used if (crate, name) in self.types), None)


def without_comments(text: str) -> str:
    return re.sub(r"(?m)^\s*(?:--|//).*$", "", text)


# Calls


def comment_before(lines: list[str], at: int, mark: str) -> str:
    """The comment that stands directly before a line, as one line; attributes between do not count."""
    found: list[str] = []
    at -= 1
    while at >= 0 and lines[at].strip().startswith((mark, "#[")):
        text = lines[at].strip()
        if text.startswith(mark):
            found.insert(0, text[len(mark) :].strip())
        at -= 1
    return " ".join(found)


def calls_in(file: Path) -> Iterator[Call]:
    """The public calls of a file of code that have a contract, each with its clauses."""
    lines = file.read_text(encoding="utf-8").split("\n")
    crate = file.relative_to(CRATES).parts[0]
    owner, open_trait = "", False
    for n, line in enumerate(lines):
        if found := re.match(r"(?:pub )?(impl|trait)\b(?:<[^>]*>)? ?(?:\w+(?:<[^>]*>)? for )?(\w+)", line):
            owner, open_trait = found[2], found[1] == "trait" and line.startswith("pub")
        elif line == "}":
            owner, open_trait = "", False
        found = re.match(r"(\s*)(pub )?(?:const )?fn (\w+)", line)
        if not found or not (found[2] or open_trait):
            continue
        clauses, is_law = contract_from(lines, n + 1, len(found[1]))
        if clauses:
            name = f"{owner}::{found[3]}" if owner else found[3]
            comment = comment_before(lines, n, "///")
            yield Call(crate, module_name(file), name, comment, clauses, is_law and not owner)


def contract_from(lines: list[str], at: int, indent: int) -> tuple[list[Clause], bool]:
    """The clauses of the contract that goes on at a line, and whether the body behind it is empty."""
    clauses: list[Clause] = []
    while at < len(lines):
        text = lines[at].strip()
        if found := re.match(r"(requires|ensures) ?(\w*) ?\{", text):
            clauses.append(Clause(found[2], comment_before(lines, at, "//"), found[1]))
        depth = len(lines[at]) - len(lines[at].lstrip())
        if text and depth <= indent and not text.startswith((")", "//")):
            return clauses, text == "{}"
        at += 1
    return clauses, False


@cache
def calls_of(crate: str) -> list[Call]:
    files = sorted((CRATES / crate / "src").glob("**/*.rt"))
    return [one for file in files for one in calls_in(file)]
