"""What scripts/claims and scripts/reading-path find in the sources and on pages."""

from __future__ import annotations

import sys
from importlib.machinery import SourceFileLoader
from importlib.util import module_from_spec, spec_from_loader
from types import ModuleType

from conftest import SCRIPTS


def script(name: str) -> ModuleType:
    """A script as a module."""
    called = name.replace("-", "_")
    spec = spec_from_loader(called, SourceFileLoader(called, str(SCRIPTS / name)))
    assert spec and spec.loader
    module = module_from_spec(spec)
    sys.modules[spec.name] = module
    spec.loader.exec_module(module)
    return module


claims = script("claims")
reading = script("reading-path")
path = reading.Path()


def test_a_chapter_needs_no_later_one() -> None:
    place = {one.key: number for number, part in enumerate(path.chapters()) for one in part}
    needed = {one.key for one in path.needed}
    assert place.keys() == needed
    for one in path.needed:
        for other in path.sources.cited(one.text, one.module):
            assert place[other.key] <= place[one.key]


def test_a_step_is_in_the_second_chapter() -> None:
    names = [one.name for one in path.chapters()[1]]
    assert {"step", "create", "switch", "restrict", "overlay", "plain", "lw_syscall"} <= set(names)


def test_a_clause_that_is_not_there_is_named() -> None:
    assert list(claims.wrong_clauses("(`Kernel::step`, clauses `step`, `turn` and `err`.)")) == []
    assert list(claims.wrong_clauses("`Kernel::step`, clause `fair`")) == ["`Kernel::step` has no clause `fair`"]


def test_a_name_that_is_not_there_is_named() -> None:
    assert list(claims.wrong_names("`IsConfinedRun`, `a_closed_context_leaves_others`, `lwcrun_core::lwcrun`")) == []
    assert list(claims.wrong_names("`IsFairRun`")) == ["no source has `IsFairRun`"]
    assert list(claims.wrong_names("`lwcrun_core::runs_fairly`")) == ["no source has `lwcrun_core::runs_fairly`"]


def test_a_link_that_leads_nowhere_is_named() -> None:
    page = claims.TOP / "README.md"
    assert list(claims.wrong_links(page, "[a](docs/CLAIMS.md#the-promises)")) == []
    assert list(claims.wrong_links(page, "[a](docs/CLAIMS.md#nowhere)")) == ["no heading is at docs/CLAIMS.md#nowhere"]
    assert list(claims.wrong_links(page, "[a](docs/NONE.md)")) == ["no file is at docs/NONE.md"]


def test_each_clause_of_the_program_has_its_comment() -> None:
    clauses = {clause.name: clause for clause in claims.program_call().clauses}
    assert {clause.kind for clause in clauses.values()} == {"ensures"} and "headline" in clauses
    assert clauses["no_fault"].comment == "With status 0, 2, 5, 6 or 7 nothing failed."
