"""Pages and slots that follow from the steps: of plain runs they are what the program answers."""

from __future__ import annotations

import argparse
import subprocess
from pathlib import Path

import pytest
from conftest import TOOLS, TOP
from lwcrun_tools.command import WorkFolder
from lwcrun_tools.followed_run import Followed, answer_of
from lwcrun_tools.known_pages import Pages, requests_of
from lwcrun_tools.machine_words import Item
from lwcrun_tools.run_of_line import add_options, open_run

GUESTS = TOP / "guests"
# A monitored guest is a plain run too, in which its traps fail; its schedule is one of another run.
PLAIN = sorted(it.stem for it in GUESTS.glob("*.schedule") if it.stem not in ("monitor", "signer"))
# It reads a file by parts through two descriptors of one place, over two pages, takes pages over by each mode, maps,
# unmaps, and calls on behalf of another context with each mask.
MANY_WAYS = """.entry 0
.file 0 1 0102030405060708090a0b0c0d0e0f10
.slot 2 0
.page 0 -
.page 1 {zeros}000000000100000000000000010000000000000003000000010000000200000001000000010000000200000003000000
.page 2 -
LI r1, 2
LI r2, 4093
LI r3, 6
SYS 4
SYS 3
MOV r1, r0
LI r2, 0
LI r3, 3
SYS 4
LI r1, 4112
LI r2, 3
SYS 16
ADDI r9, r0, 1
JZ r9, child
MOV r8, r0
LI r4, 2
LI r5, 8
LI r6, 4
MOV r1, r8
LI r3, 4
LI r2, 1
SYS 20
LI r2, 2
SYS 20
LI r2, 3
SYS 20
LI r3, 6
LI r4, 3
LI r5, 5
LI r2, 1
SYS 20
MOV r1, r8
LI r2, 4112
LI r3, 2
SYS 19
STW r8, r10, 8192
LI r1, 0
LI r2, 1
SYS 6
LI r1, 2
LI r2, 3
SYS 7
MOV r1, r8
SYS 17
HALT
child: STW r9, r10, 16
SYS 16
HALT
""".replace("{zeros}", "0" * 32)


def schedule_of(guest: str) -> Path:
    return GUESTS / f"{guest}.schedule"


def source_of(guest: str) -> Path:
    plain = GUESTS / f"{guest}.s"
    return plain if plain.exists() else GUESTS / f"{guest}.s.m4"


def differences(source: Path, schedule: Path) -> list[str]:
    """Each answer at all places, or at some of many, of a plain run that is another one than the program's."""
    parser = argparse.ArgumentParser()
    add_options(parser)
    found = []
    with WorkFolder() as work:
        run = open_run(parser.parse_args([str(source), str(schedule)]), work)
        followed, last = Followed(run), len(run.steps)
        places = range(last + 1) if last < 20 else (0, last // 3, 2 * last // 3, last - 1, last)
        for place in places:
            story, contexts = followed.story_at(place), run.report(place).contexts
            pages = sorted({*list(run.image.pages)[:4], 0, 1, 2, 3, 4, 1023})
            for name in [*contexts, "7.7"]:
                questions = [*(f"page {name} {page}" for page in pages), *(f"slot {name} {slot}" for slot in range(6))]
                for question, answer in zip(questions, run.at(place, *questions)):
                    mine = answer_of(story, question.split(" "))
                    if mine != answer:
                        found.append(f"{place}: {question}: {mine[:60]}, and {answer[:60]}")
    return found


@pytest.mark.parametrize("guest", PLAIN)
def test_what_follows_is_what_the_program_says(program: str, guest: str) -> None:
    assert program
    assert differences(source_of(guest), schedule_of(guest)) == []


def test_many_ways_to_change_memory(program: str, tmp_path: Path) -> None:
    assert program
    (tmp_path / "mine.s").write_text(MANY_WAYS)
    (tmp_path / "schedule").write_text("0" * 40)
    assert differences(tmp_path / "mine.s", tmp_path / "schedule") == []


def answers(commands: str, *words: str | Path) -> list[str]:
    """What debug answers to commands."""
    done = subprocess.run(
        [TOOLS / "debug", *words], input=commands, capture_output=True, text=True, timeout=500, check=True
    )
    return done.stdout.splitlines()


SERVE: list[str | Path] = [GUESTS / "counter_handler.s", "", "--requests", GUESTS / "counter_handler.requests"]


def test_pages_and_slots_of_a_serve(program: str, tmp_path: Path) -> None:
    assert program
    (tmp_path / "schedule").write_text("0" * 26)
    words = [SERVE[0], tmp_path / "schedule", *SERVE[2:], "--workers", "1"]
    # After the idle step a request reads its byte to address 8, loads it, loads the count, and stores 1.
    asked = "g 1\ns 1.0 0\ns 1.0 1\ns 1.0 2\np 1.0 0\ng 5\ns 1.0 0\np 1.0 0\np 1.0 1\np 0.1 0\np 1.0 1024\n"
    found = answers(asked, *words)
    zeros = "0" * 8192
    assert found == [
        "at 1",
        "slot 1.0 0 request 0 at 0",
        "slot 1.0 1 reply 0",
        "slot 1.0 2 empty",
        f"page 1.0 0 {zeros}",
        "at 5",
        "slot 1.0 0 request 0 at 1",
        f"page 1.0 0 01{zeros[2:]}",
        "page 1.0 1 absent",
        f"page 0.1 0 {zeros}",
        "no page",
    ]
    # The third request begins after 2 * 7 steps, and its byte is 1.
    found = answers("g 15\nc 3.0\ng 16\np 3.0 0\np 1.0 0\n", *words)
    assert found[1].startswith("context 3.0 ")
    assert found[4:] == [f"page 3.0 0 {zeros[:16]}01{zeros[18:]}", "no context"]


def test_pages_under_a_monitor_and_beside_a_vault(program: str) -> None:
    assert program
    words: list[str | Path] = [GUESTS / "monitor.s", GUESTS / "monitor.schedule", "--monitor"]
    # GUESTS: the monitor reads six bytes for the plugin to address 64.
    page = answers("g 5\np 1.0 0\ng 6\np 1.0 0\n", *words)
    assert page[1].split()[3][128:140] == "000000000000" and page[3].split()[3][128:140] == "68656c6c6f0a"
    words = [GUESTS / "signer.s", GUESTS / "signer.schedule", "--vault", GUESTS / "signer.vault"]
    assert answers("p 0.1 0\n", *words)[0].startswith("page 0.1 0 " + b"a key of 16 byte".hex())


def test_find_change_of_a_serve(program: str, tmp_path: Path) -> None:
    assert program
    (tmp_path / "schedule").write_text("0" * 26)
    words = [TOOLS / "find-change", SERVE[0], tmp_path / "schedule", *SERVE[2:], "--workers", "1"]

    def found(*what: str) -> str:
        done = subprocess.run([*words, *what], capture_output=True, text=True, check=False)
        return done.stdout.splitlines()[0]

    assert found("1.0", "0", "0", "--from", "1", "--to", "6") == "step 5, by thread 0: 00, and then 01"
    read = "step 2, by thread 0: request 0 at 0, and then request 0 at 1"
    assert found("slot", "1.0", "0", "--from", "1", "--to", "6") == read


def test_items_that_are_not_known_lose_all() -> None:
    pages = Pages()
    pages.add("0.0", {0: bytes(4096)})
    pages.create("0.0", "1.0", [Item(0, 1, 0, 1)])
    pages.store("1.0", 8, b"\7")
    assert pages.load("0.0", 8, 1) == b"\7"
    pages.create("0.0", "1.1", None)
    assert pages.lost


def test_a_number_of_pages_that_is_another_loses_all() -> None:
    pages = Pages()
    pages.add("0.0", {0: bytes(4096)})
    pages.keep({"0.0": 1})
    assert not pages.lost
    pages.keep({"0.0": 2})
    assert pages.lost


def test_a_read_over_two_pages() -> None:
    pages = Pages()
    pages.add("0.0", {0: bytes(4094) + b"\1\2", 1: b"\3\4" + bytes(4094)})
    assert pages.load("0.0", 4094, 4) == b"\1\2\3\4"
    pages.store("0.0", 4095, b"\5\6")
    assert pages.load("0.0", 4094, 4) == b"\1\5\6\4"
    assert pages.load("0.0", 8190, 4) is None


def test_the_requests_of_a_file() -> None:
    assert list(requests_of(b"00ff\r\n\nAb")) == [b"\0\xff", b"", b"\xab"]
    assert list(requests_of(b"00\n")) == [b"\0"]
    assert list(requests_of(b"")) == []
