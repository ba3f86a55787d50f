"""What a release is made of."""

from __future__ import annotations

import os
import re
import shutil
import subprocess
from pathlib import Path

import pytest
from lwcrun_tools.command_line import MODES
from lwcrun_tools.proved_libraries import link_library
from test_pages import script

release = script("release")


def test_a_release_has_what_its_commit_has(tmp_path: Path, monkeypatch: pytest.MonkeyPatch) -> None:
    (tmp_path / "guests").mkdir()
    for name in ("kept.lwc", "made.lwc", "proving.py"):
        (tmp_path / "guests" / name).write_text("")
    subprocess.run(["git", "init", "--quiet"], cwd=tmp_path, check=True)
    subprocess.run(["git", "add", "guests/kept.lwc", "guests/proving.py"], cwd=tmp_path, check=True)
    monkeypatch.setattr(release, "TOP", str(tmp_path))
    assert release.kept_files(["guests"]) == ["guests/kept.lwc"]


def test_each_part_of_a_release_is_there() -> None:
    for part in release.PARTS:
        assert release.kept_files([part])


def test_the_pages_of_a_release_lead_to_what_it_has() -> None:
    files = release.kept_files(release.PARTS)
    for page in (name for name in files if name.endswith(".md")):
        links = re.findall(r"\]\((?!https?:)([^)#\s]+)", Path(release.TOP, page).read_text(encoding="utf-8"))
        for link in links:
            led = os.path.normpath(os.path.join(os.path.dirname(page), link))
            assert any(file == led or file.startswith(f"{led}/") for file in files), f"{page} leads to {link}"


def test_the_man_page_has_the_modes_and_the_formats() -> None:
    text = release.man_text()
    for mode in MODES:
        assert re.search(rf"^      {mode} ", text, re.M)
    assert text.startswith("# NAME\n\nlwcrun - ") and "## Image" in text and "](" not in text


def test_each_tool_of_a_release_starts(tmp_path: Path) -> None:
    tools = [tmp_path / name for name in release.kept_files(["tools", "guests"])]
    for tool in tools:
        tool.parent.mkdir(parents=True, exist_ok=True)
        shutil.copy(Path(release.TOP, tool.relative_to(tmp_path)), tool)
    commands = [tool for tool in tools if tool.parent == tmp_path / "tools"]
    assert len(commands) > 8
    for command in commands:
        done = subprocess.run([command, "--help"], capture_output=True, text=True, check=False)
        assert (done.returncode, done.stderr) == (0, "") and done.stdout.startswith("usage: ")


def test_a_library_that_lacks_a_function_is_not_made(tmp_path: Path, capfd: pytest.CaptureFixture[str]) -> None:
    if not shutil.which("cc"):
        pytest.skip("no C compiler is there")
    (tmp_path / "c").mkdir()
    archive = tmp_path / "liblwcrun_c.a"
    for empty in (archive, tmp_path / "c" / "liblibc_c.a", tmp_path / "c" / "libos_c.a"):
        empty.write_bytes(b"!<arch>\n")
    with pytest.raises(SystemExit) as ended:
        link_library(str(tmp_path), str(tmp_path), str(archive))
    assert ended.value.code == 1 and "lwcrun_c_line" in capfd.readouterr().err
    assert not (tmp_path / "liblwcrun.so").exists()


def test_an_image_beside_its_source_is_no_change() -> None:
    ignored = ["git", "check-ignore", "--quiet", "guests/narrowed.lwc"]
    assert subprocess.run(ignored, cwd=release.TOP, check=False).returncode == 0
