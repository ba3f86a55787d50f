"""Which places check-memory-errors sees in a source."""

from __future__ import annotations

import subprocess
from pathlib import Path

from conftest import SCRIPTS, copy_scripts

# Each line that makes an error ends in a comment that says so.
SOURCE = """
use lwc_base::{
    Cap, OutOfMemory,
};
use lwc_base::OutOfMemory as Gone; // made
const FULL: StoreFault = StoreFault::OutOfMemory; // made

pub enum Fault {
    NoMemory,
}

impl From<AllocError> for Fault {
    /// Answers `Err(OutOfMemory)`.
    fn from(_error: AllocError) -> OutOfMemory
        ensures memory { IfErr result (λ e. e ≡ OutOfMemory)
            × (result ≢ NoMemory) }
    {
        let e = OutOfMemory; // made
        let f: Result<(), OutOfMemory> = first("// {");
        if let Err(OutOfMemory) = f {
            let g = ("//", AllocError); // made
        }
        if matches!(f, Err(Fault::NoMemory)) && f != Err(OutOfMemory) {
            return (e);
        }
        match f {
            x if a == b => Err(OutOfMemory), // made
            x if x == OutOfMemory => 1,
            Ok(_)
            | Err(Fault::NoMemory) => 2,
            Err(OutOfMemory) => Err(StoreFault::OutOfMemory), // made
            _ => Err(AllocError), // made
        }
    }
}
"""


def test_the_places_of_a_source(tmp_path: Path) -> None:
    copy_scripts(tmp_path, SCRIPTS / "check-memory-errors")
    (tmp_path / "crates" / "planted" / "src").mkdir(parents=True)
    (tmp_path / "crates" / "planted" / "src" / "lib.rt").write_text(SOURCE, encoding="utf-8")
    words = [str(tmp_path / "scripts" / "check-memory-errors"), "--print"]
    done = subprocess.run(words, capture_output=True, text=True, check=True)
    made = [line.strip() for line in SOURCE.splitlines() if line.endswith("// made")]
    assert [line.partition(": ")[2] for line in done.stdout.splitlines()] == made
