"""The sources of the program: which crates it stands on, their files, the toolchain, and whether the proved program
was made of them."""

from __future__ import annotations

import marshal
import os

# The launcher reads this module each time, so it imports nothing that takes long.
TYPE_CHECKING = False
if TYPE_CHECKING:
    from collections.abc import Iterable, Iterator

TOP = os.path.dirname(os.path.dirname(os.path.dirname(os.path.realpath(__file__))))
GUESTS = os.path.join(TOP, "guests")
TOOLS = os.path.join(TOP, "tools")
LAUNCHER = os.path.join(TOP, "lwcrun")
CRATES = os.path.join(TOP, "crates.txt")
PARTS = ("src", "specs", "proofs")
HOME = os.path.join(TOP, "crates", "lwcrun")
# The proved program of a checkout, one that is compiled with nothing proved, and the one of a download.
PROGRAM = os.path.join(HOME, "out", "lwcrun")
UNPROVED = os.path.join(TOP, "out", "unproved", "lwcrun")
PACKED = os.path.join(TOP, "bin", "lwcrun")
# What a download says of its program: the commit, the toolchain and the sum of the proof.
BUILD = os.path.join(TOP, "BUILD.txt")
# The one folder of a crate's out/ in which `rt ci` allows sources, and which it puts back at its end.
LIBRARIES = os.path.join(HOME, "out", "rlib")
# The state of the checkout when the launcher built the program.
BUILT = os.path.join(LIBRARIES, "built")
# How everything looked when the launcher last went through all folders and found the program made of what was there.
SEEN = os.path.join(HOME, "out", "seen")

# How a file looks: its name, when it was written and changed last, and its size.
Look = tuple[str, int, int, int]
# The same of what has a name, which may be a folder, and None where there is nothing.
Places = dict[str, tuple[int, int, int] | None]


def uses_of_crates() -> dict[str, list[str]]:
    """The crates of crates.txt, each with the libraries that it uses, the toolchain's among them."""
    uses = {}
    with open(CRATES, encoding="utf-8") as file:
        for line in file:
            head, _, tail = line.partition("#")[0].partition(":")
            if head.split():
                uses[head.split()[0]] = tail.split()
    return uses


def below_of(name: str, uses: dict[str, list[str]]) -> set[str]:
    """The crates that this one stands on, directly or through others."""
    below: set[str] = set()
    new = [name]
    while new:
        for it in uses[new.pop()]:
            if it in uses and it not in below:
                below.add(it)
                new.append(it)
    return below


def crates_of_program(uses: dict[str, list[str]]) -> list[str]:
    """The program's crate, and those that it stands on in the order of their names."""
    return ["lwcrun", *sorted(below_of("lwcrun", uses))]


def files_in(folder: str) -> Iterator[os.DirEntry[str]]:
    """The sources below a folder, in order; none where there is no such folder."""
    try:
        with os.scandir(folder) as found:
            entries = sorted(found, key=lambda entry: entry.name)
    except FileNotFoundError:
        return
    for entry in entries:
        if entry.is_dir(follow_symlinks=False):
            yield from files_in(entry.path)
        elif entry.name.endswith((".rt", ".antt")) and entry.name[0] != ".":
            yield entry


def files_of(name: str, parts: Iterable[str] = PARTS) -> Iterator[os.DirEntry[str]]:
    """The files of a crate that are proved, in order."""
    for part in parts:
        yield from files_in(os.path.join(TOP, "crates", name, part))


def has_sources() -> bool:
    """Whether this is a checkout; a download has no sources of the program."""
    return os.path.exists(CRATES)


def kit_of() -> str | None:
    """The folder of the toolchain, by its command `rt`; None where that is not on the path."""
    # `shutil.which` would do; its module takes long to import.
    for folder in os.environ.get("PATH", os.defpath).split(os.pathsep):
        command = os.path.join(folder, "rt")
        if os.access(command, os.X_OK) and not os.path.isdir(command):
            return os.path.dirname(os.path.dirname(os.path.realpath(command)))
    return None


def files_of_kit(kit: str) -> list[str]:
    """The files of the toolchain that say which one it is."""
    return [os.path.join(kit, name) for name in ("KIT-ID", "WHAT")]


def looks_of_kit() -> list[Look]:
    """How the files look that say which toolchain is on the path; none where none is there."""
    kit = kit_of()
    return [look_of(name, os.stat(name)) for name in files_of_kit(kit)] if kit else []


def looks_of(names: Iterable[str]) -> list[Look]:
    """How crates.txt and the files of these crates look."""
    looks = [look_of(CRATES, os.stat(CRATES))]
    looks += [look_of(file.path, file.stat()) for name in names for file in files_of(name)]
    return looks


def look_of(name: str, state: os.stat_result) -> Look:
    return name, state.st_mtime_ns, state.st_ctime_ns, state.st_size


def state_of(looks: list[Look]) -> str:
    """The state of the checkout: how the files look, and the program; in another line, the toolchain."""
    state = os.stat(PROGRAM)
    return f"{(looks, state.st_mtime_ns, state.st_size)!r}\n{looks_of_kit()!r}"


def folders_in(folder: str) -> Iterator[str]:
    """A folder, and all below it."""
    yield folder
    with os.scandir(folder) as found:
        inner = [entry.path for entry in found if entry.is_dir(follow_symlinks=False)]
    for it in inner:
        yield from folders_in(it)


def places_of(names: list[str]) -> Places:
    """How everything looks on which it rests whether the program is made of these crates: the program, each source,
    each folder of sources, and the toolchain. A folder looks another way once a file comes or goes."""
    looks = [*looks_of(names), *looks_of_kit()]
    places: Places = {name: (written, changed, size) for name, written, changed, size in looks}
    for folder in (os.path.join(TOP, "crates", name, part) for name in names for part in PARTS):
        for it in folders_in(folder) if os.path.isdir(folder) else [folder]:
            places[it] = place_of(it)
    return places | {PROGRAM: place_of(PROGRAM)}


def place_of(name: str) -> tuple[int, int, int] | None:
    """How what has this name looks."""
    try:
        state = os.stat(name)
    except FileNotFoundError:
        return None
    return state.st_mtime_ns, state.st_ctime_ns, state.st_size


def looks_as_seen() -> bool:
    """Whether the program and all that it is made of look as they did when the launcher last saw that they agree. It
    lists no folder, which would take longer than all else here."""
    try:
        with open(SEEN, "rb") as file:
            seen = marshal.loads(file.read())
        known = [PROGRAM, *(files_of_kit(kit) if (kit := kit_of()) else [])]
        return all(name in seen for name in known) and all(place_of(name) == look for name, look in seen.items())
    except (OSError, EOFError, ValueError, TypeError):
        return False


def keep_seen(places: Places) -> None:
    """Keeps how everything looks, for the next call; where it cannot, that one lists the folders again."""
    new = f"{SEEN}.{os.getpid()}"
    try:
        with open(new, "wb") as file:
            marshal.dump(places, file)
        os.replace(new, SEEN)
    except OSError:
        pass


def is_built() -> bool:
    """Whether the proved program is there, and made of the sources as they are: by the launcher, or by `rt ci`.
    Another toolchain on the path would prove and make another one."""
    if not os.path.exists(PROGRAM):
        return False
    if looks_as_seen():
        return True
    try:
        names = crates_of_program(uses_of_crates())
        # What changes from here on looks another way than what is kept.
        places = places_of(names)
        if not is_made_of(names):
            return False
    except OSError:
        return False
    keep_seen(places)
    return True


def is_made_of(names: list[str]) -> bool:
    """Whether the program is made of these crates as they are, by a look at every file."""
    looks = looks_of(names)
    if os.path.exists(BUILT):
        with open(BUILT, encoding="utf-8") as file:
            built, state = file.read(), state_of(looks)
        # Where no toolchain is on the path, any that proved the program will do.
        return built == state if kit_of() else built.partition("\n")[0] == state.partition("\n")[0]
    # `rt ci` writes this file when it begins.
    begun = os.stat(os.path.join(TOP, ".git", "rt-ci.lock")).st_mtime_ns
    looks += looks_of_kit()
    return begun <= os.stat(PROGRAM).st_mtime_ns and all(changed <= begun for _, _, changed, _ in looks)
