"""An image: what its bytes have, and its instructions as `dis` lists them. The program has accepted the image before
it is read here."""

import struct
from dataclasses import dataclass

from lwcrun_tools.machine import MOST_PAGES, PAGES_OF_FORM_ONE, PAGE_BYTES

FIRST_INSTRUCTION = 28


@dataclass
class Image:
    """The parts of an image that the scripts use."""

    magic: bytes
    text: list[bytes]
    pages: dict[int, bytes]
    slots: dict[int, int]
    files: list[bytes]
    threads: int
    listing: list[tuple[str, list[str]]]

    @property
    def most_pages(self) -> int:
        """How many pages a context may have."""
        return MOST_PAGES if self.magic == b"LWC2" else PAGES_OF_FORM_ONE

    def at(self, place: int | None) -> tuple[str, list[str]]:
        """The name and the operands of an instruction; no name behind the last one."""
        return self.listing[place] if place is not None and 0 <= place < len(self.listing) else ("", [])

    def trap_to(self, place: int) -> int | None:
        """Where the code is by which tools/compile traps, if it is what jumped to this place, which has no instruction."""
        at = -place % 2**64
        code = [("LI", ["r0", str(at)]), ("SUB", ["r0", "r15", "r0"]), ("JR", ["r0"])]
        return at if [self.at(at + i) for i in range(3)] == code else None

    def line(self, place: int) -> str:
        """An instruction as `dis` writes it."""
        name, operands = self.at(place)
        return f"{name} {', '.join(operands)}".strip() or "behind the last instruction"

    def has_call(self, call: int) -> bool:
        """Whether an instruction of the image makes this call."""
        return ("SYS", [str(call)]) in self.listing


def read_image(data: bytes, source: str) -> Image:
    """The image that bytes are, whose source by `dis` this is."""
    instructions, pages, files, slots, threads, _ = struct.unpack_from("<6I", data, 4)
    text = [data[at : at + 8] for at in range(FIRST_INSTRUCTION, FIRST_INSTRUCTION + 8 * instructions, 8)]
    at, of_page, of_slot = FIRST_INSTRUCTION + 8 * instructions, {}, {}
    for _ in range(pages):
        of_page[int.from_bytes(data[at : at + 4], "little")] = data[at + 4 : at + 4 + PAGE_BYTES]
        at += 4 + PAGE_BYTES
    contents = []
    for _ in range(files):
        end = at + 12 + int.from_bytes(data[at + 8 : at + 12], "little")
        contents.append(data[at + 12 : end])
        at = end
    for _ in range(slots):
        slot, file = struct.unpack_from("<2I", data, at)
        of_slot[slot] = file
        at += 8
    return Image(data[:4], text, of_page, of_slot, contents, threads, list_instructions(source))


def list_instructions(source: str) -> list[tuple[str, list[str]]]:
    """The instructions of a source that `dis` has written."""
    lines = [line.partition(" ") for line in source.splitlines() if not line.startswith(".")]
    return [(name, rest.split(", ") if rest else []) for name, _, rest in lines]


def read_vault(data: bytes) -> dict[int, bytes]:
    """The pages of a vault's file."""
    return {
        int.from_bytes(data[at : at + 4], "little"): data[at + 4 : at + 4 + PAGE_BYTES]
        for at in range(4, len(data), 4 + PAGE_BYTES)
    }
