#!/usr/bin/env python3
"""Compares random replays through the library with those of the program, byte for byte, and times both.

Give it the program: check_replays.py PROGRAM [COUNT]. It makes COUNT replays, 1000 if no count is given: of guests of
guests/ and of random ones, under random schedules and options. A third of them are serves, and some have bytes that are
not accepted. Status, output and message have to be the same. Then it times a replay of ten steps, as often, each way.
"""

import glob
import os
import random
import subprocess
import sys
import tempfile
import time

import lwcrun

GUESTS = os.path.join(lwcrun.TOP, "guests")
REGISTER_FORMS = ["ADD", "SUB", "MUL", "DIVU", "REMU", "AND", "OR", "XOR", "SHL", "SHR", "LTU", "EQ"]


def random_source(chosen):
    """A guest of some instructions, most of which do something to memory or make a call."""

    def register():
        return f"r{chosen.randrange(16)}"

    count = chosen.randrange(1, 24)
    lines = [f".entry {chosen.randrange(count)}" for _ in range(chosen.choice([1, 1, 2, 4]))]
    lines += [f".page {page} -" for page in range(chosen.randrange(3))]
    for _ in range(count):
        kind = chosen.randrange(8)
        if kind == 0:
            lines.append(f"LI {register()}, {chosen.randrange(32)}")
        elif kind == 1:
            lines.append(f"{chosen.choice(REGISTER_FORMS)} {register()}, {register()}, {register()}")
        elif kind == 2:
            lines.append(f"{chosen.choice(['LDB', 'LDW'])} {register()}, {register()}, {8 * chosen.randrange(1100)}")
        elif kind == 3:
            lines.append(f"{chosen.choice(['STB', 'STW'])} {register()}, {register()}, {8 * chosen.randrange(1100)}")
        elif kind == 4:
            lines.append(f"{chosen.choice(['JZ', 'JNZ'])} {register()}, {chosen.randrange(count)}")
        elif kind == 5:
            lines.append(f"SYS {chosen.choice([*range(1, 11), 16, 17, 18, 19, 20])}")
        elif kind == 6:
            lines.append(f"ADDI {register()}, {register()}, {chosen.randrange(-9, 9)}")
        else:
            lines.append(chosen.choice(["HALT", "SYS 16", "SYS 6"]))
    return "\n".join(lines) + "\n"


def spoilt(chosen, data):
    """The bytes, of which now and then one is another."""
    if data and chosen.randrange(12) == 0:
        at = chosen.randrange(len(data))
        return data[:at] + bytes([chosen.randrange(256)]) + data[at + 1 :]
    return data


def random_replay(chosen, images):
    """The words of a replay, and its files."""
    image = chosen.choice(images) if chosen.randrange(3) == 0 else lwcrun.assemble(random_source(chosen))
    is_serve = chosen.randrange(3) == 0
    threads = chosen.randrange(1, 17) if is_serve else image[20] if len(image) > 20 else 1
    steps = "".join(f"{chosen.randrange(max(1, min(threads, 16))):x}" for _ in range(chosen.randrange(200)))
    words = ["replay", "image", "schedule"]
    files = {"image": spoilt(chosen, image), "schedule": spoilt(chosen, steps.encode())}
    if is_serve:
        requests = [chosen.randbytes(chosen.randrange(4)) for _ in range(chosen.randrange(6))]
        words += ["requests", "--workers", str(threads)]
        files["requests"] = spoilt(chosen, lwcrun.request_file(requests))
    if chosen.randrange(2):
        words += ["--frames", str(chosen.choice([1, 2, 3, 8, 4096]))]
    if chosen.randrange(2):
        words += ["--budget", str(chosen.choice([1, 5, 60, 100000]))]
    return words, files


def by_program(program, folder, words, files):
    """The status, the output and the message of the program."""
    for name, data in files.items():
        with open(os.path.join(folder, name), "wb") as file:
            file.write(data)
    done = subprocess.run([program, *words], cwd=folder, capture_output=True, check=False)
    return done.returncode, done.stdout, done.stderr


def by_library(words, files):
    """The same, of the library."""
    answer = lwcrun.carry_out(words, files)
    return int(answer.status), answer.output, answer.message.encode()


def seconds_of(call, count):
    """How long a call takes, made so often."""
    begin = time.perf_counter()
    for _ in range(count):
        call()
    return (time.perf_counter() - begin) / count


def main():
    if len(sys.argv) not in (2, 3):
        sys.exit(__doc__)
    program, count = os.path.realpath(sys.argv[1]), int(sys.argv[2]) if len(sys.argv) == 3 else 1000
    images = [open_image(name) for name in sorted(glob.glob(os.path.join(GUESTS, "*.lwc")))]
    chosen = random.Random(65)
    statuses, differ = {}, 0
    with tempfile.TemporaryDirectory() as folder:
        for place in range(count):
            words, files = random_replay(chosen, images)
            there, here = by_program(program, folder, words, files), by_library(words, files)
            statuses[here[0]] = statuses.get(here[0], 0) + 1
            if there != here:
                differ += 1
                print(f"replay {place} differs: {' '.join(words)}: {there} by the program, {here} by the library")
        told = ", ".join(f"{number} with status {status}" for status, number in sorted(statuses.items()))
        print(f"{count} replays, {differ} differ: {told}")
        words = ["replay", "image", "schedule"]
        source = ".entry 0\n.page 0 -\n" + "LDB r0, r0, 0\n" * 10 + "HALT\n"
        files = {"image": lwcrun.assemble(source), "schedule": b"0" * 10}
        process = seconds_of(lambda: by_program(program, folder, words, files), count)
        library = seconds_of(lambda: by_library(words, files), count)
        times = f"{1e6 * process:.0f} us by a process, {1e6 * library:.0f} us by the library"
        print(f"a replay of ten steps, {count} times: {times}")
    return 0 if differ == 0 else 1


def open_image(name):
    with open(name, "rb") as file:
        return file.read()


if __name__ == "__main__":
    sys.exit(main())
