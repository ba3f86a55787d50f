"""The machine in numbers: its calls, refusals, faults, items and limits, each of them once. The names of limits are
those of the sources, with which scripts/check-machine compares all of this."""

from __future__ import annotations

OPEN, CLOSE, DUP, READ, WRITE, MAP, UNMAP, GETUID, SETUID, EXIT = range(1, 11)
CREATE, SWITCH, RESTRICT, OVERLAY, BEHALF, TRAP = range(16, 22)
FUEL = 24
CALLS = {
    OPEN: "open",
    CLOSE: "close",
    DUP: "dup",
    READ: "read",
    WRITE: "write",
    MAP: "map",
    UNMAP: "unmap",
    GETUID: "getuid",
    SETUID: "setuid",
    EXIT: "exit",
    CREATE: "create",
    SWITCH: "switch",
    RESTRICT: "restrict",
    OVERLAY: "overlay",
    BEHALF: "on_behalf",
    TRAP: "trap",
    FUEL: "fuel",
}
REFUSALS = {
    2: "BadCall",
    3: "BadFd",
    4: "WrongKind",
    5: "BadAddress",
    6: "BadRange",
    7: "BadMode",
    8: "Overlap",
    9: "TooManyItems",
    10: "NotCovered",
    11: "TooManyContexts",
    12: "NoSlot",
    13: "NoSlotThere",
    14: "NoFrame",
    15: "NotPermitted",
    16: "NoFile",
    17: "TooManyGroups",
    18: "TooManyRanges",
    19: "ReplyFull",
    20: "TooLong",
    21: "ReadOnly",
    22: "Trapped",
    23: "NotFresh",
}
FAULTS = {1: "BadPc", 2: "BadLoad", 3: "BadStore", 4: "NoFrame", 5: "Budget", 6: "ReadOnly"}
BUDGET_FAULT = 5

# Under a guard: why a step was given back, beside faults, and what is added to it in r2.
NO_FUEL, HALTED, EXITED = 0, 7, 8
CAUSES = {NO_FUEL: "no fuel", **FAULTS, HALTED: "HALT", EXITED: "exit"}
GIVEN_BACK = 2**32

# What an item names, and how a call takes it.
PAGE_ITEM, SLOT_ITEM, UID_ITEM = range(3)
COPY, SHARE, LEAVE_OUT, READ_ONLY = range(4)

# What a context, a thread and a run may have.
PAGE_BYTES = 4096
MOST_PAGES, PAGES_OF_FORM_ONE = 16384, 1024
MOST_RANGES = 64
SLOTS, FIRST_SLOT, VAULT_SLOT = 64, 2, 63
ITEM_BYTES, MOST_ITEMS = 16, 32
MOST_CONTEXTS_OF_JOB, MOST_GROUPS_OF_JOB = 32, 64
MOST_THREADS = 16
MOST_FRAMES, MOST_BUDGET, MOST_STEPS = 65536, 100000, 16000000
MOST_BYTES_OF_CALL, MOST_CONSOLE_BYTES, MOST_REPLY_BYTES = 4096, 65536, 4096

# What files may have.
MOST_INSTRUCTIONS = 65536
MOST_FILES, MOST_FILE_BYTES, MOST_IMAGE_SLOTS = 64, 1048576, 62
MOST_BYTES_OF_FORM_ONE, MOST_IMAGE_BYTES, MOST_SOURCE_BYTES = 8388608, 75497472, 167772160
MOST_REQUESTS, MOST_REQUEST_BYTES, MOST_REQUEST_FILE_BYTES = 1024, 4096, 8390656
MOST_SCHEDULE_BYTES, MOST_SCRIPT_BYTES, MOST_VAULT_BYTES = 16777216, 65536, 262404
MOST_COMMANDS, MOST_DEBUGGED_STEPS = 64, 100000
MOST_REPLY_LINE_BYTES = 2 * MOST_REPLY_BYTES + 95

# More than a report of any run has: its steps, its replies, the console, and the lines of threads and contexts.
MOST_REPORT_BYTES = MOST_STEPS + MOST_REQUESTS * MOST_REPLY_LINE_BYTES + 2 * MOST_CONSOLE_BYTES + 1000000

# What the options of the line are if they are left out.
DEFAULT_FRAMES, DEFAULT_BUDGET, DEFAULT_WORKERS = 4096, 10000, 4
