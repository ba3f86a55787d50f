"""The first import of every command: it says in one line what is missing, and has Ctrl-C end the command in silence
until `run_script` does. The first line of each command holds Ctrl-C back while Python starts, which would answer it in
many lines. It is read by any Python from 3.6 on, which later modules are not."""

import os
import sys

signal = __import__("_signal")

LEAST_PYTHON = (3, 11)


def missing():
    # type: () -> str
    """What this machine lacks, in a sentence; no text where it lacks nothing."""
    if sys.version_info < LEAST_PYTHON:
        return "needs Python %d.%d or later, and python3 here is %d.%d" % (LEAST_PYTHON + tuple(sys.version_info[:2]))
    system, machine = os.uname().sysname, os.uname().machine
    if (system, machine) != ("Linux", "x86_64"):
        return "needs Linux on x86-64, and this is %s on %s" % (system, machine)
    return ""


if missing():
    sys.exit("%s: %s" % (os.path.basename(sys.argv[0]), missing()))
if signal.getsignal(signal.SIGINT) == signal.default_int_handler:
    signal.signal(signal.SIGINT, signal.SIG_DFL)
signal.pthread_sigmask(signal.SIG_UNBLOCK, [signal.SIGINT])
