"""Processor time of a run of a program."""

import os
import subprocess
import sys
from pathlib import Path


def run(words, file, room):
    """Processor time of a run in milliseconds, user and system, and what it wrote."""
    wrote = Path(room) / "out"
    with file.open("rb") as given, wrote.open("wb") as taken:
        process = subprocess.Popen(words, stdin=given, stdout=taken)
        _, status, used = os.wait4(process.pid, 0)
        process.returncode = os.waitstatus_to_exitcode(status)
    if process.returncode:
        sys.exit(f"{words[-1]} ended with {process.returncode}")
    return (used.ru_utime + used.ru_stime) * 1000, wrote.read_bytes()
