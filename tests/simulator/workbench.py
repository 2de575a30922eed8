"""A copy of what a person at the bench has: the scripts, the sample and the built programs, over sources that say
nothing, with a kit whose `rt` writes down what it is asked. So nothing is proved here, whatever the real sources' times."""

import os
import shutil
import subprocess
import time
from pathlib import Path

from simulator import programs

PROGRAMS = ("calls", "listing")
SCRIPTS = ("list", "tools/run-program")


class Workbench:
    """Such a copy in a folder. Its programs are newer than its sources."""

    def __init__(self, room):
        self.room = Path(room)
        self.top = self.room / "copy"
        self.environment = os.environ | {"PATH": f"{self.room / 'bin'}{os.pathsep}{os.environ['PATH']}"}
        (self.room / "toolchain").symlink_to(programs.kit_home() / "toolchain")
        for name in (*SCRIPTS, "samples/listing.net"):
            self.copy(programs.ROOT / name, self.top / name)
        self.write(self.top / "crates.txt", "")
        for name in PROGRAMS:
            self.write(self.source(name), "")
            self.copy(programs.built(name), self.program(name))
        self.set_times()
        self.rt("exit 1")

    @staticmethod
    def copy(source, target):
        target.parent.mkdir(parents=True, exist_ok=True)
        shutil.copy(source, target)

    @staticmethod
    def write(path, text):
        path.parent.mkdir(parents=True, exist_ok=True)
        path.write_text(text)
        return path

    def source(self, name):
        return self.top / "crates" / name / "src" / "main.rt"

    def program(self, name):
        return self.top / programs.place(name)

    def set_times(self, newer=None):
        """All sources and folders are older than the programs, but for one that is newer."""
        now = time.time()
        for path in (self.top / "crates.txt", self.top / "crates", *(self.top / "crates").rglob("*")):
            os.utime(path, (now - 3000, now - 3000))
        for name in PROGRAMS:
            if self.program(name).exists():
                os.utime(self.program(name), (now - 2000, now - 2000))
        if newer:
            os.utime(newer, (now - 1000, now - 1000))

    def rt(self, does):
        """Makes an rt that does something, after it has written down its words and its folder."""
        text = f'#!/bin/sh\necho "$PWD: $@" >>"{self.room}/asked"\necho rt speaks\n{does}\n'
        self.write(self.room / "bin" / "rt", text).chmod(0o755)

    def asked(self):
        """What rt was asked since the last time."""
        path = self.room / "asked"
        lines = path.read_text().splitlines() if path.exists() else []
        path.unlink(missing_ok=True)
        return lines

    def run(self, *words, folder=None, seconds=60, **given):
        """Standard output, standard error and status of a command."""
        given = {"stdin": subprocess.DEVNULL, "stdout": subprocess.PIPE} | given
        ended = subprocess.run(list(map(str, words)), cwd=folder or self.top, env=self.environment,
                               stderr=subprocess.PIPE, timeout=seconds, check=False, **given)
        return ended.stdout, ended.stderr.decode("utf-8", "replace"), ended.returncode
