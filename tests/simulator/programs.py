"""Starting a built program with the loader and C library of the kit, as `tools/run-program` does."""

import contextlib
import os
import shutil
import subprocess
import tempfile
import threading
from pathlib import Path

from simulator.tally import Tally

ROOT = Path(__file__).resolve().parents[2]


class NoProgram(Exception):
    """A program that cannot be run."""


def kit_home():
    """The folder of the kit."""
    if shutil.which("rt"):
        return Path(os.path.realpath(shutil.which("rt"))).parent.parent
    raise NoProgram("rt is not on the path, so there is no loader to start programs with")


def place(name):
    """The file of a program, from the top of the repository."""
    return Path("crates") / name / "out" / name


def built(name):
    """The file of a program, which must be built."""
    program = ROOT / place(name)
    if not program.exists():
        raise NoProgram(f"{place(name)} is missing")
    return program


def start_words(name):
    """The words that start a program: the loader of the kit, where its C library lies, the program."""
    tools = kit_home() / "toolchain" / "lib"
    return [tools / "ld-linux-x86-64.so.2", "--library-path", tools, built(name)]


def started(name, given, out=subprocess.PIPE, seconds=300, **more):
    """What a program writes and what it says on standard error, and its exit status, given its standard input and output.
    A write to a pipe that nobody reads fails: the signal is ignored in it as it is in Python."""
    try:
        ended = subprocess.run(list(map(str, start_words(name))), stdin=given, stdout=out, stderr=subprocess.PIPE,
                               timeout=seconds, check=False, restore_signals=False, **more)
    except subprocess.TimeoutExpired as late:
        raise NoProgram(f"{name} did not end in {seconds} s") from late
    return ended.stdout, ended.stderr, ended.returncode


def run(name, data, seconds=300):
    """What a program writes on standard output, and its exit status, given standard input. It must say nothing on standard error."""
    with tempfile.TemporaryFile() as given:
        given.write(data)
        given.seek(0)
        wrote, said, status = started(name, given, seconds=seconds)
    if said:
        raise NoProgram(f"{name} said on standard error: {said[:200]}")
    return wrote, status


def tallies(*parts):
    """The tally of each part; of one whose program cannot be run, a failure."""
    for part in parts:
        try:
            yield part()
        except NoProgram as missing:
            tally = Tally(part.__name__)
            tally.fail(str(missing))
            yield tally


class Dialogue:
    """A program on two pipes. It is stopped after so many seconds: a line that has not come by then is empty."""

    def __init__(self, name, seconds=60, stdout=subprocess.PIPE, stderr=subprocess.DEVNULL):
        self.program = subprocess.Popen(list(map(str, start_words(name))), stdin=subprocess.PIPE, stdout=stdout,
                                        stderr=stderr)
        self.stopping = threading.Timer(seconds, self.program.kill)
        self.stopping.start()

    def __enter__(self):
        return self

    def __exit__(self, *_):
        self.stopping.cancel()
        self.program.kill()
        self.close()
        for stream in (self.program.stdout, self.program.stderr):
            if stream:
                stream.close()
        self.program.wait()

    def send(self, data):
        """Hands bytes over, and keeps the pipe open. To a program that has ended it hands nothing."""
        with contextlib.suppress(BrokenPipeError):
            self.program.stdin.write(data)
            self.program.stdin.flush()

    def line(self):
        """The next line without its end."""
        return self.program.stdout.readline().decode("ascii", "replace").removesuffix("\n")

    def close(self):
        """Ends the input."""
        with contextlib.suppress(BrokenPipeError):
            self.program.stdin.close()

    def rest(self):
        """What is written up to the program's end, and its exit status."""
        return self.program.stdout.read(), self.program.wait()
