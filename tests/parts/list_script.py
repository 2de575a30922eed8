"""The script `./list`: its statuses, what it writes and when it builds, in a copy whose `rt` proves nothing."""

import os
import shutil
import subprocess
import tempfile
from pathlib import Path

from parts.examples import LISTING_FILE, chain_of, cone_of
from simulator import programs
from simulator.modes import FIRST
from simulator.reading import BUF, DFF, NOT, XOR, file_of
from simulator.tally import Tally
from simulator.workbench import Workbench

GOOD = {"sample": LISTING_FILE, "two words": file_of(2, [(XOR, 0, 1)], [2]), "deep": chain_of(255), "wide": cone_of(17),
        "dead": file_of(1, [(NOT, 0)], [0])}
REFUSED = {"empty": b"", "loop": file_of(1, [(DFF, 1)], [1]),
           "class 1": file_of(1, [(DFF, 0), (BUF, 1), (DFF, 1), (XOR, 2, 3)], [4])}


class Script:
    """The cases of the script in a bench."""

    def __init__(self, tally, room):
        self.tally = tally
        self.bench = Workbench(room)
        self.files = Path(room) / "files"
        self.files.mkdir()
        self.script = self.bench.top / "list"

    def file(self, name, data):
        path = self.files / name
        path.write_bytes(data)
        return path

    def case(self, text, words, wrote, status, says="", asks=0, **given):
        """A run: what it writes and its status, what it says on standard error, and how often rt is asked to build."""
        got, said, ended = self.bench.run(*words, **given)
        self.tally.equal((wrote, status), (got, ended), lambda: f"{text}\n  said   {said}")
        heard = says in said if says else not said
        self.tally.case(heard, lambda: f"{text}: wanted to hear {says or 'nothing'}\n  said   {said}")
        wanted = [f"{self.bench.top}/crates/listing: run"] * asks
        self.tally.equal(wanted, self.bench.asked(), lambda: f"{text}: what rt was asked")

    def arguments(self):
        """Wrong use and help need no program: the copy has none."""
        shutil.rmtree(self.bench.program("listing").parent)
        text = self.bench.run(self.script, "--help")[0]
        for part in ("usage: ./list NETLIST\n", "takes minutes", "status 0 ", *(f"\n       {k} " for k in (1, 2, 3))):
            self.tally.case(part.encode() in text, lambda: f"--help has no {part!r}")
        for word in ("--help", "-h"):
            self.case(word, [self.script, word], text, 0)
        for words in ([], ["samples/listing.net"] * 2, ["--help", "me"]):
            self.case(f"words {words}", [self.script, *words], b"", 2, "usage: ./list NETLIST")
        missing, folder = self.files / "missing", self.files
        self.case("a missing file", [self.script, missing], b"", 2, f"{missing}: there is no such file")
        self.case("no name", [self.script, ""], b"", 2, "there is no such file")
        self.case("an option", [self.script, "--all"], b"", 2, "--all: there is no such file")
        self.case("a directory", [self.script, folder], b"", 2, f"{folder}: a directory is no netlist")
        locked = self.file("locked", LISTING_FILE)
        locked.chmod(0)
        if not os.access(locked, os.R_OK):  # root reads every file
            self.case("an unreadable file", [self.script, locked], b"", 2, f"{locked}: the file cannot be read")

    def builds(self):
        """A program that is missing or older than a source is built, and only then."""
        sample, text = "samples/listing.net", FIRST.listing(LISTING_FILE).encode()
        built = self.file("built", programs.built("listing").read_bytes())
        built.chmod(0o755)
        run = [self.script, sample]
        self.case("a build that fails", run, b"", 3, "rt run in crates/listing failed", asks=1)
        self.bench.rt("exit 0")
        self.case("a build without a program", run, b"", 3, "made no crates/listing/out/listing", asks=1)
        self.bench.rt(f'mkdir out && cp "{built}" out/listing')
        self.case("the first build", run, text, 0, "The first run builds the program listing", asks=1)
        self.case("a run after the build", run, text, 0)
        self.bench.rt("exit 0")  # as where the sources say the same as before: the program stays as it is
        for name in ("crates.txt", "crates/listing/src/main.rt", "crates/calls/src/main.rt", "crates/calls/src"):
            self.bench.set_times(newer=self.bench.top / name)
            self.case(f"{name} is newer", run, text, 0, "A source is newer than the program listing", asks=1)
            self.case(f"a run after {name} was newer", run, text, 0)
        made = self.bench.write(self.bench.top / "crates/calls/out/made", "")
        for path in (made, made.parent, made.parent.parent):  # as rt leaves them, which makes out/ and writes in it
            self.bench.set_times(newer=path)
            self.case(f"{path.relative_to(self.bench.top)} is newer", run, text, 0)
        self.bench.rt("touch ../../crates.txt -d '+1 hour'")
        self.bench.set_times(newer=self.bench.top / "crates.txt")
        self.case("a source is written during the build", run, text, 0, "A source is newer", asks=1)
        self.case("a run after that", run, text, 0, "A source is newer", asks=1)
        self.bench.rt("exit 1")
        self.bench.set_times(newer=self.bench.top / "crates.txt")
        self.case("a build that fails over an old program", run, b"", 3, "rt run in crates/listing failed", asks=1)
        self.bench.set_times()

    def netlists(self):
        """What is listed and what is refused, as the simulator has it."""
        dead = FIRST.listing(GOOD["dead"])
        self.tally.case("n1/0 untestable tries 0\n" in dead, lambda: f"a net that reaches no output\n{dead}")
        for name, data in GOOD.items():
            self.case(name, [self.script, self.file(name, data)], FIRST.listing(data).encode(), 0)
        for name, data in REFUSED.items():
            text = FIRST.listing(data)
            self.tally.case(text.startswith("refused ") and text.count("\n") == 1, lambda: f"{name} is not refused")
            self.case(name, [self.script, self.file(name, data)], text.encode(), 1)

    def ways(self):
        """Other ways to call it: from elsewhere, through links, on a pipe."""
        text = FIRST.listing(LISTING_FILE).encode()
        sample = self.file("sample", LISTING_FILE)
        link, second = self.files / "lister", self.files / "second"
        link.symlink_to(self.script)
        second.symlink_to("lister")
        for name, words in (("a link", [link, sample]), ("a link to a link", ["./second", "sample"]),
                            ("bash", ["bash", link, sample])):
            self.case(f"from elsewhere by {name}", words, text, 0, folder=self.files)
        self.bench.environment["PATH"] += f"{os.pathsep}{self.files}"
        self.case("by the path", ["lister", sample], text, 0, folder="/")
        with sample.open("rb") as given:
            self.case("standard input", [self.script, "/dev/stdin"], text, 0, stdin=given)
        with open("/dev/full", "wb") as full:
            self.case("lines that cannot be written", [self.script, sample], None, 3, "write error", stdout=full)
        self.file("broken", b"").replace(self.bench.program("listing"))
        self.bench.program("listing").chmod(0o755)
        self.case("a program that cannot run", [self.script, sample], b"", 3, "listing")
        for words in ([], ["nothing"], ["listing", "twice"]):
            self.case(f"tools/run-program {words}", [self.bench.top / "tools/run-program", *words], b"", 2, "usage: ")


def parts(_):
    tally = Tally("the script list")
    with tempfile.TemporaryDirectory() as room:
        try:
            script = Script(tally, room)
            for cases in (script.arguments, script.builds, script.netlists, script.ways):
                cases()
        except (programs.NoProgram, subprocess.TimeoutExpired) as problem:
            tally.fail(str(problem))
    yield tally
