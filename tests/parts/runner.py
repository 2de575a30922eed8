"""What runs the parts: tiny parts that pass, fail, raise, die and hang are run as `tests/run` runs its own."""

import os
import re
import signal
import subprocess
import sys
from pathlib import Path

from simulator.running import run_all
from simulator.tally import Tally

FOLDER = Path(__file__).resolve().parents[1]
SECONDS = 60  # for a run of tiny parts, which takes less than one


def counting(passed, failed):
    """A part with two tallies, so many cases of which pass and fail."""
    for name, good, count in (("good", True, passed), ("bad", False, failed)):
        tally = Tally(f"tiny {name}")
        for _ in range(count):
            tally.case(good, lambda: "wanted to fail")
        yield tally


def raising():
    yield from counting(7, 0)
    raise ValueError("a tiny part raised this")


def ending():
    """Ends at once, with a status that is no failure."""
    yield from counting(7, 0)
    os._exit(0)


def killed():
    """Ends as where memory runs out."""
    yield from counting(7, 0)
    os.kill(os.getpid(), signal.SIGKILL)


def hanging():
    """Waits for what does not come."""
    yield from counting(7, 0)
    signal.pause()


TINY = {"killed": killed, "ending": ending, "passing": lambda: counting(3, 0), "raising": raising,
        "failing": lambda: counting(2, 4), "hanging": hanging, "last": lambda: counting(1, 0)}
LIMIT = 1  # seconds in which some tiny part must end

# Of some of them: the passed and the failed cases, and the words of the lines that name a part.
RUNS = (
    (["passing", "last"], 4, 0, []),
    (["killed"], 0, 1, ["killed by signal 9"]),
    (["passing", "raising"], 3, 1, ["raising with status 1"]),
    (["hanging", "last"], 1, 1, ["hanging by signal 9"]),
    ([name for name in TINY if name != "hanging"], 6, 7, ["ending with status 0", "killed by signal 9", "raising with status 1"]),
)


def started(*words):
    """Standard output as lines, standard error and the status of a Python command in the folder of the tests."""
    ended = subprocess.run([sys.executable, "-B", *map(str, words)], cwd=FOLDER, stdin=subprocess.DEVNULL,
                           capture_output=True, text=True, timeout=SECONDS, check=False)
    return ended.stdout.splitlines(), ended.stderr, ended.returncode


def tiny_run(tally, names, most, passed, failed, named):
    """Tiny parts, so many at a time: the counts of the last line, the status, and the parts named for their end."""
    text = f"tiny parts {names}, {most} at a time"
    lines, said, status = started("-m", "parts.runner", most, *names)
    tally.equal(([f"{passed} passed, {failed} failed"], int(failed > 0)), (lines[-1:], status), lambda: text)
    ends = re.findall(r"^FAILED: the part (\w+) was not done when its process ended (.*)$", "\n".join(lines), re.M)
    tally.equal(named, sorted(map(" ".join, ends)), lambda: f"{text}: the parts that were not done")
    raised = "ValueError: a tiny part raised this" in said
    tally.equal("raising" in names, raised, lambda: f"{text}: what was raised\n  said   {said}")


def script(tally):
    """The script `run`: each file of `parts/` is run, and has a row in the README; a wrong name is status 2."""
    files = {path.stem for path in (FOLDER / "parts").glob("*.py")} - {"__init__"}
    rows = re.findall(r"^\| `(\w+)\.py` \|", (FOLDER / "README.md").read_text("utf-8"), re.M)
    tally.equal(sorted(files), sorted(rows), lambda: "the rows of the README's table of parts")
    lines, said, status = started("run", "--list")
    tally.equal((files, "", 0), ({line.split(".")[0] for line in lines}, said, status), lambda: "tests/run --list")
    lines, said, status = started("run", "examples", "nothing")
    tally.equal(([], 2), (lines, status), lambda: "a name that is no part")
    tally.case("there is no part nothing" in said, lambda: f"a name that is no part\n  said   {said}")


def parts(_):
    tally = Tally("the runner of the parts")
    try:
        script(tally)
        for names, *wanted in RUNS:
            for most in (1, 2, len(TINY) + 1):
                tiny_run(tally, names, most, *wanted)
    except subprocess.TimeoutExpired as late:
        tally.fail(str(late))
    yield tally


if __name__ == "__main__":
    sys.exit(run_all({name: TINY[name] for name in sys.argv[2:]}, int(sys.argv[1]), LIMIT))
