"""Sets of calls with known lines, for the first mode, the second where it can do them, and the program `calls`.

A set is `vectors/NAME.calls`, calls in the form that the program reads, and `vectors/NAME.lines`, a line for each.
"""

from pathlib import Path

from parts.program_calls import compare
from simulator.calls import answer, decode, encode
from simulator.definition.calls import manageable
from simulator.modes import BY_DEFINITION, FIRST
from simulator.reading import Refused, read
from simulator.tally import Tally

FOLDER = Path(__file__).resolve().parents[1] / "vectors"
SETS = ("W2", "W3")  # those that must be there; others that are there are run too


def names():
    """The sets, also those with one of their two files missing."""
    found = {path.stem for ending in ("calls", "lines") for path in FOLDER.glob(f"*.{ending}")}
    return sorted(found.union(SETS))


def known(name):
    """The bytes, the calls and the lines of a set."""
    data = (FOLDER / f"{name}.calls").read_bytes()
    return data, list(decode(data)), (FOLDER / f"{name}.lines").read_text("ascii").splitlines()


def modes(call):
    """The modes that can do a call."""
    try:
        return (FIRST, BY_DEFINITION) if manageable(read(call.file)) else (FIRST,)
    except Refused:
        return FIRST, BY_DEFINITION


def run(name):
    tally = Tally(f"vectors {name}")
    try:
        data, calls, lines = known(name)
    except (OSError, ValueError) as problem:
        tally.fail(f"set {name}: {problem}")
        return tally
    tally.equal(len(calls), len(lines), lambda: f"set {name}: the number of lines")
    tally.equal(data, b"".join(map(encode, calls)), lambda: f"set {name}: its calls written anew")
    for number, (call, line) in enumerate(zip(calls, lines)):
        for mode in modes(call):
            tally.equal(line, answer(call, mode), lambda: f"call {number}, netlist {call.file.hex()}\n  call   {call}")
    tally.name += f", {sum(len(modes(call)) > 1 for call in calls)} in both modes"
    compare(tally, calls, lines)
    return tally


def parts(_):
    for name in names():
        yield run(name)
