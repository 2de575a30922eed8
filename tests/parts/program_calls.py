"""The calls of each code: drawn, answered by the simulator, and compared with the program `calls`."""

import random

from simulator import generators as g
from simulator import programs
from simulator.calls import (CHECK, CLASS, FIELDS, LONGEST, NAMES, READ, READ_BACK, SEARCH, SET, STRINGS, TRANSFORM,
                             Call, answer, encode)
from simulator.draw import draw_calls, writing
from simulator.hits import MUST, hits
from simulator.modes import BY_DEFINITION, FIRST
from simulator.padded import files_at_the_limits
from simulator.tally import Tally

# The listing's netlist, P8, and one with several inputs, outputs and kinds.
SMALL_FILES = tuple(map(bytes.fromhex, (
    "0100 01 0200 0801 0000 0602 0000 0100 0100 02 0200",
    "0100 01 0300 0001 0000 0801 0100 0602 0100 0200 0100 02 0300",
    "0200 01 02 0300 0202 0000 0100 0901 0200 0603 0300 0000 0200 0200 03 0300 04 0400",
)))


def draw_files(volumes):
    """For code 0: all truncations and byte changes of small files, then random and damaged files."""
    rng = random.Random(volumes.seed)
    for file in SMALL_FILES:
        yield from g.every_truncation(file)
        yield from g.every_byte_change(file)
    for count in range(volumes.files):
        if count % 250 == 0:
            yield g.too_many_pins(rng).file(rng)
        elif count % 10 == 0:
            yield g.noise(rng)
        elif count % 10 == 1:
            yield g.readable(rng, g.MIDDLE)
        elif count % 10 == 2:
            yield g.damaged(rng, g.damaged(rng, g.readable(rng, g.SMALL)))
        else:
            yield g.damaged(rng, g.readable(rng, g.SMALL))
    yield g.largest(rng).file(rng)
    yield bytes(LONGEST)
    yield g.largest(rng).file(rng).ljust(LONGEST, b"\0")


def compare(tally, calls, lines):
    """Holds the program's lines to those given, and says so in the part's name."""
    try:
        wrote, status = programs.run("calls", b"".join(map(encode, calls)))
    except programs.NoProgram as missing:
        tally.fail(str(missing))
        return
    got = wrote.decode("ascii", "replace").split("\n")
    tally.equal("", got.pop(), lambda: "the last line of the program calls is not ended")
    tally.equal((0, len(calls)), (status, len(got)), lambda: "exit status and number of lines of the program calls")
    for number, (call, wanted, line) in enumerate(zip(calls, lines, got)):
        tally.equal(wanted, line, lambda: f"call {number}, netlist {call.file.hex()}\n  call   {call}")
    tally.name += f", {len(calls)} compared with the program"


def part(codes, calls):
    """Some codes: what must be hit is hit, and the program answers what the simulator answers."""
    tally = Tally("calls of " + ", ".join(f"code {code} ({NAMES[code]})" for code in codes))
    lines = [answer(call, FIRST) for call in calls]
    for call, line in zip(calls, lines):
        tally.hit(*((call.code, name) for name in hits(call, line)))
    tally.must_hit((code, name) for code in codes for name in MUST[code])
    compare(tally, calls, lines)
    if codes == (READ,):
        for call, line in zip(calls, lines):
            tally.equal(line, answer(call, BY_DEFINITION), lambda: f"netlist {call.file.hex()}\n  read by definition")
    return tally


def sample_call(code, changed=None, value=None):
    """A call of a code on a small file, with one field changed."""
    fields = {name: b"\1" if name in STRINGS else 1 for name in FIELDS[code]}
    if changed:
        fields[changed] = value
    return Call(code, SMALL_FILES[0], tuple(fields.values()))


def bad_inputs(codes):
    """Calls that are cut at every byte, calls of unknown codes, and strings and buffers one byte too long."""
    for code in codes:
        whole = encode(sample_call(code))
        yield from (whole[:length] for length in range(1, len(whole)))
        yield encode(Call(code, bytes(LONGEST + 1), sample_call(code).fields))
        for name in FIELDS[code]:
            if name in STRINGS:
                yield encode(sample_call(code, name, bytes(LONGEST + 1)))
            elif name == "room":
                yield encode(sample_call(code, name, LONGEST + 1))
    for unknown in (128, 255):
        yield bytes((unknown,)) + encode(sample_call(READ))[1:]


def bad_calls():
    """After input that is no call the program ends with `bad call`, and the lines before it stand."""
    tally = Tally("bad calls")
    before = sample_call(READ)
    wanted = f"{answer(before, FIRST)}\nbad call\n".encode()
    for data in bad_inputs(FIELDS):
        try:
            wrote, _ = programs.run("calls", encode(before) + data)
        except programs.NoProgram as missing:
            tally.fail(str(missing))
            break
        tally.equal(wanted, wrote, lambda: f"input of {len(data)} bytes, first {data[:80].hex()}")
    return tally


def reads(volumes):
    yield part((READ,), [Call(READ, file) for file in draw_files(volumes)])


def classes(volumes):
    yield part((CLASS,), draw_calls(random.Random(volumes.seed + 1), (CLASS,), volumes.classes, each=1))


def settings(volumes):
    rng, codes = random.Random(volumes.seed + 2), (TRANSFORM, SET, READ_BACK)
    yield part(codes, draw_calls(rng, codes, volumes.settings, each=6) + writing(files_at_the_limits(rng)))


def checks(volumes):
    yield part((CHECK,), draw_calls(random.Random(volumes.seed + 3), (CHECK,), volumes.checks))


def searches(volumes):
    yield part((SEARCH,), draw_calls(random.Random(volumes.seed + 4), (SEARCH,), volumes.searches))


def bad(_):
    yield bad_calls()
