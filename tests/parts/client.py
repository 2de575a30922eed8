"""A dialogue with the program `calls`: each answer must be there before the next call is sent."""

import re
import subprocess
import sys
import tempfile

from parts.examples import LISTING_FILE
from parts.program_calls import sample_call
from parts.vectors import known
from simulator import programs
from simulator.calls import CHECK, FIELDS, LONGEST, READ, SEARCH, SET, TRANSFORM, Call, answer, encode
from simulator.faults import PIN
from simulator.modes import FIRST
from simulator.tally import Tally
from simulator.workbench import Workbench

PAGE = programs.ROOT / "docs" / "CALLS.md"
LINES = 15  # of the client
PLAY = b"\0\1"
PAGE_CALLS = (Call(SEARCH, LISTING_FILE, (PIN, 1, 0, 2)), Call(CHECK, LISTING_FILE, (PIN, 1, 0, PLAY)),
              Call(CHECK, LISTING_FILE, (PIN, 3, 0, PLAY)))


def page():
    """The client of the page, run as it stands there: its lines are the page's, and the simulator's."""
    tally = Tally("the client of docs/CALLS.md")
    blocks = re.findall(r"^```(\w*)\n(.*?)^```$", PAGE.read_text("utf-8"), re.M | re.S)
    codes = [text for name, text in blocks if name == "python"]
    texts = [text for name, text in blocks if name == "text"]
    tally.equal((1, 1), (len(codes), len(texts)), lambda: "the blocks `python` and `text` of the page")
    if tally.failed:
        return tally
    tally.equal(LINES, sum(bool(line.strip()) for line in codes[0].splitlines()), lambda: "the lines of the client")
    tally.equal("".join(f"{answer(call, FIRST)}\n" for call in PAGE_CALLS), texts[0], lambda: "the lines in the page")
    with tempfile.TemporaryDirectory() as room:
        try:
            bench = Workbench(room)
            wrote, said, status = bench.run(sys.executable, "-c", codes[0])
        except (programs.NoProgram, subprocess.TimeoutExpired) as problem:
            tally.fail(str(problem))
            return tally
        tally.equal((texts[0].encode(), 0), (wrote, status), lambda: f"the client's run\n  said   {said}")
        tally.equal([], bench.asked(), lambda: "what the client's run asked of rt")
    return tally


def wide():
    """Calls with the longest strings and buffers, whose lines are longer than the program's buffer and a pipe."""
    yield Call(READ, bytes(LONGEST))
    yield Call(TRANSFORM, LISTING_FILE, (LONGEST,))
    yield Call(SET, LISTING_FILE, (0, bytes(LONGEST), LONGEST))
    yield Call(SEARCH, LISTING_FILE, (PIN, 1, 0, LONGEST))


def conversation():
    """Calls of every code and size, with their lines."""
    calls = [sample_call(code) for code in FIELDS] + list(wide())
    asked = [(call, answer(call, FIRST)) for call in calls]
    for name in ("W2", "W3"):
        _, calls, lines = known(name)
        asked += zip(calls, lines)
    return asked


def answered(tally, dialogue, data, wanted, text):
    """Hands bytes over and holds the next line to the one wanted. Answers whether it came."""
    for part in data:
        dialogue.send(part)
    line = dialogue.line()
    tally.equal(wanted, line, lambda: f"{text}, before more was sent")
    return line != ""


def in_turn():
    """Each call is sent when the line of the one before has come; the end of the input brings no line."""
    tally = Tally("calls answered in turn")
    with programs.Dialogue("calls") as dialogue:
        for number, (call, wanted) in enumerate(conversation()):
            if not answered(tally, dialogue, [encode(call)], wanted, f"call {number}, {call}"):
                return tally
        call = sample_call(SEARCH)
        single = [bytes((value,)) for value in encode(call)]
        answered(tally, dialogue, single, answer(call, FIRST), f"{call}, byte by byte")
        dialogue.close()
        tally.equal((b"", 0), dialogue.rest(), lambda: "what comes after the end of the input, and the status")
    return tally


def bad_in_turn():
    """What can be no call is answered, and ends the program, while the input is open."""
    tally = Tally("bad calls answered in turn")
    before = sample_call(READ)
    too_long = (LONGEST + 1).to_bytes(4, "little")
    for name, data in (("an unknown code", b"\xff"), ("a code alone, of no call yet", bytes((max(FIELDS) + 1,))),
                       ("a file too long", bytes((READ,)) + too_long),
                       ("a play too long", encode(sample_call(CHECK, "play", b""))[:-4] + too_long),
                       ("a buffer too long", encode(sample_call(SEARCH, "room", LONGEST + 1)))):
        with programs.Dialogue("calls") as dialogue:
            if not answered(tally, dialogue, [encode(before)], answer(before, FIRST), f"a call before {name}"):
                return tally
            if not answered(tally, dialogue, [data], "bad call", name):
                return tally
            tally.equal((b"", 0), dialogue.rest(), lambda: f"what comes after {name}, and the status")
    return tally


def parts(_):
    yield page()
    yield from programs.tallies(in_turn, bad_in_turn)
