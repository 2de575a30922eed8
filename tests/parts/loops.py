"""Loops worked by hand, and drawn ones, in both modes and with the programs `calls` and `listing`."""

import random

from parts.program_calls import compare
from parts.program_listing import compare_listing
from simulator import generators as g
from simulator.calls import CHECK, CLASS, FIELDS, READ_BACK, SEARCH, SET, TRANSFORM, Call, answer
from simulator.draw import draw_call
from simulator.faults import NET
from simulator.hits import LOOPS, hits
from simulator.looped import largest_looped, looped
from simulator.modes import BY_DEFINITION, FIRST
from simulator.reading import AND, BUF, DFF, DFFN, NAND, NOT, OR, XOR, file_of
from simulator.tally import Tally

CODES = (CLASS, TRANSFORM, SET, READ_BACK, CHECK, SEARCH)

# Of each the inputs, the cells, the outputs, and the lowest net that reaches itself.
WORKED = {
    "a flip-flop that feeds itself": (1, [(DFF, 1)], [1], 1),
    "a gate that feeds itself": (1, [(NOT, 0), (AND, 1, 2)], [2], 2),
    "a gate that names itself with all its pins": (2, [(BUF, 1), (XOR, 3, 3, 3)], [2], 3),
    "two cells that feed themselves": (1, [(BUF, 0), (OR, 0, 2), (DFFN, 3)], [3], 2),
    "gates only": (2, [(AND, 0, 3), (NOT, 2)], [3], 2),
    "flip-flops only": (1, [(BUF, 0), (DFF, 4), (DFFN, 2), (DFF, 3)], [4, 1], 2),
    "a gate and a flip-flop": (1, [(XOR, 0, 2), (DFF, 1)], [2], 1),
    "dead gates": (1, [(BUF, 0), (OR, 0, 3), (BUF, 2)], [1], 2),
    "dead flip-flops that nothing feeds": (1, [(DFF, 2), (DFF, 1)], [0], 1),
    "one net on two loops": (1, [(BUF, 3), (DFF, 3), (XOR, 1, 2)], [3], 1),
    "three loops apart": (1, [(BUF, 0), (DFF, 6), (OR, 0, 3), (NOT, 5), (NOT, 4), (BUF, 2)], [1], 2),
    "a loop inside the numbers of another": (1, [(AND, 0, 5), (DFF, 3), (DFF, 2), (BUF, 1), (BUF, 4)], [5], 1),
    "1 and 2 hang from 3 and 4": (1, [(BUF, 3), (XOR, 0, 1), (NOT, 4), (DFF, 3)], [2], 3),
    "1 hangs from 2": (1, [(NOT, 2), (DFF, 2)], [1], 2),
    "1 hangs from 2 and from 3": (1, [(AND, 2, 3), (NOT, 2), (BUF, 3)], [1], 2),
    "1 and 2 feed 3 and 4": (1, [(NOT, 0), (DFF, 1), (NAND, 2, 4), (BUF, 3)], [4], 3),
    "1 feeds 2 and 3": (1, [(BUF, 0), (OR, 1, 2), (OR, 1, 3)], [2, 3], 2),
    "2 hangs from 5 and 6, which 3 and 4 feed": (2, [(BUF, 6), (NOT, 0), (OR, 3, 1), (AND, 4, 6), (DFF, 5)], [2], 5),
    "1 and 2 between 5 and the loop of 3 and 4": (1, [(BUF, 5), (NOT, 1), (AND, 2, 4), (BUF, 3), (DFF, 5)], [4], 3),
    "1 between 6 and the loop of 4 and 5, 2 between that and 7":
        (1, [(BUF, 6), (NOT, 5), (BUF, 7), (OR, 1, 5), (DFFN, 4), (DFF, 6), (XOR, 2, 7)], [3], 4),
    "1 between 4 and 2, but with a way back": (1, [(BUF, 4), (AND, 1, 2), (BUF, 2), (OR, 4, 3)], [3], 1),
    "paths that part and meet again, below a loop": (1, [(BUF, 0), (NOT, 1), (XOR, 1, 2), (OR, 3, 4)], [4], 4),
    "cells out of order below a loop": (1, [(BUF, 2), (BUF, 3), (BUF, 0), (DFF, 4)], [1], 4),
    "the first cell behind 64 inputs": (64, [(AND, 0, 64)], [64], 64),
    "a chain of 256 flip-flops, which alone is refused by 10":
        (1, [(DFF, k) for k in range(256)] + [(DFF, 257)], [256], 257),
    "all of 1,024 cells": (1, [(BUF, 1024)] + [(BUF, k) for k in range(1, 1024)], [0], 1),
    "1,023 cells that hang from the last": (1, [(BUF, k) for k in range(2, 1025)] + [(BUF, 1024)], [1], 1024),
    "1,023 cells that feed the last": (64, [(NOT, k) for k in range(63, 1086)] + [(OR, 1086, 1087)], [64], 1087),
}


def known_lines(file, place):
    """A call of each code that refuses loops, and one with a byte behind the file, with their lines."""
    fields = {"room": 3, "pattern": b"\0", "play": b"\0", "sort": NET}
    for code in CODES:
        call = Call(code, file, tuple(fields.get(name, 0) for name in FIELDS[code]))
        yield call, f"refused 9 at {place}" + " eeeeee" * ("room" in FIELDS[code])
    yield Call(CLASS, file + b"\0"), f"refused 8 at {len(file)}"


def modes(call):
    """Both modes; on a large netlist, whose closure takes a while, the second for one code only."""
    return (FIRST, BY_DEFINITION) if call.code == CLASS or len(call.file) < 1000 else (FIRST,)


def worked():
    tally = Tally("loops worked by hand, in both modes and in the listing")
    calls, lines, texts = [], [], {}
    for name, (*netlist, place) in WORKED.items():
        file = file_of(*netlist)
        for call, line in known_lines(file, place):
            for mode in modes(call):
                tally.equal(line, answer(call, mode), lambda: f"{name}: netlist {call.file.hex()}\n  call   {call}")
            calls.append(call)
            lines.append(line)
        texts[file] = f"refused 9 at {place}\n"
        for mode in (FIRST, BY_DEFINITION):
            tally.equal(texts[file], mode.listing(file), lambda: f"{name}: netlist {file.hex()}\n  listing")
    compare_listing(tally, texts)
    compare(tally, calls, lines)
    return tally


def drawn(volumes):
    rng = random.Random(volumes.seed + 50)
    tally = Tally("loops drawn, in both modes and in the listing")
    files = [looped(rng, rng.choice((g.SMALL, g.MIDDLE))) for _ in range(volumes.loops)]
    files += [largest_looped(rng, loops) for loops in (1, 1, 2)]
    calls = [draw_call(rng, code, file) for file in files for code in CODES]
    lines = [answer(call, FIRST) for call in calls]
    for call, line in zip(calls, lines):
        if call.code == CLASS:
            tally.equal(answer(call, BY_DEFINITION), line, lambda: f"netlist {call.file.hex()}\n  call   {call}")
            tally.hit(*hits(call, line))
    tally.must_hit(LOOPS + ["9 at the largest size"])
    compare_listing(tally, {file: FIRST.listing(file) for file in files[::-10]})
    compare(tally, calls, lines)
    return tally


def parts(volumes):
    yield worked()
    yield drawn(volumes)
