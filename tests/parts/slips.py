"""Each slip, put into the first mode: the comparison of calls has to catch it, and so has the second mode.

And the second mode with no numbers but its own: it has to answer the same.
"""

import random
from functools import lru_cache

from parts.pads import draw_padded
from parts.two_modes import draw_small
from simulator import generators as g
from simulator.calls import CHECK, CLASS, READ, READ_BACK, SEARCH, SET, TRANSFORM, Call, answer
from simulator.draw import draw_call
from simulator.looped import looped
from simulator.modes import BY_DEFINITION, FIRST
from simulator.mutants import SLIPS, slipped, without_numbers
from simulator.padded import at_the_limit, beyond_the_limit
from simulator.reading import MOST_CELLS, MOST_PINS
from simulator.tally import Tally


CODES = (CLASS, TRANSFORM, SET, READ_BACK, CHECK, SEARCH, SEARCH)
LIMIT_CODES = (TRANSFORM, TRANSFORM, SEARCH, SEARCH)
EACH, FEW = 5, 50  # each so many of the calls, and the first few files: for the second mode with no numbers but its own


def caught(slip, calls, right):
    """The calls, with their right lines, to which the first mode with the slip in it answers something else."""
    with slipped(slip):
        wrong = [answer(call, FIRST) for call in calls]
    return [(call, line) for call, line, other in zip(calls, right, wrong) if line != other]


def draw_calls(volumes):
    """Calls on small netlists with and without pad buffers, on loops, and on files over the limits of writing."""
    rng = random.Random(volumes.seed + 20)
    files = [draw_small(rng) for _ in range(volumes.slips)] + [looped(rng, g.SMALL) for _ in range(volumes.slips // 4)]
    files += [draw_padded(rng) for _ in range(volumes.slips // 4)]
    calls = [draw_call(rng, code, file) for file in files for code in CODES]
    over = MOST_CELLS + 1, MOST_PINS + 1
    files = [at_the_limit(rng, over), at_the_limit(rng, over, many=True), beyond_the_limit(rng)]
    return calls + [draw_call(rng, code, file) for file in files for code in LIMIT_CODES]


def on_its_own(calls):
    """The second mode does not ask the form of a netlist, which both modes share, for any number of a net or pin."""
    tally = Tally("the second mode with no numbers but its own")
    files = [call.file for call in calls[:FEW]]
    calls = calls + [Call(READ, file) for file in files]
    right, texts = [answer(call, FIRST) for call in calls], list(map(FIRST.listing, files))
    with without_numbers():
        for call, line in zip(calls, right):
            tally.equal(line, answer(call, BY_DEFINITION), lambda: f"netlist {call.file.hex()}\n  call   {call}")
        for file, text in zip(files, texts):
            tally.equal(text, BY_DEFINITION.listing(file), lambda: f"netlist {file.hex()}\n  listing")
    return tally


def parts(volumes):
    calls = draw_calls(volumes)
    yield on_its_own(calls[::EACH])
    right = [answer(call, FIRST) for call in calls]
    by_definition = lru_cache(maxsize=None)(lambda call: answer(call, BY_DEFINITION))
    for slip in SLIPS:
        tally = Tally(f"slip, {slip.name}")
        found = caught(slip, calls, right)
        tally.case(found, lambda: f"none of {len(calls)} calls caught it")
        for call, line in found:
            tally.equal(by_definition(call), line, lambda: f"netlist {call.file.hex()}\n  call   {call}")
        tally.name += f", caught by {len(found)} of {len(calls)} calls"
        yield tally
