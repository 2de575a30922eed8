"""The known results of 01, with W2 and W3, from the programs themselves: `calls` and `listing`.

What is wanted stands in `examples.py`; no part of the simulator works it out.
"""

from parts.examples import known_lines, known_texts
from parts.program_calls import compare
from parts.program_listing import compare_listing
from simulator.tally import Tally

MUST = [f"P{number}" for number in range(1, 11)] + ["255 flip-flops", "256 flip-flops", "sixteen", "seventeen", "W2"]


def parts(_):
    tally = Tally("known results")
    names, calls, lines = zip(*known_lines())
    tally.hit(*names)
    tally.must_hit(MUST)
    compare_listing(tally, known_texts())
    compare(tally, calls, lines)
    yield tally
