"""How much is drawn, and from which seed. The values here are those of the gate."""

from dataclasses import dataclass


@dataclass(frozen=True)
class Volumes:
    seed: int = 1
    files: int = 10_000  # random and damaged files for code 0, beside all changes of three small ones
    classes: int = 5_000  # calls of code 1
    settings: int = 10_000  # calls of codes 2, 3 and 4 together
    checks: int = 10_000  # calls of code 5
    searches: int = 5_000  # calls of code 6
    listings: int = 300  # netlists of all sorts for the program listing
    shapes: int = 1_200  # netlists for it in the shapes that looking for all faults at once can get wrong
    small: int = 1_700  # small netlists on which the two modes are compared
    laws: int = 300  # larger netlists on which the laws are tried
    loops: int = 400  # netlists with loops in both modes and in calls, a tenth of them in the listing too
    pads: int = 250  # small netlists with pad buffers, in both modes with every fault in a buffer, and in calls
    slips: int = 400  # netlists on which each slip may be caught
