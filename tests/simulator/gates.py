"""The value of a gate on words: bit k of each word belongs to the k-th clock or pattern."""

from functools import reduce
from operator import and_, or_, xor

from simulator.reading import AND, BUF, DFF, DFFN, NAND, NOR, NOT, OR, XNOR, XOR

COMBINES = {AND: and_, NAND: and_, OR: or_, NOR: or_, XOR: xor, XNOR: xor,
            BUF: or_, NOT: or_, DFF: or_, DFFN: or_}
INVERTS = (NOT, NAND, NOR, XNOR, DFFN)


def gate(kind, words, ones):
    """The word of a gate; a flip-flop counts as the BUF or NOT that it is without its delay."""
    word = reduce(COMBINES[kind], words)
    return word ^ ones if kind in INVERTS else word
