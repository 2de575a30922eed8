"""Setting a pattern on the clocks of a play, and reading it back."""

from simulator.reading import Refused
from simulator.structure import prepare

MOST_CLOCKS = 1024


def need_output(chip, z):
    """Refusal 13."""
    if z >= len(chip.netlist.outputs):
        raise Refused(13, 0)


def need_bits(data):
    """Refusal 18."""
    for at, byte in enumerate(data):
        if byte > 1:
            raise Refused(18, at)


def need_play(chip, play):
    """Refusals 14 and 18 for a play; returns its number of clocks."""
    clocks, rest = divmod(len(play), chip.netlist.inputs)
    if rest or clocks > MOST_CLOCKS:
        raise Refused(14, len(play))
    need_bits(play)
    return clocks


def need_clock(chip, clock, clocks):
    """Refusal 19."""
    if not chip.depth <= clock < clocks:
        raise Refused(19, clocks)


def places(chip, z):
    """For output z, each block that reaches it with the clock on which its value is put."""
    return [(b, chip.depth - e) for b, e in chip.reaching[z]]


def play_length(chip):
    return chip.netlist.inputs * (chip.depth + 1)


def set_play(chip, z, pattern, buffer):
    """Writes the play of d+1 clocks that sets the pattern for output z; every other place is 0."""
    length = play_length(chip)
    buffer[:length] = bytes(length)
    for b, clock in places(chip, z):
        buffer[clock * chip.netlist.inputs + chip.blocks[b].input] = pattern[b]
    return length


def set_pattern(data, z, pattern, buffer):
    """Setting: the length of the play written."""
    chip = prepare(data)
    need_output(chip, z)
    chip.need_class()
    if len(pattern) != len(chip.blocks):
        raise Refused(14, len(pattern))
    need_bits(pattern)
    if len(buffer) < play_length(chip):
        raise Refused(15, play_length(chip))
    return set_play(chip, z, pattern, buffer)


def read_back(data, z, play, clock, buffer):
    """Reading back at a clock: the length of the pattern written, one byte for each block."""
    chip = prepare(data)
    need_output(chip, z)
    chip.need_class()
    clocks = need_play(chip, play)
    need_clock(chip, clock, clocks)
    length = len(chip.blocks)
    if len(buffer) < length:
        raise Refused(15, length)
    buffer[:length] = bytes(length)
    for b, e in chip.reaching[z]:
        buffer[b] = play[(clock - e) * chip.netlist.inputs + chip.blocks[b].input]
    return length
