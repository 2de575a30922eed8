"""The calls and the listing by definition, and whether any play shows a fault."""

import sys
from functools import lru_cache
from itertools import product

from simulator.definition.machine import Machine, step_both
from simulator.definition.numbers import pins_of
from simulator.definition.pads import ways
from simulator.definition.paths import MOST_BRANCHES, Written
from simulator.definition.reading import read
from simulator.faults import NET, PIN, Fault, Found, Untestable
from simulator.reading import Refused

MOST_FLIP_FLOPS = 4  # for stepping from every starting state

sys.setrecursionlimit(10_000)  # values and paths are followed by recursion, through chains of 256 cells


def manageable(netlist):
    """Whether a netlist is small enough for all of this mode."""
    return (all(len(way) <= MOST_BRANCHES for way in ways(netlist))
            and sum(kind in (8, 9) for kind in netlist.kinds) <= MOST_FLIP_FLOPS)


@lru_cache(maxsize=32)
def prepare(data):
    """The netlist of a file with its paths written out, or one of the refusals 1 to 10."""
    return Written(read(data))


@lru_cache(maxsize=32)
def good_machine(data):
    return Machine(prepare(data).netlist, {})


@lru_cache(maxsize=32)
def good_transformed(data):
    """The transformed circuit, and the machine that it is without a fault."""
    transformed = prepare(data).transformed()
    return transformed, Machine(transformed.netlist, {})


def refuse(when, number, place):
    if when:
        raise Refused(number, place)


def refuse_class(chip):
    for i, block in chip.blocks:
        refuse(chip.two_depths(block), 11, i)


def refuse_bytes(data):
    for at, byte in enumerate(data):
        refuse(byte not in (0, 1), 18, at)


def refuse_play(chip, play):
    refuse(len(play) not in range(0, chip.inputs * 1024 + 1, chip.inputs), 14, len(play))
    refuse_bytes(play)


def refuse_site(chip, fault):
    sites = [(NET, net) for net, _ in enumerate(chip.drivers)] + [(PIN, p) for p, _ in enumerate(chip.pins)]
    refuse((fault.sort, fault.number) not in sites or fault.stuck not in (0, 1), 12, 0)


def class_of(data):
    chip = prepare(data)
    return chip.class_number(), chip.depth, len(chip.blocks)


def transform(data, buffer):
    """Writes the transformed circuit and returns its length."""
    chip = prepare(data)
    refuse(len(chip.blocks) > 64, 17, len(chip.blocks))
    new = chip.transformed().netlist
    refuse(len(new.cells) > 1024, 2, 0)
    refuse(len(pins_of(new)) > 4096, 7, 0)
    fields = [(2, len(new.input_pads))] + [(1, pad) for pad in new.input_pads] + [(2, len(new.cells))]
    for kind, nets in zip(new.kinds, new.cells):
        fields += [(1, kind), (1, len(nets))] + [(2, net) for net in nets]
    fields.append((2, len(new.outputs)))
    for pad, net in zip(new.output_pads, new.outputs):
        fields += [(1, pad), (2, net)]
    file = b"".join(value.to_bytes(size, "little") for size, value in fields)
    refuse(len(buffer) < len(file), 15, len(file))
    buffer[:len(file)] = file
    return len(file)


def lay_pattern(chip, z, pattern, buffer):
    """Each place of the play on its own: the block of its input at the depth that its clock stands for, or 0."""
    inputs = chip.inputs
    for clock, i in product(range(chip.depth + 1), range(inputs)):
        values = [pattern[b] for b, (x, block) in enumerate(chip.blocks)
                  if x == i and (z, chip.depth - clock) in chip.ends_of(block)]
        buffer[clock * inputs + i] = sum(values)
    return inputs * (chip.depth + 1)


def set_pattern(data, z, pattern, buffer):
    """Setting: the length of the play written."""
    chip = prepare(data)
    refuse(z not in range(len(chip.netlist.outputs)), 13, 0)
    refuse_class(chip)
    refuse(len(pattern) != len(chip.blocks), 14, len(pattern))
    refuse_bytes(pattern)
    refuse(len(buffer) < chip.inputs * (chip.depth + 1), 15, chip.inputs * (chip.depth + 1))
    return lay_pattern(chip, z, pattern, buffer)


def read_back(data, z, play, clock, buffer):
    """Reading back at a clock: the length of the pattern written."""
    chip = prepare(data)
    refuse(z not in range(len(chip.netlist.outputs)), 13, 0)
    refuse_class(chip)
    refuse_play(chip, play)
    clocks = [play[at:at + chip.inputs] for at in range(0, len(play), chip.inputs)]
    refuse(clock not in range(chip.depth, len(clocks)), 19, len(clocks))
    refuse(len(buffer) < len(chip.blocks), 15, len(chip.blocks))
    for b, (i, block) in enumerate(chip.blocks):
        buffer[b] = sum(clocks[clock - e][i] for k, e in chip.ends_of(block) if k == z)
    return len(chip.blocks)


def check_play(data, fault, play):
    """The first clock from d on and, in it, the first output where the fault is shown, or None."""
    chip = prepare(data)
    refuse_site(chip, fault)
    refuse_play(chip, play)
    if len(play) <= chip.inputs * chip.depth:
        return None
    good, faulty = good_machine(data), Machine(chip.netlist, {(fault.sort, fault.number): fault.stuck})
    states = good.starts(), faulty.starts()
    for clock in range(len(play) // chip.inputs):
        inputs = tuple(play[clock * chip.inputs:(clock + 1) * chip.inputs])
        shown, states = step_both(good, faulty, states, inputs)
        if shown and clock >= chip.depth:
            return clock, shown[0]
    return None


def search(data, fault, buffer):
    """Found, with the play in the buffer, or untestable: output by output, pattern by pattern."""
    chip = prepare(data)
    refuse_site(chip, fault)
    refuse_class(chip)
    site = [fault.number] if fault.sort == PIN else chip.naming[fault.number]
    reached = sorted({z for z, _ in chip.ends_of(site)})
    blocks = {z: [b for b, (_, block) in enumerate(chip.blocks) if any(k == z for k, _ in chip.ends_of(block))]
              for z in reached}
    for z in reached:
        refuse(len(blocks[z]) > 16, 16, z)
    refuse(len(buffer) < chip.inputs * (chip.depth + 1), 15, chip.inputs * (chip.depth + 1))
    transformed, good = good_transformed(data)
    faulty = Machine(transformed.netlist, transformed.stuck(fault))
    tries = 0
    for z in reached:
        for number in range(2 ** len(blocks[z])):
            pattern = [0] * len(chip.blocks)
            for k, b in enumerate(blocks[z]):
                pattern[b] = number // 2 ** k % 2
            tries += 1
            if good.step((), tuple(pattern))[0][z] != faulty.step((), tuple(pattern))[0][z]:
                lay_pattern(chip, z, pattern, buffer)
                return Found(z, number, tries)
    return Untestable(tries)


def listing(data):
    """The text of the listing, fault by fault."""
    try:
        chip = prepare(data)
        refuse_class(chip)
    except Refused as refusal:
        return f"refused {refusal.number} at {refusal.place}\n"
    netlist, inputs = chip.netlist, chip.inputs
    text = (f"in {inputs} cells {len(netlist.cells)} out {len(netlist.outputs)} depth {chip.depth} "
            f"class {chip.class_number()} blocks {len(chip.blocks)}\n")
    for letter, sort, count in (("n", NET, len(chip.drivers)), ("p", PIN, len(chip.pins))):
        for number, stuck in product(range(count), (0, 1)):
            play = bytearray(inputs * (chip.depth + 1))
            text += f"{letter}{number}/{stuck} "
            try:
                answer = search(data, Fault(sort, number, stuck), play)
            except Refused as refusal:
                text += f"refused {refusal.number} at {refusal.place}\n"
                continue
            if isinstance(answer, Untestable):
                text += f"untestable tries {answer.tries}\n"
            else:
                text += f"out {answer.output} tries {answer.tries} play"
                for at, value in enumerate(play):
                    text += " " * (at % inputs == 0) + str(value)
                text += "\n"
    return text


def some_play_shows(data, fault):
    """Whether any play, of any number of clocks, shows the fault at some output on some clock."""
    chip, good = prepare(data), good_machine(data)
    faulty = Machine(chip.netlist, {(fault.sort, fault.number): fault.stuck})
    seen, edge = set(), {(good.starts(), faulty.starts())}
    while edge:
        seen |= edge
        following = set()
        for states in edge:
            for inputs in product((0, 1), repeat=chip.inputs):
                shown, after = step_both(good, faulty, states, inputs)
                if shown:
                    return True
                following.add(after)
        edge = following - seen
    return False
