"""What the structure of a netlist without loops says: depth (10), reach, blocks, class."""

from bisect import bisect_right
from dataclasses import dataclass
from functools import lru_cache

from simulator import pads
from simulator.loops import cell_order
from simulator.reading import DFF, Refused, read

MOST_DEPTH = 255


@dataclass(frozen=True)
class Block:
    """A block: its input, its branches, and their reach."""

    input: int
    pins: tuple
    reach: int


class Chip:
    """A netlist without loops and not too deep, with its structure worked out.

    A reach is one number with a field of d+1 bits for each output: bit e of field z is set
    if a path of depth e leads to output z. Passing a flip-flop is a shift by one; a field
    never runs over, since every net hangs from an input and so no path is deeper than d.
    """

    def __init__(self, netlist):
        self.netlist = netlist
        self.named = netlist.named()
        self.naming = naming(netlist)
        self.order = cell_order(netlist)
        self.depth = greatest_depth(netlist, self.order)
        self.first_pin = first_pins(netlist)
        self.net_reach, self.pin_reach = reaches(self)
        self.pad = pads.pad_of_each_net(netlist, self.order)
        self.blocks = all_blocks(self)
        self.unbalanced = lowest_unbalanced(self)
        self.class_number = class_number(self)
        self.reaching = reaching(self)

    def fields(self, reach):
        """The outputs that a reach has in it, lowest first, each with its field."""
        width = self.depth + 1
        z = 0
        while reach:
            skip = ((reach & -reach).bit_length() - 1) // width
            z += skip
            reach >>= skip * width
            yield z, reach & ((1 << width) - 1)
            reach >>= width
            z += 1

    def cell_of(self, p):
        """The cell that a pin belongs to; past the last cell for the pins of outputs."""
        return bisect_right(self.first_pin, p) - 1

    def is_pad_buffer(self, j):
        return self.pad[self.netlist.inputs + j] is not None

    def into_pad_buffer(self, p):
        """Whether a pin is that of a pad buffer."""
        return p < self.first_pin[-1] and self.is_pad_buffer(self.cell_of(p))

    def need_class(self):
        """Refusal 11."""
        if self.unbalanced is not None:
            raise Refused(11, self.unbalanced)


def one_bit(field):
    return field & (field - 1) == 0


def is_flip_flop(kind):
    return kind >= DFF


def greatest_depth(netlist, order):
    """The depth d; refusal 10 with the lowest output that is too deep."""
    inputs = netlist.inputs
    depth = [0] * netlist.nets
    for j in order:
        depth[inputs + j] = max(depth[net] for net in netlist.cells[j]) + is_flip_flop(netlist.kinds[j])
    for z, net in enumerate(netlist.outputs):
        if depth[net] > MOST_DEPTH:
            raise Refused(10, z)
    return max(depth[net] for net in netlist.outputs)


def naming(netlist):
    """For each net the pins that name it."""
    pins = [[] for _ in range(netlist.nets)]
    for p, net in enumerate(netlist.named()):
        pins[net].append(p)
    return pins


def first_pins(netlist):
    """The first pin of each cell, then the first pin of the outputs."""
    first = [0]
    for nets in netlist.cells:
        first.append(first[-1] + len(nets))
    return first


def reaches(chip):
    """The reach of each net and of each pin, from the outputs backward."""
    netlist, first = chip.netlist, chip.first_pin
    net_reach = [0] * netlist.nets
    pin_reach = [0] * netlist.pins
    for z, net in enumerate(netlist.outputs):
        pin_reach[first[-1] + z] = 1 << (z * (chip.depth + 1))
        net_reach[net] |= pin_reach[first[-1] + z]
    for j in reversed(chip.order):
        reach = net_reach[netlist.inputs + j] << is_flip_flop(netlist.kinds[j])
        for p, net in enumerate(netlist.cells[j], first[j]):
            pin_reach[p] = reach
            net_reach[net] |= reach
    return net_reach, pin_reach


def join(branches, pin_reach):
    """The blocks of the branches of one input, as lists of pins, by lowest pin.

    Branches are taken one by one; each joins together all groups that share an output and a
    depth with it, so that chains of pairs end in one group.
    """
    groups, seen = [], 0
    for p in branches:
        pins, reach = [p], pin_reach[p]
        if reach & seen:
            apart = []
            for group in groups:
                if group[1] & pin_reach[p]:
                    pins += group[0]
                    reach |= group[1]
                else:
                    apart.append(group)
            groups = apart
        groups.append((pins, reach))
        seen |= reach
    return sorted(sorted(pins) for pins, _ in groups)


def all_blocks(chip):
    """The blocks by input, then by lowest pin; an input without branches is one block."""
    blocks = []
    for i, pins in enumerate(pads.branches(chip)):
        for block in join(pins, chip.pin_reach) or [[]]:
            reach = 0
            for p in block:
                reach |= chip.pin_reach[p]
            blocks.append(Block(i, tuple(block), reach))
    return blocks


def lowest_unbalanced(chip):
    """The lowest input with a block of two depths to one output, or None."""
    for block in chip.blocks:
        if not all(one_bit(field) for _, field in chip.fields(block.reach)):
            return block.input
    return None


def reaching(chip):
    """For each output the blocks that reach it, lowest first, each with its (greatest) depth."""
    blocks = [[] for _ in chip.netlist.outputs]
    for b, block in enumerate(chip.blocks):
        for z, field in chip.fields(block.reach):
            blocks[z].append((b, field.bit_length() - 1))
    return blocks


def class_number(chip):
    """3 if each input has one depth to each output, else 2 if each block has, else 1."""
    if chip.unbalanced is not None:
        return 1
    for i in range(chip.netlist.inputs):
        if not all(one_bit(field) for _, field in chip.fields(chip.net_reach[i])):
            return 2
    return 3


@lru_cache(maxsize=32)
def prepare(data):
    """The chip of a file, or one of the refusals 1 to 10."""
    return Chip(read(data))


def class_of(data):
    """Naming the class: class, depth, number of blocks."""
    chip = prepare(data)
    return chip.class_number, chip.depth, len(chip.blocks)
