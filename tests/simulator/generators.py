"""Netlists drawn at random. Each family is named for what it must bring; all draw from a seeded source."""

from dataclasses import dataclass

from simulator.reading import (AND, BUF, DFF, DFFN, MOST_CELLS, MOST_INPUTS, MOST_OUTPUTS, MOST_PINS, NAND, NOR,
                               NOT, OR, XNOR, XOR, Netlist, file_of, write)

WIDE = (AND, OR, NAND, NOR, XOR, XNOR)
STRAIGHT = (BUF, NOT)
FLIP_FLOPS = (DFF, DFFN)


class Draft:
    """A netlist while it is drawn: cells and outputs are added, nets are numbers."""

    def __init__(self, inputs):
        self.inputs = inputs
        self.kinds = []
        self.cells = []
        self.outputs = []

    def cell(self, kind, *nets):
        """Adds a cell and returns its net."""
        self.kinds.append(kind)
        self.cells.append(tuple(nets))
        return self.inputs + len(self.cells) - 1

    def chain(self, kinds, net):
        """Adds cells of one pin one behind the other and returns the last net."""
        for kind in kinds:
            net = self.cell(kind, net)
        return net

    def nets(self):
        return range(self.inputs + len(self.cells))

    def reordered(self, order):
        """The same netlist with its cells in the order given."""
        new = list(range(self.inputs)) + [0] * len(order)
        for at, j in enumerate(order):
            new[self.inputs + j] = self.inputs + at
        draft = Draft(self.inputs)
        for j in order:
            draft.cell(self.kinds[j], *(new[net] for net in self.cells[j]))
        draft.outputs = [new[net] for net in self.outputs]
        return draft

    def shuffled(self, rng):
        """The same netlist with its cells in another order, so that cells name later nets."""
        return self.reordered(rng.sample(range(len(self.cells)), len(self.cells)))

    def plain_file(self, outputs):
        """The file with these outputs and with pads in order."""
        return file_of(self.inputs, [(kind, *nets) for kind, nets in zip(self.kinds, self.cells)], outputs)

    def file(self, rng):
        pads = rng.sample(range(1, 256), self.inputs + len(self.outputs))
        return write(Netlist(tuple(pads[:self.inputs]), tuple(self.kinds), tuple(self.cells),
                             tuple(pads[self.inputs:]), tuple(self.outputs)))


def finish(draft, rng):
    """The file of a draft, every other time with its cells out of order."""
    return (draft.shuffled(rng) if rng.random() < 0.5 else draft).file(rng)


def choose_outputs(draft, rng, count, late=0.6):
    """Adds outputs: mostly late nets, now and then any net, one net on several outputs among them."""
    nets = draft.nets()
    for _ in range(count):
        if draft.outputs and rng.random() < 0.15:
            draft.outputs.append(rng.choice(draft.outputs))
        elif rng.random() < late:
            draft.outputs.append(rng.choice(nets[-max(1, len(nets) // 3):]))
        else:
            draft.outputs.append(rng.choice(nets))


def levelled(rng, inputs, cells, outputs, levels, most_pins=3, several=False, flip_flops=0.3):
    """A netlist in which each net but the inputs has a level, and gates join nets of one level.

    With one level for each input every path from it to an output has one depth: class 3. If
    `several`, an input may stand on several levels: its branches on different levels then have
    different depths to every output, so they are separable and the class is 2 or 3.
    """
    draft = Draft(inputs)
    at_level = [[] for _ in range(levels + 1)]
    for i in range(inputs):
        stands = rng.sample(range(levels), rng.randint(2, levels)) if several and levels > 1 else [
            rng.randrange(max(1, levels))]
        for level in stands:
            at_level[level].append(i)
    for _ in range(cells):
        level = rng.choice([k for k, nets in enumerate(at_level) if nets])
        nets = at_level[level]
        if rng.random() < flip_flops and level < levels:
            at_level[level + 1].append(draft.cell(rng.choice(FLIP_FLOPS), rng.choice(nets)))
        elif rng.random() < 0.25:
            nets.append(draft.cell(rng.choice(STRAIGHT), rng.choice(nets)))
        else:
            width = rng.randint(2, most_pins)
            nets.append(draft.cell(rng.choice(WIDE), *(rng.choice(nets) for _ in range(width))))
    choose_outputs(draft, rng, outputs)
    return draft


def balanced(rng, size):
    """Class 3."""
    return levelled(rng, rng.randint(1, size.inputs), rng.randint(0, size.cells), rng.randint(1, size.outputs),
                    rng.randint(1, size.levels), size.pins)


def internally_balanced(rng, size):
    """Mostly class 2: inputs at several depths."""
    return levelled(rng, rng.randint(1, size.inputs), rng.randint(2, size.cells), rng.randint(1, size.outputs),
                    rng.randint(2, size.levels), size.pins, several=True, flip_flops=0.45)


def free(rng, size, back=0.0):
    """Any cells over any earlier nets: all classes; with `back` a share of pins that may close loops."""
    draft = Draft(rng.randint(1, size.inputs))
    cells = rng.randint(0, size.cells)
    for _ in range(cells):
        kind = rng.choice(WIDE + STRAIGHT + FLIP_FLOPS)
        width = rng.randint(2, size.pins) if kind in WIDE else 1
        draft.cell(kind, *(rng.randrange(draft.inputs + cells) if rng.random() < back else rng.choice(draft.nets())
                           for _ in range(width)))
    choose_outputs(draft, rng, rng.randint(1, size.outputs))
    return draft


def unbalanced(rng, size):
    """Class 1: a net behind a gate that is no pad buffer goes on at two depths that meet again."""
    draft = Draft(rng.randint(1, size.inputs))
    late = draft.chain(rng.choice(((NOT,), (BUF, NOT), (NOT, BUF))), rng.randrange(draft.inputs))
    early = draft.chain(rng.choices(FLIP_FLOPS, k=rng.randint(1, 2)), late)
    met = draft.cell(rng.choice(WIDE), late, early)
    for _ in range(rng.randint(0, 2)):
        met = draft.cell(rng.choice(WIDE), met, rng.choice(draft.nets()))
    draft.outputs = [rng.randrange(draft.inputs) for _ in range(rng.randint(0, size.outputs - 1))] + [met]
    return draft


def joined(rng, size):
    """Chains of joined branches: output k joins branches k and k+1 of one input, here and there with a gap.

    What hangs from a BUF alone are branches of their own, which join nothing.
    """
    draft = Draft(rng.randint(1, min(2, size.inputs)))
    straight = rng.choice(((NOT,), (BUF, NOT)))
    branches = [draft.chain((BUF,) if rng.random() < 0.1 else straight, 0)
                for _ in range(rng.randint(3, size.branches))]
    pairs = [pair for pair in zip(branches, branches[1:]) if rng.random() < 0.8]
    rng.shuffle(pairs)
    for a, b in pairs[:size.outputs] or [(branches[0], branches[1])]:
        draft.outputs.append(draft.cell(rng.choice(WIDE), a, b))
    return draft


def redundant(rng, size):
    """Logic that hides faults: x with NOT x, x with itself, x with x OR y."""
    draft = Draft(rng.randint(1, size.inputs))
    for _ in range(rng.randint(1, max(1, size.cells // 3))):
        x, y = rng.choice(draft.nets()), rng.choice(draft.nets())
        shape = rng.randrange(4)
        if shape == 0:
            draft.cell(rng.choice(WIDE), x, draft.cell(NOT, x))
        elif shape == 1:
            draft.cell(rng.choice(WIDE), x, x)
        elif shape == 2:
            draft.cell(AND, x, draft.cell(OR, x, y))
        else:
            draft.cell(rng.choice(FLIP_FLOPS), x)
    choose_outputs(draft, rng, rng.randint(1, size.outputs), late=0.9)
    return draft


def one_play_each(rng, size):
    """Outputs that want one input on one clock with different values: x straight and through flip-flops."""
    draft = Draft(rng.randint(1, size.inputs))
    x = rng.randrange(draft.inputs)
    for length in range(rng.randint(2, min(3, size.outputs + 1))):
        draft.outputs.append(draft.chain(rng.choices(FLIP_FLOPS, k=length), draft.cell(rng.choice(STRAIGHT), x)))
    y = rng.randrange(draft.inputs)
    late = draft.chain(rng.choices(FLIP_FLOPS, k=1), y)
    draft.outputs[-1] = draft.cell(rng.choice(WIDE), draft.outputs[-1], draft.cell(rng.choice(STRAIGHT), late))
    return draft


def unused_inputs(rng, size):
    """Inputs without branches between others with some."""
    inner = balanced(rng, size)
    inputs = inner.inputs + rng.randint(1, 2)
    place = sorted(rng.sample(range(inputs), inner.inputs))
    new = place + [inputs + j for j in range(len(inner.cells))]
    draft = Draft(inputs)
    for kind, nets in zip(inner.kinds, inner.cells):
        draft.cell(kind, *(new[net] for net in nets))
    draft.outputs = [new[net] for net in inner.outputs]
    return draft


def flip_flop_chain(rng, length):
    """Flip-flops in a row, on an output that is not always the first."""
    draft = Draft(rng.randint(1, 2))
    net = draft.chain(rng.choices(FLIP_FLOPS, k=length), 0)
    draft.outputs = [rng.randrange(draft.inputs) for _ in range(rng.randint(0, 2))] + [net]
    if rng.random() < 0.3:
        draft.chain([DFF] * rng.randint(1, 300), 0)
    return draft


def tree(draft, rng, nets):
    """Joins nets by gates until one is left and returns it."""
    nets = list(nets)
    while len(nets) > 1:
        rng.shuffle(nets)
        width = min(len(nets), rng.randint(2, 8))
        nets, taken = nets[width:], nets[:width]
        nets.append(draft.cell(rng.choice(WIDE), *taken))
    return nets[0]


def wide_cone(rng, blocks):
    """One output reached by so many blocks: inputs straight, or one input at several depths."""
    levels = rng.choice((1, 1, 2, 4))
    inputs = -(-blocks // levels)
    draft = Draft(inputs + rng.randint(0, 2))
    nets = []
    for k in range(blocks):
        nets.append(draft.chain(rng.choices(FLIP_FLOPS, k=k // inputs), draft.cell(BUF, k % inputs)))
    top = tree(draft, rng, nets)
    draft.outputs = [top]
    if rng.random() < 0.5:
        draft.outputs.insert(rng.randint(0, 1), rng.choice(nets))
    return draft


def many_blocks(rng, blocks):
    """So many blocks in all: dead branches, some behind a pad buffer, and branches with outputs of their own."""
    draft = Draft(rng.randint(1, MOST_INPUTS))
    draft.outputs = list(range(min(4, draft.inputs)))
    pads = list(draft.outputs)
    for _ in range(blocks - draft.inputs):
        if rng.random() < 0.1:
            pads.append(draft.cell(BUF, rng.choice(pads)))
        draft.cell(rng.choice((NOT,) + FLIP_FLOPS), rng.choice(pads))
    return draft


def most_widths(rng):
    """Pin counts of 1,024 cells that leave 64 of 4,096 pins for the outputs."""
    single = rng.randint(100, 300)
    widths = [1] * single + [2] * (MOST_CELLS - single)
    while sum(widths) < MOST_PINS - MOST_OUTPUTS:
        at = rng.randrange(single, MOST_CELLS)
        widths[at] = min(8, widths[at] + 1)
    rng.shuffle(widths)
    return widths


def largest(rng, groups=4, levels=6):
    """I 64, C 1,024, O 64 and 4,096 pins; groups of inputs kept apart, so that cones stay narrow.

    With four groups of 16 inputs each cone has at most 16 blocks; with fewer groups more.
    """
    draft = Draft(MOST_INPUTS)
    at_level = [[[] for _ in range(levels + 1)] for _ in range(groups)]
    for i in range(MOST_INPUTS):
        at_level[i % groups][rng.randrange(2)].append(i)
    for width in most_widths(rng):
        group = at_level[rng.randrange(groups)]
        level = rng.choice([k for k, nets in enumerate(group) if nets])
        if width > 1:
            kind = rng.choice(WIDE)
        else:
            kind = rng.choice(FLIP_FLOPS if level < levels else STRAIGHT)
        nets = [rng.choice(group[level]) for _ in range(width)]
        group[level + (kind in FLIP_FLOPS)].append(draft.cell(kind, *nets))
    draft.outputs = rng.sample(draft.nets()[-400:], MOST_OUTPUTS)
    return draft


def too_many_pins(rng):
    """A file that passes 4,096 pins, at a cell or at the output count, or just does not."""
    cells, rest = divmod(MOST_PINS - rng.choice((-2, 0, 1, 8, 20)), 8)
    draft = Draft(rng.randint(1, MOST_INPUTS))
    for _ in range(cells):
        draft.cell(rng.choice(WIDE), *(rng.randrange(draft.inputs) for _ in range(8)))
    draft.chain([BUF] * rest, 0)
    draft.outputs = [rng.choice(draft.nets()) for _ in range(rng.randint(1, 24))]
    return draft


@dataclass(frozen=True)
class Size:
    """How large the families draw."""

    inputs: int
    cells: int
    outputs: int
    levels: int  # flip-flops one behind the other in the levelled families
    pins: int  # of one gate
    branches: int  # of one input, in the joined family


SMALL = Size(inputs=3, cells=6, outputs=3, levels=2, pins=3, branches=5)
MIDDLE = Size(inputs=7, cells=24, outputs=6, levels=4, pins=5, branches=12)

FAMILIES = (balanced, internally_balanced, internally_balanced, free, unbalanced, joined, redundant, one_play_each,
            unused_inputs)


def readable(rng, size):
    """A file of any loop-free family."""
    return finish(rng.choice(FAMILIES)(rng, size), rng)


def balanced_or_internally(rng, size):
    """A file that is mostly class 2 or 3."""
    family = rng.choice((balanced, internally_balanced, internally_balanced, joined, redundant, one_play_each,
                         unused_inputs))
    return finish(family(rng, size), rng)


def with_back_pins(rng, size):
    """A file mostly with a loop, through flip-flops or not, at an output or hanging from none."""
    return finish(free(rng, size, back=0.3), rng)


def deep(rng):
    """A file with a depth around the limit of 255."""
    return finish(flip_flop_chain(rng, rng.choice((254, 255, 256, 256, 257, 300))), rng)


def cone(rng, blocks):
    return finish(wide_cone(rng, blocks), rng)


def with_blocks(rng, blocks):
    return finish(many_blocks(rng, blocks), rng)


def damaged(rng, file):
    """A file cut, changed, lengthened or shortened somewhere."""
    data = bytearray(file or b"\0")
    shape = rng.randrange(6)
    at = rng.randrange(len(data))
    if shape == 0:
        return bytes(data[:at])
    if shape == 1:
        data += rng.randbytes(rng.randint(1, 3))
    elif shape == 2:
        data[at:at] = rng.randbytes(rng.randint(1, 2))
    elif shape == 3:
        del data[at:at + rng.randint(1, 2)]
    elif shape == 4:
        data[at] ^= 1 << rng.randrange(8)
    else:
        for _ in range(rng.randint(1, 3)):
            data[rng.randrange(len(data))] = rng.choice((0, 1, 2, 8, 9, 10, 64, 65, 255, rng.randrange(256)))
    return bytes(data)


def noise(rng):
    """Random bytes, mostly small so that counts and kinds have a chance."""
    most = rng.choice((2, 4, 11, 256))
    return bytes(rng.randrange(most) for _ in range(rng.randint(0, 40)))


def every_truncation(file):
    return [file[:length] for length in range(len(file))]


def every_byte_change(file):
    return [file[:at] + bytes((value,)) + file[at + 1:] for at in range(len(file)) for value in range(256)]
