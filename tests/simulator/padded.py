"""Netlists with pad buffers: chains and trees of them, on outputs, leading nowhere, and beside BUFs that are none.

Among them are files that just fit when the transformed circuit is written, with its copies, and files that just do not.
"""

from simulator import generators as g
from simulator.generators import FLIP_FLOPS, WIDE, Draft, finish
from simulator.pads import copies
from simulator.reading import BUF, MOST_CELLS, MOST_INPUTS, MOST_OUTPUTS, MOST_PINS, NOT, Netlist, write
from simulator.structure import prepare


def add_buffers(draft, rng, net, count, chain):
    """Adds so many pad buffers behind an input, as a chain or as a tree, and returns the nets of the pad."""
    nets = [net]
    for _ in range(count):
        nets.append(draft.cell(BUF, nets[-1] if chain else rng.choice(nets)))
    return nets


def buffered(draft, rng, most):
    """The draft with pad buffers at most of its inputs; pins that named the input then may name any of them.

    Buffers that none of those pins takes lead nowhere, so an input without branches has buffers only.
    """
    cells = len(draft.cells)
    for i in range(draft.inputs):
        if rng.random() < 0.8:
            nets = add_buffers(draft, rng, i, rng.randint(1, most), rng.random() < 0.4)
            draft.cells[:cells] = [tuple(rng.choice(nets) if net == i else net for net in named)
                                   for named in draft.cells[:cells]]
            draft.outputs = [rng.choice(nets) if net == i else net for net in draft.outputs]
    return draft


def two_depths_behind_a_buffer(rng, size):
    """Like P8: behind its buffers an input goes on at two or three depths that meet at an output."""
    draft = Draft(rng.randint(1, size.inputs))
    x = rng.randrange(draft.inputs)
    nets = [draft.chain(rng.choices(FLIP_FLOPS, k=k), x) for k in rng.sample(range(3), rng.randint(2, 3))]
    draft.outputs = [draft.cell(rng.choice(WIDE), *rng.sample(nets, len(nets)))]
    for _ in range(rng.randint(0, size.outputs - 1)):
        draft.outputs.append(rng.choice(draft.nets()))
    return draft


def padded(rng, size):
    """A file of any loop-free family, with pad buffers put in."""
    family = rng.choice((*g.FAMILIES, g.internally_balanced, g.unused_inputs, two_depths_behind_a_buffer))
    return finish(buffered(family(rng, size), rng, 4), rng)


def crowded(rng, inputs, outputs):
    """Many inputs with buffers; each output hangs from a few of them, at depths 0 to 2, and so from few blocks."""
    draft = Draft(inputs)
    for _ in range(outputs):
        nets = [draft.chain(rng.choices(FLIP_FLOPS, k=rng.choice((0, 0, 1, 2))), rng.randrange(inputs))
                for _ in range(rng.randint(2, 5))]
        draft.outputs.append(draft.cell(rng.choice(WIDE), *nets))
    return buffered(draft, rng, 6)


def many_padded(rng):
    """A file of up to 64 inputs, most with buffers; often of more than 64 blocks."""
    return finish(crowded(rng, rng.choice((30, 63, MOST_INPUTS)), rng.randint(1, 30)), rng)


def several_blocks(rng, inputs, blocks, length):
    """So many blocks of each input behind so many pad buffers: each block of a few inputs has an output of its own."""
    draft = Draft(inputs)
    pads = [add_buffers(draft, rng, i, length, chain=rng.random() < 0.7) for i in range(inputs)]
    for first in range(0, inputs, 8):
        for k in range(blocks):
            nets = [draft.cell(NOT, rng.choice(pad[1:][-3:])) for pad in pads[first:first + 8]]
            if first == 0 and k == 1:
                nets[0] = draft.cell(rng.choice(FLIP_FLOPS), nets[0])
            draft.outputs.append(g.tree(draft, rng, nets))
    return draft if rng.random() < 0.3 else draft.shuffled(rng)


def fill(draft, rng, cells, pins):
    """Adds cells that lead nowhere and hang from no pad, up to so many cells and pins with the copies.

    They come last, so that blocks and copies stay as they are.
    """
    copied = len(copies(prepare(draft.file(rng))))
    apart = [draft.inputs + j for j, kind in enumerate(draft.kinds) if kind != BUF]
    missing = cells - copied - len(draft.cells)
    wider = pins - copied - sum(map(len, draft.cells)) - len(draft.outputs) - missing
    for _ in range(missing):
        width = 1 + min(7, max(0, wider))
        wider -= width - 1
        draft.cell(rng.choice(WIDE if width > 1 else (NOT, BUF)), *rng.choices(apart, k=width))
    return draft


# Cells and pins that the transformed circuit has with its copies; no pins stands for few.
LIMITS = ((MOST_CELLS, 0), (MOST_CELLS + 1, 0), (MOST_CELLS, MOST_PINS), (MOST_CELLS, MOST_PINS + 1),
          (MOST_CELLS + 1, MOST_PINS), (MOST_CELLS + 1, MOST_PINS + 1), (MOST_CELLS - 1, MOST_PINS + 2))


def at_the_limit(rng, limit=None, many=False):
    """A file at the limits of writing: that just fits, or just does not; if `many`, of more than 64 blocks besides."""
    cells, pins = limit or rng.choice(LIMITS)
    inputs, blocks = rng.choice(((12, 6), (13, 5), (33, 2)) if many else ((1, 4), (1, 6), (2, 3), (5, 5)))
    most = MOST_CELLS * (1 if pins else 3) // (4 * inputs * blocks)  # buffers and copies leave cells for so many pins
    return fill(several_blocks(rng, inputs, blocks, rng.randint(1, most)), rng, cells, pins).file(rng)


def files_at_the_limits(rng):
    """A file at each of the limits, and for each one of more than 64 blocks besides."""
    return [at_the_limit(rng, limit, many) for limit in LIMITS for many in (False, True)]


def beyond_the_limit(rng):
    """A file far over the limit of cells with its copies; searching it goes on."""
    draft = Draft(rng.randint(1, 2))
    pad = add_buffers(draft, rng, rng.randrange(draft.inputs), rng.randint(200, 250), chain=True)
    for _ in range(6):
        draft.outputs.append(draft.cell(NOT, rng.choice(pad[-20:])))
    return finish(draft, rng)


def cut_out(file):
    """The file without its pad buffers: what named one names the input; and the numbers that its nets and pins had."""
    chip = prepare(file)
    netlist, inputs = chip.netlist, chip.netlist.inputs
    cells = [j for j in range(len(netlist.cells)) if not chip.is_pad_buffer(j)]
    nets = [*range(inputs), *(inputs + j for j in cells)]
    new = {net: k for k, net in enumerate(nets)}

    def named(net):
        return new[net] if chip.pad[net] is None else chip.pad[net]

    left = Netlist(netlist.input_pads, tuple(netlist.kinds[j] for j in cells),
                   tuple(tuple(map(named, netlist.cells[j])) for j in cells),
                   netlist.output_pads, tuple(map(named, netlist.outputs)))
    return write(left), nets, [p for p in range(netlist.pins) if not chip.into_pad_buffer(p)]


def largest_padded(rng):
    """A file of C 1,024, O 64 and 4,096 pins once the transformed circuit is written, with 64 blocks."""
    draft = several_blocks(rng, 32, 2, 6)
    draft.outputs += rng.choices(draft.outputs, k=MOST_OUTPUTS - len(draft.outputs))
    return fill(draft, rng, MOST_CELLS, MOST_PINS).file(rng)
