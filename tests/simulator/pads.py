"""Pad buffers: which nets belong to the pad of an input, the branches behind them, and the copies (W3)."""

from simulator.reading import BUF


def may_buffer(kind):
    """Whether a cell of this kind is a pad buffer once its pin names a pad."""
    return kind == BUF


def pad_of_each_net(netlist, order):
    """For each net the input whose pad it belongs to: that input itself, or one of its pad buffers; else None.

    The order has each cell after those that it names, so a chain of buffers passes its input on.
    """
    pad = list(range(netlist.inputs)) + [None] * len(netlist.cells)
    for j in order:
        if may_buffer(netlist.kinds[j]):
            pad[netlist.inputs + j] = pad[netlist.cells[j][0]]
    return pad


def is_branch(chip, p, net):
    """Whether a pin is a branch: it names an input or a pad buffer, and is no pin into a pad buffer."""
    return chip.pad[net] is not None and not chip.into_pad_buffer(p)


def branches(chip):
    """The branches of each input, lowest first."""
    found = [[] for _ in range(chip.netlist.inputs)]
    for p, net in enumerate(chip.named):
        if is_branch(chip, p, net):
            found[chip.pad[net]].append(p)
    return found


def behind(chip, net):
    """The branches behind an input or a pad buffer: those that name it or a pad buffer behind it."""
    found, nets = [], [net]
    for here in nets:
        for p in chip.naming[here]:
            if chip.into_pad_buffer(p):
                nets.append(chip.netlist.inputs + chip.cell_of(p))
            else:
                found.append(p)
    return found


def further_blocks(chip):
    """The blocks that are not the lowest of their input."""
    return [b for b, block in enumerate(chip.blocks) if b > 0 and chip.blocks[b - 1].input == block.input]


def on_the_way(chip, block):
    """The pad buffers on the way to any branch of a block, going back from each branch to the input."""
    found = set()
    for p in block.pins:
        j = chip.named[p] - chip.netlist.inputs
        while j >= 0 and j not in found:
            found.add(j)
            j = chip.netlist.cells[j][0] - chip.netlist.inputs
    return found


def copies(chip):
    """The copies in the transformed circuit, each as its block and the cell copied: by block, then by cell."""
    return [(b, j) for b in further_blocks(chip) for j in sorted(on_the_way(chip, chip.blocks[b]))]
