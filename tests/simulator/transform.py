"""The transformed circuit, with the copies of pad buffers, written as a netlist file."""

from simulator import pads
from simulator.reading import BUF, DFF, DFFN, MOST_CELLS, MOST_PINS, NOT, Netlist, Refused, write
from simulator.structure import prepare

MOST_BLOCKS = 64
WITHOUT_FLIP_FLOP = {DFF: BUF, DFFN: NOT}


def block_of_each_pin(chip):
    """The block of each branch and, for a pin into a pad buffer, the lowest block of its input."""
    block_of = {p: b for b, block in enumerate(chip.blocks) for p in block.pins}
    lowest = {}
    for b, block in enumerate(chip.blocks):
        lowest.setdefault(block.input, b)
    return block_of | {p: lowest[chip.pad[net]] for p, net in enumerate(chip.named) if chip.into_pad_buffer(p)}


def transformed(chip, copied):
    """The netlist in which each block is an input, each flip-flop a BUF or a NOT, and the copies are the last cells."""
    netlist, count, block_of = chip.netlist, len(chip.blocks), block_of_each_pin(chip)
    copy_net = {copy: count + len(netlist.cells) + c for c, copy in enumerate(copied)}

    def renamed(b, net):
        """The net that stands for a net of the old netlist, at a pin that belongs to block b, if to any."""
        j = net - netlist.inputs
        return b if j < 0 else copy_net.get((b, j), count + j)

    pins = [renamed(block_of.get(p), net) for p, net in enumerate(chip.named)]
    first = chip.first_pin
    return Netlist(
        tuple(range(1, count + 1)),
        tuple(WITHOUT_FLIP_FLOP.get(kind, kind) for kind in netlist.kinds) + (BUF,) * len(copied),
        tuple(tuple(pins[a:b]) for a, b in zip(first, first[1:]))
        + tuple((renamed(b, netlist.cells[j][0]),) for b, j in copied),
        tuple(range(count + 1, count + 1 + len(netlist.outputs))),
        tuple(pins[first[-1]:]),
    )


def need_fit(chip, copied):
    """Refusals 17, 2 and 7, in this order: the blocks, the cells with the copies, all pins with the copies'."""
    if len(chip.blocks) > MOST_BLOCKS:
        raise Refused(17, len(chip.blocks))
    if len(chip.netlist.cells) + len(copied) > MOST_CELLS:
        raise Refused(2, 0)
    if chip.netlist.pins + len(copied) > MOST_PINS:
        raise Refused(7, 0)


def written_length(chip):
    """The length of the file written: a pad for each block, and for each copy a cell of one pin."""
    netlist = chip.netlist
    cells, pins = len(netlist.cells), netlist.pins - len(netlist.outputs)
    return 6 + len(chip.blocks) + 2 * cells + 2 * pins + 3 * len(netlist.outputs) + 4 * len(pads.copies(chip))


def transform(data, buffer):
    """Writes the transformed circuit into the buffer and returns its length."""
    chip = prepare(data)
    copied = pads.copies(chip)
    need_fit(chip, copied)
    if len(buffer) < written_length(chip):
        raise Refused(15, written_length(chip))
    file = write(transformed(chip, copied))
    buffer[:len(file)] = file
    return len(file)
