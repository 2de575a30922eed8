"""Pad buffers by definition: the ways from inputs to branches, and the transformed circuit with its copies."""

from dataclasses import dataclass

from simulator.definition.numbers import driven_by, drivers_of, pins_of
from simulator.faults import NET, PIN
from simulator.reading import Netlist

BUFFER = 0  # the kind of a pad buffer


def ways(netlist):
    """For each input the ways to its branches: a branch's way is the pad buffers passed, from the input on.

    They are walked forward: a pin that names the input leads into a pad buffer if it is a BUF's, and so
    does a pin that names that buffer; any other pin met is a branch.
    """
    driven, naming, found = driven_by(netlist), {}, []
    for p, pin in enumerate(pins_of(netlist)):
        naming.setdefault(pin.net, []).append((p, pin.cell))
    for i, _ in enumerate(netlist.input_pads):
        way, walked = {}, [(i, ())]
        for net, passed in walked:
            for p, j in naming.get(net, []):
                if j is not None and netlist.kinds[j] == BUFFER:
                    walked.append((driven[j], passed + (j,)))
                else:
                    way[p] = passed
        found.append(dict(sorted(way.items())))
    return found


@dataclass(frozen=True)
class Transformed:
    """The transformed circuit as a netlist, and what it was made from."""

    old: Netlist
    blocks_of: list  # for each input of the old netlist its blocks
    netlist: Netlist
    originals: list  # for each cell the cell of the old netlist that it is or copies

    def stuck(self, fault):
        """The stuck sites of a fault of the old netlist: an input in all its blocks, a cell in all its copies."""
        if fault.sort == PIN:
            sites = [(PIN, p) for p in self.pins_for(fault.number)]
        else:
            sites = [(NET, net) for net in self.nets_for(fault.number)]
        return dict.fromkeys(sites, fault.stuck)

    def nets_for(self, net):
        """The nets here that a net of the old netlist became."""
        j, driven = drivers_of(self.old)[net], driven_by(self.netlist)
        return self.blocks_of[net] if j is None else [driven[k] for k in self.cells_for(j)]

    def cells_for(self, j):
        """The cells here that are or copy a cell of the old netlist."""
        return [k for k, original in enumerate(self.originals) if original == j]

    def pins_for(self, p):
        """The pins here that a pin of the old netlist became; an output's pin is matched by its output."""
        old = pins_of(self.old)[p]
        here = [None] if old.cell is None else self.cells_for(old.cell)
        return [q for q, pin in enumerate(pins_of(self.netlist)) if pin.cell in here and pin.place == old.place]


def transformed(old, blocks, ways_of):
    """The transformed circuit of a netlist with its blocks, as (input, branches), and each input's ways.

    Nets have names before they have numbers: a block, a cell, or a block's copy of a cell.
    """
    blocks_of = [[b for b, (x, _) in enumerate(blocks) if x == i] for i, _ in enumerate(old.input_pads)]
    block_of = {p: b for b, (_, block) in enumerate(blocks) for p in block}
    copies = [("copy", b, j) for b, (i, block) in enumerate(blocks) if b != blocks_of[i][0]
              for j in sorted(set().union(*(ways_of[i][p] for p in block)))]
    names = [("block", b) for b in range(len(blocks))] + [("cell", j) for j in range(len(old.cells))] + copies
    number = {name: net for net, name in enumerate(names)}
    drivers = drivers_of(old)

    def new_net(net, b):
        """What a pin of block b names in the place of an old net; a pin of no block has None for b."""
        j = drivers[net]
        if j is None:
            return number["block", blocks_of[net][0] if b is None else b]
        return number["copy", b, j] if ("copy", b, j) in number else number["cell", j]

    cells, outputs = [[] for _ in old.cells], []
    for p, pin in enumerate(pins_of(old)):
        (outputs if pin.cell is None else cells[pin.cell]).append(new_net(pin.net, block_of.get(p)))
    cells += [[new_net(old.cells[j][0], b)] for _, b, j in copies]
    kinds = [{8: 0, 9: 1}.get(kind, kind) for kind in old.kinds] + [BUFFER] * len(copies)
    netlist = Netlist(tuple(b + 1 for b in range(len(blocks))), tuple(kinds), tuple(map(tuple, cells)),
                      tuple(len(blocks) + 1 + k for k in range(len(old.outputs))), tuple(outputs))
    return Transformed(old, blocks_of, netlist, [*range(len(old.cells)), *(j for _, _, j in copies)])
