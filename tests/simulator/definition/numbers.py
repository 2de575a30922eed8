"""What the numbers of nets and pins stand for, by the words of 01 and from the fields of a netlist alone."""

from typing import NamedTuple

from simulator.reading import Netlist


class Pin(NamedTuple):
    """A pin of a cell, with its place there, or of an output, which has no cell; and the net that it names."""

    cell: int | None
    place: int  # in the cell, or the output's number
    net: int


def pins_of(netlist):
    """The pins, as they are numbered: cell by cell in file order, then one for each output."""
    rows = [*enumerate(netlist.cells), (None, netlist.outputs)]
    return [Pin(cell, place, net) for cell, nets in rows for place, net in enumerate(nets)]


def drivers_of(netlist):
    """The cell that drives each net, as nets are numbered: the inputs, which have none, then cell by cell."""
    return [None for _ in netlist.input_pads] + [j for j, _ in enumerate(netlist.cells)]


def driven_by(netlist):
    """The net that each cell drives."""
    return [net for net, j in enumerate(drivers_of(netlist)) if j is not None]


class Numbered(Netlist):
    """A netlist that has this mode's numbers where it is asked for them: in the line of reading."""

    @property
    def inputs(self):
        return drivers_of(self).count(None)

    @property
    def nets(self):
        return len(drivers_of(self))

    @property
    def pins(self):
        return len(pins_of(self))

    def named(self):
        return [pin.net for pin in pins_of(self)]
