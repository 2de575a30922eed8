"""Depth, blocks, class and the transformed circuit, from paths that are written out one by one."""

from simulator.definition import pads
from simulator.definition.numbers import driven_by, drivers_of, pins_of
from simulator.reading import Refused

MOST_BRANCHES = 6  # of one input, for trying all partitions


def partitions(things):
    """All partitions of a list."""
    if not things:
        yield []
        return
    for rest in partitions(things[1:]):
        yield [[things[0]]] + rest
        for k, part in enumerate(rest):
            yield rest[:k] + [[things[0]] + part] + rest[k + 1:]


class Written:
    """A loop-free netlist with its paths written out."""

    def __init__(self, netlist):
        self.netlist = netlist
        self.inputs = len(netlist.input_pads)
        self.pins, self.drivers, self.driven = pins_of(netlist), drivers_of(netlist), driven_by(netlist)
        self.naming = [[] for _ in self.drivers]  # for each net the pins that name it
        for p, pin in enumerate(self.pins):
            self.naming[pin.net].append(p)
        looping = self.looping()
        if looping:
            raise Refused(9, looping[0])
        self.paths_from, self.ends_from = {}, {}
        depth = [max(e for p in self.input_pins() for z, e in self.ends(p) if z == k)
                 for k in range(len(netlist.outputs))]
        for z, e in enumerate(depth):
            if e > 255:
                raise Refused(10, z)
        self.depth = max(depth)
        self.ways = pads.ways(netlist)
        self.blocks = [(i, block) for i, way in enumerate(self.ways) for block in self.finest(list(way))]

    def looping(self):
        """The nets that reach themselves through at least one cell, lowest first, by closing the relation "feeds"."""
        users = [{self.pins[p].cell for p in pins} - {None} for pins in self.naming]
        feeds = [{self.driven[j] for j in cells} for cells in users]
        for middle, behind in enumerate(feeds):
            for fed in feeds:
                if middle in fed:
                    fed |= behind
        return [net for net, fed in enumerate(feeds) if net in fed]

    def input_pins(self):
        """The pins that name an input."""
        return [p for p, pin in enumerate(self.pins) if self.drivers[pin.net] is None]

    def paths(self, p):
        """All paths from a pin to an output, each as the list of its pins."""
        j = self.pins[p].cell
        if j is None:
            return [[p]]
        if p not in self.paths_from:
            behind = self.naming[self.driven[j]]
            self.paths_from[p] = [[p] + path for q in behind for path in self.paths(q)]
        return self.paths_from[p]

    def ends(self, p):
        """The outputs that a pin reaches, with each depth: the flip-flops on the path."""
        if p not in self.ends_from:
            self.ends_from[p] = {
                (self.pins[path[-1]].place, sum(self.netlist.kinds[self.pins[q].cell] in (8, 9) for q in path[:-1]))
                for path in self.paths(p)}
        return self.ends_from[p]

    def ends_of(self, pins):
        return set().union(*map(self.ends, pins))

    def finest(self, branches):
        """The finest partition in which branches of different blocks are separable."""
        if len(branches) > MOST_BRANCHES:
            raise ValueError("too many branches to try all partitions")
        ends = {p: self.ends(p) for p in branches}
        fit = [partition for partition in partitions(branches)
               if not any(ends[p] & ends[q] for a in partition for b in partition if a is not b for p in a for q in b)]
        best = max(fit, key=len)
        for other in fit:
            if not all(any(set(block) <= set(wider) for wider in other) for block in best):
                raise ValueError("no partition is the finest")
        return sorted(best) or [[]]

    def two_depths(self, pins):
        """Whether the pins together have two depths to one output."""
        ends = self.ends_of(pins)
        return len({z for z, _ in ends}) < len(ends)

    def class_number(self):
        if not any(self.two_depths(self.naming[i]) for i in range(self.inputs)):
            return 3
        return 1 if any(self.two_depths(block) for _, block in self.blocks) else 2

    def transformed(self):
        """Each block an input, each DFF a BUF, each DFFN a NOT, each further block with copies of its pad buffers."""
        return pads.transformed(self.netlist, self.blocks, self.ways)
