"""Chips as machines that are stepped clock by clock, from every starting state."""

from itertools import product

from simulator.definition.numbers import driven_by, drivers_of, pins_of
from simulator.faults import NET, PIN


def gate(kind, values):
    """The value of a gate by its number of ones."""
    ones = sum(values)
    match kind:
        case 0 | 8:
            return ones
        case 1 | 9:
            return 1 - ones
        case 2:
            return int(ones == len(values))
        case 3:
            return int(ones > 0)
        case 4:
            return int(ones < len(values))
        case 5:
            return int(ones == 0)
        case 6:
            return ones % 2
        case 7:
            return 1 - ones % 2


class Machine:
    """A chip, good or with stuck sites, stepped clock by clock; its state is what the flip-flops show."""

    def __init__(self, netlist, stuck):
        self.netlist, self.drivers, self.driven = netlist, drivers_of(netlist), driven_by(netlist)
        self.flip_flops = [j for j, kind in enumerate(netlist.kinds) if kind in (8, 9)]
        pins, self.pins = pins_of(netlist), {}  # the pins of each cell; those of the outputs under None
        for pin in pins:
            self.pins.setdefault(pin.cell, []).append(pin)
        self.stuck_nets = {number: value for (sort, number), value in stuck.items() if sort == NET}
        self.stuck_pins = {pins[number]: value for (sort, number), value in stuck.items() if sort == PIN}
        self.steps = {}

    def starts(self):
        """Every starting state."""
        return frozenset(product((0, 1), repeat=len(self.flip_flops)))

    def step(self, state, inputs):
        """What the outputs show on a clock, and the state of the next."""
        if (state, inputs) not in self.steps:
            self.steps[state, inputs] = self.work_out(state, inputs)
        return self.steps[state, inputs]

    def work_out(self, state, inputs):
        """A step, each value followed back by recursion."""
        kinds, pins, drivers, stuck = self.netlist.kinds, self.pins, self.drivers, self.stuck_pins
        known = dict(enumerate(inputs))
        known |= {self.driven[j]: shown for j, shown in zip(self.flip_flops, state)}
        known |= self.stuck_nets

        def net_value(net):
            if net not in known:
                known[net] = cell_value(drivers[net])
            return known[net]

        def pin_value(pin):
            return stuck[pin] if pin in stuck else net_value(pin.net)

        def cell_value(j):
            return gate(kinds[j], [pin_value(pin) for pin in pins[j]])

        return tuple(map(pin_value, pins[None])), tuple(map(cell_value, self.flip_flops))


def step_both(good, faulty, states, inputs):
    """The outputs at which a fault is shown on a clock, and all states that the two may have on the next.

    `states` are those that the good and the faulty chip may have now, whatever they started from.
    """
    shows, after = [], []
    for machine, possible in zip((good, faulty), states):
        steps = {machine.step(state, inputs) for state in possible}
        shows.append({outputs for outputs, _ in steps})
        after.append(frozenset(state for _, state in steps))
    shown = [z for z in range(len(good.netlist.outputs)) if all(a[z] != b[z] for a, b in product(*shows))]
    return shown, tuple(after)
