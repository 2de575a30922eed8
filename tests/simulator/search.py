"""The search. All patterns of an output are one word: bit m is the value under pattern m."""

from simulator import clocks, pads
from simulator.faults import NET, PIN, Found, Untestable, need_site
from simulator.gates import gate
from simulator.reading import Refused
from simulator.structure import prepare

MOST_BLOCKS_TRIED = 16


def variable(k, patterns):
    """The word of the block that is bit k of the pattern number."""
    ones = (1 << patterns) - 1
    return ones ^ ones // ((1 << (1 << k)) + 1)


class Cone:
    """The transformed circuit as one output sees it, with its good words under all patterns.

    Each branch has its block's word, so pad buffers and their copies are no cells here.
    """

    def __init__(self, chip, z):
        self.chip, self.z = chip, z
        netlist = chip.netlist
        self.blocks = [b for b, _ in chip.reaching[z]]
        self.patterns = 1 << len(self.blocks)
        self.ones = (1 << self.patterns) - 1
        field = ((1 << (chip.depth + 1)) - 1) << (z * (chip.depth + 1))
        self.cells = [j for j in chip.order
                      if chip.net_reach[netlist.inputs + j] & field and not chip.is_pad_buffer(j)]
        self.pin_words = {}
        for k, b in enumerate(self.blocks):
            word = variable(k, self.patterns)
            for p in chip.blocks[b].pins:
                self.pin_words[p] = word
        self.net_words = {}
        for j in self.cells:
            self.net_words[netlist.inputs + j] = self.cell_word(j, {}, {})
        self.output_word = self.end_word({}, {})

    def pin_word(self, p, net, nets, pins):
        """The word of a pin: as changed, else as its net is changed, else the good one."""
        if p in pins:
            return pins[p]
        if p in self.pin_words:
            return self.pin_words[p]
        return nets[net] if net in nets else self.net_words[net]

    def cell_word(self, j, nets, pins):
        netlist = self.chip.netlist
        words = [self.pin_word(p, net, nets, pins)
                 for p, net in enumerate(netlist.cells[j], self.chip.first_pin[j])]
        return gate(netlist.kinds[j], words, self.ones)

    def end_word(self, nets, pins):
        return self.pin_word(self.chip.first_pin[-1] + self.z, self.chip.netlist.outputs[self.z], nets, pins)

    def first_pattern(self, fault):
        """The lowest pattern that shows the fault here, or None."""
        netlist = self.chip.netlist
        pins = dict.fromkeys(stuck_pins(self.chip, fault), self.ones * fault.stuck)
        touched = set(map(self.chip.cell_of, pins))
        nets = {}
        for j in self.cells:
            if j in touched or any(net in nets for net in netlist.cells[j]):
                word = self.cell_word(j, nets, pins)
                if word != self.net_words[netlist.inputs + j]:
                    nets[netlist.inputs + j] = word
        difference = self.output_word ^ self.end_word(nets, pins)
        return (difference & -difference).bit_length() - 1 if difference else None


def stuck_pins(chip, fault):
    """The pins that have the stuck value: the site itself, or all that name the stuck net.

    For an input or a pad buffer, on its net or its pin, these are all the branches behind it,
    so that it is stuck in all its blocks, or in all its copies, at once.
    """
    net = fault.number
    if fault.sort == PIN:
        if not chip.into_pad_buffer(fault.number):
            return [fault.number]
        net = chip.netlist.inputs + chip.cell_of(fault.number)
    return chip.naming[net] if chip.pad[net] is None else pads.behind(chip, net)


def reached(chip, fault):
    """The outputs that the site reaches, lowest first."""
    reach = (chip.net_reach if fault.sort == NET else chip.pin_reach)[fault.number]
    return [z for z, _ in chip.fields(reach)]


def need_narrow(chip, fault):
    """Refusal 16, asked over all reached outputs before anything is tried."""
    for z in reached(chip, fault):
        if len(chip.reaching[z]) > MOST_BLOCKS_TRIED:
            raise Refused(16, z)


def search_all(chip, faults):
    """The answers for faults that are refused nothing, walking the outputs once for all of them."""
    answers = {}
    tries = dict.fromkeys(faults, 0)
    open_at = [[] for _ in chip.netlist.outputs]
    for fault in faults:
        for z in reached(chip, fault):
            open_at[z].append(fault)
    for z, here in enumerate(open_at):
        here = [fault for fault in here if fault not in answers]
        if not here:
            continue
        cone = Cone(chip, z)
        for fault in here:
            pattern = cone.first_pattern(fault)
            if pattern is None:
                tries[fault] += cone.patterns
            else:
                answers[fault] = Found(z, pattern, tries[fault] + pattern + 1)
    return {fault: answers.get(fault) or Untestable(tries[fault]) for fault in faults}


def block_values(chip, z, number):
    """Pattern `number` of output z as a byte for each block; the lowest block is the lowest bit."""
    pattern = bytearray(len(chip.blocks))
    for k, (b, _) in enumerate(chip.reaching[z]):
        pattern[b] = number >> k & 1
    return pattern


def search(data, fault, buffer):
    """Found, with the play in the buffer, or untestable."""
    chip = prepare(data)
    need_site(chip, fault)
    chip.need_class()
    need_narrow(chip, fault)
    if len(buffer) < clocks.play_length(chip):
        raise Refused(15, clocks.play_length(chip))
    answer = search_all(chip, [fault])[fault]
    if isinstance(answer, Found):
        clocks.set_play(chip, answer.output, block_values(chip, answer.output, answer.pattern), buffer)
    return answer
