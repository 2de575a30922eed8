"""Checking a play against a fault. All clocks of a net are one word: bit t is its value on clock t."""

from simulator.clocks import need_play
from simulator.faults import NET, PIN, need_site
from simulator.gates import gate
from simulator.structure import is_flip_flop, prepare

DIGITS = bytes.maketrans(b"\0\1", b"01")


def input_word(play, inputs, i):
    """The word of input i."""
    return int(play[i::inputs].translate(DIGITS)[::-1] or b"0", 2)


def output_words(chip, play, clocks, fault):
    """The word of each output, from the starting state of zeros; without a fault if it is None."""
    netlist, ones = chip.netlist, (1 << clocks) - 1
    stuck_net = fault.number if fault and fault.sort == NET else None
    stuck_pin = fault.number if fault and fault.sort == PIN else None
    stuck = ones * fault.stuck if fault else 0
    words = [input_word(play, netlist.inputs, i) for i in range(netlist.inputs)] + [0] * len(netlist.cells)
    if stuck_net is not None:
        words[stuck_net] = stuck
    for j in chip.order:
        if netlist.inputs + j == stuck_net:
            continue
        pins = [words[net] for net in netlist.cells[j]]
        if stuck_pin is not None and chip.first_pin[j] <= stuck_pin < chip.first_pin[j + 1]:
            pins[stuck_pin - chip.first_pin[j]] = stuck
        word = gate(netlist.kinds[j], pins, ones)
        words[netlist.inputs + j] = (word << 1) & ones if is_flip_flop(netlist.kinds[j]) else word
    outputs = [words[net] for net in netlist.outputs]
    if stuck_pin is not None and stuck_pin >= chip.first_pin[-1]:
        outputs[stuck_pin - chip.first_pin[-1]] = stuck
    return outputs


def first_clock(chip):
    """The first clock that checking looks at: from d on no starting state matters."""
    return chip.depth


def check_play(data, fault, play):
    """The first clock and, in it, the first output where the fault is shown, or None."""
    chip = prepare(data)
    need_site(chip, fault)
    clocks = need_play(chip, play)
    good = output_words(chip, play, clocks, None)
    faulty = output_words(chip, play, clocks, fault)
    shown = []
    for z, (a, b) in enumerate(zip(good, faulty)):
        late = (a ^ b) >> first_clock(chip)
        if late:
            shown.append((first_clock(chip) + (late & -late).bit_length() - 1, z))
    return min(shown, default=None)
