"""The slips that 01 rules out, those that W2 and W3 are open to, and two in the numbers of pins.

Each is put into the first mode for a while. And the form of a netlist, which both modes share, without its numbers.
"""

from contextlib import contextmanager
from dataclasses import dataclass
from typing import Any, Callable
from unittest import mock

from simulator import checking, clocks, loops, pads, search, structure, transform
from simulator.definition import calls as definition
from simulator.faults import NET, PIN, Fault
from simulator.reading import BUF, DFF, MOST_CELLS, MOST_PINS, Netlist, Refused


@dataclass(frozen=True)
class Slip:
    """A wrong function in the place of a right one."""

    name: str
    module: Any
    function: str
    wrong: Callable


def places_for_all_outputs(chip, _):
    """The blocks of every output are put on their clocks at once; where two want one place, the later wins."""
    return [(b, chip.depth - e) for reaching in chip.reaching for b, e in reaching]


def join_pairs(branches, pin_reach):
    """A branch goes to the first block whose lowest branch it is not separable from, and joins no blocks."""
    blocks = []
    for p in branches:
        for block in blocks:
            if pin_reach[block[0]] & pin_reach[p]:
                block.append(p)
                break
        else:
            blocks.append([p])
    return blocks


def places_forward(chip, z):
    """The clocks counted from the input forward."""
    return [(b, e) for b, e in chip.reaching[z]]


def clock_zero(_):
    """Every clock is looked at, from the starting state of zeros."""
    return 0


def pins_of_one_block(chip, fault):
    """A stuck input is stuck in its first block only."""
    if fault.sort == NET and fault.number < chip.netlist.inputs:
        return next(block.pins for block in chip.blocks if block.input == fault.number)
    return right_pins(chip, fault)


def lowest_left_over(names, users):
    """The lowest net that the order leaves, though it may only hang from a loop."""
    return min(loops.left_over(names, users))


def lowest_left_both_ways(names, users):
    """The lowest net left by the order and by the order turned round, though it may lie between two loops."""
    return min(loops.left_over(names, users) & loops.left_over(users, names))


def lowest_of_first_loop(names, users):
    """The lowest net of the first loop that is found."""
    return min(loops.loops(names, users)[0])


def bits_by_14(data):
    """A byte above 1 refused by 14."""
    for at, byte in enumerate(data):
        if byte > 1:
            raise Refused(14, at)


def clock_by_14(chip, clock, clocks):
    """A clock below d or past the play refused by 14."""
    if not chip.depth <= clock < clocks:
        raise Refused(14, clocks)


def branches_with_pins_into_buffers(chip, _, net):
    """A pin into a pad buffer is a branch too."""
    return chip.pad[net] is not None


def pads_of_first_buffers(netlist, _):
    """Only a BUF that names an input itself is a pad buffer."""
    return [*range(netlist.inputs), *(nets[0] if kind == BUF and nets[0] < netlist.inputs else None
                                      for kind, nets in zip(netlist.kinds, netlist.cells))]


def may_buffer_with_dff(kind):
    """A DFF is a pad buffer as well as a BUF."""
    return kind in (BUF, DFF)


def every_block(chip):
    """Copies for all blocks, the lowest of an input too."""
    return range(len(chip.blocks))


def all_buffers(chip, block):
    """All pad buffers of the input, whether on the way to the block's branches or not."""
    return {j for j in range(len(chip.netlist.cells)) if chip.pad[chip.netlist.inputs + j] == block.input}


def copies_by_cell(chip):
    """The copies by cell and then by block."""
    return sorted(right_copies(chip), key=lambda copy: copy[::-1])


def pins_of_lowest_block(chip, fault):
    """A fault in a pad buffer stands in the original only, and so in the lowest block of its input."""
    j = fault.number - chip.netlist.inputs if fault.sort == NET else chip.cell_of(fault.number)
    pins = right_pins(chip, fault)
    if 0 <= j < len(chip.netlist.cells) and chip.is_pad_buffer(j):
        i = chip.pad[chip.netlist.inputs + j]
        return set(pins).intersection(next(block.pins for block in chip.blocks if block.input == i))
    return pins


def output_pins_before_copies(chip, fault):
    """An output's pin keeps its number, which in the transformed circuit is a copy's pin or another output's."""
    k = fault.number - chip.first_pin[-1]
    if fault.sort == NET or k < 0:
        return right_pins(chip, fault)
    copied = pads.copies(chip)
    if k >= len(copied):
        return [fault.number - len(copied)]
    b, j = copied[k]
    return set(pads.behind(chip, chip.netlist.inputs + j)).intersection(chip.blocks[b].pins)


def refusals_of_writing(chip, copied):
    """The three refusals of the transformed circuit, where they have their cause, by number."""
    here = {17: len(chip.blocks) > transform.MOST_BLOCKS, 2: len(chip.netlist.cells) + len(copied) > MOST_CELLS,
            7: chip.netlist.pins + len(copied) > MOST_PINS}
    return {number: Refused(number, len(chip.blocks) if number == 17 else 0) for number in here if here[number]}


def fit_in_order(*numbers):
    """The refusals of writing in another order."""
    def need_fit(chip, copied):
        refusals = refusals_of_writing(chip, copied)
        for number in numbers:
            if number in refusals:
                raise refusals[number]
    return need_fit


def narrow_and_fit(chip, fault):
    """The search has the limits of the file too."""
    right_narrow(chip, fault)
    fit_in_order(2, 7)(chip, pads.copies(chip))


def outputs_first(chip, fault):
    """The fault that is meant where the pins of the outputs are numbered before those of the cells."""
    outputs = len(chip.netlist.outputs)
    if fault is None or fault.sort == NET:
        return fault
    number = fault.number - outputs if fault.number >= outputs else chip.first_pin[-1] + fault.number
    return Fault(PIN, number, fault.stuck)


def search_outputs_first(chip, faults):
    """The search, with the output pins first."""
    meant = {fault: outputs_first(chip, fault) for fault in faults}
    answers = right_search(chip, list(meant.values()))
    return {fault: answers[meant[fault]] for fault in faults}


def words_outputs_first(chip, play, clocks, fault):
    """What checking sees of a play, with the output pins first."""
    return right_words(chip, play, clocks, outputs_first(chip, fault))


right_pins = search.stuck_pins
right_copies = pads.copies
right_narrow = search.need_narrow
right_search = search.search_all
right_words = checking.output_words

SLIPS = (
    Slip("one play set for all outputs at once", clocks, "places", places_for_all_outputs),
    Slip("pairs taken for blocks", structure, "join", join_pairs),
    Slip("clocks counted from the input forward", clocks, "places", places_forward),
    Slip("flip-flops started at 0, differences before clock d seen", checking, "first_clock", clock_zero),
    Slip("a stuck input put into one block only", search, "stuck_pins", pins_of_one_block),
    Slip("a net that hangs from a loop taken for one on it", loops, "lowest_on_a_loop", lowest_left_over),
    Slip("a net between two loops taken for one on a loop", loops, "lowest_on_a_loop", lowest_left_both_ways),
    Slip("the lowest net of one loop only", loops, "lowest_on_a_loop", lowest_of_first_loop),
    Slip("a byte above 1 refused by 14", clocks, "need_bits", bits_by_14),
    Slip("a clock refused by 14", clocks, "need_clock", clock_by_14),
    Slip("pins into pad buffers counted as branches", pads, "is_branch", branches_with_pins_into_buffers),
    Slip("only the first pad buffer of a chain", pads, "pad_of_each_net", pads_of_first_buffers),
    Slip("a DFF taken for a pad buffer", pads, "may_buffer", may_buffer_with_dff),
    Slip("copies for the lowest block too", pads, "further_blocks", every_block),
    Slip("all pad buffers of the input copied", pads, "on_the_way", all_buffers),
    Slip("copies by cell and then by block", pads, "copies", copies_by_cell),
    Slip("a fault in the original pad buffer only", search, "stuck_pins", pins_of_lowest_block),
    Slip("output pins numbered before the copies'", search, "stuck_pins", output_pins_before_copies),
    Slip("7 before 2 for the transformed circuit", transform, "need_fit", fit_in_order(17, 7, 2)),
    Slip("2 before 17 for the transformed circuit", transform, "need_fit", fit_in_order(2, 17, 7)),
    Slip("the limits of the transformed circuit in the search", search, "need_narrow", narrow_and_fit),
    Slip("output pins numbered before the cells', in the search", search, "search_all", search_outputs_first),
    Slip("output pins numbered before the cells', in checking", checking, "output_words", words_outputs_first),
)


@contextmanager
def slipped(slip):
    """The first mode with a slip in it; chips prepared before or meanwhile are not kept."""
    structure.prepare.cache_clear()
    with mock.patch.object(slip.module, slip.function, slip.wrong):
        yield
    structure.prepare.cache_clear()


@contextmanager
def without_numbers():
    """The form of a netlist with its fields alone: None where it is asked to count or to number anything.

    What the second mode has prepared before is not kept.
    """
    for kept in (definition.prepare, definition.good_machine, definition.good_transformed):
        kept.cache_clear()
    counted = [name for name in vars(Netlist) if not name.startswith("_")]
    with mock.patch.multiple(Netlist, **dict.fromkeys(counted, None)):
        yield
