"""The text of the program `listing`."""

from simulator import clocks
from simulator.faults import Found, all_faults
from simulator.reading import Refused
from simulator.search import block_values, need_narrow, search_all
from simulator.structure import prepare


def fault_text(chip, fault, answer):
    """The line of a fault that was searched."""
    if not isinstance(answer, Found):
        return f"{fault} untestable tries {answer.tries}"
    inputs = chip.netlist.inputs
    play = bytearray(clocks.play_length(chip))
    clocks.set_play(chip, answer.output, block_values(chip, answer.output, answer.pattern), play)
    digits = "".join(map(str, play))
    shown = " ".join(digits[at:at + inputs] for at in range(0, len(digits), inputs))
    return f"{fault} out {answer.output} tries {answer.tries} play {shown}"


def listing(data):
    """The whole text, every line ended."""
    try:
        chip = prepare(data)
        chip.need_class()
    except Refused as refusal:
        return f"refused {refusal.number} at {refusal.place}\n"
    netlist = chip.netlist
    lines = [f"in {netlist.inputs} cells {len(netlist.cells)} out {len(netlist.outputs)} "
             f"depth {chip.depth} class {chip.class_number} blocks {len(chip.blocks)}"]
    texts, narrow = {}, []
    for fault in all_faults(netlist):
        try:
            need_narrow(chip, fault)
            narrow.append(fault)
        except Refused as refusal:
            texts[fault] = f"{fault} refused {refusal.number} at {refusal.place}"
    for fault, answer in search_all(chip, narrow).items():
        texts[fault] = fault_text(chip, fault, answer)
    lines += [texts[fault] for fault in all_faults(netlist)]
    return "".join(line + "\n" for line in lines)
