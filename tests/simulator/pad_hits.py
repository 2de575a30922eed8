"""What pad buffers and their copies hit, in words."""

from simulator.pads import behind, copies, further_blocks
from simulator.reading import BUF, MOST_CELLS, MOST_INPUTS, MOST_PINS
from simulator.structure import is_flip_flop, one_bit

PADS = ["chain of pad buffers", "tree of pad buffers", "pad buffer on an output", "pad buffers of two inputs",
        "BUF behind a flip-flop at a pad", "dead pad buffer", "input with pad buffers only",
        "two depths behind a pad buffer", "block behind different pad buffers", "blocks behind one pad buffer"]
COPIES = ["copies", "copies for several blocks", "copy before the copy that it names", "pad buffer not copied",
          "kept pad buffer that leads nowhere"]
LIMITS = ["2 at 0", "7 at 0", "1,024 cells with copies", "1,025 cells with copies", "4,096 pins with copies",
          "4,097 pins with copies"]


def pad_hits(chip):
    """Hits that the pad buffers of a netlist bring."""
    netlist, inputs = chip.netlist, chip.netlist.inputs
    buffers = [j for j in range(len(netlist.cells)) if chip.is_pad_buffer(j)]
    parents = [netlist.cells[j][0] for j in buffers]
    deeper = [net for net in parents if net >= inputs]
    named = [{chip.named[p] for p in block.pins} for block in chip.blocks]
    apart = [net for nets in named for net in nets if net >= inputs]
    late = {inputs + j for j, kind in enumerate(netlist.kinds)
            if is_flip_flop(kind) and chip.pad[netlist.cells[j][0]] is not None}
    shapes = {
        "chain of pad buffers": bool(deeper),
        "tree of pad buffers": len(set(deeper)) < len(deeper),
        "pad buffer on an output": any(inputs + j in netlist.outputs for j in buffers),
        "pad buffers of two inputs": len({chip.pad[net] for net in parents}) > 1,
        "BUF behind a flip-flop at a pad": any(kind == BUF and nets[0] in late
                                               for kind, nets in zip(netlist.kinds, netlist.cells)),
        "dead pad buffer": any(chip.net_reach[inputs + j] == 0 for j in buffers),
        "input with pad buffers only": any(not block.pins and block.input in parents for block in chip.blocks),
        "two depths behind a pad buffer": chip.class_number > 1 and any(
            not one_bit(field) for j in buffers for _, field in chip.fields(chip.net_reach[inputs + j])),
        "block behind different pad buffers": any(len(nets) > 1 for nets in named),
        "blocks behind one pad buffer": len(set(apart)) < len(apart),
        "64 inputs and pad buffers": inputs == MOST_INPUTS and len(buffers) >= MOST_INPUTS,
    }
    return [name for name, here in shapes.items() if here]


def copy_hits(chip):
    """Hits that the copies in a transformed circuit bring, once it is written."""
    copied = copies(chip)
    if not copied:
        return []
    netlist, place = chip.netlist, {copy: c for c, copy in enumerate(copied)}
    blocks = {b for b, _ in copied}
    kept = [j for j in range(len(netlist.cells)) if chip.is_pad_buffer(j)]
    further = {p for b in further_blocks(chip) for p in chip.blocks[b].pins}
    shapes = {
        "copies": True,
        "copies for several blocks": len(blocks) > 1,
        "copy before the copy that it names": any(
            place.get((b, netlist.cells[j][0] - netlist.inputs), -1) > c for (b, j), c in place.items()),
        "pad buffer not copied": any((b, j) not in place for b in blocks for j in kept
                                     if chip.pad[netlist.inputs + j] == chip.blocks[b].input),
        "kept pad buffer that leads nowhere": any(further.issuperset(branches)
                                                  for branches in (behind(chip, netlist.inputs + j) for j in kept)
                                                  if branches),
        "class 1 with copies": chip.class_number == 1,
        "1,024 cells with copies": len(netlist.cells) + len(copied) == MOST_CELLS,
        "4,096 pins with copies": netlist.pins + len(copied) == MOST_PINS,
    }
    return [name for name, here in shapes.items() if here]


def limit_hits(chip, words):
    """Hits of a transformed circuit that is refused for its cells or its pins."""
    copied = len(copies(chip))
    cells, pins = len(chip.netlist.cells) + copied, chip.netlist.pins + copied
    if words[:2] == ["refused", "2"]:
        return [f"2 at {words[3]}"] + ["1,025 cells with copies"] * (cells == MOST_CELLS + 1)
    if words[:2] == ["refused", "7"]:
        return [f"7 at {words[3]}"] + ["4,097 pins with copies"] * (pins == MOST_PINS + 1)
    return []
