"""What the listing of a netlist hits, in words: its outputs and their blocks, and which faults are found where."""

from collections import defaultdict
from itertools import combinations, product

from simulator.draw import SITE_SORTS, site_sort
from simulator.faults import NET, PIN, all_faults
from simulator.pads import behind
from simulator.search import MOST_BLOCKS_TRIED, Cone, reached, stuck_pins

CHUNK = 1024  # patterns that are looked at together
LAST = 2 ** MOST_BLOCKS_TRIED - 1
EDGES = (0, 1, 63, 64, 1023, 1024, LAST)
COUNTS = ("no blocks", "one block", "two blocks", "many blocks")
KINDS = ("BUF", "NOT", "AND", "OR", "NAND", "NOR", "XOR", "XNOR", "DFF", "DFFN")
ANSWERS = {"out": "found", "untestable": "untestable", "refused": "refused"}
SHOWN_TOO = 12  # faults of a netlist that are looked for at further outputs
MOST_SHOWN_TOO = 12  # blocks of an output where they are


def both(*names):
    """Each of these found, and untestable."""
    return [f"{name}, {answer}" for name, answer in product(names, ("found", "untestable"))]


OUTPUTS = [f"blocks behind an output: {count}" for count in range(1, MOST_BLOCKS_TRIED + 2)]
OUTPUTS += ["outputs with the same blocks", "same blocks, but not in a row", "outputs with no common block",
            "outputs with some of their blocks the same", "output with some of the blocks of another",
            "one net on several outputs", "input on an output", "input on several outputs",
            "input on an output and before a cell"]
SITES = both(*SITE_SORTS, *(f"{kind}'s pin" for kind in KINDS), "eighth pin", "one of two pins on one net",
             *(f"stuck input with {count} at an output" for count in COUNTS[1:]))
SITES += ["dead cell's net", "dead cell's pin", "dead flip-flop", "dead pad buffer", "dead input",
          "pad buffer that feeds nothing"]
PATTERNS = [f"found in chunk {chunk}" for chunk in range((LAST + 1) // CHUNK)]
PATTERNS += [f"found by pattern {edge}" for edge in EDGES] + ["found by the last pattern of fewer blocks"]
WALKS = ["found after one output", "found after several outputs", "found after outputs with other blocks",
         "untestable at several outputs", "refused 16 but for a narrow output"]
HIGHER = ("lower output in a later group", "later pattern at a lower output of the group",
          "later chunk at a lower output of the group")
WALKS += [f"{site}, {name}" for name in HIGHER for site in ("any site", "input in several blocks", "pad buffer")]
CELLS = ["faults of one cell found and untestable", "faults of one cell in different chunks",
         "faults of one cell at different outputs"]
PAD_FAULTS = both("pad buffer in several blocks", "pad buffer in a part of a block",
                  "pad buffer in several blocks, of one a part", "pad buffer before pad buffers")
PAD_FAULTS += ["pad buffer on an output, found", "pad buffer on an output and before a cell, found"]
LISTED = OUTPUTS + SITES + PATTERNS + WALKS + CELLS + PAD_FAULTS


class Line:
    """The line of a fault: its answer, and the output and the pattern by which it is found."""

    def __init__(self, listed, fault, text):
        words = text.split()
        self.fault, self.answer = fault, ANSWERS[words[1]]
        self.sort = site_sort(listed.chip, fault.sort, fault.number)
        self.outputs = reached(listed.chip, fault)
        self.output = self.pattern = None
        if self.answer == "found":
            self.output = int(words[2])
            before = sum(1 << len(listed.sets[z]) for z in self.outputs if z < self.output)
            self.pattern = int(words[4]) - 1 - before


class Listed:
    """A netlist of class 2 or 3 with the lines of its listing."""

    def __init__(self, chip, text):
        self.chip = chip
        self.sets = [tuple(b for b, _ in reaching) for reaching in chip.reaching]
        self.group = [self.sets.index(here) for here in self.sets]  # the lowest output with the same blocks
        self.lines = [Line(self, *pair) for pair in zip(all_faults(chip.netlist), text.splitlines()[1:])]
        self.cones = {}

    def first_pattern(self, z, fault):
        if z not in self.cones:
            self.cones[z] = Cone(self.chip, z)
        return self.cones[z].first_pattern(fault)


def output_hits(listed):
    """Hits of the outputs and the blocks behind them."""
    chip, netlist = listed.chip, listed.chip.netlist
    pairs = [(set(a), set(b)) for a, b in combinations(listed.sets, 2)]
    straight = [net for net in netlist.outputs if net < netlist.inputs]
    shapes = {
        "outputs with the same blocks": any(a == b for a, b in pairs),
        "same blocks, but not in a row": any(other != first for z, first in enumerate(listed.group)
                                             for other in listed.group[first:z]),
        "outputs with some of their blocks the same": any(a & b and a - b and b - a for a, b in pairs),
        "outputs with no common block": any(not a & b for a, b in pairs),
        "output with some of the blocks of another": any(a < b or b < a for a, b in pairs),
        "one net on several outputs": len(set(netlist.outputs)) < len(netlist.outputs),
        "input on an output": bool(straight),
        "input on several outputs": len(set(straight)) < len(straight),
        "input on an output and before a cell": any(chip.naming[net][0] < chip.first_pin[-1] for net in straight),
    }
    counts = [f"blocks behind an output: {len(here)}" for here in listed.sets]
    return counts + [name for name, here in shapes.items() if here]


def dead_hits(listed, line):
    """Hits of a fault that reaches no output."""
    cell, part = line.sort.rsplit(" ", 1)
    alone = line.sort == "pad buffer net" and not listed.chip.naming[line.fault.number]
    return [f"dead cell's {part}" if cell == "cell" else f"dead {cell}"] + ["pad buffer that feeds nothing"] * alone


def walk_hits(listed, line):
    """Hits of the output and the pattern by which a fault is found."""
    lower = [z for z in line.outputs if z < line.output]
    shapes = {
        f"found in chunk {line.pattern // CHUNK}": True,
        f"found by pattern {line.pattern}": line.pattern in EDGES,
        "found by the last pattern of fewer blocks": line.pattern == 2 ** len(listed.sets[line.output]) - 1 < LAST,
        "found after one output": len(lower) == 1,
        "found after several outputs": len(lower) > 1,
        "found after outputs with other blocks": any(listed.group[z] != listed.group[line.output] for z in lower),
    }
    return [name for name, here in shapes.items() if here]


def higher_hits(listed, line):
    """Hits of a fault that a higher output than the one listed shows too: in an earlier group, or by a lower pattern.

    Groups are outputs with the same blocks, in the order of their lowest outputs.
    """
    found = set()
    for z in line.outputs:
        earlier = listed.group[line.output] - listed.group[z]
        if z > line.output and earlier >= 0 and len(listed.sets[z]) <= MOST_SHOWN_TOO:
            pattern = listed.first_pattern(z, line.fault)
            if pattern is not None:
                shapes = (earlier > 0, not earlier and pattern < line.pattern,
                          not earlier and pattern // CHUNK < line.pattern // CHUNK)
                found.update(name for name, here in zip(HIGHER, shapes) if here)
    sites = ["any site"] + ["input in several blocks"] * is_several(listed, line) + ["pad buffer"] * is_pad_buffer(line)
    return [f"{site}, {name}" for name in found for site in sites]


def is_pad_buffer(line):
    return line.sort.startswith("pad buffer")


def blocks_at(listed, line, z):
    """The number of blocks that a stuck input has at an output."""
    return sum(listed.chip.blocks[b].input == line.fault.number for b in listed.sets[z])


def is_several(listed, line):
    """Whether a fault is a stuck input of several blocks at the output where it is found."""
    return line.sort == "input net" and blocks_at(listed, line, line.output) > 1


def site_names(listed, line):
    """What a site is, in words, beside its sort."""
    chip, fault = listed.chip, line.fault
    names = []
    if line.sort == "input net":
        counts = {blocks_at(listed, line, z) for z in (line.outputs if line.output is None else [line.output])}
        names += [f"stuck input with {COUNTS[min(3, count)]} at an output" for count in counts]
    elif is_pad_buffer(line):
        names += pad_names(chip, fault)
    if fault.sort == PIN and fault.number < chip.first_pin[-1]:
        j = chip.cell_of(fault.number)
        named = chip.netlist.cells[j]
        names.append(f"{KINDS[chip.netlist.kinds[j]]}'s pin")
        names += ["eighth pin"] * (fault.number - chip.first_pin[j] == 7)
        names += ["one of two pins on one net"] * (named.count(chip.named[fault.number]) > 1)
    return names


def pad_names(chip, fault):
    """What a fault in a pad buffer is, by the pins that it decides."""
    inputs = chip.netlist.inputs
    stuck = set(stuck_pins(chip, fault))
    touched = [block for block in chip.blocks if block.reach and not stuck.isdisjoint(block.pins)]
    part = any(not stuck.issuperset(block.pins) for block in touched)
    net = fault.number if fault.sort == NET else inputs + chip.cell_of(fault.number)
    named = [p for p in chip.naming[net] if chip.pin_reach[p]]
    shapes = {
        "pad buffer in several blocks": len(touched) > 1,
        "pad buffer in a part of a block": part,
        "pad buffer in several blocks, of one a part": len(touched) > 1 and part,
        "pad buffer before pad buffers": any(chip.into_pad_buffer(p) and behind(chip, inputs + chip.cell_of(p))
                                             for p in named),
        "pad buffer on an output": any(p >= chip.first_pin[-1] for p in named),
        "pad buffer on an output and before a cell": any(p >= chip.first_pin[-1] > named[0] for p in named),
    }
    return [name for name, here in shapes.items() if here]


def line_hits(listed, line):
    """All that the line of a fault hits by itself."""
    if line.answer == "refused":
        narrow = any(len(listed.sets[z]) <= MOST_BLOCKS_TRIED for z in line.outputs)
        return ["refused 16 but for a narrow output"] * narrow
    if not line.outputs:
        return dead_hits(listed, line)
    found = [f"{name}, {line.answer}" for name in (line.sort, *site_names(listed, line))]
    if line.answer == "found":
        return found + walk_hits(listed, line)
    return found + ["untestable at several outputs"] * (len(line.outputs) > 1)


def cell_hits(listed):
    """Hits of the faults of one cell together."""
    chip, cells = listed.chip, defaultdict(list)
    for line in listed.lines:
        if line.outputs and line.answer != "refused":
            number = line.fault.number
            cells[number - chip.netlist.inputs if line.fault.sort == NET else chip.cell_of(number)].append(line)
    found = set()
    for j, lines in cells.items():
        if 0 <= j < len(chip.netlist.cells):
            shown = [line for line in lines if line.answer == "found"]
            shapes = (0 < len(shown) < len(lines), len({line.pattern // CHUNK for line in shown}) > 1,
                      len({line.output for line in shown}) > 1)
            found.update(name for name, here in zip(CELLS, shapes) if here)
    return found


def listed_hits(chip, text):
    """All that the listing of a netlist of class 2 or 3 hits."""
    listed = Listed(chip, text)
    found = {*output_hits(listed), *cell_hits(listed)}
    for line in listed.lines:
        found.update(line_hits(listed, line))
    if len(set(listed.group)) < len(listed.group):
        several = [line for line in listed.lines if line.answer == "found" and line.outputs[-1] > line.output]
        runs = [line for line in several if is_pad_buffer(line) or is_several(listed, line)]
        for line in several[::max(1, len(several) // SHOWN_TOO)] + runs[::max(1, len(runs) // SHOWN_TOO)]:
            found.update(higher_hits(listed, line))
    return sorted(found)
