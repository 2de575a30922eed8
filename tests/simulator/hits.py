"""What a call and its answer hit, in words, so that a part can insist on what must be hit."""

from itertools import combinations

from simulator.calls import CHECK, CLASS, FIELDS, READ, READ_BACK, SEARCH, SET, TRANSFORM
from simulator.clocks import MOST_CLOCKS, play_length
from simulator.draw import SITE_SORTS, chip_of, site_sort
from simulator.loops import left_over, links, loops, spread
from simulator.pad_hits import COPIES, LIMITS, PADS, copy_hits, limit_hits, pad_hits
from simulator.pads import copies
from simulator.reading import MOST_CELLS, MOST_INPUTS, MOST_PINS, read
from simulator.search import MOST_BLOCKS_TRIED, reached, stuck_pins
from simulator.structure import is_flip_flop
from simulator.transform import written_length


def refusals(*numbers):
    return [f"refused {number}" for number in numbers]


def orders(*numbers):
    """Each refusal of a call given although a later one of the call's order has its cause too."""
    return [f"{first} before {second}" for first, second in combinations(numbers, 2)]


LOOPS = ["9 at a self-loop", "9 by gates only", "9 by flip-flops only", "9 by gates and flip-flops", "several loops",
         "9 among dead cells", "9 above a feeding net", "9 above a hanging net", "9 above a net between loops",
         "9 at the first cell", "9 at the highest nets", "9 at the last net"]
STRUCTURE = refusals(*range(1, 11)) + ["10 at a later place", "9 above a hanging net", "9 above a net between loops",
                                       "9 at the largest size"]
BYTES = ["18 at a later place", "18 with several bytes above 1", "9 before 18"]
MUST = {
    READ: ["taken", "7 at a pin count", "7 at the output count"] + refusals(*range(1, 9)),
    CLASS: ["class 1", "class 2", "class 3", "nets out of order", "dead cell", "input without branches",
            "one net on several outputs", "one net twice in a cell", "chain of joined branches", "dead branches apart",
            "64 blocks", "65 blocks", "16 blocks to an output", "17 blocks to an output", "depth 255", "largest",
            "64 inputs and pad buffers"]
    + STRUCTURE + LOOPS + PADS,
    TRANSFORM: ["written", "one byte short", "longer buffer", "class 1 written", "class 1 with copies", "64 blocks",
                "17 at 65", "largest"]
    + STRUCTURE + COPIES + LIMITS + orders(17, 2, 7, 15) + refusals(15, 17),
    SET: ["set", "one byte short", "longer buffer", "14 pattern too short", "14 pattern too long",
          "over 64 blocks set", "11 at a later place", "largest"]
    + STRUCTURE + BYTES + orders(13, 11, 14, 18, 15) + refusals(11, 13, 14, 15, 18),
    READ_BACK: ["read", "one byte short", "longer buffer", "14 length", "14 over 1,024 clocks",
                "14 over 1,024 clocks before 18", "19 below d", "19 past the play", "19 below d and past the play",
                "19 at the number of clocks", "19 in an empty play", "1,024 clocks", "empty play",
                "11 at a later place", "largest"]
    + STRUCTURE + BYTES + orders(13, 11, 14, 18, 19, 15) + refusals(11, 13, 14, 15, 18, 19),
    CHECK: ["shown", "not seen", "shown after clock d", "shown at a later output", "class 1 shown",
            "play shorter than d+1", "14 length", "14 over 1,024 clocks", "14 over 1,024 clocks before 18",
            "1,024 clocks", "empty play", "12 site", "12 stuck value", "largest"]
    + [f"{sort} shown" for sort in SITE_SORTS] + STRUCTURE + BYTES + orders(12, 14, 18) + refusals(12, 14, 18),
    SEARCH: ["found", "untestable", "reaches none", "reaches one", "reaches several", "found at a later output",
             "tries over several outputs", "16 blocks", "one byte short", "longer buffer", "too short and reaches none",
             "12 site", "12 stuck value", "12 before 11", "16 before 15", "11 at a later place", "16 at a later place",
             "several blocks of a stuck input", "several blocks of a stuck pad buffer", "past the limits of writing",
             "largest"]
    + [f"{sort} found" for sort in SITE_SORTS] + STRUCTURE + refusals(11, 12, 15, 16),
}


def is_chain(chip, block):
    """Whether a block holds two branches that are separable, so that only a chain of pairs joins them."""
    reaches = {chip.pin_reach[p] for p in block.pins}
    return block.reach > 0 and any(not a & b for a in reaches for b in reaches)


def shape_hits(chip):
    """Hits that the netlist itself brings."""
    netlist, named = chip.netlist, chip.netlist.named()
    wide = {len(reaching) for reaching in chip.reaching}
    shapes = {
        "nets out of order": any(net > netlist.inputs + j for j, nets in enumerate(netlist.cells) for net in nets),
        "dead cell": any(chip.net_reach[netlist.inputs + j] == 0 for j in range(len(netlist.cells))),
        "input without branches": any(i not in named for i in range(netlist.inputs)),
        "one net on several outputs": len(set(netlist.outputs)) < len(netlist.outputs),
        "one net twice in a cell": any(len(set(nets)) < len(nets) for nets in netlist.cells),
        "chain of joined branches": any(is_chain(chip, block) for block in chip.blocks),
        "dead branches apart": any(a.input == b.input and a.reach == b.reach == 0
                                   for a, b in zip(chip.blocks, chip.blocks[1:])),
        "64 blocks": len(chip.blocks) == 64,
        "65 blocks": len(chip.blocks) == 65,
        "16 blocks to an output": 16 in wide,
        "17 blocks to an output": 17 in wide,
        "depth 255": chip.depth == 255,
    }
    return [name for name, here in shapes.items() if here]


def needed_room(call, chip):
    """The length of the buffer that a call needs."""
    if call.code == TRANSFORM:
        return written_length(chip)
    return len(chip.blocks) if call.code == READ_BACK else play_length(chip)


def lent_bytes(call):
    """The pattern or the play of a call."""
    return call.pattern if call.code == SET else call.play if call.code in (READ_BACK, CHECK) else b""


def spoilt(call):
    return any(byte > 1 for byte in lent_bytes(call))


def causes(call, chip):
    """The refusals behind reading that have their cause in a call, whether or not an earlier one is given."""
    fields, netlist = FIELDS[call.code], chip.netlist
    clocks, rest = divmod(len(lent_bytes(call)), netlist.inputs)
    known = "sort" in fields and site_sort(chip, call.sort, call.number) is not None
    here = {
        11: call.code in (SET, READ_BACK, SEARCH) and chip.class_number == 1,
        12: "sort" in fields and (not known or call.stuck > 1),
        13: "output" in fields and call.output >= len(netlist.outputs),
        14: ("play" in fields and (rest > 0 or clocks > MOST_CLOCKS)
             or "pattern" in fields and len(call.pattern) != len(chip.blocks)),
        15: "room" in fields and call.room < needed_room(call, chip),
        16: call.code == SEARCH and known and any(len(chip.reaching[z]) > MOST_BLOCKS_TRIED
                                                  for z in reached(chip, call.fault)),
        17: call.code == TRANSFORM and len(chip.blocks) > 64,
        2: call.code == TRANSFORM and len(netlist.cells) + len(copies(chip)) > MOST_CELLS,
        7: call.code == TRANSFORM and netlist.pins + len(copies(chip)) > MOST_PINS,
        18: spoilt(call),
        19: "clock" in fields and not chip.depth <= call.clock < clocks,
    }
    return [number for number, stands in here.items() if stands]


def order_hits(call, chip, words):
    """Refusals given where another one of the call has its cause too."""
    if words[0] != "refused":
        return []
    hits = [f"{words[1]} before {other}" for other in causes(call, chip) if str(other) != words[1]]
    return hits + ["17 at 65"] * (words[1:4] == ["17", "at", "65"])


def play_hits(call, chip, words):
    """Hits that the play of a call brings."""
    clocks, rest = divmod(len(call.play), chip.netlist.inputs)
    hits = []
    if not call.play:
        hits.append("empty play")
    if clocks <= chip.depth:
        hits.append("play shorter than d+1")
    if words[:2] == ["refused", "14"]:
        hits.append("14 length" if rest else "14 over 1,024 clocks")
        if not rest and spoilt(call):
            hits.append("14 over 1,024 clocks before 18")
    elif clocks == MOST_CLOCKS:
        hits.append("1,024 clocks")
    return hits


def clock_hits(call, chip, words):
    """Hits of a clock that is refused."""
    if words[:2] != ["refused", "19"]:
        return []
    clocks = len(call.play) // chip.netlist.inputs
    sides = ["below d"] * (call.clock < chip.depth) + ["past the play"] * (call.clock >= clocks)
    hits = ["19 " + " and ".join(sides)]
    if call.clock == clocks:
        hits.append("19 at the number of clocks")
    if not call.play:
        hits.append("19 in an empty play")
    return hits


def pattern_hits(call, chip, words):
    if words[:2] == ["refused", "14"]:
        return ["14 pattern too short" if len(call.pattern) < len(chip.blocks) else "14 pattern too long"]
    return ["over 64 blocks set"] if words[0] == "set" and len(chip.blocks) > 64 else []


def byte_hits(call, words):
    """Hits of a byte above 1 that is refused; its place is the first such byte."""
    if words[:2] != ["refused", "18"]:
        return []
    several = sum(byte > 1 for byte in lent_bytes(call)) > 1
    return ["18 at a later place"] * (words[3] != "0") + ["18 with several bytes above 1"] * several


def room_hits(call, words):
    """Hits that the lent buffer brings; the answer ends with the whole of it."""
    if words[:2] == ["refused", "15"]:
        return ["one byte short"] if int(words[3]) == call.room + 1 else []
    return ["longer buffer"] if words[0] != "refused" and len(words[-1]) > 2 and words[-1].endswith("ee") else []


def site_hits(call, chip, words):
    sort = site_sort(chip, call.sort, call.number)
    if words[:2] == ["refused", "12"]:
        return ["12 site" if sort is None else "12 stuck value"]
    return [f"{sort} {words[0]}"] if sort else []


def check_hits(chip, words):
    hits = []
    if words[0] == "shown":
        if int(words[2]) > chip.depth:
            hits.append("shown after clock d")
        if int(words[4]) > 0:
            hits.append("shown at a later output")
        if chip.class_number == 1:
            hits.append("class 1 shown")
    return hits


def in_several_blocks(chip, fault):
    """Whether a fault has pins stuck in several blocks that reach outputs."""
    stuck = set(stuck_pins(chip, fault))
    return sum(block.reach > 0 and not stuck.isdisjoint(block.pins) for block in chip.blocks) > 1


def search_hits(call, chip, words):
    """Hits of a search that was not refused, or refused for its buffer alone."""
    if words[0] == "refused" and words[1] != "15":
        return []
    outputs = reached(chip, call.fault)
    hits = ["reaches " + ("none", "one", "several")[min(2, len(outputs))]]
    if any(len(chip.reaching[z]) == MOST_BLOCKS_TRIED for z in outputs):
        hits.append("16 blocks")
    if words[0] == "refused" and not outputs:
        hits.append("too short and reaches none")
    if words[0] == "found":
        if int(words[2]) > 0:
            hits.append("found at a later output")
        if int(words[6]) > int(words[4]) + 1:
            hits.append("tries over several outputs")
        site = site_sort(chip, call.sort, call.number)
        if site in ("input net", "pad buffer net", "pad buffer pin") and in_several_blocks(chip, call.fault):
            hits.append(f"several blocks of a stuck {site.rsplit(' ', 1)[0]}")
        if len(chip.netlist.cells) + len(copies(chip)) > MOST_CELLS:
            hits.append("past the limits of writing")
    return hits


def seven_hits(call, place):
    """Whether refusal 7 stands at the output count: the outputs that it announces then end the file."""
    announced = int.from_bytes(call.file[place:place + 2], "little")
    return ["7 at the output count" if place + 2 + 3 * announced == len(call.file) else "7 at a pin count"]


def loop_hits(netlist):
    """Hits that a netlist with loops brings: what its lowest loop is made of, and which nets lie below it."""
    names, users = links(netlist)
    found = loops(names, users)
    lowest = min(found, key=min)
    on_loops, place = set().union(*found), min(lowest)
    hanging, feeding = left_over(names, users) - on_loops, left_over(users, names) - on_loops
    flip_flops = {is_flip_flop(netlist.kinds[j]) for j in lowest}
    behind = spread(place, users, set(range(len(names))))
    shapes = {
        "9 at a self-loop": len(lowest) == 1,
        "9 by gates only": flip_flops == {False},
        "9 by flip-flops only": flip_flops == {True},
        "9 by gates and flip-flops": flip_flops == {False, True},
        "several loops": len(found) > 1,
        "9 among dead cells": not any(net - netlist.inputs in behind for net in netlist.outputs),
        "9 above a feeding net": any(j < place for j in feeding - hanging),
        "9 above a hanging net": any(j < place for j in hanging - feeding),
        "9 above a net between loops": any(j < place for j in hanging & feeding),
        "9 at the first cell": place == 0,
        "9 at the highest nets": place > 0 and place + len(on_loops) == len(names),
        "9 at the last net": place == len(names) - 1,
        "9 at the largest size": is_largest(netlist),
    }
    return [name for name, here in shapes.items() if here]


def is_largest(netlist):
    return (netlist.inputs, len(netlist.cells), netlist.pins) == (MOST_INPUTS, MOST_CELLS, MOST_PINS)


def hits(call, line):
    """All that a call with its answer hits."""
    words = line.split()
    found = [" ".join(words[:2]) if words[0] in ("refused", "class", "not") else words[0]]
    chip = chip_of(call.file) if call.code != READ else None
    if words[:2] == ["refused", "7"] and chip is None:
        found += seven_hits(call, int(words[3]))
    if words[0] == "refused" and words[1] in ("10", "11", "16") and words[3] != "0":
        found.append(f"{words[1]} at a later place")
    if words[:2] == ["refused", "9"]:
        found += loop_hits(read(call.file)) + ["9 before 18"] * spoilt(call)
    if chip is None:
        return found
    if is_largest(chip.netlist):
        found.append("largest")
    found += order_hits(call, chip, words) + byte_hits(call, words)
    if call.code == CLASS:
        found += shape_hits(chip) + pad_hits(chip)
    if call.code in (READ_BACK, CHECK):
        found += play_hits(call, chip, words)
    if call.code == READ_BACK:
        found += clock_hits(call, chip, words)
    if call.code == SET:
        found += pattern_hits(call, chip, words)
    if call.code in (TRANSFORM, SET, READ_BACK, SEARCH):
        found += room_hits(call, words)
    if call.code in (CHECK, SEARCH):
        found += site_hits(call, chip, words)
    if call.code == TRANSFORM:
        found += limit_hits(chip, words)
    if call.code == TRANSFORM and words[0] == "written":
        found += ["class 1 written"] * (chip.class_number == 1) + ["64 blocks"] * (len(chip.blocks) == 64)
        found += copy_hits(chip)
    if call.code == CHECK:
        found += check_hits(chip, words)
    if call.code == SEARCH:
        found += search_hits(call, chip, words)
    return found
