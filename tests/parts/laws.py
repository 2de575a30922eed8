"""Laws of 01 and W3 on netlists too large for the second mode, the largest among them."""

import random
import re

from simulator import pads
from simulator.calls import LONGEST, SEARCH, Call, answer
from simulator.clocks import play_length
from simulator.draw import any_file, bits, chip_of, largest_files, site_sort
from simulator.faults import NET, PIN, Fault, Found
from simulator.modes import FIRST
from simulator.padded import cut_out
from simulator.reading import DFF, DFFN, MOST_CELLS, Refused
from simulator.search import reached
from simulator.tally import Tally

FAULTS = 12  # tried on each netlist
MUST = ["found", "untestable", "changed by transforming twice", "the same though a DFF is fed by a pad",
        "a DFFN fed by a pad", "no flip-flop fed by a pad", "copies transformed again"]
MUST += [f"class {number} without its pad buffers" for number in (1, 2, 3)]
MUST += [f"{site} {number} another number when transformed" for site, number in (
    ("cell net", "with"), ("flip-flop net", "with"), ("output pin", "with"), ("output pin", "without"),
    ("cell pin", "without"), ("flip-flop pin", "without"))]


def at_a_pad(chip, kinds):
    """Whether a flip-flop of these kinds is fed by an input or a pad buffer."""
    return any(kind in kinds and chip.pad[nets[0]] is not None
               for kind, nets in zip(chip.netlist.kinds, chip.netlist.cells))


def transformed(file):
    """The transformed circuit, or None if it is refused."""
    buffer = bytearray(LONGEST)
    try:
        return bytes(buffer[:FIRST.transform(file, buffer)])
    except Refused:
        return None


def transformed_twice(tally, file, chip):
    """Transforming twice changes nothing where no flip-flop is fed by an input or a pad buffer; elsewhere it may.

    It may only for a DFF, which becomes a BUF and so a pad buffer; a DFFN becomes a NOT.
    """
    once = transformed(file)
    if once is None:
        return
    twice = transformed(once)
    if at_a_pad(chip, (DFF,)):
        tally.hit("changed by transforming twice" if twice != once else "the same though a DFF is fed by a pad")
        return
    tally.hit("a DFFN fed by a pad" if at_a_pad(chip, (DFFN,)) else "no flip-flop fed by a pad")
    if pads.copies(chip):
        tally.hit("copies transformed again")
    tally.equal(once, twice, lambda: f"netlist {file.hex()}\n  transformed twice")


def cut_out_alike(tally, file):
    """Without its pad buffers a netlist has the same listing, but for the faults in them and other numbers."""
    cut, nets, pins = cut_out(file)
    names = {f"{sort}{k}": f"{sort}{old}" for sort, left in (("n", nets), ("p", pins)) for k, old in enumerate(left)}
    sizes, *lines = re.sub(r"cells \d+", "cells", FIRST.listing(file)).splitlines()
    cut_sizes, *cut_lines = re.sub(r"cells \d+", "cells", FIRST.listing(cut)).splitlines()
    kept = set(names.values())
    left = [line for line in lines if line.split("/")[0] in kept]
    renamed = [re.sub(r"^[np]\d+", lambda name: names[name[0]], line) for line in cut_lines]
    tally.equal((cut_sizes, renamed), (sizes, left),
                lambda: f"netlist {file.hex()}\n  and without its pad buffers {cut.hex()}")


def set_and_read_back(tally, rng, file, chip):
    """Setting and reading back at clock d gives the pattern again for every block that reaches the output."""
    z = rng.randrange(len(chip.netlist.outputs))
    pattern = bytes(bits(rng, len(chip.blocks)))
    play, back = bytearray(play_length(chip)), bytearray(len(pattern))
    FIRST.set_pattern(file, z, pattern, play)
    FIRST.read_back(file, z, bytes(play), chip.depth, back)
    reaching = {b for b, _ in chip.reaching[z]}
    wanted = bytes(value if b in reaching else 0 for b, value in enumerate(pattern))
    tally.equal(wanted, bytes(back), lambda: f"netlist {file.hex()}\n  set and read back, output {z}")


def searched_alike(tally, rng, file, chip):
    """The transformed circuit, searched as a netlist, gives the same output, pattern and tries for a cell or pin.

    Inputs and pad buffers, which may be several sites there, are left out.
    """
    once, netlist = transformed(file), chip.netlist
    if once is None or at_a_pad(chip, (DFF,)):
        return
    sort, stuck = rng.randint(0, 1), rng.randint(0, 1)
    number = rng.randrange(netlist.pins) if sort == PIN else rng.randrange(netlist.nets)
    site = site_sort(chip, sort, number)
    if site == "input net" or site.startswith("pad buffer"):
        return
    moved = len(chip.blocks) - netlist.inputs if sort == NET else len(pads.copies(chip)) * (site == "output pin")
    call = Call(SEARCH, file, (sort, number, stuck, play_length(chip)))
    there = Call(SEARCH, once, (sort, number + moved, stuck, len(chip.blocks)))
    lines = [answer(one, FIRST).rsplit(" ", 1)[0] for one in (call, there)]
    tally.hit(f"{site} {'with' if moved else 'without'} another number when transformed")
    tally.equal(lines[0], lines[1], lambda: f"netlist {file.hex()}\n  call   {call}\n  transformed {there}")


def found_is_shown(tally, rng, file, chip):
    """A play that was found shows its fault on clock d at the output found, and at no lower one."""
    sort = rng.randint(0, 1)
    fault = Fault(sort, rng.randrange(chip.netlist.pins if sort else chip.netlist.nets), rng.randint(0, 1))
    play = bytearray(play_length(chip))
    try:
        found = FIRST.search(file, fault, play)
    except Refused:
        return
    most = sum(2 ** len(chip.reaching[z]) for z in reached(chip, fault))
    tally.case(found.tries <= most, lambda: f"netlist {file.hex()}\n  fault  {fault}, {found.tries} tries of {most}")
    if isinstance(found, Found):
        tally.hit("found")
        tally.equal((chip.depth, found.output), FIRST.check_play(file, fault, bytes(play)),
                    lambda: f"netlist {file.hex()}\n  fault  {fault}, the play {play.hex()} found, checked")
    else:
        tally.hit("untestable")
        play = bytes(bits(rng, chip.netlist.inputs * (chip.depth + 60)))
        tally.equal(None, FIRST.check_play(file, fault, play),
                    lambda: f"netlist {file.hex()}\n  fault  {fault}, untestable, checked with {play.hex()}")


def parts(volumes):
    rng = random.Random(volumes.seed + 30)
    tally = Tally("laws on larger netlists")
    for file in [any_file(rng) for _ in range(volumes.laws)] + largest_files(rng):
        chip = chip_of(file)
        if chip is None:
            continue
        transformed_twice(tally, file, chip)
        if len(chip.netlist.cells) < MOST_CELLS // 4 and any(map(chip.is_pad_buffer, range(len(chip.netlist.cells)))):
            tally.hit(f"class {chip.class_number} without its pad buffers")
            cut_out_alike(tally, file)
        if chip.class_number > 1:
            set_and_read_back(tally, rng, file, chip)
            for _ in range(FAULTS):
                found_is_shown(tally, rng, file, chip)
                searched_alike(tally, rng, file, chip)
    tally.must_hit(MUST)
    yield tally
