"""The two modes compared on small netlists, with every fault and with plays of every length."""

import random

from simulator import generators as g
from simulator.calls import CHECK, CLASS, READ_BACK, SEARCH, SET, TRANSFORM, answer
from simulator.definition import calls as definition
from simulator.draw import chip_of, draw_call
from simulator.faults import Found, all_faults
from simulator.hits import LOOPS, hits, is_chain
from simulator.looped import looped
from simulator.modes import BY_DEFINITION, FIRST
from simulator.pad_hits import COPIES, PADS
from simulator.padded import padded
from simulator.reading import read
from simulator.structure import prepare
from simulator.tally import Tally

MUST = ["refused 9", "class 1", "class 2", "class 3", "chain of joined branches", "found", "untestable",
        "stuck input of several blocks", "dead branch", "input without branches", "shown", "not seen", "set", "read",
        "written", "refused 14", "refused 18", "refused 19", "several blocks of a stuck pad buffer"]
MUST += LOOPS + PADS + COPIES


def draw_small(rng):
    """A small netlist that the second mode can do."""
    while True:
        shape = rng.random()
        if shape < 0.03:
            file = g.with_back_pins(rng, g.SMALL)
        elif shape < 0.1:
            file = looped(rng, g.SMALL)
        elif shape < 0.2:
            file = padded(rng, g.SMALL)
        elif shape < 0.65:
            file = g.balanced_or_internally(rng, g.SMALL)
        else:
            file = g.readable(rng, g.SMALL)
        if definition.manageable(read(file)):
            return file


def blocks_agree(tally, file):
    """The blocks themselves, and what of them is worth a hit."""
    chip, written = prepare(file), definition.prepare(file)
    tally.equal(written.blocks, [(block.input, list(block.pins)) for block in chip.blocks],
                lambda: f"netlist {file.hex()}\n  blocks")
    for block in chip.blocks:
        if block.pins and not block.reach:
            tally.hit("dead branch")
        elif is_chain(chip, block):
            tally.hit("chain of joined branches")
        if not block.pins:
            tally.hit("input without branches")


def faults_agree(tally, file):
    """Found: the play shows the fault at the output on clock d. Untestable: no play shows it, on any clock."""
    chip = prepare(file)
    for fault in all_faults(chip.netlist):
        play = bytearray(chip.netlist.inputs * (chip.depth + 1))
        found = FIRST.search(file, fault, play)
        if isinstance(found, Found):
            tally.hit("found")
            tally.equal((chip.depth, found.output), definition.check_play(file, fault, bytes(play)),
                        lambda: f"netlist {file.hex()}\n  fault  {fault}, the play {play.hex()} found, checked")
            if fault.sort == 0 and sum(block.input == fault.number for block in chip.blocks) > 1:
                tally.hit("stuck input of several blocks")
        else:
            tally.hit("untestable")
            tally.equal(False, definition.some_play_shows(file, fault),
                        lambda: f"netlist {file.hex()}\n  fault  {fault}, untestable, shown by some play")


def parts(volumes):
    rng = random.Random(volumes.seed + 10)
    tally = Tally("the two modes on small netlists")
    for _ in range(volumes.small):
        file = draw_small(rng)
        tally.equal(BY_DEFINITION.listing(file), FIRST.listing(file), lambda: f"netlist {file.hex()}\n  listing")
        for code in (CLASS, TRANSFORM, SET, READ_BACK, CHECK, CHECK, SEARCH):
            call = draw_call(rng, code, file)
            line = answer(call, FIRST)
            tally.equal(answer(call, BY_DEFINITION), line, lambda: f"netlist {file.hex()}\n  call   {call}")
            tally.hit(*hits(call, line))
        chip = chip_of(file)
        if chip:
            blocks_agree(tally, file)
            if chip.class_number > 1:
                faults_agree(tally, file)
    tally.must_hit(MUST)
    yield tally
