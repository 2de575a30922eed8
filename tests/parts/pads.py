"""Pad buffers worked by hand, drawn, and at the limits of writing, in both modes and with the programs."""

import random

from parts.laws import cut_out_alike
from parts.program_calls import compare
from parts.program_listing import compare_listing
from parts.two_modes import blocks_agree
from simulator import generators as g
from simulator.calls import CHECK, CLASS, READ_BACK, SEARCH, SET, TRANSFORM, Call, answer
from simulator.definition import calls as definition
from simulator.draw import LONGEST_FILE, chip_of, draw_call, site_sort, writing
from simulator.faults import NET, PIN, Found, all_faults
from simulator.hits import hits, orders
from simulator.modes import BY_DEFINITION, FIRST
from simulator.pad_hits import COPIES, LIMITS, PADS
from simulator.padded import beyond_the_limit, files_at_the_limits, padded
from simulator.reading import AND, BUF, DFF, DFFN, NAND, NOT, OR, XOR, file_of, read
from simulator.tally import Tally

CODES = (CLASS, TRANSFORM, SET, READ_BACK, CHECK, SEARCH)
BOTH = (FIRST, BY_DEFINITION)

# Of each the netlist as inputs, cells and outputs, its class, depth and blocks, and the transformed circuit.
WORKED = {
    "a buffer with two outputs": (
        (1, [(BUF, 0)], [1, 1]), (3, 0, 2),
        (2, [(BUF, 0), (BUF, 1)], [2, 3])),
    "a chain, with two depths behind it": (
        (1, [(BUF, 0), (BUF, 1), (DFF, 2), (XOR, 2, 3)], [4]), (2, 1, 2),
        (2, [(BUF, 0), (BUF, 2), (BUF, 3), (XOR, 7, 4), (BUF, 1), (BUF, 6)], [5])),
    "a chain out of order, so that a copy stands before the copy it names": (
        (1, [(BUF, 2), (BUF, 0), (DFF, 1), (XOR, 1, 3)], [4]), (2, 1, 2),
        (2, [(BUF, 3), (BUF, 0), (BUF, 2), (XOR, 6, 4), (BUF, 7), (BUF, 1)], [5])),
    "a chain whose blocks branch off at its first and at its second buffer": (
        (1, [(BUF, 0), (BUF, 1), (DFFN, 2), (AND, 1, 3)], [4]), (2, 1, 2),
        (2, [(BUF, 0), (BUF, 2), (NOT, 3), (AND, 6, 4), (BUF, 1)], [5])),
    "a tree with an output at each of its ends": (
        (1, [(BUF, 0), (BUF, 1), (BUF, 1)], [2, 3, 1]), (3, 0, 3),
        (3, [(BUF, 0), (BUF, 3), (BUF, 3), (BUF, 1), (BUF, 6), (BUF, 2)], [4, 7, 8])),
    "two buffers side by side, of which each block has its own": (
        (1, [(BUF, 0), (BUF, 0)], [1, 2, 0]), (3, 0, 3),
        (3, [(BUF, 0), (BUF, 0), (BUF, 1)], [3, 5, 2])),
    "a lowest block that needs no buffer and keeps it": (
        (1, [(BUF, 0), (DFF, 0), (XOR, 2, 1)], [3]), (2, 1, 2),
        (2, [(BUF, 0), (BUF, 0), (XOR, 3, 5), (BUF, 1)], [4])),
    "branches joined behind different buffers, in the lowest block": (
        (1, [(BUF, 0), (BUF, 0), (AND, 1, 2), (DFF, 1)], [3, 4]), (3, 1, 2),
        (2, [(BUF, 0), (BUF, 0), (AND, 2, 3), (BUF, 6), (BUF, 1)], [4, 5])),
    "branches joined behind different buffers, in the further block": (
        (1, [(BUF, 0), (BUF, 0), (DFF, 1), (AND, 1, 2)], [4, 3]), (3, 1, 2),
        (2, [(BUF, 0), (BUF, 0), (BUF, 2), (AND, 6, 7), (BUF, 1), (BUF, 1)], [5, 4])),
    "buffers of two inputs into one gate": (
        (2, [(BUF, 0), (BUF, 1), (AND, 2, 3), (DFF, 3)], [4, 5]), (3, 1, 3),
        (3, [(BUF, 0), (BUF, 1), (AND, 3, 4), (BUF, 7), (BUF, 2)], [5, 6])),
    "copies for two inputs, by block though the cells stand the other way round": (
        (2, [(BUF, 1), (BUF, 0)], [3, 2, 3, 2]), (3, 0, 4),
        (4, [(BUF, 2), (BUF, 0), (BUF, 1), (BUF, 3)], [5, 4, 6, 7])),
    "a BUF behind a DFF": (
        (1, [(DFF, 0), (BUF, 1), (DFF, 2), (XOR, 2, 3)], [4]), (1, 2, 1),
        (1, [(BUF, 0), (BUF, 1), (BUF, 2), (XOR, 2, 3)], [4])),
    "two NOTs": (
        (1, [(NOT, 0), (NOT, 1), (DFF, 2), (XOR, 2, 3)], [4]), (1, 1, 1),
        (1, [(NOT, 0), (NOT, 1), (BUF, 2), (XOR, 2, 3)], [4])),
    "a BUF behind a gate behind a buffer": (
        (2, [(BUF, 0), (OR, 1, 2), (BUF, 3)], [4, 4]), (3, 0, 2),
        (2, [(BUF, 0), (OR, 1, 2), (BUF, 3)], [4, 4])),
    "buffers that lead nowhere, and an input with buffers only": (
        (2, [(BUF, 0), (BUF, 1), (BUF, 3)], [0]), (3, 0, 2),
        (2, [(BUF, 0), (BUF, 1), (BUF, 3)], [0])),
    "a dead branch behind a buffer, a block of its own": (
        (1, [(BUF, 0), (NAND, 1, 1)], [1]), (3, 0, 3),
        (3, [(BUF, 0), (NAND, 3, 5), (BUF, 1), (BUF, 2)], [6])),
    "class 1 with a copy": (
        (1, [(BUF, 0), (NOT, 1), (DFF, 2), (XOR, 2, 3)], [4, 1]), (1, 1, 2),
        (2, [(BUF, 0), (NOT, 2), (BUF, 3), (XOR, 3, 4), (BUF, 1)], [5, 6])),
    "a DFF with two outputs, a pad buffer once it is written": (
        (1, [(DFF, 0)], [1, 1]), (3, 1, 1),
        (1, [(BUF, 0)], [1, 1])),
}

# Searches worked by hand: the netlist, sort, number and stuck value, the lent bytes, and the line.
SEARCHED = (
    ("a buffer with two outputs", (PIN, 0, 1, 1), "found out 0 pattern 0 tries 1 00"),
    ("a buffer with two outputs", (PIN, 2, 0, 1), "found out 1 pattern 1 tries 2 01"),
    ("a tree with an output at each of its ends", (NET, 1, 0, 1), "found out 0 pattern 1 tries 2 01"),
    ("a tree with an output at each of its ends", (NET, 3, 0, 1), "found out 1 pattern 1 tries 2 01"),
    ("a tree with an output at each of its ends", (PIN, 2, 1, 2), "found out 1 pattern 0 tries 1 00ee"),
    ("a tree with an output at each of its ends", (PIN, 5, 0, 1), "found out 2 pattern 1 tries 2 01"),
    ("a lowest block that needs no buffer and keeps it", (NET, 1, 0, 2), "found out 0 pattern 2 tries 3 0001"),
    ("a lowest block that needs no buffer and keeps it", (PIN, 0, 0, 2), "found out 0 pattern 2 tries 3 0001"),
    ("a lowest block that needs no buffer and keeps it", (PIN, 0, 1, 2), "found out 0 pattern 0 tries 1 0000"),
    ("a lowest block that needs no buffer and keeps it", (NET, 0, 1, 2), "found out 0 pattern 1 tries 2 0100"),
    ("a chain, with two depths behind it", (NET, 2, 1, 2), "found out 0 pattern 1 tries 2 0100"),
    ("a chain, with two depths behind it", (PIN, 3, 0, 2), "found out 0 pattern 2 tries 3 0001"),
    ("a chain, with two depths behind it", (PIN, 5, 1, 2), "found out 0 pattern 0 tries 1 0000"),
    ("buffers that lead nowhere, and an input with buffers only", (NET, 2, 0, 2), "untestable tries 0 eeee"),
    ("buffers that lead nowhere, and an input with buffers only", (PIN, 2, 1, 2), "untestable tries 0 eeee"),
    ("buffers that lead nowhere, and an input with buffers only", (NET, 0, 0, 2), "found out 0 pattern 1 tries 2 0100"),
    ("a dead branch behind a buffer, a block of its own", (NET, 1, 0, 1), "found out 0 pattern 1 tries 2 01"),
    ("a dead branch behind a buffer, a block of its own", (PIN, 1, 0, 1), "untestable tries 0 ee"),
    ("class 1 with a copy", (NET, 1, 0, 2), "refused 11 at 0 eeee"),
)


def chain_with_outputs(length, outputs, dead=0):
    """A chain of pad buffers with so many outputs at its end, and buffers beside it that lead nowhere."""
    return file_of(1, [(BUF, k) for k in range(length)] + [(BUF, 0)] * dead, [length] * outputs)


def wide_gates(gates, outputs):
    """A buffer with two outputs of its own, so two copies, and dead gates of eight pins behind a NOT."""
    return file_of(1, [(BUF, 0), (NOT, 0)] + [(AND, *[2] * 8)] * gates, [1, 1] + [2] * outputs)


def many_dead(length, outputs, dead=0, gates=0):
    """A chain with outputs at its end and with dead branches there: as many blocks as both together."""
    draft = g.Draft(1)
    end = draft.chain([BUF] * length, 0)
    nots = [draft.cell(NOT, end) for _ in range(dead)]
    for _ in range(gates):
        draft.cell(XOR, *[nots[0]] * 8)
    return draft.plain_file([end] * outputs)


# Files at the limits of writing: the room lent, and the line up to the buffer.
AT_LIMITS = {
    "1,024 cells with the copies": (chain_with_outputs(512, 2), LONGEST_FILE, "written 4110"),
    "1,024 cells, a byte short": (chain_with_outputs(512, 2), 4109, "refused 15 at 4110"),
    "1,025 cells": (chain_with_outputs(512, 2, dead=1), LONGEST_FILE, "refused 2 at 0"),
    "1,025 cells, nothing lent": (chain_with_outputs(512, 2, dead=1), 0, "refused 2 at 0"),
    "64 blocks and 1,024 cells": (chain_with_outputs(16, 64), LONGEST_FILE, "written 4358"),
    "64 blocks and 1,088 cells": (chain_with_outputs(17, 64), LONGEST_FILE, "refused 2 at 0"),
    "64 blocks and 65,535 cells and more": (chain_with_outputs(1024, 64), 65536, "refused 2 at 0"),
    "65 blocks": (many_dead(15, 64, dead=1), LONGEST_FILE, "refused 17 at 65"),
    "65 blocks and too many cells": (many_dead(16, 64, dead=1), LONGEST_FILE, "refused 17 at 65"),
    "65 blocks, too many cells and too many pins": (many_dead(40, 64, 1, gates=490), 0, "refused 17 at 65"),
    "4,096 pins with the copies": (wide_gates(511, 2), LONGEST_FILE, "written 9235"),
    "4,097 pins": (wide_gates(511, 3), LONGEST_FILE, "refused 7 at 0"),
    "4,097 pins, nothing lent": (wide_gates(511, 3), 0, "refused 7 at 0"),
    "too many cells and too many pins": (many_dead(300, 3, 1, gates=440), LONGEST_FILE, "refused 2 at 0"),
}


def worked_lines():
    """The calls with answers worked by hand."""
    for name, (netlist, (number, depth, blocks), transformed) in WORKED.items():
        file, new = file_of(*netlist), file_of(*transformed)
        yield name, Call(CLASS, file), f"class {number} depth {depth} blocks {blocks}"
        yield name, Call(TRANSFORM, file, (len(new) + 1,)), f"written {len(new)} {new.hex()}ee"
        yield name, Call(TRANSFORM, file, (len(new) - 1,)), f"refused 15 at {len(new)} " + "ee" * (len(new) - 1)
    for name, fields, line in SEARCHED:
        yield name, Call(SEARCH, file_of(*WORKED[name][0]), fields), line


def modes(call):
    """The modes that can do a call."""
    return BOTH if definition.manageable(read(call.file)) else BOTH[:1]


def worked():
    tally = Tally("pad buffers worked by hand, in both modes and in the listing")
    calls, lines, texts = [], [], {}
    for name, call, line in worked_lines():
        for mode in BOTH:
            tally.equal(line, answer(call, mode), lambda: f"{name}: netlist {call.file.hex()}\n  call   {call}")
        calls.append(call)
        lines.append(line)
    for name, (file, room, line) in AT_LIMITS.items():
        calls.append(Call(TRANSFORM, file, (room,)))
        lines.append(answer(calls[-1], FIRST))
        for mode in modes(calls[-1]):
            got, buffer = answer(calls[-1], mode).rsplit(" ", 1)
            tally.equal(line, got, lambda: f"{name}: call {calls[-1]}")
            tally.equal(lines[-1].rsplit(" ", 1)[1], buffer, lambda: f"{name}: call {calls[-1]}, the buffer")
    for name, (netlist, *_) in WORKED.items():
        file = file_of(*netlist)
        texts[file] = FIRST.listing(file)
        tally.equal(BY_DEFINITION.listing(file), texts[file], lambda: f"{name}: netlist {file.hex()}\n  listing")
        blocks_agree(tally, file)
        buffer_faults(tally, file)
    compare_listing(tally, texts)
    compare(tally, calls, lines)
    return tally


def buffer_faults(tally, file):
    """Each fault in a pad buffer: found exactly if some play shows it, in both modes, by the play that was found."""
    chip = chip_of(file)
    if chip.class_number == 1:
        return
    for fault in all_faults(chip.netlist):
        sort = site_sort(chip, fault.sort, fault.number)
        if not sort.startswith("pad buffer"):
            continue
        plays = [bytearray(chip.netlist.inputs * (chip.depth + 1)) for _ in BOTH]
        answers = [mode.search(file, fault, play) for mode, play in zip(BOTH, plays)]
        tally.equal((answers[1], plays[1]), (answers[0], plays[0]), lambda: f"netlist {file.hex()}\n  fault  {fault}")
        found = isinstance(answers[0], Found)
        tally.hit(f"{sort} {'found' if found else 'untestable'}")
        tally.equal(definition.some_play_shows(file, fault), found,
                    lambda: f"netlist {file.hex()}\n  fault  {fault}: some play shows it, found")
        if found:
            shown = [mode.check_play(file, fault, bytes(plays[0])) for mode in BOTH]
            tally.equal([(chip.depth, answers[0].output)] * 2, shown,
                        lambda: f"netlist {file.hex()}\n  fault  {fault}, the play {plays[0].hex()} found, checked")


def draw_padded(rng):
    """A small netlist with pad buffers that the second mode can do."""
    while True:
        file = padded(rng, g.SMALL)
        if definition.manageable(read(file)):
            return file


def drawn(volumes):
    rng = random.Random(volumes.seed + 60)
    tally = Tally("pad buffers drawn, in both modes and in the listing")
    files = [draw_padded(rng) for _ in range(volumes.pads)]
    calls = [draw_call(rng, code, file) for file in files for code in CODES]
    lines = [answer(call, FIRST) for call in calls]
    for call, line in zip(calls, lines):
        tally.equal(answer(call, BY_DEFINITION), line, lambda: f"netlist {call.file.hex()}\n  call   {call}")
        tally.hit(*hits(call, line))
    for file in files:
        if chip_of(file):
            blocks_agree(tally, file)
            buffer_faults(tally, file)
            cut_out_alike(tally, file)
    tally.must_hit(PADS + COPIES + [f"pad buffer {site} {found}" for site in ("net", "pin")
                                    for found in ("found", "untestable", "shown", "not")])
    compare_listing(tally, {file: FIRST.listing(file) for file in files[::10]})
    compare(tally, calls, lines)
    return tally


def limits(volumes):
    """Files that just fit when they are written, and that just do not; the search is at home in all of them."""
    rng = random.Random(volumes.seed + 70)
    tally = Tally("pad buffers at the limits of writing, in both modes")
    files = files_at_the_limits(rng) + [beyond_the_limit(rng)]
    calls = writing(files) + [draw_call(rng, code, file) for file in files for code in (CLASS, SEARCH, SEARCH)]
    lines = [answer(call, FIRST) for call in calls]
    for call, line in zip(calls, lines):
        tally.hit(*hits(call, line))
        if BY_DEFINITION in modes(call):
            tally.equal(answer(call, BY_DEFINITION), line, lambda: f"netlist {call.file.hex()}\n  call   {call}")
            tally.hit("in both modes")
    tally.must_hit(LIMITS + orders(17, 2, 7, 15) + ["in both modes", "past the limits of writing"])
    compare(tally, calls, lines)
    return tally


def parts(volumes):
    yield worked()
    yield drawn(volumes)
    yield limits(volumes)
