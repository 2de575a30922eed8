"""The listing's text, compared with the program `listing`, on netlists of all sorts and in shapes of its own."""

import random

from parts.examples import LISTING_FILE, P8, chain_of, cone_of
from simulator import generators as g
from simulator import programs
from simulator.draw import any_file
from simulator.hits import loop_hits, refusals
from simulator.listing_hits import LISTED, listed_hits
from simulator.looped import largest_looped
from simulator.modes import FIRST
from simulator.pad_hits import PADS, pad_hits
from simulator.padded import largest_padded
from simulator.reading import read
from simulator.shapes import any_shape, large_shapes
from simulator.structure import prepare
from simulator.tally import Tally

MUST = refusals(*range(1, 12)) + ["9 above a hanging net", "9 at the largest size", "class 2", "class 3", "found",
                                  "untestable", "refused 16 of a fault", "depth 255", "largest"] + PADS + LISTED


def draw_files(volumes):
    """The worked examples, chains, wide cones, the largest, some of these with a loop or pad buffers, and all sorts."""
    rng = random.Random(volumes.seed + 40)
    files = [LISTING_FILE, b"", LISTING_FILE.replace(b"\2\2\0", b"\1\2\0"), chain_of(255), chain_of(256), cone_of(16),
             cone_of(17), g.too_many_pins(rng).file(rng), g.cone(rng, 16), g.cone(rng, 17), g.largest(rng).file(rng),
             largest_looped(rng), P8, largest_padded(rng), LISTING_FILE.replace(b"\x08\1", b"\x0a\1")]
    while len(files) < volumes.listings:
        files.append(g.damaged(rng, g.readable(rng, g.SMALL)) if rng.random() < 0.2 else any_file(rng))
    return files


def draw_shapes(volumes):
    """Netlists that list, in the shapes that looking for all faults at once can get wrong, the large ones last."""
    rng = random.Random(volumes.seed + 41)
    return [any_shape(rng) for _ in range(volumes.shapes)] + large_shapes(rng)


def hits(file, text):
    """What a listing hits."""
    lines = text.splitlines()
    words = lines[0].split()
    if words[0] == "refused":
        return refusals(words[1]) + (loop_hits(read(file)) if words[1] == "9" else [])
    found = [f"class {words[9]}", f"depth {words[7]}"] + ["largest"] * (words[:6] == "in 64 cells 1024 out 64".split())
    found += pad_hits(prepare(file)) + listed_hits(prepare(file), text)
    answers = {line.split()[1] for line in lines[1:]}
    names = {"out": "found", "untestable": "untestable", "refused": "refused 16 of a fault"}
    return found + [names[word] for word in answers]


def compare_listing(tally, texts):
    """Holds the program's text for each file to the one given."""
    for file, text in texts.items():
        try:
            wrote = programs.run("listing", file)
        except programs.NoProgram as missing:
            tally.fail(str(missing))
            break
        tally.equal((text.encode(), 0), wrote, lambda: f"netlist {file.hex()}\n  listing")


def parts(volumes):
    tally = Tally("listings, compared with the program")
    texts = {}
    for file in draw_files(volumes) + draw_shapes(volumes):
        texts[file] = FIRST.listing(file)
        tally.hit(*hits(file, texts[file]))
    compare_listing(tally, texts)
    tally.must_hit(MUST)
    yield tally
