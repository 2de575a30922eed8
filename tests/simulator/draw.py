"""Calls drawn at random: files of all sorts, and for each file fields that are right, at the edge or wrong."""

from simulator import clocks, transform
from simulator import generators as g
from simulator.calls import CHECK, CLASS, LONGEST, READ_BACK, SEARCH, SET, TRANSFORM, Call
from simulator.faults import NET, PIN
from simulator.looped import largest_looped, looped
from simulator.padded import at_the_limit, beyond_the_limit, largest_padded, many_padded, padded
from simulator.reading import Refused
from simulator.structure import is_flip_flop, prepare

FAR = (256, 65536, 2**31)  # added to a number: what is left of it in a narrower type is right again
LAST = 2**32 - 1
LONGEST_FILE = 10_374  # that reading takes

SUPPLIES = (
    (30, lambda rng: g.balanced_or_internally(rng, g.MIDDLE)),
    (12, lambda rng: g.balanced_or_internally(rng, g.SMALL)),
    (10, lambda rng: g.readable(rng, g.MIDDLE)),
    (10, lambda rng: padded(rng, g.MIDDLE)),
    (8, lambda rng: padded(rng, g.SMALL)),
    (0.6, many_padded),
    (0.3, at_the_limit),
    (0.1, beyond_the_limit),
    (12, lambda rng: g.damaged(rng, g.readable(rng, g.SMALL))),
    (2, lambda rng: g.with_back_pins(rng, g.MIDDLE)),
    (3, lambda rng: looped(rng, g.SMALL)),
    (4, lambda rng: looped(rng, g.MIDDLE)),
    (3, lambda rng: g.finish(g.unbalanced(rng, g.MIDDLE), rng)),
    (4, lambda rng: g.cone(rng, rng.choice((15, 16, 17)))),
    (2, lambda rng: g.with_blocks(rng, rng.choice((63, 64, 65, 66)))),
    (1, g.deep),
    (0.5, lambda rng: g.too_many_pins(rng).file(rng)),
)


def any_file(rng):
    """A file of any sort, most of them class 2 or 3."""
    weights, supplies = zip(*SUPPLIES)
    return rng.choices(supplies, weights)[0](rng)


def largest_files(rng):
    """Netlists of the largest sizes: with loops, with cones of at most 16 blocks, with wider ones.

    And with pad buffers: of the largest size once it is written, and too large to be written.
    """
    return [largest_looped(rng), g.largest(rng).file(rng), g.largest(rng).shuffled(rng).file(rng),
            g.largest(rng, groups=2).file(rng), largest_padded(rng), beyond_the_limit(rng)]


def chip_of(file):
    """The chip of a file, or None if reading refuses it."""
    try:
        return prepare(file)
    except Refused:
        return None


def bits(rng, count):
    return bytearray(rng.choices((0, 1), k=count))


def spoil_bytes(rng, data):
    """A byte above 1 somewhere, now and then a second one."""
    for _ in range(rng.randint(1, 2) if data else 0):
        data[rng.randrange(len(data))] = rng.choice((2, 3, 128, 255))
    return data


def few_bytes(rng):
    """A string for a file that reading refuses; a byte above 1 now and then, which must not be looked at."""
    return bytes(rng.choices((0, 1, 2), (5, 5, 2), k=rng.randint(0, 3)))


def draw_room(rng, needed):
    """The length of a lent buffer: right, longer, one byte short, or much too short."""
    return rng.choices((needed, needed + rng.randint(1, 9), max(0, needed - 1), rng.randint(0, needed)),
                       (50, 30, 12, 8))[0]


def draw_output(rng, chip):
    count = len(chip.netlist.outputs)
    if rng.random() < 0.08:
        return rng.choice((count, count + 1, rng.randrange(count) + rng.choice(FAR), LAST))
    return rng.randrange(count)


def draw_pattern(rng, chip):
    pattern = bits(rng, len(chip.blocks))
    if rng.random() < 0.08:
        pattern = bits(rng, max(0, len(pattern) + rng.choice((-1, 1, -len(pattern), chip.netlist.inputs))))
    return bytes(spoil_bytes(rng, pattern) if rng.random() < 0.08 else pattern)


def draw_play(rng, chip):
    """Bytes for a play: mostly a little longer than d+1 clocks; shorter, cut, too long or spoilt ones among them."""
    inputs = chip.netlist.inputs
    number = chip.depth + rng.randint(1, 5)
    if rng.random() < 0.12:
        number = rng.randint(0, chip.depth)
    elif rng.random() < 0.01:
        number = rng.choice((clocks.MOST_CLOCKS, clocks.MOST_CLOCKS + 1))
    play = bits(rng, number * inputs)
    if rng.random() < 0.06:
        play = bits(rng, max(0, len(play) + rng.choice((-1, 1))))
    if rng.random() < (0.06 if number < clocks.MOST_CLOCKS else 0.5):
        spoil_bytes(rng, play)
    return bytes(play[:LONGEST])


def draw_clock(rng, chip, play):
    """A clock to read back at: mostly from d on and in the play, else below d, the first past it, or far off."""
    count = len(play) // chip.netlist.inputs
    shape = rng.random()
    if shape < 0.08:
        return count
    if shape < 0.12:
        return rng.randint(0, chip.depth)
    if shape < 0.15:
        return rng.choice((count + 1, chip.depth + rng.choice(FAR), LAST))
    return rng.randint(chip.depth, max(chip.depth, count - 1))


def site_sort(chip, sort, number):
    """What a site is, in words; None if it is beyond the nets or pins."""
    netlist = chip.netlist
    if sort == NET:
        if number >= netlist.nets:
            return None
        return f"{cell_sort(chip, number - netlist.inputs)} net" if number >= netlist.inputs else "input net"
    if number >= netlist.pins:
        return None
    return f"{cell_sort(chip, chip.cell_of(number))} pin" if number < chip.first_pin[-1] else "output pin"


def cell_sort(chip, j):
    if chip.is_pad_buffer(j):
        return "pad buffer"
    return "flip-flop" if is_flip_flop(chip.netlist.kinds[j]) else "cell"


SITE_SORTS = ("input net", "cell net", "flip-flop net", "pad buffer net", "cell pin", "flip-flop pin", "pad buffer pin",
              "output pin")


def draw_fault(rng, chip):
    """Sort, number and stuck value of a fault; a site or a value beyond range among them."""
    netlist = chip.netlist
    sort = rng.choice((NET, PIN))
    count = netlist.nets if sort == NET else netlist.pins
    number, stuck = rng.randrange(count), rng.randint(0, 1)
    if sort == NET and rng.random() < 0.2:
        number = rng.randrange(netlist.inputs)
    elif sort == PIN and rng.random() < 0.2:
        number = chip.first_pin[-1] + rng.randrange(len(netlist.outputs))
    if rng.random() < 0.04:
        number = rng.choice((count, count + 1, number + rng.choice(FAR[1:]), LAST))
    if rng.random() < 0.04:
        stuck = rng.choice((2, 255, 256, 257, 65536, LAST))
    return sort, number, stuck


def draw_call(rng, code, file):
    """A call of a code on a file; fields of small size where reading refuses the file."""
    chip = chip_of(file)
    if code == CLASS:
        return Call(code, file)
    if code == TRANSFORM:
        needed = min(transform.written_length(chip), LONGEST - 9) if chip else 40
        return Call(code, file, (draw_room(rng, needed),))
    if code == SET:
        if chip is None:
            return Call(code, file, (rng.randint(0, 2), few_bytes(rng), rng.randint(0, 9)))
        return Call(code, file, (draw_output(rng, chip), draw_pattern(rng, chip),
                                 draw_room(rng, clocks.play_length(chip))))
    if code == READ_BACK:
        if chip is None:
            return Call(code, file, (rng.randint(0, 2), few_bytes(rng), rng.randint(0, 3), rng.randint(0, 9)))
        play = draw_play(rng, chip)
        return Call(code, file, (draw_output(rng, chip), play, draw_clock(rng, chip, play),
                                 draw_room(rng, len(chip.blocks))))
    if code == CHECK:
        if chip is None:
            return Call(code, file, (rng.randint(0, 1), rng.randint(0, 3), rng.randint(0, 2), few_bytes(rng)))
        return Call(code, file, (*draw_fault(rng, chip), draw_play(rng, chip)))
    if chip is None:
        return Call(SEARCH, file, (rng.randint(0, 1), rng.randint(0, 3), rng.randint(0, 2), rng.randint(0, 9)))
    return Call(SEARCH, file, (*draw_fault(rng, chip), draw_room(rng, clocks.play_length(chip))))


def writing(files):
    """Calls that write the transformed circuit of each file, with nothing lent and with enough for any."""
    return [Call(TRANSFORM, file, (room,)) for file in files for room in (0, LONGEST_FILE)]


def draw_calls(rng, codes, count, each=5):
    """So many calls of some codes in turn, a few on each file, those on the largest netlists last."""
    last = largest_files(rng)
    calls = []
    while len(calls) < count:
        file = last.pop() if len(last) * each >= count - len(calls) else any_file(rng)
        for _ in range(each):
            calls.append(draw_call(rng, codes[len(calls) % len(codes)], file))
    return calls
