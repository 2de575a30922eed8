"""Netlists with loops, drawn together with the cells that the place of refusal 9 could be mistaken in.

Such cells feed a loop, hang from one, or lie between two and on neither; often they are the lower ones.
"""

from simulator.generators import FLIP_FLOPS, STRAIGHT, WIDE, Draft, choose_outputs, most_widths
from simulator.reading import MOST_INPUTS, MOST_OUTPUTS

GATES = STRAIGHT + WIDE
ALL = GATES + FLIP_FLOPS
LOOP_KINDS = (GATES, FLIP_FLOPS, ALL)


def add_cell(draft, rng, kinds, width, named, nets):
    """Adds a cell of so many pins that names one net for certain and any of `nets` with its other pins."""
    pins = [named] + rng.choices(nets, k=width - 1)
    rng.shuffle(pins)
    return draft.cell(rng.choice([kind for kind in kinds if (kind in WIDE) == (width > 1)]), *pins)


def add_loop(draft, rng, kinds, widths, nets):
    """Adds cells each of which names the one before it, the first the last; other pins name `nets`, or the loop."""
    first = len(draft.nets())
    loop = range(first, first + len(widths))
    for k, width in enumerate(widths):
        add_cell(draft, rng, kinds, width, loop[k - 1], nets if rng.random() < 0.7 else loop)
    return loop


def draw_cells(rng, inputs, loops, others):
    """A draft without outputs, the nets on its loops, and the nets on loops or hanging from one.

    `loops` has the kinds and the pin counts of each loop, `others` the pin counts of the cells
    before, between and behind the loops. A loop may name what hangs from the loops before it,
    and mostly names the last such net.
    """
    draft, on_loops, hanging = Draft(inputs), [], []
    cuts = sorted(rng.choices(range(len(others) + 1), k=len(loops)))
    for loop, first, last in zip([None, *loops], [0, *cuts], [*cuts, len(others)]):
        if loop:
            enters = hanging[-1:] if hanging and rng.random() < 0.7 else draft.nets()
            nets = add_loop(draft, rng, *loop, enters)
            on_loops += nets
            hanging += nets
        for width in others[first:last]:
            named = rng.choice(hanging if hanging and rng.random() < 0.8 else draft.nets())
            net = add_cell(draft, rng, ALL, width, named, draft.nets())
            if not set(hanging).isdisjoint(draft.cells[-1]):
                hanging.append(net)
    return draft, on_loops, hanging


def cell_places(draft, rng, on_loops):
    """An order for the cells: as drawn, turned round, anyhow, with the loops lowest or, mostly, highest."""
    looping = {net - draft.inputs for net in on_loops}
    keys = (lambda j: j, lambda j: -j, lambda j: 0, lambda j: j not in looping, looping.__contains__)
    key = rng.choices(keys, (1, 1, 1, 1, 3))[0]
    return sorted(rng.sample(range(len(draft.cells)), len(draft.cells)), key=key)


def draw_loop(rng, size):
    """The kinds and the pin counts of a loop of a few cells; one of all kinds has a place for a flip-flop."""
    kinds = rng.choice(LOOP_KINDS)
    most = 1 if kinds is FLIP_FLOPS else size.pins
    widths = [rng.randint(1, most) for _ in range(rng.choice((1, 1, 2, 3, 4)))]
    return kinds, widths + [1] * (kinds is ALL)


def looped(rng, size):
    """A file with one to three loops; in some of them no output hangs from a loop."""
    loops = [draw_loop(rng, size) for _ in range(rng.choice((1, 1, 2, 3)))]
    others = [rng.randint(1, size.pins) for _ in range(rng.randint(0, size.cells))]
    draft, on_loops, hanging = draw_cells(rng, rng.randint(1, size.inputs), loops, others)
    if rng.random() < 0.3:
        draft.outputs = rng.choices(sorted(set(draft.nets()).difference(hanging)), k=rng.randint(1, size.outputs))
    else:
        choose_outputs(draft, rng, rng.randint(1, size.outputs))
    return draft.reordered(cell_places(draft, rng, on_loops)).file(rng)


def largest_looped(rng, loops=1):
    """A file of I 64, C 1,024, O 64 and 4,096 pins, with its loops at the highest nets."""
    others, drawn = most_widths(rng), []
    for _ in range(loops):
        kinds, length = rng.choice(LOOP_KINDS), rng.choice((1, 2, 9))
        widths = [1] * length if kinds is FLIP_FLOPS else rng.sample(others, length)
        for width in widths:
            others.remove(width)
        drawn.append((kinds, widths))
    draft, on_loops, _ = draw_cells(rng, MOST_INPUTS, drawn, others)
    draft.outputs = rng.sample(draft.nets(), MOST_OUTPUTS)
    looping = {net - draft.inputs for net in on_loops}
    return draft.reordered(sorted(range(len(draft.cells)), key=looping.__contains__)).file(rng)
