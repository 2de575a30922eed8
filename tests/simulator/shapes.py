"""Netlists in the shapes that looking for all faults of a netlist at once can get wrong.

Such a search takes 1,024 patterns at a time, outputs with the same blocks together, the faults of one cell together,
and stuck inputs and faults in pad buffers by themselves; a fault is dropped once it is decided. So outputs share all,
some or none of their blocks, in any order, their numbers of blocks lie around whole words and whole chunks, patterns
that show a fault are rare or late, and what shows it early stands at a later output. All are small.
"""

from simulator import generators as g
from simulator.generators import FLIP_FLOPS, WIDE, Draft, finish, tree
from simulator.padded import buffered
from simulator.reading import AND, BUF, NAND, NOR, NOT, OR, XNOR, XOR

WIDTHS = (1, 2, 3, 4, 5, 6, 6, 7, 7, 8, 9, 10, 10, 11, 11, 12, 13)
CHUNK_BITS = 10  # 1,024 patterns
EDGES = (0, 1, 31, 32, 63, 64, 127, 128, 1023, 1024, 2047, 2048, -1, -2, -64, -1024)  # of words and chunks


def roots(draft, rng):
    """A net for each input: a NOT or a flip-flop behind it, so that it is one block however often the net is named."""
    return [draft.cell(rng.choice((NOT, NOT) + FLIP_FLOPS), i) for i in range(draft.inputs)]


def blocks_of_inputs(rng, count, most):
    """A draft, and nets that hang from one block each: inputs at different depths, so many nets of each at most."""
    draft, nets = Draft(count), []
    for i in range(count):
        depths = rng.sample(range(most), min(count - len(nets), rng.randint(1, most)))
        nets += [draft.chain(rng.choices(FLIP_FLOPS, k=depth) or [NOT] * rng.randint(0, 1), i) for depth in depths]
    return draft, nets


def one_for_two(draft, rng):
    """Nets as of `roots`, but now and then the first two hang from two blocks of one input."""
    nets = roots(draft, rng)
    if rng.random() < 0.4:
        draft.kinds[0], draft.kinds[1], draft.cells[1] = NOT, rng.choice(FLIP_FLOPS), draft.cells[0]
    return nets


def inverted(draft, rng, net):
    """A net or its opposite."""
    return draft.cell(NOT, net) if rng.random() < 0.3 else net


def meeting(draft, rng, nets, hard):
    """A net that hangs from all of these; if `hard`, of ANDs and ORs, so that patterns that show a fault are rare."""
    if not hard:
        return tree(draft, rng, nets)
    kinds = rng.choice(((AND, AND, OR), (NAND, NOR), (AND, XOR)))
    nets = [inverted(draft, rng, net) for net in nets]
    while len(nets) > 1:
        width = min(len(nets), rng.randint(2, 8))
        nets = nets[width:] + [draft.cell(rng.choice(kinds), *nets[:width])]
    return nets[0]


def constant(draft, rng, net):
    """A net that has one value under all patterns, and so shows nothing of what comes over this one."""
    return draft.cell(rng.choice((AND, OR, NAND, NOR, XOR)), net, draft.cell(NOT, net))


def masked(draft, rng, net):
    """A constant, or a net that shows this one beside a way that shows nothing."""
    way = constant(draft, rng, net)
    return way if rng.random() < 0.6 else draft.cell(rng.choice((OR, NOR, XOR, XNOR)), way, net)


def minterm(draft, nets, opposite, pattern, kind=AND):
    """A net that differs from its value under all other patterns of the nets under this one alone."""
    taken = [net if pattern >> k & 1 else opposite[k] for k, net in enumerate(nets)]
    while len(taken) > 8:
        taken = taken[8:] + [draft.cell(AND, *taken[:8])]
    return draft.cell(kind, *taken) if len(taken) > 1 else taken[0]


def minterms(rng, width, patterns):
    """For each pattern an output that only this one makes different, so that it alone shows most faults there."""
    draft = Draft(width)
    opposite = [draft.cell(NOT, i) for i in range(width)]
    nets = [draft.cell(NOT, net) for net in opposite] if rng.random() < 0.5 else range(width)
    draft.outputs = [minterm(draft, nets, opposite, pattern, rng.choice((AND, NAND))) for pattern in patterns]
    return draft


def in_chunks(rng, width, chunks):
    """Patterns of so many blocks, one in each of these chunks."""
    low = min(width, CHUNK_BITS)
    return [(chunk << low | rng.randrange(1 << low)) % (1 << width) for chunk in chunks]


def at_edges(rng):
    """Minterms at the edges of words and chunks, and the last pattern."""
    width = rng.choice((6, 7, 10, 11, 12))
    return minterms(rng, width, [edge % (1 << width) for edge in rng.sample(EDGES, rng.randint(2, 6))])


def in_late_chunks(rng):
    """Minterms of any width, one in each of some chunks."""
    width = rng.choice((10, 11, 12, 13, 14))
    chunks = range(1 << max(0, width - CHUNK_BITS))
    return minterms(rng, width, in_chunks(rng, width, rng.sample(chunks, min(len(chunks), rng.randint(1, 5)))))


def so_wide(rng, width, outputs=3):
    """Outputs reached by so many blocks, and some by fewer; one net on several outputs, or an input, now and then."""
    draft, nets = blocks_of_inputs(rng, width, rng.choice((1, 1, 2, 4)))
    draft.outputs = [meeting(draft, rng, rng.sample(nets, width), rng.random() < 0.4)]
    for _ in range(rng.randint(0, outputs)):
        taken = rng.sample(nets, width if rng.random() < 0.5 else rng.randint(1, width))
        draft.outputs.insert(rng.randint(0, len(draft.outputs)), meeting(draft, rng, taken, rng.random() < 0.4))
    if rng.random() < 0.3:
        draft.outputs.append(rng.choice(draft.outputs + [rng.randrange(width)]))
    return draft


def of_any_width(rng):
    return so_wide(rng, rng.choice(WIDTHS))


def grouped(rng):
    """Outputs over a few sets of inputs, which overlap, in any order; cells that hang from less are shared by them."""
    draft = Draft(rng.randint(3, 9))
    nets = roots(draft, rng)
    behind = {net: {net} for net in nets}
    for _ in range(rng.randint(1, 6)):
        named = rng.sample(sorted(behind), min(len(behind), rng.randint(2, 3)))
        behind[draft.cell(rng.choice(WIDE), *named)] = set().union(*(behind[net] for net in named))
    sets = [set(rng.sample(nets, rng.randint(2, len(nets)))) for _ in range(rng.randint(2, 3))]
    for _ in range(rng.randint(3, 7)):
        wanted = rng.choice(sets)
        shared = [net for net, here in behind.items() if here <= wanted and net not in nets]
        named = sorted(wanted) + rng.sample(shared, rng.randint(0, len(shared)))
        top = meeting(draft, rng, rng.sample(named, len(named)), rng.random() < 0.5)
        draft.outputs.append(masked(draft, rng, top) if rng.random() < 0.25 else top)
    return draft


def late_at_the_lower(rng):
    """Outputs with the same blocks of which the lower shows a shared cell in a late chunk, the higher in the first.

    Before, between and behind them may stand outputs with other blocks, which show the cell too, or hide it.
    """
    draft = Draft(rng.choice((7, 10, 11, 11, 12, 12)))
    x, y, *rest = one_for_two(draft, rng)
    shared = draft.cell(rng.choice(WIDE), x, y)
    if rng.random() < 0.5:
        shared = draft.cell(rng.choice(WIDE), shared, rest[0], draft.cell(NOT, rest[1]))
    late = draft.cell(AND, *(inverted(draft, rng, net) for net in rest[-4:]))
    first = draft.cell(AND, shared, late, draft.cell(rng.choice((OR, XOR)), *rest[:8]))
    second = draft.cell(rng.choice((XOR, XNOR)), shared, meeting(draft, rng, rest, hard=True))
    draft.outputs = [first, second]
    for _ in range(rng.randint(0, 2)):
        other = draft.cell(rng.choice(WIDE), shared, rng.choice(rest))
        other = masked(draft, rng, other) if rng.random() < 0.4 else other
        draft.outputs.insert(rng.randint(0, len(draft.outputs)), other)
    return draft


def in_a_later_group(rng):
    """Outputs a, b, c of which a and c have the same blocks and b others: a cell that b and c show, and a does not."""
    draft = Draft(rng.randint(3, 8))
    x, y, *rest = one_for_two(draft, rng)
    shared = draft.cell(rng.choice(WIDE), x, y)
    a = draft.cell(rng.choice((AND, OR)), masked(draft, rng, shared), *rest[:6])
    c = draft.cell(rng.choice((XOR, XNOR)), shared, *rest[:6])
    b = draft.cell(rng.choice((XOR, XNOR)), shared, draft.cell(NOT, x))
    draft.outputs = [a] * rng.randint(0, 1) + [a, b, c] + [b] * rng.randint(0, 1)
    return draft


def hidden_first(rng):
    """Nets that the first outputs hide and a later one shows, now and then none: tries over several outputs."""
    draft, nets = blocks_of_inputs(rng, rng.randint(1, 5), 2)
    top = meeting(draft, rng, nets, rng.random() < 0.5)
    draft.outputs = [masked(draft, rng, top) for _ in range(rng.randint(1, 3))]
    for _ in range(rng.randint(0, 2)):
        draft.outputs.insert(rng.randint(0, len(draft.outputs)), masked(draft, rng, rng.choice(nets)))
    if rng.random() < 0.7:
        draft.outputs.append(rng.choice((top, draft.cell(rng.choice(FLIP_FLOPS), top), draft.cell(NOT, top))))
    return draft


def many_blocks_of_an_input(rng):
    """Inputs at several depths that meet, at several outputs; what they meet in is hidden now and then."""
    draft, nets = blocks_of_inputs(rng, rng.randint(2, 9), rng.choice((2, 4, 6)))
    hidden = rng.choice((0, 0.4, 0.4, 1))
    for _ in range(rng.randint(1, 3)):
        top = meeting(draft, rng, rng.sample(nets, rng.randint(2, len(nets))), rng.random() < 0.3)
        draft.outputs.append(constant(draft, rng, top) if rng.random() < hidden else top)
    return draft


def straight(rng):
    """Inputs on outputs, on several, through flip-flops and beside gates."""
    draft = Draft(rng.randint(1, 6))
    for _ in range(rng.randint(1, 6)):
        i = rng.randrange(draft.inputs)
        shape = rng.randrange(4)
        if shape == 0:
            i = draft.chain(rng.choices(FLIP_FLOPS, k=rng.randint(1, 3)), i)
        elif shape == 1:
            i = draft.cell(rng.choice(WIDE), i, rng.randrange(draft.inputs))
        draft.outputs.append(i)
    return draft


def partly_buffered(rng):
    """An input with pad buffers that lead to some pins of a block, to pins in several blocks, or to an output."""
    draft = Draft(rng.randint(1, 4))
    pads = [0]
    for _ in range(rng.randint(1, 4)):
        pads.append(draft.cell(BUF, rng.choice(pads)))
    tops = []
    for depth in rng.sample(range(4), rng.randint(2, 3)):
        ways = [inverted(draft, rng, rng.choice(pads)) for _ in range(rng.randint(2, 3))]
        ways = [way if way >= draft.inputs + len(pads) - 1 else draft.cell(NOT, way) for way in ways]
        met = draft.cell(rng.choice(WIDE), *ways, *rng.sample(range(1, draft.inputs), rng.randint(0, draft.inputs - 1)))
        tops.append(draft.chain(rng.choices(FLIP_FLOPS, k=depth), met))
    draft.outputs = [tree(draft, rng, tops)] if rng.random() < 0.6 else tops[:1] + [tree(draft, rng, tops)]
    if rng.random() < 0.3:
        draft.outputs[0] = masked(draft, rng, draft.outputs[0])
    for _ in range(rng.randint(0, 2)):
        draft.outputs.insert(rng.randint(0, len(draft.outputs)), rng.choice(pads))
    return draft


def wide_and_narrow(rng):
    """An output with seventeen blocks beside narrower ones that share cells with it."""
    draft = Draft(rng.choice((17, 18)))
    some = meeting(draft, rng, rng.sample(range(17), rng.randint(2, 6)), rng.random() < 0.5)
    nets = [some, *range(17)]
    draft.outputs = [meeting(draft, rng, nets, rng.random() < 0.5)]
    for taken in (some, rng.randrange(17), draft.cell(NOT, draft.inputs - 1)):
        if rng.random() < 0.7:
            draft.outputs.insert(rng.randint(0, len(draft.outputs)), taken)
    return draft


def many_cells(rng, cells=None):
    """More cells than a word has bits, at several depths."""
    return g.levelled(rng, rng.randint(4, 10), cells or rng.randint(65, 200), rng.randint(2, 12), rng.randint(1, 3),
                      most_pins=rng.choice((2, 4, 8)), several=cells is None and rng.random() < 0.5)


def dead_cells_added(draft, rng):
    """The draft with cells that reach no output, over any of its nets."""
    for _ in range(rng.randint(1, 4)):
        kind = rng.choice(WIDE + FLIP_FLOPS + (NOT, BUF))
        draft.cell(kind, *rng.choices(draft.nets(), k=rng.randint(2, 3) if kind in WIDE else 1))
    return draft


SHAPES = (
    (8, at_edges),
    (4, in_late_chunks),
    (16, of_any_width),
    (16, grouped),
    (10, late_at_the_lower),
    (8, in_a_later_group),
    (10, hidden_first),
    (12, many_blocks_of_an_input),
    (4, straight),
    (10, partly_buffered),
    (2, wide_and_narrow),
    (2, many_cells),
    (4, lambda rng: g.redundant(rng, g.MIDDLE)),
)


def any_shape(rng):
    """A file of any of the shapes, now and then with dead cells, and with pad buffers."""
    weights, shapes = zip(*SHAPES)
    draft = rng.choices(shapes, weights)[0](rng)
    if rng.random() < 0.2:
        draft = dead_cells_added(draft, rng)
    if rng.random() < 0.25:
        draft = buffered(draft, rng, 3)
    return finish(draft, rng)


def large_shapes(rng):
    """Files of fourteen to sixteen blocks: minterms in every chunk, the AND of all, other gates; one of 1,000 cells."""
    chunks = [*range(1, 64)]
    rng.shuffle(chunks)
    drafts = [minterms(rng, 16, in_chunks(rng, 16, chunks[part::3])) for part in range(3)]
    drafts += [minterms(rng, 16, [2 ** 16 - 1])] + [so_wide(rng, width, outputs=2) for width in (14, 15, 16, 16)]
    drafts.append(many_cells(rng, cells=1000))
    return [finish(draft, rng) for draft in drafts]
