"""Netlists to measure on, as files; what is drawn at random comes from a fixed seed."""

import random

from simulator.generators import Draft
from simulator.reading import AND, BUF, DFF, DFFN, NAND, NOR, NOT, OR, XNOR, XOR


def add_up(net, a, b, c):
    """The sum and the carry of three nets."""
    half = net.cell(XOR, a, b)
    return net.cell(XOR, half, c), net.cell(OR, net.cell(AND, a, b), net.cell(AND, half, c))


def multiplier(buffers=0):
    """8 by 8 bits: pad buffers in a row, flip-flops at the inputs, after the partial products and at the outputs."""
    net = Draft(16)
    pads = list(range(16))
    for _ in range(buffers):
        pads = [net.cell(BUF, pad) for pad in pads]
    held = [net.cell(DFF, pad) for pad in pads]
    columns = [[] for _ in range(16)]
    for a in range(8):
        for b in range(8):
            columns[a + b].append(net.cell(DFF, net.cell(AND, held[a], held[8 + b])))
    outputs = []
    for k in range(16):
        column = columns[k]
        while len(column) > 1:
            if len(column) == 2:
                a, b = column.pop(), column.pop()
                total, carry = net.cell(XOR, a, b), net.cell(AND, a, b)
            else:
                total, carry = add_up(net, column.pop(), column.pop(), column.pop())
            column.insert(0, total)
            if k < 15:
                columns[k + 1].append(carry)
        outputs.append(net.cell(DFF, column[0]))
    return net.plain_file(outputs)


def in_groups(seed, groups, inputs, stages, gates, most_pins, window):
    """Random gates in groups of inputs kept apart, in stages with a row of flip-flops between them, all kinds of gates.

    Half of the pins take a net that none has named so far, the others one of the last nets of the stage.
    Each group has as many outputs as inputs; the smaller the window, the more faults are untestable.
    """
    rng = random.Random(seed)
    net, outputs = Draft(groups * inputs), []
    for group in range(groups):
        front = list(range(group * inputs, (group + 1) * inputs))
        for stage in range(stages):
            nets, read = list(front), set()
            for _ in range(gates // (groups * stages)):
                width, named = rng.randint(2, most_pins), []
                unread = [x for x in nets if x not in read]
                while len(named) < width:
                    x = rng.choice(unread if unread and rng.random() < 0.5 else nets[-window:])
                    if x not in named:
                        named.append(x)
                read.update(named)
                nets.append(net.cell(rng.choice((AND, OR, NAND, NOR, XOR, XNOR)), *named))
            last = sorted(nets, key=lambda x: (x in read, -x))[:inputs]
            front = [net.cell(rng.choice((DFF, DFF, DFF, DFFN)), x) for x in last] if stage < stages - 1 else last
        outputs += front
    return net.plain_file(outputs)


def redundant(seed, window):
    """1,024 cells, 4,096 pins: random gates over 16 inputs with any of the last nets, also twice; 64 outputs."""
    rng = random.Random(seed)
    net, widths = Draft(16), [2] * 1024
    while sum(widths) < 4096 - 64:
        at = rng.randrange(1024)
        widths[at] = min(8, widths[at] + 1)
    for width in widths:
        nets = range(net.inputs + len(net.cells))[-window:]
        net.cell(rng.choice((AND, OR, NAND, NOR, XOR)), *rng.choices(nets, k=width))
    return net.plain_file(range(1024 + 16 - 64, 1024 + 16))


def pipeline():
    """255 flip-flops in a row; seven gates between them take in an input each, so that there are 8 blocks."""
    net = Draft(8)
    last = net.chain([DFF] * 31, 0)
    for k in range(1, 8):
        last = net.chain([DFF] * 32, net.cell((XOR, AND, OR)[k % 3], last, k))
    return net.plain_file([last])


def c17():
    net = Draft(5)
    a, b = net.cell(NAND, 0, 2), net.cell(NAND, 2, 3)
    c, d = net.cell(NAND, 1, b), net.cell(NAND, b, 4)
    return net.plain_file([net.cell(NAND, a, c), net.cell(NAND, c, d)])


def adder():
    """4 by 4 bits with a carry, flip-flops at the inputs and the outputs."""
    net = Draft(9)
    held = [net.cell(DFF, i) for i in range(9)]
    carry, outputs = held[8], []
    for k in range(4):
        total, carry = add_up(net, held[k], held[4 + k], carry)
        outputs.append(net.cell(DFF, total))
    return net.plain_file(outputs + [net.cell(DFF, carry)])


def decoder():
    """3 to 8 with three enables, two of them inverted."""
    net = Draft(6)
    low = [net.cell(NOT, i) for i in range(3)]
    high = [net.cell(NOT, x) for x in low]
    enable = net.cell(AND, net.cell(NOT, 3), net.cell(NOT, 4), 5)
    return net.plain_file([net.cell(NAND, enable, *((high if k >> i & 1 else low)[i] for i in range(3))) for k in range(8)])


def parity():
    """The parity of sixteen inputs."""
    net, nets = Draft(16), list(range(16))
    while len(nets) > 1:
        nets = nets[2:] + [net.cell(XOR, *nets[:2])]
    return net.plain_file(nets)


def two_depths():
    """An input and the same input a clock later, in class 2: differences of four bits, and whether there is one."""
    net = Draft(4)
    changed = [net.cell(XOR, i, net.cell(DFF, i)) for i in range(4)]
    return net.plain_file(changed + [net.cell(OR, *changed)])


CASES = {
    "mul8": ("pipelined 8x8 multiplier", multiplier),
    "rand1000": ("random, 1,000 cells", lambda: in_groups(2, 5, 12, 2, 940, 3, 60)),
    "rand1000r": ("random, half untestable", lambda: in_groups(16, 4, 14, 1, 952, 4, 40)),
    "full": ("1,024 cells and 4,096 pins, nearly all untestable", lambda: redundant(223, 60)),
    "pipe255": ("255 flip-flops in a row", pipeline),
    "c17": ("c17", c17),
    "adder": ("4-bit adder between flip-flops", adder),
    "decoder": ("3-to-8 decoder", decoder),
    "parity": ("parity of 16", parity),
    "changes": ("changes of 4 bits, class 2", two_depths),
}
