"""Reading a netlist file front to back: refusals 1 to 8."""

from dataclasses import dataclass

MOST_INPUTS, MOST_CELLS, MOST_OUTPUTS, MOST_PINS = 64, 1024, 64, 4096
BUF, NOT, AND, OR, NAND, NOR, XOR, XNOR, DFF, DFFN = range(10)
ONE_PIN = (BUF, NOT, DFF, DFFN)


class Refused(Exception):
    """A refusal: its number and its place."""

    def __init__(self, number, place):
        super().__init__(number, place)
        self.number = number
        self.place = place


@dataclass(frozen=True)
class Netlist:
    """What a file says: pads, kinds, and the net that each pin names."""

    input_pads: tuple
    kinds: tuple
    cells: tuple  # for each cell the nets of its pins
    output_pads: tuple
    outputs: tuple  # the net of each output

    @property
    def inputs(self):
        return len(self.input_pads)

    @property
    def nets(self):
        return len(self.input_pads) + len(self.cells)

    @property
    def pins(self):
        return sum(map(len, self.cells)) + len(self.outputs)

    def named(self):
        """The net that each pin names, in the order of the pins."""
        return [net for cell in self.cells for net in cell] + list(self.outputs)


class Cursor:
    """A place in the file that moves on field by field; a field that is cut is refusal 1."""

    def __init__(self, data):
        self.data = data
        self.at = 0

    def byte(self):
        if self.at >= len(self.data):
            raise Refused(1, len(self.data))
        self.at += 1
        return self.data[self.at - 1]

    def number(self):
        if self.at + 2 > len(self.data):
            raise Refused(1, len(self.data))
        self.at += 2
        return self.data[self.at - 2] + 256 * self.data[self.at - 1]


def read(data):
    """The netlist of a file, or the first refusal in it."""
    cursor = Cursor(data)
    used = set()

    def count(least, most):
        value = cursor.number()
        if not least <= value <= most:
            raise Refused(2, cursor.at - 2)
        return value

    def pad():
        value = cursor.byte()
        if value == 0 or value in used:
            raise Refused(3, cursor.at - 1)
        used.add(value)
        return value

    def net():
        value = cursor.number()
        if value >= inputs + cells:
            raise Refused(6, cursor.at - 2)
        return value

    inputs = count(1, MOST_INPUTS)
    input_pads = tuple(pad() for _ in range(inputs))
    cells = count(0, MOST_CELLS)
    kinds, named, pins = [], [], 0
    for _ in range(cells):
        kind = cursor.byte()
        if kind > DFFN:
            raise Refused(4, cursor.at - 1)
        width = cursor.byte()
        if not (width == 1 if kind in ONE_PIN else 2 <= width <= 8):
            raise Refused(5, cursor.at - 1)
        pins += width
        if pins > MOST_PINS:
            raise Refused(7, cursor.at - 1)
        kinds.append(kind)
        named.append(tuple(net() for _ in range(width)))
    outputs = count(1, MOST_OUTPUTS)
    if pins + outputs > MOST_PINS:
        raise Refused(7, cursor.at - 2)
    output_pads, output_nets = [], []
    for _ in range(outputs):
        output_pads.append(pad())
        output_nets.append(net())
    if cursor.at < len(data):
        raise Refused(8, cursor.at)
    return Netlist(input_pads, tuple(kinds), tuple(named), tuple(output_pads), tuple(output_nets))


def two_bytes(number):
    return bytes((number % 256, number // 256))


def write(netlist):
    """The file of a netlist, whether or not reading would take it."""
    parts = [two_bytes(len(netlist.input_pads)), bytes(netlist.input_pads), two_bytes(len(netlist.cells))]
    for kind, nets in zip(netlist.kinds, netlist.cells):
        parts.append(bytes((kind, len(nets))))
        parts.extend(map(two_bytes, nets))
    parts.append(two_bytes(len(netlist.outputs)))
    for pad, net in zip(netlist.output_pads, netlist.outputs):
        parts.append(bytes((pad,)) + two_bytes(net))
    return b"".join(parts)


def file_of(inputs, cells, outputs):
    """A file with pads in order; cells as (kind, net, net ...), outputs as nets."""
    return write(Netlist(tuple(range(1, inputs + 1)), tuple(cell[0] for cell in cells), tuple(tuple(cell[1:]) for cell in cells),
                         tuple(range(inputs + 1, inputs + 1 + len(outputs))), tuple(outputs)))
