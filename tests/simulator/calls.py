"""The other end of the program `calls`: calls as bytes, and the line that a mode answers to a call."""

from dataclasses import dataclass
from io import BytesIO

from simulator.faults import Fault, Found
from simulator.reading import Refused

READ, CLASS, TRANSFORM, SET, READ_BACK, CHECK, SEARCH = range(7)
FIELDS = {
    READ: (),
    CLASS: (),
    TRANSFORM: ("room",),
    SET: ("output", "pattern", "room"),
    READ_BACK: ("output", "play", "clock", "room"),
    CHECK: ("sort", "number", "stuck", "play"),
    SEARCH: ("sort", "number", "stuck", "room"),
}
STRINGS = ("file", "pattern", "play")  # the other fields are numbers
NAMES = {READ: "read", CLASS: "class", TRANSFORM: "transform", SET: "set", READ_BACK: "read back",
         CHECK: "check", SEARCH: "search"}
FILL = 238
LONGEST = 65536  # of a string or a buffer in a call


@dataclass(frozen=True)
class Call:
    """A call: its code, the netlist file, and the other fields of its code in order."""

    code: int
    file: bytes
    fields: tuple = ()

    def __getattr__(self, name):
        names = FIELDS[self.code]
        if name not in names:
            raise AttributeError(name)
        return self.fields[names.index(name)]

    @property
    def fault(self):
        return Fault(self.sort, self.number, self.stuck)

    def __str__(self):
        shown = (f"{name} {value.hex() or '-' if isinstance(value, bytes) else value}"
                 for name, value in zip(FIELDS[self.code], self.fields))
        return " ".join((NAMES[self.code], *shown))


def four_bytes(number):
    return number.to_bytes(4, "little")


def encode(call):
    """The bytes of a call."""
    parts = [bytes((call.code,)), four_bytes(len(call.file)), call.file]
    for value in call.fields:
        if isinstance(value, bytes):
            parts.append(four_bytes(len(value)))
            parts.append(value)
        else:
            parts.append(four_bytes(value))
    return b"".join(parts)


def take(stream, count):
    """So many bytes of a call; ValueError if it is cut before them."""
    part = stream.read(count)
    if len(part) < count:
        raise ValueError("cut inside a call")
    return part


def take_number(stream, most=2**32 - 1):
    """A number of a call; ValueError if it is beyond what the call may have."""
    number = int.from_bytes(take(stream, 4), "little")
    if number > most:
        raise ValueError(f"a length of {number} in a call")
    return number


def take_field(stream, name):
    if name in STRINGS:
        return take(stream, take_number(stream, LONGEST))
    return take_number(stream, LONGEST) if name == "room" else take_number(stream)


def decode(data):
    """The calls that some bytes are, in order; ValueError from where they are none."""
    stream = BytesIO(data)
    while first := stream.read(1):
        code = first[0]
        if code not in FIELDS:
            raise ValueError(f"no call has code {code}")
        file = take_field(stream, "file")
        yield Call(code, file, tuple(take_field(stream, name) for name in FIELDS[code]))


def hex_of(data):
    return bytes(data).hex() or "-"


def taken_line(netlist):
    nets = b"".join(net.to_bytes(2, "little") for net in netlist.named())
    strings = (bytes(netlist.input_pads + netlist.output_pads), bytes(netlist.kinds),
               bytes(map(len, netlist.cells)), nets)
    return (f"taken in {netlist.inputs} cells {len(netlist.cells)} out {len(netlist.outputs)} "
            f"pins {netlist.pins} " + " ".join(map(hex_of, strings)))


def check_line(shown):
    return "not seen" if shown is None else f"shown clock {shown[0]} output {shown[1]}"


def search_line(found):
    if isinstance(found, Found):
        return f"found out {found.output} pattern {found.pattern} tries {found.tries}"
    return f"untestable tries {found.tries}"


def line_without_buffer(call, mode, buffer):
    """The part of the answer that stands before the buffer."""
    if call.code == READ:
        return taken_line(mode.read(call.file))
    if call.code == CLASS:
        return "class {} depth {} blocks {}".format(*mode.class_of(call.file))
    if call.code == TRANSFORM:
        return f"written {mode.transform(call.file, buffer)}"
    if call.code == SET:
        return f"set {mode.set_pattern(call.file, call.output, call.pattern, buffer)}"
    if call.code == READ_BACK:
        return f"read {mode.read_back(call.file, call.output, call.play, call.clock, buffer)}"
    if call.code == CHECK:
        return check_line(mode.check_play(call.file, call.fault, call.play))
    return search_line(mode.search(call.file, call.fault, buffer))


def answer(call, mode):
    """The line of a call, with the whole lent buffer where there is one."""
    lent = "room" in FIELDS[call.code]
    buffer = bytearray([FILL]) * call.room if lent else bytearray()
    try:
        line = line_without_buffer(call, mode, buffer)
    except Refused as refusal:
        line = f"refused {refusal.number} at {refusal.place}"
    return f"{line} {hex_of(buffer)}" if lent else line
