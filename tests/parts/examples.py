"""The worked examples of 01, of W2 what was wrong told apart, and P8 as W3 has it, in both modes.

Every line and text that is wanted stands here as 01 and 02 give it, or is worked out by hand from what they say.
"""

from itertools import product

from simulator.calls import CHECK, CLASS, FIELDS, READ, READ_BACK, SEARCH, SET, TRANSFORM, Call, answer
from simulator.definition import calls as definition
from simulator.faults import NET, PIN, Fault
from simulator.generators import Draft
from simulator.modes import BY_DEFINITION, FIRST
from simulator.reading import AND, BUF, DFF, NOT, OR, XOR, file_of
from simulator.tally import Tally

LISTING_FILE = bytes.fromhex("01 00 01 02 00 08 01 00 00 06 02 00 00 01 00 01 00 02 02 00")
LISTING_TEXT = """\
in 1 cells 2 out 1 depth 1 class 2 blocks 2
n0/0 out 0 tries 2 play 1 0
n0/1 out 0 tries 2 play 1 0
n1/0 out 0 tries 2 play 1 0
n1/1 out 0 tries 1 play 0 0
n2/0 out 0 tries 2 play 1 0
n2/1 out 0 tries 1 play 0 0
p0/0 out 0 tries 2 play 1 0
p0/1 out 0 tries 1 play 0 0
p1/0 out 0 tries 3 play 0 1
p1/1 out 0 tries 1 play 0 0
p2/0 out 0 tries 2 play 1 0
p2/1 out 0 tries 1 play 0 0
p3/0 out 0 tries 2 play 1 0
p3/1 out 0 tries 1 play 0 0
"""
TRANSFORMED = "02 00 01 02 02 00 00 01 00 00 06 02 01 00 02 00 01 00 03 03 00".replace(" ", "")

P5 = file_of(1, [], [0])
P5_TEXT = """\
in 1 cells 0 out 1 depth 0 class 3 blocks 1
n0/0 out 0 tries 2 play 1
n0/1 out 0 tries 1 play 0
p0/0 out 0 tries 2 play 1
p0/1 out 0 tries 1 play 0
"""
P6 = file_of(1, [(NOT, 0), (AND, 0, 1)], [2])
P6_TEXT = """\
in 1 cells 2 out 1 depth 0 class 3 blocks 1
n0/0 untestable tries 2
n0/1 untestable tries 2
n1/0 untestable tries 2
n1/1 out 0 tries 2 play 1
n2/0 untestable tries 2
n2/1 out 0 tries 1 play 0
p0/0 out 0 tries 2 play 1
p0/1 untestable tries 2
p1/0 untestable tries 2
p1/1 out 0 tries 1 play 0
p2/0 untestable tries 2
p2/1 out 0 tries 2 play 1
p3/0 untestable tries 2
p3/1 out 0 tries 1 play 0
"""
P7 = file_of(1, [(DFF, 0)], [1, 0])
P7_TEXT = """\
in 1 cells 1 out 2 depth 1 class 3 blocks 2
n0/0 out 0 tries 2 play 1 0
n0/1 out 0 tries 1 play 0 0
n1/0 out 0 tries 2 play 1 0
n1/1 out 0 tries 1 play 0 0
p0/0 out 0 tries 2 play 1 0
p0/1 out 0 tries 1 play 0 0
p1/0 out 0 tries 2 play 1 0
p1/1 out 0 tries 1 play 0 0
p2/0 out 1 tries 2 play 0 1
p2/1 out 1 tries 1 play 0 0
"""
P8 = file_of(1, [(BUF, 0), (DFF, 1), (XOR, 1, 2)], [3])
P8_TRANSFORMED = "0200 01 02 0400 0001 0000 0001 0200 0602 0500 0300 0001 0100 0100 03 0400".replace(" ", "")
P8_TEXT = """\
in 1 cells 3 out 1 depth 1 class 2 blocks 2
n0/0 out 0 tries 2 play 1 0
n0/1 out 0 tries 2 play 1 0
n1/0 out 0 tries 2 play 1 0
n1/1 out 0 tries 2 play 1 0
n2/0 out 0 tries 2 play 1 0
n2/1 out 0 tries 1 play 0 0
n3/0 out 0 tries 2 play 1 0
n3/1 out 0 tries 1 play 0 0
p0/0 out 0 tries 2 play 1 0
p0/1 out 0 tries 2 play 1 0
p1/0 out 0 tries 2 play 1 0
p1/1 out 0 tries 1 play 0 0
p2/0 out 0 tries 3 play 0 1
p2/1 out 0 tries 1 play 0 0
p3/0 out 0 tries 2 play 1 0
p3/1 out 0 tries 1 play 0 0
p4/0 out 0 tries 2 play 1 0
p4/1 out 0 tries 1 play 0 0
"""
NOT_P8 = file_of(1, [(NOT, 0), (DFF, 1), (XOR, 1, 2)], [3])  # a NOT is no pad buffer, so this is class 1
P9 = file_of(1, [(DFF, 1)], [1])
P10 = b""
PAIR = file_of(2, [(AND, 0, 1)], [2])

# Fields with nothing wrong in them for a call on a file of one input and one output, with three bytes lent.
WELL_FORMED = {"output": 0, "pattern": b"\0", "play": b"\0", "clock": 0, "sort": NET, "number": 0, "stuck": 0,
               "room": 3}
OPENING = tuple(code for code in FIELDS if code != READ)  # the codes that refuse loops and depths


def chain_of(length):
    """Flip-flops in a row from the input to the output."""
    return file_of(1, [(DFF, k) for k in range(length)], [length])


def cone_of(inputs):
    """So many inputs into two ANDs, those into an OR."""
    draft = Draft(inputs)
    low = draft.cell(AND, *range(8))
    high = draft.cell(AND, *range(8, 16))
    top = draft.cell(OR, low, high, *range(16, inputs))
    return draft.plain_file([top])


def search(file, sort, number, stuck, room):
    return Call(SEARCH, file, (sort, number, stuck, room))


def listed(text):
    """The faults of a listing's text, each as sort, number and stuck value, with the words behind it."""
    for line in text.splitlines()[1:]:
        site, *words = line.split()
        number, stuck = map(int, site[1:].split("/"))
        yield ("np".index(site[0]), number, stuck), words


def searched(name, file, text):
    """What a text says of each fault, as lines of the search and, of the play found, of checking.

    It is for netlists of one input on which each fault is found at the first output that is walked, if at any: then
    the number of its pattern is one less than its tries.
    """
    depth = int(text.split()[7])
    for fault, words in listed(text):
        call = search(file, *fault, depth + 1)
        if words[0] == "untestable":
            yield name, call, f"untestable tries {words[2]} " + "ee" * (depth + 1)
        else:
            play = bytes(map(int, words[5:]))
            yield name, call, f"found out {words[1]} pattern {int(words[3]) - 1} tries {words[3]} {play.hex()}"
            yield name, Call(CHECK, file, (*fault, play)), f"shown clock {depth} output {words[1]}"


def refused_by(codes, file, line):
    """A call of each of some codes that has nothing wrong but its file; the bytes lent stay as they were."""
    for code in codes:
        fields = tuple(WELL_FORMED[name] for name in FIELDS[code])
        yield Call(code, file, fields), line + " eeeeee" * ("room" in FIELDS[code])


def known_lines():
    """The calls with known answers, each with the name of its circuit or rule."""
    yield "P1", Call(CLASS, LISTING_FILE), "class 2 depth 1 blocks 2"
    yield "P1", Call(READ, LISTING_FILE), "taken in 1 cells 2 out 1 pins 4 0102 0806 0102 0000000001000200"
    yield from searched("P1", LISTING_FILE, LISTING_TEXT)
    yield "P2", Call(SET, LISTING_FILE, (0, b"\1\0", 2)), "set 2 0100"
    yield "P3", Call(TRANSFORM, LISTING_FILE, (21,)), "written 21 " + TRANSFORMED
    yield "P3", Call(TRANSFORM, bytes.fromhex(TRANSFORMED), (21,)), "written 21 " + TRANSFORMED
    for (fault, _), play in product(listed(LISTING_TEXT), (b"\0", b"\1")):
        yield "P4", Call(CHECK, LISTING_FILE, (*fault, play)), "not seen"
    yield "P5", Call(CLASS, P5), "class 3 depth 0 blocks 1"
    yield "P5", search(P5, NET, 0, 0, 1), "found out 0 pattern 1 tries 2 01"
    yield "P5", Call(CHECK, P5, (NET, 0, 0, b"\1")), "shown clock 0 output 0"
    yield from searched("P5", P5, P5_TEXT)
    yield "P6", Call(CLASS, P6), "class 3 depth 0 blocks 1"
    yield "P6", search(P6, NET, 2, 0, 1), "untestable tries 2 ee"
    yield from searched("P6", P6, P6_TEXT)
    yield from known_lines_of_p7()
    yield from known_lines_of_p8()
    yield "P9", Call(READ, P9), "taken in 1 cells 1 out 1 pins 2 0102 08 01 01000100"
    yield from (("P9", *known) for known in refused_by(OPENING, P9, "refused 9 at 1"))
    yield from (("P10", *known) for known in refused_by(FIELDS, P10, "refused 1 at 0"))
    yield from known_lines_of_chains()
    yield "sixteen", Call(CLASS, cone_of(16)), "class 3 depth 0 blocks 16"
    yield "sixteen", search(cone_of(16), NET, 18, 0, 16), "found out 0 pattern 255 tries 256 " + "01" * 8 + "00" * 8
    yield "seventeen", Call(CLASS, cone_of(17)), "class 3 depth 0 blocks 17"
    yield "seventeen", search(cone_of(17), NET, 19, 0, 17), "refused 16 at 0 " + "ee" * 17
    yield from (("W2", *known) for known in told_apart())


def known_lines_of_p7():
    """One block for each output: its value is put on clock 0 for output 0, and on clock 1 for output 1.

    A play that is set for one output reads back 0 for the other, and does not show the fault of the other's pin.
    """
    yield "P7", Call(CLASS, P7), "class 3 depth 1 blocks 2"
    yield "P7", Call(SET, P7, (0, b"\1\1", 2)), "set 2 0100"
    yield "P7", Call(SET, P7, (1, b"\1\1", 2)), "set 2 0001"
    for play, z, line in ((b"\1\0", 0, "read 2 0100"), (b"\1\0", 1, "read 2 0000"),
                          (b"\0\1", 0, "read 2 0000"), (b"\0\1", 1, "read 2 0001")):
        yield "P7", Call(READ_BACK, P7, (z, play, 1, 2)), line
    yield "P7", Call(CHECK, P7, (PIN, 1, 0, b"\0\1")), "not seen"
    yield "P7", Call(CHECK, P7, (PIN, 2, 0, b"\1\0")), "not seen"
    yield from searched("P7", P7, P7_TEXT)


def known_lines_of_p8():
    """The branches of x are p1, into the flip-flop, and p2, into the XOR: two blocks, the second with a copy."""
    yield "P8", Call(CLASS, P8), "class 2 depth 1 blocks 2"
    yield "P8", Call(TRANSFORM, P8, (29,)), "written 29 " + P8_TRANSFORMED
    yield "P8", Call(TRANSFORM, P8, (28,)), "refused 15 at 29 " + "ee" * 28
    yield "P8", Call(SET, P8, (0, b"\1\0", 2)), "set 2 0100"
    yield "P8", Call(READ_BACK, P8, (0, b"\0\1\0", 2, 2)), "read 2 0100"
    yield from searched("P8", P8, P8_TEXT)
    yield "P8", Call(CLASS, NOT_P8), "class 1 depth 1 blocks 1"
    for fault, _ in listed(P8_TEXT):
        yield "P8", search(NOT_P8, *fault, 2), "refused 11 at 0 eeee"


def known_lines_of_chains():
    """A chain of 255 is taken by every call, one of 256 by reading only."""
    chain, play, plain = chain_of(255), b"\1" + bytes(255), file_of(1, [(BUF, k) for k in range(255)], [255])
    yield "255 flip-flops", Call(CLASS, chain), "class 3 depth 255 blocks 1"
    yield "255 flip-flops", Call(TRANSFORM, chain, (1030,)), "written 1030 " + plain.hex()
    yield "255 flip-flops", Call(SET, chain, (0, b"\1", 256)), "set 256 " + play.hex()
    yield "255 flip-flops", Call(READ_BACK, chain, (0, play, 255, 1)), "read 1 01"
    yield "255 flip-flops", Call(CHECK, chain, (NET, 0, 0, play)), "shown clock 255 output 0"
    yield "255 flip-flops", search(chain, NET, 0, 0, 256), "found out 0 pattern 1 tries 2 " + play.hex()
    yield from (("256 flip-flops", *known) for known in refused_by(OPENING, chain_of(256), "refused 10 at 0"))


def told_apart():
    """Calls with a wrong length (14), a byte above 1 (18) or a wrong clock (19), alone and with others of these.

    The listing's circuit has one input, two blocks and d 1; P8 with a NOT is class 1; the pair has two inputs and d 0.
    """
    for fields, line in (
            ((0, b"\1", 2), "refused 14 at 1 eeee"),
            ((0, b"", 0), "refused 14 at 0 -"),
            ((0, b"\1\0\2", 1), "refused 14 at 3 ee"),
            ((0, b"\0\2", 1), "refused 18 at 1 ee"),
            ((0, b"\377\2", 2), "refused 18 at 0 eeee"),
            ((1, b"\2", 0), "refused 13 at 0 -")):
        yield Call(SET, LISTING_FILE, fields), line
    yield Call(SET, NOT_P8, (0, b"\2\2", 0)), "refused 11 at 0 -"
    for fields, line in (
            ((0, b"\1\0", 1, 3), "read 2 0100ee"),
            ((0, b"\1\0", 1, 1), "refused 15 at 2 ee"),
            ((0, b"\1\0", 0, 1), "refused 19 at 2 ee"),
            ((0, b"\1\0", 2, 2), "refused 19 at 2 eeee"),
            ((0, b"\1\0\1", 0, 2), "refused 19 at 3 eeee"),
            ((0, b"\1", 1, 2), "refused 19 at 1 eeee"),
            ((0, b"", 1, 2), "refused 19 at 0 eeee"),
            ((0, b"", 0, 0), "refused 19 at 0 -"),
            ((0, b"\0\1\2", 0, 0), "refused 18 at 2 -"),
            ((0, bytes(1024), 1024, 2), "refused 19 at 1024 eeee"),
            ((0, bytes(1024), 1023, 2), "read 2 0000"),
            ((0, bytes(1023) + b"\2", 1024, 2), "refused 18 at 1023 eeee"),
            ((0, b"\2" + bytes(1024), 0, 0), "refused 14 at 1025 -"),
            ((1, b"\2", 0, 0), "refused 13 at 0 -")):
        yield Call(READ_BACK, LISTING_FILE, fields), line
    yield Call(READ_BACK, NOT_P8, (0, b"\2", 5, 0)), "refused 11 at 0 -"
    yield Call(READ_BACK, PAIR, (0, b"\0\0\2", 5, 2)), "refused 14 at 3 eeee"
    yield Call(READ_BACK, PAIR, (0, bytes(2050), 0, 2)), "refused 14 at 2050 eeee"
    for fields, line in (
            ((NET, 0, 0, b"\1\1"), "shown clock 0 output 0"),
            ((NET, 0, 0, b"\1\1\2"), "refused 14 at 3"),
            ((NET, 0, 0, b"\2" + bytes(2049)), "refused 14 at 2050"),
            ((NET, 0, 0, b"\1\1\1\2\2\0"), "refused 18 at 3"),
            ((NET, 3, 0, b"\2"), "refused 12 at 0"),
            ((NET, 2, 2, b"\2\2"), "refused 12 at 0")):
        yield Call(CHECK, PAIR, fields), line


def even_text(sizes, sites, words):
    """A text with so many nets and as many pins, in which the pin of a number has the words that the net has."""
    lines = [sizes] + [f"{letter}{number}/{stuck} {words(number, stuck)}"
                       for letter in "np" for number in range(sites) for stuck in (0, 1)]
    return "".join(line + "\n" for line in lines)


def chain_text():
    """The text of 255 flip-flops: x 1 shows what is stuck at 0, and x 0 what is stuck at 1."""
    return even_text("in 1 cells 255 out 1 depth 255 class 3 blocks 1", 256,
                     lambda _, stuck: f"out 0 tries {2 - stuck} play {1 - stuck}" + " 0" * 255)


def cone_text():
    """The text of the cone of sixteen: either AND is shown by ones into it and zeros into the other.

    The nets 16 and 17 are those of the ANDs, 18 is that of the OR; the pins that name them have the same numbers.
    """
    def words(number, stuck):
        ones = 0xFF00 if number in (*range(8, 16), 17) else 0xFF
        pattern = ones if not stuck else ones - 2 ** number if number < 16 else 0
        digits = "".join(str(pattern >> i & 1) for i in range(16))
        return f"out 0 tries {pattern + 1} play {digits}"

    return even_text("in 16 cells 3 out 1 depth 0 class 3 blocks 16", 19, words)


def known_texts():
    """The files with known listings."""
    return {LISTING_FILE: LISTING_TEXT, P5: P5_TEXT, P6: P6_TEXT, P7: P7_TEXT, P8: P8_TEXT, NOT_P8: "refused 11 at 0\n",
            P9: "refused 9 at 1\n", P10: "refused 1 at 0\n", chain_of(255): chain_text(),
            chain_of(256): "refused 10 at 0\n", cone_of(16): cone_text(),
            cone_of(17): even_text("in 17 cells 3 out 1 depth 0 class 3 blocks 17", 20, lambda *_: "refused 16 at 0")}


def modes(too_large):
    """Both modes, or the first only for what is too large for the second."""
    return (FIRST,) if too_large else (FIRST, BY_DEFINITION)


def parts(_):
    tally = Tally("worked examples, in both modes")
    for name, call, line in known_lines():
        for mode in modes(call.code == CHECK and call.file == chain_of(255)):
            tally.equal(line, answer(call, mode), lambda: f"{name}: netlist {call.file.hex()}\n  call   {call}")
    for file, text in known_texts().items():
        for mode in modes(file == cone_of(16)):
            tally.equal(text, mode.listing(file), lambda: f"netlist {file.hex()}\n  listing")
    for fault, words in listed(P6_TEXT):
        tally.equal(words[0] == "out", definition.some_play_shows(P6, Fault(*fault)),
                    lambda: f"P6: some play shows {Fault(*fault)}")
    yield tally
