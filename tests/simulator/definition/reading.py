"""Reading by definition: the file is laid out as fields, then the table's complaints are read off them."""

from collections import deque

from simulator.definition.numbers import Numbered
from simulator.reading import Refused

SIZES = {"inputs": 2, "cells": 2, "outputs": 2, "pad": 1, "kind": 1, "pin count": 1, "net": 2}
LIMITS = {"inputs": (1, 64), "cells": (0, 1024), "outputs": (1, 64)}
PINS_OF_KIND = {0: (1, 1), 1: (1, 1), 8: (1, 1), 9: (1, 1)} | {kind: (2, 8) for kind in range(2, 8)}


def follows(what, value):
    """The fields that a field announces."""
    match what:
        case "inputs":
            return ["pad"] * value + ["cells"]
        case "cells":
            return ["kind"] * value + ["outputs"]
        case "kind":
            return ["pin count"]
        case "pin count":
            return ["net"] * value
        case "outputs":
            return ["pad", "net"] * value
    return []


def lay_out(data):
    """The fields of a file as (what, offset, value), unjudged; the last has no value if it is cut."""
    fields, coming, at = [], deque(["inputs"]), 0
    while coming:
        what = coming.popleft()
        part = data[at:at + SIZES[what]]
        if len(part) < SIZES[what]:
            return fields + [(what, at, None)]
        value = int.from_bytes(part, "little")
        fields.append((what, at, value))
        coming.extendleft(reversed(follows(what, value)))
        at += SIZES[what]
    return fields


def complaints(data, fields):
    """All that the table has against the fields, in the order of the file and, in a field, of precedence."""
    nets = sum(value or 0 for what, _, value in fields if what in ("inputs", "cells"))
    pads, pins, kind = set(), 0, None
    for what, at, value in fields:
        if value is None:
            yield 1, len(data)
            return
        if what in LIMITS and not LIMITS[what][0] <= value <= LIMITS[what][1]:
            yield 2, at
        if what == "pad" and (value == 0 or value in pads):
            yield 3, at
        if what == "kind" and value not in PINS_OF_KIND:
            yield 4, at
        if what == "pin count" and kind in PINS_OF_KIND and value not in range(
                PINS_OF_KIND[kind][0], PINS_OF_KIND[kind][1] + 1):
            yield 5, at
        if what == "net" and value >= nets:
            yield 6, at
        if what in ("pin count", "outputs"):
            pins += value
            if pins > 4096:
                yield 7, at
        if what == "pad":
            pads.add(value)
        if what == "kind":
            kind = value
    end = fields[-1][1] + SIZES[fields[-1][0]]
    if end < len(data):
        yield 8, end


def read(data):
    """The netlist of a file, or the first complaint about it."""
    fields = lay_out(data)
    for number, place in complaints(data, fields):
        raise Refused(number, place)
    values = {what: [value for name, _, value in fields if name == what] for what in SIZES}
    inputs, nets = values["inputs"][0], iter(values["net"])
    cells = tuple(tuple(next(nets) for _ in range(count)) for count in values["pin count"])
    return Numbered(tuple(values["pad"][:inputs]), tuple(values["kind"]), cells,
                    tuple(values["pad"][inputs:]), tuple(nets))
