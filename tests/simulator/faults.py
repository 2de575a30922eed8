"""Faults: a site, either net or pin, with a stuck value; and what the search answers."""

from dataclasses import dataclass

from simulator.reading import Refused

NET, PIN = 0, 1


@dataclass(frozen=True)
class Fault:
    sort: int  # NET or PIN
    number: int
    stuck: int

    def __str__(self):
        return f"{'np'[self.sort]}{self.number}/{self.stuck}"


@dataclass(frozen=True)
class Found:
    output: int
    pattern: int
    tries: int


@dataclass(frozen=True)
class Untestable:
    tries: int


def need_site(chip, fault):
    """Refusal 12."""
    known = chip.netlist.nets if fault.sort == NET else chip.netlist.pins
    if fault.number >= known or fault.stuck > 1:
        raise Refused(12, 0)


def all_faults(netlist):
    """Every fault in the order of the listing."""
    for sort, count in ((NET, netlist.nets), (PIN, netlist.pins)):
        for number in range(count):
            for stuck in (0, 1):
                yield Fault(sort, number, stuck)
