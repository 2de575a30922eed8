"""The two modes, each as the seven calls and the listing."""

from dataclasses import dataclass
from typing import Callable

from simulator import checking, clocks, listing, reading, search, structure, transform
from simulator.definition import calls as definition


@dataclass(frozen=True)
class Mode:
    read: Callable
    class_of: Callable
    transform: Callable
    set_pattern: Callable
    read_back: Callable
    check_play: Callable
    search: Callable
    listing: Callable


FIRST = Mode(reading.read, structure.class_of, transform.transform, clocks.set_pattern, clocks.read_back,
             checking.check_play, search.search, listing.listing)
BY_DEFINITION = Mode(definition.read, definition.class_of, definition.transform, definition.set_pattern,
                     definition.read_back, definition.check_play, definition.search, definition.listing)
