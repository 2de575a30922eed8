"""Counting cases: what passed, what failed, and what was hit."""

import time
from collections import Counter

FAILURES_PRINTED = 5


class Tally:
    """The count of one part. Failures are printed in full, the first few of them."""

    def __init__(self, name):
        self.name = name
        self.passed = 0
        self.failed = 0
        self.hits = Counter()
        self.began = time.monotonic()

    def fail(self, text):
        self.failed += 1
        if self.failed <= FAILURES_PRINTED:
            print(f"FAILED in {self.name}: {text}", flush=True)

    def case(self, good, text):
        """Counts a case; `text` is called for what to print if it failed."""
        if good:
            self.passed += 1
        else:
            self.fail(text())

    def equal(self, wanted, got, text):
        self.case(wanted == got, lambda: f"{text()}\n  wanted {wanted}\n  got    {got}")

    def hit(self, *names):
        self.hits.update(names)

    def must_hit(self, names):
        """A case for each name: that the generators still bring it."""
        for name in names:
            self.case(self.hits[name] > 0, lambda: f"nothing that was drawn hit: {name}")

    def line(self):
        """The line of the part."""
        seconds = time.monotonic() - self.began
        return f"{self.name}: {self.passed} passed, {self.failed} failed ({seconds:.1f} s)"
