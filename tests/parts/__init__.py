"""The parts of the run, each a function from volumes to a tally."""
