"""Running parts, each in a process of its own: one that raises or dies is a failure, and the others go on."""

import multiprocessing
import os
import sys
from multiprocessing.connection import wait

FORK = multiprocessing.get_context("fork")
SECONDS = 1200  # in which some part must end; a part takes some minutes at the most


def work(part, writer):
    """Hands over the line and the counts of each tally of a part, once all are there."""
    writer.send([(tally.line(), tally.passed, tally.failed) for tally in part()])


def begin(name, part):
    """The process of a part, and the end of the pipe from which its results are read.

    The other end is open in that process alone, so that the pipe ends with it.
    """
    reader, writer = FORK.Pipe(duplex=False)
    process = FORK.Process(target=work, args=(part, writer), name=name, daemon=True)
    process.start()
    writer.close()
    return process, reader


def collect(process, reader):
    """The results of a part; a process that ended without handing any over is a failure."""
    try:
        return reader.recv()
    except (EOFError, OSError):
        process.join()
    code = process.exitcode
    how = f"by signal {-code}" if code < 0 else f"with status {code}"
    return [(f"FAILED: the part {process.name} was not done when its process ended {how}", 0, 1)]


def results(parts, most, seconds):
    """The results of some parts, given by name, as they come; so many parts are at work at a time. Parts that are at work when
    none has ended for so many seconds are killed."""
    waiting, at_work = list(parts.items()), {}
    while waiting or at_work:
        while waiting and len(at_work) < most:
            process, reader = begin(*waiting.pop(0))
            at_work[reader] = process
        ended = wait(list(at_work), seconds)
        if not ended:
            for process in at_work.values():
                process.kill()
        for reader in ended:
            yield from collect(at_work.pop(reader), reader)


def run_all(parts, most=os.cpu_count() or 1, seconds=SECONDS):
    """Runs parts, prints their lines and at last `N passed, M failed`; returns 0 if nothing failed, else 1."""
    sys.stdout.reconfigure(line_buffering=False, write_through=False)  # so no line is written into another's
    passed = failed = 0
    for line, good, bad in results(parts, most, seconds):
        print(line, flush=True)
        passed += good
        failed += bad
    print(f"{passed} passed, {failed} failed", flush=True)
    return 0 if failed == 0 else 1
