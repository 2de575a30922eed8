"""The listed crates and their files."""

from functools import cache
from pathlib import Path

ROOT = Path(__file__).resolve().parents[2]
CRATES = ROOT / "crates"


def rows():
    """The crates of crates.txt in their order, each with the crates that it depends on."""
    lines = (line.split("#")[0].strip() for line in (ROOT / "crates.txt").read_text().splitlines())
    return {name.strip(): set(below.split()) for name, _, below in (line.partition(":") for line in lines if line)}


def listed():
    return list(rows())


def dependencies(crate):
    """All crates that a crate stands on, the kit's too."""
    listed_rows, reached, ahead = rows(), set(), [crate]
    while ahead:
        below = listed_rows.get(ahead.pop(), set()) - reached
        reached |= below
        ahead += below
    return reached


def is_program(crate):
    return (CRATES / crate / "src" / "main.rt").exists()


@cache
def files(crate, folder, ending):
    """The files of a crate below a folder, looked for once."""
    return sorted((CRATES / crate / folder).rglob(f"*.{ending}"))


def shown(path):
    """A path as the documents write it."""
    return str(path.relative_to(CRATES))
