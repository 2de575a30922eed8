"""The must-fail edits. A file has one edit, or is `together.edit` with several of different functions, each behind a line
`## NAME: what it shows`. An edit changes functions, or puts versions of a function before it, each with a name of its own; one of a
definition changes none. What stands together stands in files of its own too, since `rt` tells the first refusal of a file only."""

import re
from dataclasses import dataclass

from sources import tree
from sources.functions import START, name_of, without_comments

PART = re.compile(r"^## (\w+): (.+)$", re.M)


@dataclass(frozen=True)
class Edit:
    crate: str
    file: str  # without its ending
    name: str
    says: str
    changes: tuple  # the old texts, each with the new one


CHANGE = re.compile(r"^old: (.*)\nnew: ?(.*)$", re.M)


def paths_of(crate):
    """The files of edits of a crate."""
    return sorted((tree.CRATES / crate / "must-fail").glob("*.edit"))


def together_of(crate):
    """The file in which a crate's edits stand together, if they do."""
    return [path for path in paths_of(crate) if path.stem == "together"]


def changes_apart(crate):
    """The changes of the files beside the one in which a crate's edits stand together."""
    return sorted(change for path in paths_of(crate) if path.stem != "together" for change in CHANGE.findall(path.read_text()))


def edits_of(crate):
    """The edits of a crate, file by file; those that stand together are read there."""
    for path in together_of(crate) or paths_of(crate):
        text = path.read_text()
        parts = PART.split(text)[1:]
        if not parts:
            parts = [path.stem, text.splitlines()[0].removeprefix("# ") if text.startswith("# ") else "", text]
        for name, says, body in zip(parts[::3], parts[1::3], parts[2::3]):
            changes = tuple(CHANGE.findall(body))
            yield Edit(crate, path.stem, name, says, changes)


def functions_edited(edit):
    """The functions that an edit adds, or whose code it changes."""
    found = set()
    for path in tree.files(edit.crate, "src", "rt"):
        text = without_comments(path.read_text())
        starts = [(start.start(), name_of(text, start)) for start in START.finditer(text)]
        for old, new in edit.changes:
            added = set(re.findall(r"\bfn (\w+)\(", new)) - {name for _, name in starts}
            before = [name for start, name in starts if start < text.find(old)]
            found.update(added or before[-1:])
    return found


def files_of_edits():
    """The files of edits, as `rt ci` names them, each with its edits."""
    found = {}
    for crate in tree.listed():
        for edit in edits_of(crate):
            found.setdefault(f"{crate}/{edit.file}.edit", []).append(edit)
    return found


def tried(log):
    """What `rt ci` printed of each file of edits that it tried."""
    return dict(re.findall(r"^rt: must-fail (\S+?): (.*)$", log, re.M))


def is_refused(said):
    """Whether the prover refused the changed code, and did not only miss what a proof file names, or come to a limit."""
    return re.match(r"refused, as it must be(?:: |$)", said) is not None


def apart(crate):
    """The edits that stand in a file of their own."""
    for path in paths_of(crate):
        changes = tuple(CHANGE.findall(path.read_text()))
        if path.stem != "together":
            yield Edit(crate, path.stem, path.stem, "", changes)


def refused_in(edit, said):
    """The function whose proof the prover refused first: by the folder of the proof, a method's in its type's, or by the line of the source."""
    found = re.search(r"(?:\./)?proofs/(?:[a-z]\w*/)*((?:[A-Z]\w*/)?\w+)/(?:Answers|Invariants)\.antt:", said)
    if found:
        return found.group(1).replace("/", "::")
    found = re.search(r"src/(\w+\.rt):(\d+):\d+:", said)
    if not found:
        return None
    text = (tree.CRATES / edit.crate / "src" / found.group(1)).read_text()
    lines = text.splitlines()
    line = int(found.group(2))
    while lines[line - 1].lstrip().startswith("#["):  # a function begins with its attributes
        line += 1
    if any(old in lines[line - 1] and new.startswith("pub fn ") for old, new in edit.changes):  # a version put before a call
        return next(iter(functions_edited(edit)))
    above = [name_of(text, start) for start in START.finditer(text) if text.count("\n", 0, start.start()) < line]
    return above[-1] if above else None


def number_refused(log):
    """How many files of edits `rt ci` counts as refused, now or by an earlier run; nothing if it passed not all, or some are bad."""
    found = re.search(r"^rt: ok; .*; must-fail edits: (\d+) refused; ", log, re.M)
    return found and int(found.group(1))
