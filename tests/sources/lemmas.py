"""The lemmas of proofs/ and whether anything uses them."""

import re
from functools import cache

from sources import tree
from sources.definitions import WORD

SIGNATURE = re.compile(r"^( *)(?:abbrev |unfoldable )?(pub )?(?:(?:abbrev|unfoldable|record|data) )?([^\s:(){}]+)(?: [({].*[)}])? :( |$)")

# What `#[tactic(auto, using(crate::proofs::M::lemma), unfolding(..))]` names.
ATTRIBUTE = re.compile(r"((?:crate|\w+)::(?:proofs|specs)(?:::\w+)*)::(\w+)")


@cache
def body(path):
    """The lines of a file without comments and imports."""
    keep = []
    for line in path.read_text().splitlines():
        left = line.lstrip()
        keep.append("" if left.startswith(("--", "//", "use ", "ghost use ", "import ")) else line)
    return keep


@cache
def words(path):
    named = (name for line in body(path) if line.lstrip().startswith("#[tactic(") for _, name in ATTRIBUTE.findall(line))
    return frozenset([*named, *(word for line in body(path) for word in WORD.findall(line))])


@cache
def imports(path):
    """The names that a file imports from each module path, and the module paths that it has under another name."""
    found = {}
    for line in path.read_text().splitlines():
        match = re.match(r"(?:ghost )?use ([^{\s;]+?)(?:\.\{(.*)\}| as \S+)?;?$", line)
        if match:
            names = {name.strip() for name in match.group(2).split(",")} if match.group(2) else {"*"}
            found.setdefault(match.group(1), set()).update(names)
        for module, name in ATTRIBUTE.findall(line) if line.lstrip().startswith("#[tactic(") else []:
            found.setdefault("Rattle." + re.sub(r"^crate\b", crate_of(path), module).replace("::", "."), set()).add(name)
    return found


def crate_of(path):
    return path.relative_to(tree.CRATES).parts[0]


def indent(line):
    return len(line) - len(line.lstrip())


def block(lines, start, name):
    """The end of the definition that starts at a line: its further lines, `unfolding` and clauses."""
    depth = indent(lines[start])
    k = start + 1
    while k < len(lines):
        line = lines[k]
        own = line.lstrip().split(" ")[0] in (name, "unfolding")
        if line.strip() and indent(line) <= depth and not (own and indent(line) == depth):
            break
        k += 1
    return k


def lemmas_of(path):
    """Name, whether it is public, first and last line of each definition of a file; fields and bindings are not."""
    lines = body(path)
    for k, line in enumerate(lines):
        match = SIGNATURE.match(line)
        if not match:
            continue
        name = match.group(3)
        is_type = re.match(r" *(?:pub )?(?:record|data) ", line)
        clause = re.compile(rf"^{match.group(1)}{re.escape(name)}( |$)")
        if is_type or any(clause.match(other) for other in lines[k + 1:]):
            yield name, bool(match.group(2)), k, block(lines, k, name)


@cache
def all_files():
    return [path for crate in tree.listed() for folder, ending in (("proofs", "antt"), ("specs", "antt"), ("src", "rt"))
            for path in tree.files(crate, folder, ending)]


def module_path(crate, folder, path):
    """The name of a module."""
    name = str(path.relative_to(tree.CRATES / crate / folder))[:-len(".antt")].replace("/", ".")
    return f"Rattle.{crate}.{folder}.{name}"


def used_elsewhere(name, module, path, extra=()):
    """Whether another file takes the name from the module and has it in its body."""
    wanted = {name, *extra}
    for other in all_files():
        if other == path:
            continue
        taken = imports(other).get(module, set())
        if (taken & wanted or "*" in taken) and words(other) & wanted:
            return True
    return False


def unused_lemmas(named):
    """The lemmas that neither their file nor another uses, and that are no theorem that a document names there and no answer to
    what the prover asks of a function, which is `goal.` and its name."""
    for crate in tree.listed():
        for path in tree.files(crate, "proofs", "antt"):
            lines = body(path)
            for name, public, start, end in lemmas_of(path):
                if (name, path) in named or lines[start].endswith(f" : goal.{name}"):
                    continue
                rest = lines[:start] + lines[end:]
                here = any(name in WORD.findall(line) for line in rest)
                if not here and not (public and used_elsewhere(name, module_path(crate, "proofs", path), path)):
                    yield name, path


def unused_definitions(book):
    """The definitions of specs/ that no definition, contract or proof cites."""
    for (crate, _), module in book.modules.items():
        for definition in module.definitions:
            others = (other.text for other in module.definitions if other is not definition)
            if any(definition.name in WORD.findall(text) for text in others):
                continue
            if not used_elsewhere(definition.name, module_path(crate, "specs", definition.path), definition.path, definition.members):
                yield definition.name, definition.path


def states(path, name):
    """Whether a file has a lemma of that name."""
    return any(lemma == name for lemma, *_ in lemmas_of(path))


def named_theorems(document):
    """The rows of the table of theorems: names, and the files of proofs/ in which they stand."""
    text = document.read_text().partition("## Theorems by name")[2].partition("\n## ")[0]
    rows = []
    for line in text.splitlines():
        cells = line.split("|")
        if len(cells) >= 4 and "`" in cells[1]:
            places = (place.split("/", 1) for place in re.findall(r"`([^`]*/[^`]*)`", cells[2]))
            paths = [tree.CRATES / crate / "proofs" / f"{module}.antt" for crate, module in places]
            rows += [(name, paths) for name in re.findall(r"`([^`]*)`", cells[1])]
    return rows
