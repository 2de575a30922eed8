"""The functions of a crate's code, with their contracts."""

import re
from dataclasses import dataclass
from functools import cache
from pathlib import Path

from sources import tree

START = re.compile(r"^( *)(pub )?fn (\w+)(?:<[^(]*>)?\(", re.M)
IMPL = re.compile(r"^(?:impl|(?:pub )?trait)(?:<[^{]*?>)? (?:[\w:]+(?:<[^{]*?>)? for )?(\w+)", re.M)
OPEN = re.compile(r"^// Open: (.+?): (.+)\.$")
CLAUSE = re.compile(r"^    (requires|ensures) (?:\w+ )?\{ (.*?) \};?$", re.M | re.S)


@dataclass(frozen=True)
class Function:
    crate: str
    name: str
    path: Path
    public: bool
    signature: str
    requires: tuple
    ensures: tuple
    opens: tuple  # what its contract leaves open, and why, if it does


def one_line(text):
    return re.sub(r"\s+", " ", text).replace("( ", "(").replace(", )", ")").replace(",)", ")").strip()


def arguments_of(signature):
    """How many arguments a function takes: the commas between its brackets that stand in no others, and one more."""
    depth, number, text = 0, 0, ""
    for letter in signature[signature.index("(") + 1:]:
        if letter == ")" and depth == 0:
            break
        depth += (letter in "([") - (letter in ")]")
        if letter == "," and depth == 0:
            number += bool(text.strip())
            text = ""
        else:
            text += letter
    return number + bool(text.strip())


def head_of(text, indent):
    """A function up to its body, or to the semicolon of a trait's function, moved to the left edge."""
    lines = []
    for line in text.splitlines():
        line = line.removeprefix(indent)
        if line == "{":
            break
        if line.endswith(" {") and not line.startswith(("    requires", "    ensures")):
            lines.append(line[:-2])
            break
        lines.append(line.removesuffix(";"))
        if line.endswith(";"):
            break
    return "\n".join(lines)


def name_of(text, start):
    """A function's name; that of a method stands behind its type's."""
    if not start.group(1):
        return start.group(3)
    return f"{[found.group(1) for found in IMPL.finditer(text, 0, start.start())][-1]}::{start.group(3)}"


def is_offered(text, start):
    """Whether a function is public, or a public trait's."""
    if start.group(2) or not start.group(1):
        return bool(start.group(2))
    return [found.group(0) for found in IMPL.finditer(text, 0, start.start())][-1].startswith("pub trait")


def without_comments(text):
    return re.sub(r"//.*", "", text)


def clauses_of(head, where):
    """The clauses of a contract; one that is not read as such is an error."""
    clauses = CLAUSE.findall(head)
    if len(clauses) != len(re.findall(r"\b(?:requires|ensures)\b", head)):
        raise ValueError(f"{where}: a clause that is not read")
    return clauses


def opens_of(text, start):
    """What the comment line `// Open: WHAT: WHY.` before a function, and before its attributes, says."""
    before = [line.strip() for line in text[:start.start()].splitlines()]
    while before and before[-1].startswith("#["):
        before.pop()
    found = OPEN.match(before[-1]) if before else None
    return found.groups() if found else ()


@cache
def functions_of(crate):
    """All functions of a crate, file by file; one that is not read as such is an error."""
    found = []
    for path in tree.files(crate, "src", "rt"):
        whole = path.read_text()
        opens = {name_of(whole, start): opens_of(whole, start) for start in START.finditer(whole) if start.group(2)}
        if len(re.findall(r"^ *// Open\b", whole, re.M)) != sum(map(bool, opens.values())):
            raise ValueError(f"{tree.shown(path)}: a line `// Open:` that is not read, or is not a public function's")
        text = without_comments(whole)
        if len(START.findall(text)) != len(re.findall(r"\bfn \w", text)):
            raise ValueError(f"{tree.shown(path)}: a function that is not read")
        for start in START.finditer(text):
            name = name_of(text, start)
            head = head_of(text[start.start():], start.group(1))
            clauses = clauses_of(head, f"{tree.shown(path)}: {name}")
            signature = re.split(r"^    (?:requires|ensures) ", head, maxsplit=1, flags=re.M)[0]
            found.append(Function(crate, name, path, is_offered(text, start), one_line(signature),
                                  tuple(one_line(text) for word, text in clauses if word == "requires"),
                                  tuple(one_line(text) for word, text in clauses if word == "ensures"),
                                  opens.get(name, ())))
    return found
