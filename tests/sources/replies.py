"""The replies that a public contract allows: its refusals in order, and the theorem that two of them are equal.

A reply on a file is `Start refuse (λ N. CALL) file`, CALL a reply on a netlist: its guards, each a `Step`, in their order, and the
answer behind the last.
"""

import re
from dataclasses import dataclass
from functools import cache

from sources import tree

# Where the replies are proved to be one.
THEOREMS = ("replies", "Unique")


@dataclass(frozen=True)
class Refusal:
    condition: str  # of which places it holds
    number: int
    leaves: str  # `leaving entry` where the call has a lent buffer, which a refusal leaves as it was


@dataclass(frozen=True)
class Theorem:
    name: str
    file: str
    statement: str


@cache
def numbers():
    """The number of each reason, by the definition of 01's numbers."""
    text = (tree.CRATES / "chip" / "specs" / "Got.antt").read_text()
    return {reason: int(number) for reason, number in re.findall(r"^number_of Reason\.(\w+) = (\d+)$", text, re.M)}


def closing(text, at):
    """The index of the bracket that closes the one at an index."""
    depth = 0
    for k in range(at, len(text)):
        depth += {"(": 1, ")": -1}.get(text[k], 0)
        if depth == 0:
            return k
    raise ValueError(text)


def body(definition):
    """What a definition by one equation says, on one line."""
    return re.sub(r"\s+", " ", definition.text).split(" = ", 1)[1]


def start(definition):
    """The refusal of a reply on a file, and the name of the reply on a netlist that it starts; nothing if it is no `Start`."""
    found = re.match(r"Start \(?((?:leaving entry )?)(\w*refused)\)? \(?(?:λ N\. )?(\w+)", body(definition))
    return found and (found.group(1).strip(), found.group(2), found.group(3))


def guards(text):
    """The guards of a text `Step CONDITION (REFUSAL) (REST)` in their order, and what stands behind them."""
    found = []
    while True:
        text = text.strip()
        if text.startswith("(") and closing(text, 0) == len(text) - 1:
            text = text[1:-1].strip()
        if not text.startswith("Step "):
            return found, text
        at = len("Step ")
        end = closing(text, at) + 1
        condition = text[at + 1:end - 1]
        at = text.index("(", end)
        end = closing(text, at) + 1
        refusal = re.fullmatch(r"((?:leaving entry )?)\w*refused Reason\.(\w+)", text[at + 1:end - 1])
        found.append(Refusal(condition, numbers()[refusal.group(2)], refusal.group(1).strip()))
        text = text[end:]


def refusals(book, definition):
    """The refusals of a reply on a file that come after those of opening it, in the order of its guards."""
    module = book.modules[definition.crate, definition.module]
    name = start(definition)[2]
    while True:
        call = next(d for d in module.definitions if d.name == name)
        text = body(call)
        if text.startswith("Knowing N (λ d low k. "):
            text = text[len("Knowing N (λ d low k. "):-1]
        found, rest = guards(text)
        inner = re.match(r"(\w+On) ", rest)
        if found or not inner:
            return found
        name = inner.group(1)


def guard_negates(book):
    """Whether a guard goes on only where its condition holds of no place, so that what comes behind it carries that."""
    step = book.find("chip", "Refusals", "Step")
    cases = dict(re.findall(r"^  (\S+) : (.*)$", step.text, re.M))
    return cases == {"refuses": "{p : ℕ} → When p → Step When refuse Rest (refuse p)",
                     "goes_on": "{a : A} → ((p : ℕ) → ¬ When p) → Rest a → Step When refuse Rest a"}


def has_buffer(definition):
    """Whether a reply's definition speaks of what a call leaves in a lent buffer."""
    return "× List ℕ → Type 0" in definition.text


def uniqueness(definition):
    """The theorem that says of two replies of a definition, a and b, that they are equal, the buffer too where there is one."""
    path = tree.CRATES / THEOREMS[0] / "proofs" / f"{THEOREMS[1]}.antt"
    lines = path.read_text().splitlines()
    for at, line in enumerate(lines):
        found = re.match(r"pub (one_\w+_reply) : (.*)", line)
        if not found:
            continue
        rest = [other.strip() for other in lines[at + 1:at + 3] if other.lstrip().startswith("→")]
        statement = " ".join([found.group(2), *rest])
        if re.search(rf"{{a b : [^}}]*}} → {definition.name} ([^→]*)a → {definition.name} \1b → a ≡ b$", statement):
            return Theorem(found.group(1), tree.shown(path), statement)
    return None
