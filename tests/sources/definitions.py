"""The definitions of specs/: where each stands, its text, and which others it names."""

import re
from dataclasses import dataclass, field
from pathlib import Path

from sources import tree

WORD = re.compile(r"[^\s(){};,.λ]+")
HEAD = re.compile(r"^(?:abbrev |unfoldable )?pub (?:(?:record|data) )?([^\s:]+)")
MEMBER = re.compile(r"^  (?:pub )?([^\s:]+) :")
IMPORT = re.compile(r"^(?:ghost )?use Rattle\.(\w+)\.specs\.([\w.]+?)(?:\.\{(.*?)\})?(?: as (\S+?))?;?$")


@dataclass(frozen=True)
class Definition:
    crate: str
    module: str
    name: str
    path: Path
    text: str
    members: tuple  # constructors of a data type, fields of a record
    is_data: bool


@dataclass
class Module:
    """A file: its definitions, and the names that it takes from other files."""

    crate: str
    name: str
    definitions: list = field(default_factory=list)
    imports: dict = field(default_factory=dict)  # name here -> (crate, module, name there)
    aliases: dict = field(default_factory=dict)  # alias -> (crate, module)


def imports_of(text, module):
    """Fills in what the `use` lines of a text bring."""
    for line in text.splitlines():
        found = IMPORT.match(line)
        if not found:
            continue
        crate, path, names, alias = found.groups()
        path = path.removesuffix(".TheVariants")
        if alias:
            module.aliases[alias] = (crate, path)
        for name in (names or "").split(","):
            module.imports[name.strip()] = (crate, path, name.strip())


def module_of(crate, path):
    """The module that a file of specs/ is."""
    name = str(path.relative_to(tree.CRATES / crate / "specs"))[:-len(".antt")].replace("/", ".")
    module = Module(crate, name)
    text = path.read_text()
    imports_of(text, module)
    blocks = re.split(r"\n(?=(?:abbrev |unfoldable )?pub )", "\n" + text)
    for block in blocks[1:]:
        head = HEAD.match(block)
        if not head or block.startswith("pub mod"):
            continue
        lines = [line for line in block.splitlines() if line.strip() and not line.lstrip().startswith("--")]
        members = tuple(m.group(1) for m in map(MEMBER.match, lines[1:]) if m)
        is_data = bool(re.match(r"pub data", block))
        members = members if re.match(r"pub (data|record)", block) else ()
        module.definitions.append(Definition(crate, name, head.group(1), path, "\n".join(lines), members, is_data))
    return module


class Book:
    """All definitions of the listed crates."""

    def __init__(self):
        self.modules = {}
        self.declared = {}  # (crate, type) -> the file that declares it
        for crate in tree.listed():
            for path in tree.files(crate, "specs", "antt"):
                module = module_of(crate, path)
                self.modules[crate, module.name] = module
            for path in tree.files(crate, "src", "rt"):
                for name in re.findall(r"^pub (?:struct|enum) (\w+)", path.read_text(), re.M):
                    self.declared[crate, name] = path

    def find(self, crate, module, name):
        """The definition that a name stands for: itself, or the data type that has it as a constructor."""
        here = self.modules.get((crate, module))
        for definition in here.definitions if here else ():
            if name == definition.name or (definition.is_data and name in definition.members):
                return definition
        return None

    def named(self, text, module):
        """The definitions, and the declared types, that a text in a module names."""
        found = set()
        for match in WORD.finditer(text):
            word = match.group(0)
            rest = text[match.end():]
            if word in module.aliases and rest.startswith("."):
                crate, other = module.aliases[word]
                found.add((crate, other, WORD.match(rest[1:]).group(0)))
            elif word in module.imports:
                found.add(module.imports[word])
            elif self.find(module.crate, module.name, word):
                found.add((module.crate, module.name, word))
        return found

    def closure(self, names):
        """All definitions that some names reach, and the types declared in the code among them."""
        reached, types, ahead = set(), set(), list(names)
        while ahead:
            crate, module, name = ahead.pop()
            if module.startswith("declared."):
                types.add((crate, module.split(".")[1]))
                continue
            definition = self.find(crate, module, name)
            if definition is None or definition in reached:
                continue
            reached.add(definition)
            ahead += self.named(definition.text, self.modules[crate, module])
        return reached, types


def contract_names(book, function):
    """What a function's contract names, by the `ghost use` lines of its file."""
    module = Module(function.crate, "")
    imports_of(function.path.read_text(), module)
    return book.named(" ".join(function.requires + function.ensures), module)
