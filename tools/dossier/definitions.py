"""Reads the definitions of all crates: those of specs/*.antt and the plain types of src/*.rt, and what mentions what."""
import re
from dataclasses import dataclass, field
from pathlib import Path

DECLARED = re.compile(r"^(?:pub |  pub )?(abbrev|unfoldable|record|data)(?: pub)? ([A-Za-z_]\w*)")
TYPE = re.compile(r"^(?:pub(?:\(\w+\))? )?(struct|enum|const|trait|type|static) (\w+)")
MEMBER = re.compile(r"^(?:  |    )(?:pub )?([A-Za-z_]\w*) : ")
VARIANT = re.compile(r"^    (?:pub )?(\w+)(?:[(,:{ ]|$)")
WORD = re.compile(r"(?:([a-z_]\w*)\.)?([A-Za-z_]\w*)")
IMPORT = re.compile(r"^\s*(?:ghost |pub )*use (Rattle\.[^;]*?);?$", re.M)
STANDARD = re.compile(r"\(([^()]*section \d[^()]*)\)\s*$")


@dataclass
class Definition:
    """A definition, a plain type, or a case or field of one of them (then `parent` names it).

    `text` is what it says without comments, and `source` its lines as they are in the file.
    """
    crate: str
    path: str
    line: int
    kind: str
    name: str
    comment: str = ""
    parent: str = ""
    text: str = ""
    source: list[str] = field(default_factory=list)
    mentions: set[str] = field(default_factory=set)

    @property
    def key(self) -> str:
        return f"{self.path}:{self.parent + '.' if self.parent else ''}{self.name}"

    @property
    def shown(self) -> str:
        return f"{self.parent}.{self.name}" if self.parent else self.name

    @property
    def standard(self) -> str:
        """The heading of the standard that the comment names, if it names one."""
        found = STANDARD.search(self.comment)
        return found[1] if found else ""


def lines_of_definition(lines: list[str], at: int) -> list[str]:
    """The lines of a definition of specs/ that begins at an index: up to an empty line or the next comment."""
    end = at + 1
    while end < len(lines) and lines[end].strip() and not lines[end].startswith("--"):
        end += 1
    return lines[at:end]


def lines_of_type(lines: list[str], at: int) -> list[str]:
    """The lines of a plain type or a constant that begins at an index: up to the line that closes it."""
    end = at
    if not lines[at].endswith((";", "}")):
        while end + 1 < len(lines) and not lines[end].startswith(("}", "]", ")")):
            end += 1
    return lines[at:end + 1]


def parts_of(group: str) -> list[str]:
    """The items of a list in braces, split at its outer commas."""
    items, depth, item = [], 0, ""
    for sign in group:
        depth += {"{": 1, "}": -1}.get(sign, 0)
        if sign == "," and depth == 0:
            items.append(item.strip())
            item = ""
        else:
            item += sign
    return [it for it in items + [item.strip()] if it]


def expanded(path: str) -> list[str]:
    """An import with its braces written out: A.{b, c.{d}} becomes A.b and A.c.d."""
    head, brace, rest = path.partition("{")
    if not brace:
        return [path.strip()]
    return [head + it for part in parts_of(rest.rsplit("}", 1)[0]) for it in expanded(part)]


def imports_of(text: str) -> dict[str, tuple[str, str, str]]:
    """What each imported word means: its crate, the file under specs without its ending, and its name there."""
    found = {}
    for match in IMPORT.finditer(text):
        for path in expanded(match[1]):
            path, _, alias = path.partition(" as ")
            parts = path.strip().split(".")
            if len(parts) < 4 or parts[2] != "specs":
                continue
            module = parts[3] if parts[3] != "declared" else "declared"
            name = parts[-1] if len(parts) > 4 else ""
            found[alias.strip() or parts[-1]] = (parts[1], module, name)
    return found


class Index:
    """All definitions, and how a word in a file is resolved to one of them."""

    def __init__(self, root: Path) -> None:
        self.root = root
        self.all: dict[str, Definition] = {}
        self.named: dict[str, list[Definition]] = {}
        self.members: dict[str, list[Definition]] = {}
        self._imports: dict[str, dict[str, tuple[str, str, str]]] = {}
        for path in sorted(root.glob("crates/*/specs/*.antt")):
            self._read_specs(path)
        for path in sorted(root.glob("crates/*/src/**/*.rt")):
            self._read_types(path)
        for definition in list(self.all.values()):
            if definition.kind in ("definition", "sentence"):
                definition.mentions = self.mentioned(definition.path, definition.text) - {definition.key}

    def _add(self, definition: Definition) -> None:
        self.all[definition.key] = definition
        table = self.members if definition.parent else self.named
        table.setdefault(definition.name, []).append(definition)

    def _read_specs(self, path: Path) -> None:
        """Adds the definitions of a file, each with the comment above it, and the cases and fields that have a name."""
        lines = path.read_text(encoding="utf-8").splitlines()
        shown, crate = str(path.relative_to(self.root)), path.parts[-3]
        open_one: Definition | None = None
        comment: list[str] = []
        for number, line in enumerate(lines, 1):
            found = DECLARED.match(line)
            if found:
                kind = "sentence" if found[1] in ("record", "data") else "definition"
                open_one = Definition(crate, shown, number, kind, found[2], " ".join(comment), source=lines_of_definition(lines, number - 1))
                self._add(open_one)
            elif line.startswith(("use ", "pub ", "infixl", "--")):
                open_one = open_one if line.startswith("--") and not comment and open_one and lines[number - 2] else None
            member = MEMBER.match(line)
            if member and open_one and open_one.kind == "sentence":
                self._add(Definition(crate, shown, number, "case or field", member[1], "", open_one.name))
            if open_one and not line.startswith("--"):
                open_one.text += line.split(" -- ")[0] + "\n"
            comment = comment + [line.lstrip("- ")] if line.startswith("--") else []

    def _read_types(self, path: Path) -> None:
        """Adds the plain types of a source file, with the variants and fields that have a name."""
        shown, crate = str(path.relative_to(self.root)), path.relative_to(self.root).parts[1]
        open_one: Definition | None = None
        comment: list[str] = []
        lines = path.read_text(encoding="utf-8").splitlines()
        for number, line in enumerate(lines, 1):
            found = TYPE.match(line)
            if found:
                kind = "constant" if found[1] in ("const", "static") else "type"
                open_one = Definition(crate, shown, number, kind, found[2], " ".join(comment), source=lines_of_type(lines, number - 1))
                self._add(open_one)
            elif line.startswith("}"):
                open_one = None
            elif open_one and open_one.kind == "type" and VARIANT.match(line):
                self._add(Definition(crate, shown, number, "case or field", VARIANT.match(line)[1], " ".join(comment), open_one.name))
            text = line.strip()
            if text.startswith("///"):
                comment.append(text.lstrip("/ "))
            elif not text.startswith("#["):
                comment = []

    def imports(self, path: str) -> dict[str, tuple[str, str, str]]:
        """The imports of a file, read once."""
        if path not in self._imports:
            self._imports[path] = imports_of((self.root / path).read_text(encoding="utf-8"))
        return self._imports[path]

    def in_module(self, crate: str, module: str, name: str) -> Definition | None:
        """The definition of a name in a file of a crate's specs; where that file only hands it on, the crate's only one."""
        there = [it for it in self.named.get(name, []) if it.crate == crate]
        exact = [it for it in there if it.path == f"crates/{crate}/specs/{module}.antt"]
        if exact:
            return exact[0]
        if module == "declared":
            there = [it for it in there if it.path.endswith(".rt")]
        return there[0] if len(there) == 1 else None

    def mentioned(self, path: str, text: str) -> set[str]:
        """The keys of the definitions that a text of a file mentions, by the file's imports and its own definitions."""
        crate, imports = path.split("/")[1], self.imports(path)
        module = Path(path).stem
        found = set()
        for alias, word in WORD.findall(text):
            if alias in imports and not imports[alias][2]:
                definition = self.in_module(imports[alias][0], imports[alias][1], word)
            elif word in imports and imports[word][2]:
                definition = self.in_module(*imports[word])
            elif path.endswith(".antt"):
                own = [it for it in self.named.get(word, []) if it.path == f"crates/{crate}/specs/{module}.antt"]
                definition = own[0] if own else None
            else:
                definition = None
            if definition:
                found.add(definition.key)
        return found
