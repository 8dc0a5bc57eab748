"""Reads the rules of docs/SPECIFICATION.md: each row of a table, and each sentence of a paragraph or of an item of a list."""
import re
from dataclasses import dataclass, field

from contracts import cells_of
from definitions import Definition, Index
from hand import Broken, Hand, Link

SENTENCE = re.compile(r"(?<=[.!?])\s+(?=[A-Z*`])")
QUOTED = re.compile(r"`([^`]+)`")
NOTE = re.compile(r"\*(Section [23], [^*]+?)\.?\*")
LAW_ALONE = re.compile(r"^(?:Laws?|Together|sentences?): ")
ITEM = re.compile(r"^( *)(?:- |\d+\. )(.*)$")


@dataclass
class Sentence:
    """A sentence of a rule, with the definitions that it names itself."""
    text: str
    names: list[Definition] = field(default_factory=list)


@dataclass
class Rule:
    """A row of a table, a paragraph or an item of a list, with its sentences.

    `lead` is the paragraph or item that introduces it: a rule that names no definition goes by those of its lead.
    """
    number: str
    part: str
    heading: str
    kind: str
    line: int
    text: str
    columns: list[str] = field(default_factory=list)
    sentences: list[Sentence] = field(default_factory=list)
    lead: "Rule | None" = None
    notes: list[str] = field(default_factory=list)
    unknown: list[str] = field(default_factory=list)
    ambiguous: list[str] = field(default_factory=list)

    @property
    def named(self) -> list[Definition]:
        """The definitions that the rule names, each once."""
        return list({it.key: it for sentence in self.sentences for it in sentence.names}.values())

    def inherited(self) -> list[Definition]:
        """The definitions that the rule names, or else those of its lead."""
        return self.named or (self.lead.inherited() if self.lead else [])

    def is_chosen(self, given: Link | Broken) -> bool:
        """Whether a link by hand chooses the rule: by its own beginning, and by that of its lead if rules have the same words."""
        leads = self.lead.text if self.lead else ""
        return bool(given.rule) and self.text.startswith(given.rule) and leads.startswith(given.under)


@dataclass
class Block:
    """A block of the page, before its names are resolved."""
    kind: str
    line: int
    text: str
    indent: int = 0
    columns: list[str] = field(default_factory=list)


def blocks_of(lines: list[str]) -> list[Block]:
    """The headings, paragraphs, items and rows of a page, in their order. A row without a first cell has that of the row before it."""
    found: list[Block] = []
    header: list[str] = []
    first = ""
    for number, line in enumerate(lines, 1):
        item = ITEM.match(line)
        before = found[-1] if found and number > 1 and lines[number - 2].strip() else None
        if line.startswith("#"):
            found.append(Block("heading", number, line))
        elif line.startswith("|"):
            cells = cells_of(line)
            if set("".join(cells)) <= set("- :"):
                continue
            if not header:
                header, first = cells, ""
            else:
                first = cells[0] or first
                shown = [f"{name}: {cell}" if name else cell for name, cell in zip(header, [first] + cells[1:]) if cell]
                found.append(Block("row", number, " | ".join(cells), 0, shown))
        elif item:
            found.append(Block("item", number, item[2], len(item[1]) + 1))
        elif line.strip():
            if before and before.kind == "paragraph":
                before.text += " " + line.strip()
            else:
                found.append(Block("paragraph", number, line.strip()))
        if not line.startswith("|"):
            header = []
    return found


def rank(definition: Definition, paths: set[str], files: set[str]) -> int:
    """How well a definition fits a name: by a path beside it, by the files of the heading, by its crate."""
    file = definition.path.rsplit("/", 1)[1]
    if definition.path in paths or file in {path for path in paths if "/" not in path}:
        return 0
    if definition.path in files or (file in files and definition.crate in ("apex_machine", "apex_laws")):
        return 1
    if definition.crate in {path.split("/")[1] for path in paths | files if path.startswith("crates/")}:
        return 1
    return {"apex_machine": 2, "apex_types": 3, "apex_laws": 4}.get(definition.crate, 5)


def resolved(index: Index, name: str, rule: Rule, files: set[str], context: list[Definition]) -> Definition | None:
    """The definition that a rule means by a name: a case or field of a definition of its lead, or the best by its place."""
    parents = {(it.path, it.name) for it in context}
    own = [it for it in index.members.get(name, []) if (it.path, it.parent) in parents]
    if own:
        return own[0]
    beside = rule.text + (rule.lead.text if rule.lead else "")
    paths = {it for it in QUOTED.findall(beside) if it.endswith((".antt", ".rt"))}
    every = index.named.get(name, []) or own or index.members.get(name, [])
    specs = [it for it in every if it.path.endswith(".antt")]
    ranked = sorted(specs or every, key=lambda it: (rank(it, paths, files), it.path))
    if not ranked:
        return None
    best = [it for it in ranked if rank(it, paths, files) == rank(ranked[0], paths, files)]
    if len(best) > 1:
        rule.ambiguous.append(f"{name}: {', '.join(it.key for it in best)}")
    return best[0]


def is_definition_name(name: str) -> bool:
    """Whether a quoted word can be the name of a definition, and is no file, option or sign of a format."""
    return bool(re.fullmatch(r"[A-Za-z_]\w*", name)) and not name.endswith("_explanation")


def fill(index: Index, rule: Rule, files: set[str], hand: Hand) -> None:
    """Splits a rule into its sentences and resolves the names in each."""
    rule.notes += NOTE.findall(rule.text)
    context = rule.lead.inherited() if rule.lead else []
    texts = [rule.text] if rule.kind == "row" else SENTENCE.split(rule.text)
    for text in texts:
        if not NOTE.sub("", text).strip(" *"):
            continue
        if rule.sentences and LAW_ALONE.match(text):
            rule.sentences[-1].text += " " + text
            sentence = rule.sentences[-1]
        else:
            sentence = Sentence(text)
            rule.sentences.append(sentence)
        for name in QUOTED.findall(text):
            if not is_definition_name(name) or name in hand.spoken:
                continue
            meant = index.all.get(hand.means.get(name, ""))
            definition = meant or resolved(index, name, rule, files, context + rule.named)
            if definition:
                sentence.names.append(definition)
            else:
                rule.unknown.append(name)


def rules_of(index: Index, hand: Hand) -> list[Rule]:
    """The rules, numbered by part and by their order in it."""
    lines = (index.root / "docs/SPECIFICATION.md").read_text(encoding="utf-8").splitlines()
    rules: list[Rule] = []
    part, title, heading, count, files = "", "", "", 0, set()
    part_files: set[str] = set()
    leads: list[tuple[int, Rule]] = []
    notes: list[str] = []
    for block in blocks_of(lines):
        if block.kind == "heading":
            named = {it for it in QUOTED.findall(block.text) if "." in it or "/" in it}
            found = re.match(r"## (\d+)\. (.*)", block.text)
            if found:
                part, title, count, part_files = found[1], QUOTED.sub("", found[2]).split(" (")[0], 0, named
            heading = title if found else QUOTED.sub("", block.text.lstrip("# ")).split(" (")[0]
            files, leads, notes = part_files | named, [], []
            continue
        if not part:
            continue
        if not NOTE.sub("", block.text).strip():
            notes = NOTE.findall(block.text)
            continue
        count += 1
        rule = Rule(f"{part}.{count}", part, heading, block.kind, block.line, block.text, block.columns, notes=list(notes))
        depth = block.indent if block.kind == "item" else 0
        depth = 9 if block.kind == "row" else depth
        leads = [it for it in leads if it[0] < depth]
        rule.lead = leads[-1][1] if leads else None
        fill(index, rule, files, hand)
        leads.append((depth, rule))
        rules.append(rule)
    return rules
