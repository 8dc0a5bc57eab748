"""Reads the functions of all crates with their clauses, the promises, the wrong bodies and the last audit."""
import re
from bisect import bisect_right
from dataclasses import dataclass, field
from pathlib import Path

from definitions import Index

FN = re.compile(r"^( *)(?:(pub)(\(\w+\))? )?(?:ghost |const |unsafe )*fn (\w+)", re.M)
IMPL = re.compile(r"^(?:unsafe )?impl(?:<[^{]*?>)? (?:([\w:]+)(?:<[^{]*?>)? for )?&?(?:mut )?([\w:\[\]]+)|^(?:pub )?trait (\w+)", re.M)
CLAUSE = re.compile(r"^ +(requires|ensures)(?: (\w+))? \{", re.M)
CALLED = re.compile(r"(\w+)\(")
SETS = {"must-fail": "the gate's", "wrong-bodies": "the audit's"}


@dataclass
class Clause:
    """A clause of a contract as it is in the source, with the keys of the definitions that it cites."""
    word: str
    name: str
    line: int
    cites: set[str]
    text: str


@dataclass
class Function:
    """A function with a contract; `start` and `end` are positions in its file."""
    crate: str
    path: str
    line: int
    name: str
    is_pub: bool
    start: int
    end: int
    empty: bool
    clauses: list[Clause] = field(default_factory=list)
    promises: list[int] = field(default_factory=list)
    calls: set[str] = field(default_factory=set)

    @property
    def last(self) -> str:
        """The name without its type."""
        return self.name.split("::")[-1]

    @property
    def key(self) -> str:
        return f"{self.path}:{self.name}"


@dataclass
class Promise:
    """A row of docs/PROMISES.md."""
    number: int
    line: int
    words: str
    calls: str
    clause: str
    crates: str


@dataclass
class WrongBody:
    """A wrong body: the edit as it is in its file, and the functions that it changes."""
    crate: str
    part: str
    name: str
    path: str
    files: list[str]
    functions: list[str]
    text: str


def closed(text: str, start: int) -> int:
    """The position after the brace that closes the one at `start`."""
    depth = 0
    for at in range(start, len(text)):
        depth += {"{": 1, "}": -1}.get(text[at], 0)
        if depth == 0:
            return at + 1
    return len(text)


def owner_of(heads: list[re.Match], at: int, indent: str) -> str:
    """The types that a method belongs to: `Trait for Type`, `Type`, or nothing for a free function."""
    before = [head for head in heads if head.start() < at]
    if not indent or not before:
        return ""
    trait, of, own = before[-1].groups()
    return " for ".join(it.split("::")[-1] for it in (trait, of or own) if it)


def functions_of(index: Index, path: Path) -> list[Function]:
    """The functions of a source file."""
    text, shown = path.read_text(encoding="utf-8"), str(path.relative_to(index.root))
    heads, starts = list(IMPL.finditer(text)), list(FN.finditer(text))
    found = []
    for at, match in enumerate(starts):
        end = starts[at + 1].start() if at + 1 < len(starts) else len(text)
        owner = owner_of(heads, match.start(), match[1])
        name = f"{owner.split(' for ')[-1]}::{match[4]}" if owner else match[4]
        body = text[match.start():end]
        function = Function(shown.split("/")[1], shown, text.count("\n", 0, match.start()) + 1, name,
                            bool(match[2] and not match[3]) or " for " in owner, match.start(), end,
                            bool(re.search(r"^ *\{\}$", body, re.M)))
        function.calls = set(CALLED.findall(body)) - {function.last}
        for clause in CLAUSE.finditer(body):
            end = closed(body, clause.end() - 1)
            within = body[clause.end() - 1:end]
            line = function.line + body.count("\n", 0, clause.start(1))
            function.clauses.append(Clause(clause[1], clause[2] or "", line, index.mentioned(shown, within), body[clause.start(1):end]))
        found.append(function)
    return found


def cells_of(line: str) -> list[str]:
    """The cells of a row of a table."""
    return [cell.strip() for cell in re.split(r"(?<!\\)\|", line.strip().strip("|"))]


def promises_of(root: Path) -> list[Promise]:
    """The rows of docs/PROMISES.md, with `the same` written out."""
    rows: list[Promise] = []
    for number, line in enumerate((root / "docs/PROMISES.md").read_text(encoding="utf-8").splitlines(), 1):
        cells = cells_of(line) if line.startswith("|") else []
        if len(cells) != 4 or not cells[3] or cells[0] in ("In plain words", "---"):
            continue
        words, calls, clause, crates = cells
        if rows and calls.startswith("the same calls"):
            calls = rows[-1].calls
        if rows and "the same" in crates:
            crates = crates.replace("the same", rows[-1].crates)
        rows.append(Promise(len(rows) + 1, line=number, words=words, calls=calls, clause=clause, crates=crates))
    return rows


def called(promise: Promise) -> set[str]:
    """The names of the calls of a promise, with braces written out: `A::{b, c}` is A::b and A::c."""
    found = set()
    for quoted in re.findall(r"`([^`]+)`", promise.calls):
        head, brace, rest = quoted.partition("{")
        names = [head + it.strip() for it in rest.rstrip("}").split(",")] if brace else [quoted]
        found.update(names)
    return found


def keep_promises(functions: list[Function], promises: list[Promise]) -> None:
    """Notes at each function the promises whose row names it and its crate. A row may name the trait of a method."""
    for promise in promises:
        crates, calls = set(re.findall(r"\w+", promise.crates)), called(promise)
        bare = {call.split("::")[-1] for call in calls}
        of_trait = {call.split("::")[-1] for call in calls if call.startswith(("ApexObject::", "TextSource::"))}
        for function in functions:
            if function.crate not in crates or function.last not in bare:
                continue
            if function.name in calls or function.last in of_trait or function.last in calls:
                function.promises.append(promise.number)


def positions(text: str, old: str) -> int:
    """Where the old text of a wrong body begins, after its leading space."""
    return text.find(old) + len(old) - len(old.lstrip())


def wrong_body_of(root: Path, edit: Path, by_path: dict[str, list[Function]]) -> WrongBody:
    """A wrong body, with the functions in which its old texts are."""
    crate, part = edit.parts[-3], edit.parts[-2]
    path, files, functions = "", [], []
    edit_text = edit.read_text(encoding="utf-8")
    for line in edit_text.splitlines():
        word, _, text = line.partition(":")
        text = text.removeprefix(" ")
        if word == "file":
            path = f"crates/{crate}/{text}"
        if word != "old":
            continue
        files.append(path)
        # .ci/wrong_bodies_apply refuses an edit of a file that there is not; here it changes no function.
        source = root / path
        at = positions(source.read_text(encoding="utf-8"), text) if source.exists() else -1
        there = by_path.get(path, [])
        found = bisect_right([it.start for it in there], at) - 1
        if at >= 0 and found >= 0:
            functions.append(there[found].key)
    shown = str(edit.relative_to(root))
    return WrongBody(crate, part, edit.stem, shown, sorted(set(files)), sorted(set(functions)), edit_text)


@dataclass
class Audit:
    """What docs/AUDIT.md says: the counts and the commit of each crate, and the kit. The commit under "" is that of all others."""
    counts: dict[str, tuple[int, int]]
    commits: dict[str, str]
    kit: str

    def of(self, crate: str) -> str:
        """The last audit of a crate in words."""
        if crate not in self.counts:
            return "docs/AUDIT.md has no row for this crate"
        tried, refused = self.counts[crate]
        commit = self.commits.get(crate, self.commits.get("", "?"))
        return f"{refused} of {tried} refused, commit {commit}, {self.kit}"


def audit_of(root: Path) -> Audit:
    """The last audit."""
    text = (root / "docs/AUDIT.md").read_text(encoding="utf-8")
    rows = re.findall(r"^\| (\w+) \| (\d+) \| (\d+) \|", text, re.M)
    crates = {row[0] for row in rows}
    first, *others = re.findall(r"([^`]*)`(\w+)`", re.search(r"^- Commit: (.*)$", text, re.M)[1])
    commits = {"": first[1]}
    for words, commit in others:
        commits |= {crate: commit for crate in re.findall(r"\w+", words) if crate in crates}
    kit = re.search(r"^- Kit: `([^`]+)`", text, re.M)[1]
    return Audit({crate: (int(tried), int(refused)) for crate, tried, refused in rows}, commits, kit)


@dataclass
class Code:
    """All that the crates' sources and sets of wrong bodies say."""
    functions: dict[str, Function]
    promises: list[Promise]
    bodies: list[WrongBody]
    audit: Audit


def code_of(index: Index) -> Code:
    """Reads the crates."""
    root = index.root
    by_path = {str(path.relative_to(root)): functions_of(index, path) for path in sorted(root.glob("crates/*/src/**/*.rt"))}
    every = [function for there in by_path.values() for function in there]
    promises = promises_of(root)
    keep_promises(every, promises)
    edits = sorted(edit for part in SETS for edit in root.glob(f"crates/*/{part}/*.edit"))
    bodies = [wrong_body_of(root, edit, by_path) for edit in edits]
    return Code({function.key: function for function in every}, promises, bodies, audit_of(root))
