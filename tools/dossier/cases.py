"""Reads the worked cases and the examples: which services they call, with which outcomes, and what each must answer."""
import re
from dataclasses import dataclass, field
from functools import cached_property
from pathlib import Path

HEADING = re.compile(r"^-- (.+) --$")
EDIT = re.compile(r"^(\S+)(?: (line|from line) (\d+)| (\d+) times)?$")
KIND, SERVICE, OUT = 1, 4, 11
# outcomes that are no code of an error condition
NO_CONDITION = ("NO_ERROR", "wait", "none", "NOT_AVAILABLE", "TIMED_OUT")

Texts = dict[str, list[str]]


@dataclass
class Case:
    """One case: the services that it calls, each with its outcome, what its line says, and the record that a No is about.

    `said` has the causes and faults of the line, `kind` and `service` are of the rejected record. `line` is that of its heading,
    and 0 for an example.
    """
    name: str
    answers: set[tuple[str, str]]
    said: set[str]
    kind: str = ""
    service: str = ""
    line: int = 0

    def concerns(self, services: list[str]) -> bool:
        """Whether it calls one of these services, or its No is at one."""
        return self.service in services or not self._called.isdisjoint(services)

    @cached_property
    def _called(self) -> set[str]:
        return {service for service, _ in self.answers}

    def has_code(self, services: list[str]) -> bool:
        """Whether a call of one of these services has the code of an error condition, or its outcome is what a No is about."""
        coded = any(service in services and out not in NO_CONDITION for service, out in self.answers)
        return coded or ("Out" in self.said and self.service in services)


@dataclass
class CaseFile:
    """A file of worked cases, or the folder of an example, which is one case."""
    name: str
    path: str
    cases: list[Case] = field(default_factory=list)


def sections_of(text: str) -> list[tuple[str, list[str]]]:
    """The heading of each section with its lines, without the text before the first one and without empty lines at the end."""
    found: list[tuple[str, list[str]]] = []
    for line in text.split("\n"):
        heading = HEADING.match(line)
        if heading:
            found.append((heading[1], []))
        elif found:
            found[-1][1].append(line)
    for _, lines in found:
        while lines and not lines[-1]:
            lines.pop()
    return found


def changed(texts: Texts, heading: str, lines: list[str]) -> None:
    """Sets or changes a text as the heading of a section says."""
    match = EDIT.match(heading)
    name = match[1]
    old = texts.get(name, [])
    if match[4]:
        texts[name] = old + [line.replace("@", str(len(old) + number)) for number in range(int(match[4])) for line in lines]
    elif match[2]:
        at = int(match[3])
        texts[name] = old[:at] + lines + (old[at + 1:] if match[2] == "line" else [])
    else:
        texts[name] = lines


def lines_of_cases(text: str) -> dict[str, int]:
    """The line of each case's heading by the name of the case."""
    headings = {number: HEADING.match(line) for number, line in enumerate(text.split("\n"), 1)}
    named = {number: found[1].removeprefix("case ") for number, found in headings.items() if found and found[1].startswith("case ")}
    return {name: number for number, name in reversed(named.items())}


def rows_of(texts: Texts) -> list[list[str]]:
    """The fields of the rows of all recordings."""
    return [line.split(",") for name in sorted(texts) if re.fullmatch(r"core\d+\.csv", name) for line in texts[name]]


def row_at(texts: Texts, place: int) -> list[str]:
    """The fields of the record at a place of the certificate; none where the texts have no such record."""
    order = texts.get("order.csv")
    core, number = "0", str(place)
    if order is not None:
        if place >= len(order) or order[place].count(",") != 1:
            return []
        core, number = order[place].split(",")
    rows = texts.get(f"core{core}.csv", [])
    return rows[int(number)].split(",") if number.isdigit() and int(number) < len(rows) else []


def case_of(name: str, own: list[list[str]], texts: Texts, report: str, set_up: set[str]) -> Case:
    """One case, by the calls of its own rows, and of the file's shared rows that set nothing up."""
    shared = [row for row in rows_of(texts) if len(row) > SERVICE and row[SERVICE] not in set_up]
    rows = [row for row in shared + own if len(row) > OUT and row[KIND] == "call"]
    said = re.search(r"(?:cause|fault|config|arguments)=(\w+)", report)
    case = Case(name, {(row[SERVICE], row[OUT]) for row in rows}, {said[1]} if said else set())
    place = re.match(r"NO place=(\d+)", report)
    row = row_at(texts, int(place[1])) if place else []
    if len(row) > SERVICE:
        case.kind, case.service = row[KIND], row[SERVICE]
    return case


def case_file(root: Path, path: Path, set_up: set[str]) -> CaseFile:
    """A file of crates/case_runner/data."""
    file = CaseFile(path.stem, str(path.relative_to(root)))
    shared: Texts = {}
    texts: Texts = {}
    own: list[list[str]] = []
    cut: set[str] = set()
    report, shared_report, name = "", "", ""
    text = path.read_text(encoding="utf-8")
    line_of = lines_of_cases(text)
    for heading, lines in sections_of(text) + [("case", [])]:
        if heading == "case" or heading.startswith("case "):
            if name:
                file.cases.append(case_of(name, own, texts, report, set_up))
                file.cases[-1].said |= cut
                file.cases[-1].line = line_of[name]
            name, own, cut, report = heading.removeprefix("case "), [], set(), shared_report
            texts = dict(shared)
        elif heading == "report":
            report = lines[0] if lines else ""
            shared_report = shared_report if name else report
        elif heading.startswith("cuts of "):
            cut = set(re.findall(r"fault=(\w+)", "\n".join(lines)))
        elif EDIT.match(heading) and ".csv" in heading:
            changed(texts if name else shared, heading, lines)
            own += [line.split(",") for line in lines] if name else []
    return file


def example(root: Path, folder: Path, set_up: set[str]) -> CaseFile:
    """A folder of examples: one case."""
    texts = {path.name: path.read_text(encoding="utf-8").splitlines() for path in sorted(folder.glob("*.csv"))}
    case = case_of(folder.name, [], texts, (folder / "expected.txt").read_text(encoding="utf-8").strip(), set_up)
    return CaseFile(f"examples/{folder.name}", str(folder.relative_to(root)), [case])


def cases_of(root: Path, set_up: set[str]) -> list[CaseFile]:
    """All worked cases, and after them all examples."""
    files = [case_file(root, path, set_up) for path in sorted((root / "crates/case_runner/data").glob("*.txt"))]
    folders = [path.parent for path in sorted((root / "examples").glob("*/expected.txt"))]
    return files + [example(root, folder, set_up) for folder in folders]


def services_of(root: Path) -> list[str]:
    """The services of the table in crates/apex_types/src/service.rt, in its order."""
    return re.findall(r'^    row!\(\w+ => b"(\w+)"', (root / "crates/apex_types/src/service.rt").read_text(encoding="utf-8"), re.M)
