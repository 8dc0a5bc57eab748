"""Finds the cases that exercise a rule."""
import re
from collections.abc import Callable
from dataclasses import dataclass, field

from cases import Case, CaseFile
from hand import Hand, Link
from rules import Rule

OBJECTS = {"buffer": "_BUFFER", "blackboard": "_BLACKBOARD", "semaphore": "_SEMAPHORE", "event": "_EVENT", "mutex": "_MUTEX",
           "sampling": "_SAMPLING_", "queuing": "_QUEUING_"}
PARTS_OF_OBJECTS = "3456789"


@dataclass
class Exercise:
    """A file of cases that exercises a rule: which of its cases do, how many of these expect a refusal there, and why.

    `cases` begins with those that expect a refusal. `names` has the cases that are linked by their names.
    """
    file: CaseFile
    cases: list[Case]
    refusals: int
    why: str
    names: list[str] = field(default_factory=list)

    @property
    def count(self) -> int:
        """How many cases of the file exercise the rule."""
        return len(self.cases)


def services_in(services: list[str], rule: Rule, link: Link) -> list[str]:
    """The services that a rule names, in the order of the table, and those linked by hand."""
    words = set(re.findall(r"[A-Z][A-Z_]+[A-Z]", rule.text)) | set(link.services)
    return [service for service in services if service in words]


def services_of_objects(services: list[str], rule: Rule) -> list[str]:
    """The services on the kinds of objects that a rule names: no creation, and none of format 2 alone."""
    words = {word.removesuffix("es") for word in re.findall(r"[a-z]+", rule.text.lower())}
    words |= {word.removesuffix("s") for word in words}
    parts = [part for word, part in OBJECTS.items() if word in words]
    return [it for it in services if any(part in it for part in parts) and not it.startswith(("CREATE_", "GET_"))]


def causes_of(rule: Rule) -> list[str]:
    """The causes of a row of the table of causes."""
    if rule.part != "11" or not any(column.startswith("Demand: ") for column in rule.columns):
        return []
    return rule.columns[0].removeprefix("Cause: ").split(", ")


def counted(files: list[CaseFile], why: str, exercised: Callable[[Case], bool], refused: Callable[[Case], bool]) -> list[Exercise]:
    """The files with a case that exercises a rule, those with the most refusals there first."""
    found = []
    for file in files:
        cases = [case for case in file.cases if exercised(case)]
        first = [case for case in cases if refused(case)]
        found.append(Exercise(file, first + [case for case in cases if not refused(case)], len(first), why))
    return sorted((it for it in found if it.count), key=lambda it: (-it.refusals, -it.count, it.file.name))


def by_record(files: list[CaseFile], hand: Hand, rule: Rule) -> list[Exercise]:
    """The files with a No at a record of the kind of which a rule speaks; for a part of the step, with the cause of that part."""
    reasons = {(cause, hand.kinds.get(it.parent, "call")) for it in rule.named for cause in hand.causes.get(it.shown, ())}
    names = {it.parent or it.name for it in rule.inherited()}
    kinds = sorted({hand.kinds[name] for name in names if name in hand.kinds})
    if reasons:
        why = f"a No at such a record with the cause {', '.join(sorted({cause for cause, _ in reasons}))}"
        is_there = lambda case: any((said, case.kind) in reasons for said in case.said)
    else:
        why = f"a No at a record of the kind {', '.join(kinds)}"
        is_there = lambda case: case.kind in kinds
    return counted(files, why, is_there, is_there)


def by_hand(files: list[CaseFile], link: Link) -> list[Exercise]:
    """The files that a link names, or the cases of a file: `FILE: CASE`."""
    by_name = {file.name: file for file in files}
    chosen: dict[str, list[str]] = {}
    for text in link.cases:
        name, _, case = text.partition(": ")
        chosen.setdefault(name, []).extend([case] if case else [])
    found = []
    for name, names in chosen.items():
        cases = [case for case in by_name[name].cases if case.name in names or not names]
        found.append(Exercise(by_name[name], cases, sum(bool(case.said) for case in cases), "by hand", names))
    return found


def exercises_of(files: list[CaseFile], hand: Hand, rule: Rule, services: list[str], objects: list[str], link: Link) -> list[Exercise]:
    """The files that exercise a rule: by hand, by cause or fault, by service and code, by record, by service or by object."""
    if link.cases:
        return by_hand(files, link)
    words = causes_of(rule) or [it.name for it in rule.named if it.parent.endswith("Fault")]
    if words:
        says = lambda case: not case.said.isdisjoint(words)
        return counted(files, f"a refusal with {', '.join(words)}", says, says)
    if services and rule.part == "6":
        return counted(files, "a call of the service with the code of a condition, or a No about its outcome",
                       lambda case: case.has_code(services), lambda case: case.service in services)
    found = [] if services else by_record(files, hand, rule)
    if found or not (services or (objects and rule.part in PARTS_OF_OBJECTS)):
        return found
    why = "calls of the service" if services else "calls of services of the object"
    there = services or objects
    return counted(files, why, lambda case: case.concerns(there), lambda case: case.service in there)
