"""Links each rule to its definitions, laws, clauses, cases and wrong bodies."""
import re
from collections.abc import Callable
from dataclasses import dataclass, field
from fnmatch import fnmatchcase
from functools import cache

from cases import cases_of, services_of
from chains import Chain, Chains
from contracts import Clause, Code, Function, WrongBody, code_of
from definitions import Definition, Index
from exercises import Exercise, exercises_of, services_in, services_of_objects
from hand import Hand, Link
from rules import Rule, rules_of

FACTS = re.compile(r"Facts$|^WorkedRun$")
MOST_STEPS = 6
# the kinds of partner that a rule is asked for
KINDS = ["definition", "law", "clause", "chain", "case", "wrong body", "own wrong body"]
# a clause that cites a definition further away is no news where there is a nearer one
MOST_OF_SEVERAL = 4
# how a wrong body of a rule itself is found; others are of a whole of which the rule is a part, or are only near it
BY_HAND, IN_FUNCTION = "by hand", "in a function whose clause cites a definition of the rule"
BESIDE_THE_PROGRAM = {
    "apex_laws", "explanation", "input_explanation", "toml_explanation", "wording", "sarif_report", "json_report", "run_view", "shown_run", "view_picture",
    "view_page", "view_trace", "stretch_drawing", "view_drawing", "apexview",
    "part_tests", "intake_tests", "round_tests", "crate_tests",
}
Goal = Callable[[str], bool]


@dataclass
class Law:
    """A law, the function whose contract it is, and how a definition is reached from it."""
    definition: Definition
    function: Function
    path: list[str]


@dataclass
class Carried:
    """A clause that cites a definition: by itself, or by way of definitions that rest on it."""
    function: Function
    clause: Clause
    cited: Definition
    path: list[str]


@dataclass
class Row:
    """A rule with all its partners. `how` says whether it names its definitions, the rule above does, or they are linked by hand.

    `tests` has the places of tests that are no cases.
    """
    rule: Rule
    definitions: list[Definition] = field(default_factory=list)
    how: str = ""
    laws: list[Law] = field(default_factory=list)
    carried: list[Carried] = field(default_factory=list)
    exercises: list[Exercise] = field(default_factory=list)
    tests: list[tuple[str, int]] = field(default_factory=list)
    bodies: list[tuple[WrongBody, str]] = field(default_factory=list)
    explains: bool = False
    is_law: bool = False
    services: list[str] = field(default_factory=list)
    known_as: str = ""
    chain: Chain | None = None

    @property
    def is_plain(self) -> bool:
        """Whether a rule names plain types alone, of which no law and no clause speaks by itself."""
        return bool(self.definitions) and all(it.path.endswith(".rt") for it in self.definitions)

    @property
    def is_a_law(self) -> bool:
        """Whether a rule is a law itself, which no clause of a call rests on. Part 13 has the laws."""
        return self.is_law or self.rule.part == "13"

    @property
    def has_own_body(self) -> bool:
        """Whether a wrong body breaks the rule itself, and not only something near it."""
        return any(why in (BY_HAND, IN_FUNCTION) for _, why in self.bodies)

    @property
    def missing(self) -> list[str]:
        """The kinds of partner that a rule has none of. A law is proved of all recordings, and has no code to be wrong."""
        have = {"definition": self.definitions, "law": self.laws, "clause": self.carried, "chain": self.chain,
                "case": self.exercises or self.tests, "wrong body": self.bodies}
        if self.explains or self.is_plain:
            return []
        asked = ("definition", "law") if self.is_a_law else tuple(have)
        own = ["own wrong body"] if "wrong body" in asked and self.bodies and not self.has_own_body else []
        return [name for name in asked if not have[name]] + own


class Dossier:
    """All rules with their partners, and what has none."""

    def __init__(self, index: Index, hand: Hand) -> None:
        self.index, self.hand = index, hand
        self.said: list[str] = []
        self.code: Code = code_of(index)
        self.services = services_of(index.root)
        self.cases = cases_of(index.root, hand.set_up)
        self.rules = rules_of(index, hand)
        self.users: dict[str, set[str]] = {}
        for definition in index.all.values():
            for key in definition.mentions:
                self.users.setdefault(key, set()).add(definition.key)
        self.citing: dict[str, list[tuple[Function, Clause]]] = {}
        self.law_of: dict[str, Function] = {}
        self._read_clauses()
        self.in_function: dict[str, list[WrongBody]] = {key: [] for key in self.code.functions}
        for body in self.code.bodies:
            for key in body.functions:
                self.in_function[key].append(body)
        self.callers = self.callers_of()
        self.chains = Chains(index, self.code)
        self._drop_unknown()
        self.broken_rules: dict[str, list[WrongBody]] = {}
        self.promise_by_hand: dict[str, int] = {}
        self._read_broken()
        self.rows = [self._row(rule) for rule in self.rules]

    def _drop_unknown(self) -> None:
        """Takes out of the links by hand what there is not, and notes it as a fault."""
        bodies = {body.name for body in self.code.bodies}
        laws = {self.index.all[key].name for key in self.law_of}
        cases = {file.name for file in self.cases}
        cases |= {f"{file.name}: {case.name}" for file in self.cases for case in file.cases}
        for link in self.hand.links:
            for what, there in (("definitions", self.index.all), ("bodies", bodies), ("laws", laws), ("cases", cases)):
                named = getattr(link, what)
                self.said += [f"links.toml has {it} under {what}, which there is not: {link.rule}" for it in named if it not in there]
                setattr(link, what, [it for it in named if it in there])

    def _read_broken(self) -> None:
        """Notes which rule or promise is given for which wrong bodies, and as a fault what fits nothing or more than one."""
        for given in self.hand.broken:
            bodies = [body for body in self.code.bodies for pattern in given.bodies if fnmatchcase(f"{body.crate}/{body.name}", pattern)]
            for pattern in given.bodies:
                if not any(fnmatchcase(f"{body.crate}/{body.name}", pattern) for body in self.code.bodies):
                    self.said.append(f"bodies.toml has {pattern}, which no wrong body fits")
            rules = [rule.number for rule in self.rules if rule.is_chosen(given)]
            promises = [it.number for it in self.code.promises if given.promise and it.words.startswith(given.promise)]
            if len(rules) + len(promises) != 1:
                self.said.append(f"{len(rules) + len(promises)} rules or promises begin with: {given.rule or given.promise}")
                continue
            if rules:
                self.broken_rules.setdefault(rules[0], []).extend(bodies)
            for body in bodies if promises else []:
                self.promise_by_hand.setdefault(body.path, promises[0])

    def _read_clauses(self) -> None:
        """Notes which clauses cite a definition, and which definitions are laws: those of functions without code."""
        for function in self.code.functions.values():
            for clause in function.clauses:
                for key in clause.cites:
                    definition = self.index.all[key]
                    if function.empty and clause.word == "ensures" and definition.path.endswith(".antt"):
                        self.law_of.setdefault(key, function)
                    elif function.crate not in BESIDE_THE_PROGRAM:
                        self.citing.setdefault(key, []).append((function, clause))

    def callers_of(self) -> dict[str, list[str]]:
        """For each function the functions of its crate whose body calls one of its name, where the crate has one of that name."""
        by_name: dict[tuple[str, str], list[Function]] = {}
        for function in self.code.functions.values():
            by_name.setdefault((function.crate, function.last), []).append(function)
        found: dict[str, list[str]] = {}
        for caller in self.code.functions.values():
            for name in sorted(caller.calls):
                called = by_name.get((caller.crate, name), [])
                if len(called) == 1:
                    found.setdefault(called[0].key, []).append(caller.key)
        return found

    def promised_callers(self, keys: list[str]) -> list[str]:
        """The nearest functions with a promise that call one of these, or are one of these."""
        level, seen = list(keys), set(keys)
        for _ in range(MOST_STEPS):
            found = [key for key in level if self.code.functions[key].promises]
            if found or not level:
                return sorted(set(found))
            level = [caller for key in level for caller in self.callers.get(key, ()) if caller not in seen]
            seen |= set(level)
        return []

    def promises_of(self, body: WrongBody) -> tuple[list[str], list[int]]:
        """The nearest functions with a promise that call what a wrong body changes, or are it, with their promises; else the promise by hand."""
        callers = self.promised_callers(body.functions)
        promises = sorted({number for key in callers for number in self.code.functions[key].promises})
        if not promises and body.path in self.promise_by_hand:
            promises = [self.promise_by_hand[body.path]]
        return callers, promises

    def whole(self, definition: Definition) -> Definition:
        """The definition itself, or the one of which it is a case or a field."""
        if not definition.parent:
            return definition
        return next(it for it in self.index.named[definition.parent] if it.path == definition.path)

    def nearest(self, start: Definition, is_goal: Goal) -> list[list[str]]:
        """The shortest ways from a definition up through those that mention it to goals, as lists of keys."""
        level, seen = [[start.key]], {start.key}
        for _ in range(MOST_STEPS):
            found = [path for path in level if is_goal(path[-1])]
            if found:
                return sorted(found)
            level = [path + [user] for path in level for user in sorted(self.users.get(path[-1], ())) if user not in seen]
            level = list({path[-1]: path for path in reversed(level)}.values())
            seen |= {path[-1] for path in level}
        return sorted(path for path in level if is_goal(path[-1]))

    @cache
    def laws_of(self, key: str) -> list[Law]:
        """The laws nearest to a definition; a worked fact only where there is no other."""
        start = self.index.all[key]
        if start.kind in ("type", "constant"):
            return []
        of_rules = lambda key: key in self.law_of and not FACTS.search(self.index.all[key].name)
        paths = self.nearest(start, of_rules) or self.nearest(start, lambda key: key in self.law_of)
        return [Law(self.index.all[path[-1]], self.law_of[path[-1]], path[::-1]) for path in paths]

    def is_promised(self, key: str) -> bool:
        """Whether a clause of a promised call cites a definition."""
        return any(function.promises and clause.word == "ensures" for function, clause in self.citing.get(key, ()))

    @cache
    def clauses_of(self, key: str) -> list[Carried]:
        """The clauses that cite a definition. Where no promised call has one, also the nearest of promised calls above it."""
        start = self.index.all[key]
        if start.kind in ("type", "constant"):
            return []
        found = [Carried(function, clause, start, [key]) for function, clause in self.citing.get(key, ())]
        paths = [] if self.is_promised(key) else self.nearest(start, self.is_promised)
        return found + [it for path in paths for it in self.promised_at(path)]

    def promised_at(self, path: list[str]) -> list[Carried]:
        """The clauses of promised calls that cite the last definition of a way."""
        cited = self.index.all[path[-1]]
        there = [it for it in self.citing[cited.key] if it[0].promises and it[1].word == "ensures"]
        return [Carried(function, clause, cited, path) for function, clause in there]

    @cache
    def clauses_by_law(self, key: str) -> list[Carried]:
        """The clauses of a sentence that only laws mention: those of the definitions with which its nearest laws compare it."""
        found = []
        for law in self.laws_of(key):
            others = sorted(it for it in law.definition.mentions if self.index.all[it].kind == "definition" and "/apex_laws/" not in it)
            ways = [path for it in others for path in self.nearest(self.index.all[it], self.is_promised)]
            found += [it for path in ways for it in self.promised_at(law.path[::-1] + path)]
        return found

    def carried_by(self, row: Row) -> list[Carried]:
        """The clauses that carry a rule. Those of a law are of the function whose contract it is."""
        if row.is_law:
            return [Carried(law.function, law.function.clauses[0], law.definition, [law.definition.key]) for law in row.laws]
        keys = list(dict.fromkeys(self.whole(it).key for it in row.definitions))
        found = [carried for key in keys for carried in self.clauses_of(key)]
        found = found or [carried for key in keys for carried in self.clauses_by_law(key)]
        most = max(MOST_OF_SEVERAL, min((len(it.path) for it in found), default=0))
        found = [it for it in found if len(it.path) <= most]
        found = list({(it.function.key, it.clause.line): it for it in reversed(found)}.values())
        return sorted(found, key=lambda it: (not it.function.promises, len(it.path), it.function.key, it.clause.line))

    def link_of(self, rule: Rule) -> Link | None:
        """The link by hand of a rule."""
        found = [link for link in self.hand.links if rule.is_chosen(link)]
        return found[0] if found else None

    def _row(self, rule: Rule) -> Row:
        """A rule with its partners."""
        link = self.link_of(rule) or Link(rule.text)
        row = Row(rule, explains=any(rule.text.startswith(it) for it in self.hand.explains), known_as=link.known_as)
        inherited = [it for it in rule.inherited() if it.key not in self.law_of]
        row.is_law = not inherited and bool(rule.named)
        inherited = inherited or rule.named
        by_hand = [self.index.all[key] for key in link.definitions]
        row.definitions = list({it.key: it for it in inherited + by_hand}.values())
        row.how = "named" if rule.named else "of the rule that it is under" if inherited else ""
        row.how = f"{row.how}, others by hand" if row.how and by_hand else row.how or ("by hand" if by_hand else "")
        named = [it for it in rule.inherited() if it.key in self.law_of]
        named += [it for key in link.laws for it in self.index.named[key] if it.key in self.law_of]
        row.laws = [Law(it, self.law_of[it.key], [it.key]) for it in named]
        found = [law for it in row.definitions for law in self.laws_of(self.whole(it).key) if not named]
        fewest = min((len(law.path) for law in found), default=0)
        row.laws += [law for law in found if len(law.path) == fewest]
        row.laws = list({law.definition.key: law for law in reversed(row.laws)}.values())[::-1]
        row.services = services_in(self.services, rule, link)
        if row.explains:
            return row
        if not row.is_a_law:
            row.chain = self.chains.of([self.whole(it) for it in row.definitions], [(it.definition, it.path[::-1]) for it in row.laws])
        row.carried = self.carried_by(row)
        row.exercises = exercises_of(self.cases, self.hand, rule, row.services, services_of_objects(self.services, rule), link)
        row.tests = [self.test_of(it) for it in link.tests]
        row.bodies = self.bodies_of(row, link)
        return row

    def test_of(self, words: str) -> tuple[str, int]:
        """The place of a test that is no case: `SCRIPT`, or `FILE: FUNCTION`. One that there is not is noted as a fault."""
        path, _, function = words.partition(": ")
        file = self.index.root / path
        lines = file.read_text(encoding="utf-8").splitlines() if file.is_file() else []
        line = next((number for number, it in enumerate(lines, 1) if function and f"fn {function}(" in it), 0)
        if not lines or (function and not line):
            self.said.append(f"links.toml has {words} under tests, which there is not")
        return path, line

    def bodies_of(self, row: Row, link: Link) -> list[tuple[WrongBody, str]]:
        """The wrong bodies of a rule: of the functions whose clause cites its definitions; else of those that carry it by way of
        others; else of the files of these functions."""
        by_hand = [body for body in self.code.bodies if body.name in link.bodies] + self.broken_rules.get(row.rule.number, [])
        found = {body.path: (body, BY_HAND) for body in by_hand}
        cited = [it.function.key for it in row.carried if len(it.path) == 1 and it.clause.word == "ensures"]
        direct = [body for key in cited for body in self.in_function[key]]
        by_way = [body for it in row.carried for body in self.in_function[it.function.key]]
        files = {it.function.path for it in row.carried} if not direct and not by_way else set()
        in_file = [body for body in self.code.bodies if not files.isdisjoint(body.files)]
        ways = [(IN_FUNCTION, direct),
                ("in a function that carries the rule by way of other definitions", by_way), ("in the file of such a function", in_file)]
        why, bodies = next((way for way in ways if way[1]), ("", []))
        for body in bodies if direct or not by_hand else []:
            found.setdefault(body.path, (body, why))
        return sorted(found.values(), key=lambda it: it[0].path)

    def faults(self) -> list[str]:
        """What of the links by hand fits nothing, or more than one rule, and which names of a rule mean none or several."""
        said = list(self.said)
        for link in self.hand.links + [Link(text) for text in self.hand.explains]:
            count = sum(rule.is_chosen(link) for rule in self.rules)
            if count != 1:
                said.append(f"{count} rules begin with: {link.rule}")
        of_rules = {body.path for row in self.rows for body, _ in row.bodies}
        said += [f"{body.path} has no rule and no promise: tools/dossier/bodies.toml gives it one"
                 for body in self.code.bodies if body.path not in of_rules and not self.promises_of(body)[1]]
        for rule in self.rules:
            said += [f"{rule.number} names {name}, which is no definition" for name in rule.unknown]
            said += [f"{rule.number} may mean one of several: {name}" for name in rule.ambiguous]
        return said + self.new_gaps()

    def new_gaps(self) -> list[str]:
        """The kinds of partner of which more rules have none than links.toml says are open."""
        said = []
        for kind in KINDS:
            open_now = [row.rule.number for row in self.rows if kind in row.missing]
            known = self.hand.open.get(kind, 0)
            if len(open_now) > known:
                said.append(f"{len(open_now)} rules have no {kind}, and links.toml says under `open` that {known} have none: {' '.join(open_now)}")
        return said


def reverse_of(rows: list[Row], keys: Callable[[Row], list[str]]) -> dict[str, list[str]]:
    """For each partner the numbers of the rules that need it."""
    found: dict[str, list[str]] = {}
    for row in rows:
        for key in dict.fromkeys(keys(row)):
            found.setdefault(key, []).append(row.rule.number)
    return found
