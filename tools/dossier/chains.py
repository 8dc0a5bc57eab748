"""Finds the chain from a rule to the clause of the public call `check`, in at most three steps.

The clause of `check` cites `Answers`, which comes down to the record `IsAnswer`. Each of its fields says what one kind of answer
means. A definition that such a field rests on is part of what `check` promises.
"""
import re
from dataclasses import dataclass

from contracts import Clause, Code, Function
from definitions import Definition, Index

CALL = "crates/report/src/checking.rt:check"
ANSWERS = "crates/report/specs/Answers.antt:Answers"
ANSWER = "crates/report/specs/Answers.antt:IsAnswer"
# What `check` promises, in the order in which a chain prefers it: a rule of the machine carries a Yes and a No.
FIELDS = ["yes", "no", "refusal", "outcome", "last_records"]
SAME = re.compile(r"(?:Is|Are)The(?:Sentences?|Grammar)$")
MACHINE, LAWS = "crates/apex_machine/specs/", "crates/apex_laws/"


@dataclass
class Field:
    """A field of `IsAnswer`, with what its comment says."""
    name: str
    line: int
    says: str


@dataclass
class Chain:
    """The way from a rule's definition to a field of `IsAnswer`, as keys.

    `by_law` is the way from the definition to a law, if the definition is a sentence that only laws mention. The law ties it to
    the first definition of `within`, which leads to a definition that the whole machine, or the whole text, goes by. From there,
    `above` leads to the field.
    """
    by_law: list[str]
    within: list[str]
    above: list[str]
    field: Field


class Chains:
    """The shortest ways from the definitions that `check` promises down to those that they rest on."""

    def __init__(self, index: Index, code: Code) -> None:
        self.index = index
        self.call: Function = code.functions[CALL]
        self.clause: Clause | None = next((it for it in self.call.clauses if it.word == "ensures" and ANSWERS in it.cites), None)
        # the way from the definition that the clause cites down to the record; without it no rule has a chain
        self.down: list[str] = self._way_up(self._tree({ANSWERS}), ANSWER)[::-1] if self.clause else []
        self.fields: list[Field] = []
        # for each key that a field rests on, the one above it on the shortest way to the first such field; none at the field itself
        self._above: list[dict[str, str]] = []
        lines = (index.root / index.all[ANSWER].path).read_text(encoding="utf-8").splitlines()
        for name in FIELDS if self.down else []:
            line = index.all[f"{ANSWER.rsplit(':', 1)[0]}:IsAnswer.{name}"].line
            says = next(it.strip("- ") for it in lines[line - 1::-1] if it.lstrip().startswith("--"))
            self.fields.append(Field(name, line, says))
            self._above.append(self._tree(index.mentioned(index.all[ANSWER].path, lines[line - 1])))

    def _tree(self, top: set[str]) -> dict[str, str]:
        """The keys below these definitions, each with the one above it."""
        level = sorted(key for key in top if self.index.all[key].kind in ("definition", "sentence"))
        above = dict.fromkeys(level, "")
        while level:
            below: list[str] = []
            for key in level:
                for used in sorted(self.index.all[key].mentions):
                    if used not in above and not used.startswith(LAWS):
                        above[used] = key
                        below.append(used)
            level = below
        return above

    @staticmethod
    def _way_up(above: dict[str, str], key: str) -> list[str]:
        """The way from a definition up a tree; none if the tree does not have it."""
        way = [key] if key in above else []
        while way and above[way[-1]]:
            way.append(above[way[-1]])
        return way

    def _up(self, key: str) -> tuple[Field, list[str]] | None:
        """The way from a definition up to the first field that rests on it."""
        ways = ((field, self._way_up(above, key)) for field, above in zip(self.fields, self._above))
        return next(((field, way) for field, way in ways if way), None)

    def _chain(self, by_law: list[str], key: str) -> Chain | None:
        """The chain from a definition, with the way up divided where it leaves the machine, or else its first crate."""
        found = self._up(key)
        if not found:
            return None
        field, way = found
        inside = [at for at, it in enumerate(way) if it.startswith(MACHINE)]
        inside = inside or [at for at, it in enumerate(way) if it.split("/")[1] == key.split("/")[1]]
        return Chain(by_law, way[:inside[-1] + 1], way[inside[-1]:], field)

    def of(self, definitions: list[Definition], laws: list[tuple[Definition, list[str]]]) -> Chain | None:
        """The chain of a rule with these definitions, and with laws that each end a way that begins at a definition."""
        own = [it.key for it in definitions]
        for definition in definitions:
            found = self._chain([], definition.key)
            if found:
                return found
            for law, way in laws:
                found = self._by_law(law, way, own) if way[0] == definition.key else None
                if found:
                    return found
        return next((found for law, way in laws if (found := self._by_law(law, way, own))), None)

    def _by_law(self, law: Definition, way: list[str], own: list[str]) -> Chain | None:
        """The chain through a law: by a definition that the rule names too, by the function beside the sentence, or by the first one
        of a law that says that sentences and functions are the same."""
        names = {key: self.index.all[key].name for key in sorted(law.mentions) if not key.startswith(LAWS) and ".antt:" in key}
        side = beside(law.text, self.index.all[way[-2]].name) if len(way) > 1 else ""
        ranked = [key for key in own if key in names]
        ranked += sorted((key for key in names if place_of(names[key], side) >= 0), key=lambda key: place_of(names[key], side))
        if SAME.search(law.name):
            functions = [key for key in names if self.index.all[key].kind == "definition" and names[key][0].islower()]
            ranked += sorted(functions, key=lambda key: (place_of(names[key], law.text), key))
        return next((chain for key in ranked if (chain := self._chain(way, key))), None)


def place_of(name: str, text: str) -> int:
    """Where a text has a name as a whole word; -1 if it does not."""
    found = re.search(rf"\b{re.escape(name)}\b", text)
    return found.start() if found else -1


def beside(law: str, sentence: str) -> str:
    """What a law has on the other side of `↔` before a sentence, such as `(effect ≡ signalled maximum ..)` before `IsSignal`."""
    at = place_of(sentence, law) if sentence else -1
    before, arrow, after = law[:max(at, 0)].rpartition("↔")
    return re.split("→", before)[-1] if arrow and not after.strip() else ""
