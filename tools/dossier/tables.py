"""Writes the dossier's relations as CSV, one file for each."""
import csv
from io import StringIO

from links import Carried, Dossier, reverse_of
from pages import function_name, standard_of

Table = list[list[str | int]]


def csv_of(header: list[str], rows: Table) -> str:
    """A table as CSV."""
    out = StringIO()
    writer = csv.writer(out, lineterminator="\n")
    writer.writerow(header)
    writer.writerows(rows)
    return out.getvalue()


def shortened(why: str) -> str:
    """The words that tell one reason for a wrong body from the others."""
    short = {"other definitions": "by way", "in a function whose": "function", "in the file": "file"}
    return next((word for words, word in short.items() if words in why), why)


def clause_cells(it: Carried) -> list[str | int]:
    """A clause that carries a rule: its call, its place, its name, what it cites, and the promises of the call."""
    function, clause = it.function, it.clause
    return [function.name, function.path.removeprefix("crates/"), clause.line, clause.name, it.cited.name, " ".join(map(str, function.promises))]


def sentences(dossier: Dossier) -> Table:
    """Each sentence of each rule, with the definitions that it names itself."""
    return [[row.rule.number, number, row.rule.line, "explains" if row.explains else "law" if row.is_law else row.rule.kind, sentence.text,
             " ".join(it.shown for it in sentence.names), "; ".join(standard_of(row)), row.exercises[0].why if row.exercises else "a test that is no case" if row.tests else "",
             "; ".join(row.missing)]
            for row in dossier.rows for number, sentence in enumerate(row.rule.sentences, 1)]


def tables(dossier: Dossier) -> dict[str, str]:
    """All relations by the names of their files."""
    rows, audit = dossier.rows, dossier.code.audit
    bodies = reverse_of(rows, lambda row: [body.path for body, _ in row.bodies])
    return {
        "rules.csv": csv_of(["rule", "sentence", "line", "kind", "text", "names", "standard", "cases by", "has no"], sentences(dossier)),
        "rule_definition.csv": csv_of(["rule", "definition", "file", "line", "how"],
                                      [[row.rule.number, it.shown, it.path, it.line, row.how] for row in rows for it in row.definitions]),
        "rule_law.csv": csv_of(["rule", "law", "by way of"],
                               [[row.rule.number, it.definition.name,
                                 " ".join(key.split(":")[1] for key in it.path[1:])] for row in rows for it in row.laws]),
        "rule_clause.csv": csv_of(["rule", "call", "file", "line", "clause", "cites", "promises"],
                                  [[row.rule.number, *clause_cells(it)] for row in rows for it in row.carried]),
        "rule_case.csv": csv_of(["rule", "case file", "cases", "refusals there", "linked by name"],
                                [[row.rule.number, it.file.name, it.count, it.refusals, "; ".join(it.names)] for row in rows for it in row.exercises]),
        "rule_wrong_body.csv": csv_of(["rule", "crate", "wrong body", "why"],
                                      [[row.rule.number, body.crate, body.name, shortened(why)] for row in rows for body, why in row.bodies]),
        "wrong_bodies.csv": csv_of(["crate", "set", "wrong body", "functions", "last audit of the crate", "rules", "promises"],
                                   [[it.crate, it.part, it.name, " ".join(function_name(key) for key in it.functions),
                                     audit.of(it.crate), " ".join(bodies.get(it.path, [])),
                                     " ".join(map(str, dossier.promises_of(it)[1]))] for it in dossier.code.bodies]),
    }
