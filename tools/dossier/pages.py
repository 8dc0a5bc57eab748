"""Writes the page of all rules, and the one of their partners."""
from chains import ANSWER, Chain
from contracts import SETS, WrongBody
from definitions import STANDARD, Definition
from exercises import Exercise
from html_words import at, function_name, inline, page, rule_links, text
from links import KINDS, Carried, Dossier, Law, Row, reverse_of

MOST_SHOWN = 4
MOST_LAWS = 3
MOST_CASES = 3
# a text of more lines is shown in part, with a link to the rest; one that the rule does not name itself is opened by hand
MOST_LINES = 40
# a law that speaks of a larger whole is opened by hand too
NEAR = 2


def excerpt(lines: list[str], path: str, line: int, is_open: bool) -> str:
    """The text of a definition, of which the first lines are shown if it is long."""
    if not lines:
        return ""
    more = len(lines) - MOST_LINES
    rest = f"{more} more lines are at {at(path, line + MOST_LINES)}" if more > 0 else ""
    return f'<details{" open" if is_open else ""}><summary>its text</summary><pre>{text(chr(10).join(lines[:MOST_LINES]))}</pre>{rest}</details>'


def body_link(body: WrongBody) -> str:
    """A link to a wrong body."""
    return f'<a href="bodies/{body.crate}.html#{body.part}-{body.name}">{body.crate}/{body.part}/{body.name}</a>'


def linked(dossier: Dossier, key: str) -> str:
    """A definition by its key, as a link."""
    it = dossier.index.all[key]
    return f'<a href="sources/{text(it.path)}.html#L{it.line}"><code>{text(it.shown)}</code></a>'


def rises(dossier: Dossier, keys: list[str]) -> str:
    """A way up, each definition mentioned by the next."""
    return " → ".join(linked(dossier, key) for key in keys)


def way(dossier: Dossier, path: list[str]) -> str:
    """The definitions between a rule and what it is linked to, the rule's own first."""
    return f" <i>by way of {rises(dossier, path)}</i>" if len(path) > 1 else ""


def cut(items: list[str], file: str, most: int = MOST_SHOWN) -> str:
    """The first items of a list, and where the others are."""
    more = f'<li>and {len(items) - most} more in <a href="{file}">{file}</a></li>' if len(items) > most + 1 else ""
    shown = items[:most] if more else items
    return "<ul>" + "".join(f"<li>{item}</li>" for item in shown) + more + "</ul>"


def case_item(it: Exercise) -> str:
    """A file of cases, with how many of them exercise a rule, and the lines of those that are linked by name, or else of the first ones."""
    cases = "1 case" if len(it.file.cases) == 1 else f"{len(it.file.cases)} cases"
    shown = it.cases if it.names else it.cases[:MOST_CASES]
    links = [f'<a href="sources/{it.file.path}.html#L{case.line}">{text(case.name)}</a>' for case in shown if case.line]
    names = f": {'; '.join(links)}{' and others' if len(shown) < it.count else ''}" if links else ""
    return f"{at(it.file.path)}: {it.count} of {cases}, {it.refusals} refused{names}"


def definition_items(dossier: Dossier, row: Row) -> list[str]:
    """The definitions of a rule, each with its place, its comment and its text; of a case or a field the text of the whole, once."""
    wholes = [dossier.whole(it) for it in row.definitions]
    return [definition_item(row, it, whole, whole in wholes[:number]) for number, (it, whole) in enumerate(zip(row.definitions, wholes))]


def definition_item(row: Row, definition: Definition, whole: Definition, is_shown: bool) -> str:
    """A definition of a rule, with the text of the whole unless it is shown already."""
    said = STANDARD.sub("", definition.comment).strip()
    comment = f" – {inline(said)}" if said else ""
    is_open = definition in row.rule.named and definition is whole
    said = "" if is_shown else excerpt(whole.source, whole.path, whole.line, is_open)
    return f"<code>{text(definition.shown)}</code>, {at(definition.path, definition.line)}{comment}{said}"


def law_item(dossier: Dossier, law: Law) -> str:
    """A law with its place, its function and its text."""
    it, function = law.definition, law.function
    comment = f" – {inline(it.comment)}" if it.comment else ""
    return (f"<code>{text(it.name)}</code>, {at(it.path, it.line)}{comment}; proved as the contract of <code>{function.name}</code>, "
            f"{at(function.path, function.line)}{way(dossier, law.path[::-1])}{excerpt(it.source, it.path, it.line, len(law.path) <= NEAR)}")


def chain_part(dossier: Dossier, chain: Chain | None) -> str:
    """The steps from a rule's definition to the clause of `check`."""
    if not chain:
        return ""
    chains, field = dossier.chains, chain.field
    answer = dossier.index.all[ANSWER]
    steps, up = [], chain.above
    if chain.by_law:
        steps.append(f"The law {linked(dossier, chain.by_law[-1])} ties {linked(dossier, chain.by_law[0])} to "
                     f"{linked(dossier, chain.within[0])}{way(dossier, chain.by_law[:-1])}")
        up = chain.within + chain.above[1:]
    elif len(chain.within) > 1:
        steps.append(f"It is a part of {linked(dossier, chain.within[-1])}: {rises(dossier, chain.within)}")
    says = f'<a href="sources/{answer.path}.html#L{field.line}"><code>{field.name}</code></a> of {linked(dossier, ANSWER)}'
    steps.append(f"{rises(dossier, up)}, which is the field {says}: “{text(field.says)}”")
    call = f"<code>check</code> ({at(chains.call.path, chains.call.line)})"
    promise = f'<a href="partners.html#p{chains.call.promises[0]}">promise {chains.call.promises[0]}</a>'
    steps.append(f"This is what the clause ({at(chains.call.path, chains.clause.line)}) of the public call {call} says: "
                 f"{' → '.join(linked(dossier, key) for key in chains.down)}; {promise}")
    return "<ol>" + "".join(f"<li>{step}.</li>" for step in steps) + "</ol>"


def carried_item(dossier: Dossier, it: Carried) -> str:
    """A clause that carries a rule, with its text, its function and the promises of that call."""
    unnamed = "its one clause" if len(it.function.clauses) == 1 else "a clause without a name"
    name = f"clause <code>{it.clause.name}</code>" if it.clause.name else unnamed
    words = "" if it.clause.word == "ensures" else " (required)"
    promises = ", ".join(f'<a href="partners.html#p{number}">promise {number}</a>' for number in it.function.promises[:3])
    kind = f"public call, {promises}" if promises else "inside the crate"
    cited = f"cites <code>{text(it.cited.name)}</code>"
    return (f"<code>{text(it.function.name)}</code>, {at(it.function.path, it.function.line)}: {name}{words} {cited}; {kind}{way(dossier, it.path)}"
            f"<pre>{text(it.clause.text)}</pre>")


def body_item(dossier: Dossier, body: WrongBody) -> str:
    """A wrong body with its edit, and links to the functions that it changes."""
    changed = [dossier.code.functions[key] for key in body.functions]
    functions = ", ".join(f"<code>{text(it.name)}</code>, {at(it.path, it.line)}" for it in changed)
    return f"{body_link(body)}, {SETS[body.part]} set, changes {functions}<pre>{text(body.text.rstrip())}</pre>"


def audit_words(dossier: Dossier, crates: list[str]) -> str:
    """The last audit of some crates in short, with how many wrong bodies a crate has now where that is another number."""
    said = []
    for crate in crates:
        tried, refused = dossier.code.audit.counts.get(crate, (0, 0))
        now = sum(body.crate == crate for body in dossier.code.bodies)
        said.append(f"{crate} {refused} of {tried} refused" + (f" (it has {now} now, so not all were tried)" if now > tried else ""))
    return f'<a href="partners.html#audit">Last audit</a> by crate: {"; ".join(said)}'


def bodies_part(dossier: Dossier, row: Row) -> str:
    """The wrong bodies of a rule, how they were found, and the last audit of their crates."""
    if not row.bodies:
        return ""
    whys = "; ".join(dict.fromkeys(why for _, why in row.bodies))
    items = cut([body_item(dossier, body) for body, _ in row.bodies], "rule_wrong_body.csv")
    is_open = "own wrong body" in row.missing
    own = "" if row.has_own_body else "<b class=none>none of its own: this is open</b> " if is_open else "none is asked of a law; near it are some "
    return f"{own}<i>({whys})</i>{items}{audit_words(dossier, list(dict.fromkeys(body.crate for body, _ in row.bodies)))}"


def standard_of(row: Row) -> list[str]:
    """The headings of the standard that the specification, the comments of the definitions or the services' names give."""
    found = list(row.rule.notes)
    for definition in row.definitions:
        words, _, section = definition.standard.rpartition(", section ")
        names = words.split(", ") if words.isupper() else [words]
        found += [f"Section {section}, {name}" for name in names if section]
    found += [f"Section 3, {service}" for service in row.services]
    return list(dict.fromkeys(found))


def text_of(row: Row) -> list[str]:
    """The text of a rule: its sentences, or the cells of its row."""
    rule = row.rule
    if rule.kind == "row":
        return ["<p>" + "<br>".join(inline(column) for column in rule.columns) + "</p>"]
    items = "".join(f'<li id="{rule.number}.{number}">{inline(it.text)}</li>' for number, it in enumerate(rule.sentences, 1))
    return [f"<ol>{items}</ol>" if len(rule.sentences) > 1 else f"<p>{inline(rule.text)}</p>"]


def rule_section(dossier: Dossier, row: Row) -> list[str]:
    """A rule with all its partners."""
    rule = row.rule
    title = f"{rule.number} {text(row.known_as)}" if row.known_as else rule.number
    lead = f", under {rule_links([rule.lead.number])}" if rule.lead else ""
    found = [f'<section id="{rule.number}"><h3>{title}</h3><i>{at("docs/SPECIFICATION.md", rule.line)}{lead}</i>', *text_of(row)]
    if row.explains:
        return found + ['<p>This explains, and is no rule of its own.</p></section>']
    parts = []
    if standard_of(row):
        parts.append(("In the standard", "; ".join(text(it) for it in standard_of(row))))
    how = "" if row.how == "named" else f' <i>({row.how})</i>'
    definitions = cut(definition_items(dossier, row), "rule_definition.csv")
    parts.append(("Definitions", how + definitions if row.definitions else ""))
    parts.append(("Law", cut([law_item(dossier, it) for it in row.laws], "rule_law.csv", MOST_LAWS) if row.laws else ""))
    parts.append(("Up to check", chain_part(dossier, row.chain)))
    parts.append(("Clause and call", cut([carried_item(dossier, it) for it in row.carried], "rule_clause.csv") if row.carried else ""))
    cases = [case_item(it) for it in row.exercises] + [f"{at(*place)}, a test that is no case" for place in row.tests]
    why = f' <i>({row.exercises[0].why})</i>' if row.exercises else ""
    parts.append(("Cases", why + cut(cases, "rule_case.csv") if cases else ""))
    parts.append(("Wrong bodies", bodies_part(dossier, row)))
    absent = {"Definitions": "definition", "Law": "law", "Up to check": "chain", "Clause and call": "clause", "Cases": "case", "Wrong bodies": "wrong body"}
    for name, said in parts:
        none = '<b class=none>none</b>' if absent.get(name) in row.missing else '<i>none asked</i>'
        found.append(f"<dl><dt>{name}</dt><dd>{said or none}</dd></dl>")
    return found + ["</section>"]


def contents(dossier: Dossier) -> list[str]:
    """The contents by part, and the index of the services."""
    found = ["<h2>Contents</h2><ul>"]
    headings: dict[tuple[str, str], list[Row]] = {}
    for row in dossier.rows:
        headings.setdefault((row.rule.part, row.rule.heading), []).append(row)
    for (part, heading), rows in headings.items():
        first, last = rows[0].rule.number, rows[-1].rule.number
        known = "".join(f'<br><a href="#{row.rule.number}">{text(row.known_as)}</a>' for row in rows if row.known_as)
        found.append(f'<li>Part {part}: <a href="#{first}">{text(heading)}</a>, {first} to {last}{known}</li>')
    found.append('</ul><h2>Services</h2><p>The rules that name a service; its name is the heading in section 3 of the standard.</p><ul>')
    for service in dossier.services:
        numbers = [row.rule.number for row in dossier.rows if service in row.services]
        found.append(f'<li><code>{service}</code>: {rule_links(numbers) if numbers else "none"}</li>')
    return found + ["</ul>"]


INTRODUCTION = """<p>This page is made from the repository by <code>python3 tools/dossier</code>. It takes each rule of
docs/SPECIFICATION.md to its definition, law, code, worked cases and wrong bodies. <a href="partners.html">partners.html</a> has the
other direction and what has no partner; <a href="REVIEW.md">REVIEW.md</a> has what a review of the tool asks besides.
The same relations are in the CSV files beside this page. A link to a file leads to a page with all its lines; no link needs a network.</p>
<h2>How the links are made</h2><ul>
<li><b>Rule.</b> A row of a table, a paragraph or an item of a list, numbered by part. Each of its sentences has a number of its own.</li>
<li><b>Definition.</b> What the rule names in code type. A rule that names none goes by those of the paragraph or item that it is under.</li>
<li><b>Law.</b> The law that the rule names; else the laws that mention one of its definitions in the fewest steps. The
steps are shown: a law that is several steps away speaks of a whole of which the rule is a part.</li>
<li><b>Up to check.</b> The way from the rule's definition to the clause of the public call <code>check</code>, in at most three steps. Where a law
ties a sentence to a function, that is the first step. Each arrow leads to a definition that mentions the one before it.</li>
<li><b>Clause and call.</b> The contracts in crates/*/src that cite a definition of the rule. Where no call of docs/PROMISES.md does, also those of
the nearest definitions that mention it; where only laws mention it, those of the definitions with which its law compares it.</li>
<li><b>Cases.</b> Files of crates/case_runner/data and folders of examples. A case belongs to a service that a call of its own rows has, or of
the rows that it shares with its file, except for creations, START, SET_PARTITION_MODE and INITIALIZE_PROCESS_CORE_AFFINITY there. In part 6, only calls
with the code of a condition count, and a No about the outcome of a call. A rule that names no service goes by its object, by the kind of the record that is rejected, or by the cause or
fault that the case expects. A link says that the case has such a record, and not that the case tests nothing else. What no case can hold, such as a reader that fails, has a script or a test of crates/ instead. Beside each file is how many of its cases count,
and how many of those expect a No or a refusal there.</li>
<li><b>Wrong bodies.</b> Those that are given by hand, and the edits of the functions whose clause cites a definition of the rule: these are the rule's own.
Where there is none, those of the functions that carry the rule by way of others, and else those in the same file: they are near the rule, and it is listed as open. docs/AUDIT.md counts by crate, so an audit is given by crate.</li>
<li><b>By hand.</b> Links that no text gives are in tools/dossier/links.toml and tools/dossier/bodies.toml.</li></ul>"""


def rules_page(dossier: Dossier) -> str:
    """The page of all rules."""
    body = [INTRODUCTION, *contents(dossier)]
    heading = ""
    for row in dossier.rows:
        if row.rule.heading != heading:
            heading = row.rule.heading
            body.append(f"<h2>Part {row.rule.part}: {text(heading)}</h2>")
        body += rule_section(dossier, row)
    return page("Rules and what carries them", body)


def listed(title: str, anchor: str, items: list[str]) -> list[str]:
    """A section with a list."""
    return [f'<h2 id="{anchor}">{title}</h2>', "<ul>", *(f"<li>{item}</li>" for item in items), "</ul>"]


def gap_items(dossier: Dossier, name: str) -> list[str]:
    """The rules that have no partner of a kind, by part."""
    parts: dict[str, list[str]] = {}
    for row in dossier.rows:
        if name in row.missing:
            parts.setdefault(row.rule.part, []).append(row.rule.number)
    return [f"part {part}: {rule_links(numbers)}" for part, numbers in parts.items()]


def bodies_list(dossier: Dossier) -> list[str]:
    """All wrong bodies: their rules, or else the promises of the functions that they change, or of the nearest that call these."""
    rules = reverse_of(dossier.rows, lambda row: [body.path for body, _ in row.bodies])
    found = []
    for body in dossier.code.bodies:
        callers, promises = dossier.promises_of(body)
        links = ", ".join(f'<a href="#p{number}">{number}</a>' for number in promises)
        names = ", ".join(f"<code>{text(function_name(key))}</code>" for key in callers)
        by_call = " by hand" if not callers else "" if set(callers) <= set(body.functions) else f" of {names}"
        numbers = rules.get(body.path, [])
        other = f"no rule; promises {links}{by_call}" if promises else "<b class=none>no rule and no promise</b>"
        said = f"rules {rule_links(numbers)}" if numbers else other
        found.append(f"{body_link(body)}: {said}")
    return found


def audits_list(dossier: Dossier) -> list[str]:
    """The last audit by crate, with the difference to the wrong bodies that there are now."""
    found = []
    for crate in sorted({body.crate for body in dossier.code.bodies} | set(dossier.code.audit.counts)):
        now = sum(body.crate == crate for body in dossier.code.bodies)
        tried = dossier.code.audit.counts.get(crate, (0, 0))[0]
        other = "" if now == tried else f' <b class=none>it has {now} now</b>'
        found.append(f"{crate}: {dossier.code.audit.of(crate)}{other}")
    return found


def first_words(calls: str) -> str:
    """The calls of a promise, or the first of many."""
    return calls if len(calls) < 60 or "`" not in calls else calls[:calls.find("`", 1) + 1] + " and more"


def promises_list(dossier: Dossier) -> list[str]:
    """The rows of docs/PROMISES.md, with the rules whose clauses their calls have."""
    rules = reverse_of(dossier.rows, lambda row: [str(number) for it in row.carried for number in it.function.promises])
    found = []
    for promise in dossier.code.promises:
        numbers = rules.get(str(promise.number), [])
        said = rule_links(numbers) if numbers else '<b class=none>none</b>'
        place = at("docs/PROMISES.md", promise.line)
        found.append(f'<span id="p{promise.number}">{promise.number}</span> {inline(first_words(promise.calls))} ({place}): {said}')
    return found


def definitions_list(dossier: Dossier) -> tuple[list[str], list[str]]:
    """The definitions that rules name with their rules, and the definitions of apex_machine and apex_laws that no rule names."""
    rules = reverse_of(dossier.rows, lambda row: [it.key for it in row.definitions])
    laws = reverse_of(dossier.rows, lambda row: [it.definition.key for it in row.laws])
    named, others = [], []
    for key, it in sorted(dossier.index.all.items()):
        if key in rules or key in laws:
            numbers = list(dict.fromkeys(rules.get(key, []) + laws.get(key, [])))
            named.append(f"<code>{text(it.shown)}</code>, {at(it.path, it.line)}: {rule_links(numbers)}")
        elif it.crate in ("apex_machine", "apex_laws") and not it.parent and it.path.endswith(".antt"):
            users = sorted(text(user.split(":")[1]) for user in dossier.users.get(key, ()))
            others_too = " and others" if len(users) > 4 else ""
            said = f"mentioned by {', '.join(users[:4])}{others_too}" if users else "<b class=none>mentioned by nothing</b>"
            others.append(f"<code>{text(it.name)}</code>, {at(it.path, it.line)}: {said}")
    return named, others


OTHER_DIRECTION = """<p>The other direction of <a href="rules.html">rules.html</a>. A wrong body without a rule has the promises of the function
that it changes, or of the nearest functions of its crate that call this one; where no call says so, as with a method of a trait or a name that its crate has
more than once, tools/dossier/bodies.toml gives it its rule or its promise.</p>"""


SAID_OF_GAPS = {
    "chain": "no chain to the clause of check: another public call carries the rule, or none",
    "own wrong body": "no wrong body of its own: those that rules.html shows are only near the rule",
}


def gaps_list(dossier: Dossier) -> list[str]:
    """The rules without a partner, by the kind of partner."""
    found = []
    for name in KINDS:
        items = "".join(f"<li>{item}</li>" for item in gap_items(dossier, name))
        said = SAID_OF_GAPS.get(name, f"no {name}")
        count = sum(name in row.missing for row in dossier.rows)
        found.append(f"{said} ({count} of {len(dossier.rows)} rules)<ul>{items}</ul>")
    return found


def partners_page(dossier: Dossier) -> str:
    """The page of the other direction."""
    laws = reverse_of(dossier.rows, lambda row: [it.definition.key for it in row.laws])
    cases = reverse_of(dossier.rows, lambda row: [it.file.path for it in row.exercises])
    numbers = lambda table, key: rule_links(table[key]) if key in table else "<b class=none>none</b>"
    proved = [dossier.index.all[key] for key in sorted(dossier.law_of)]
    law_items = [f"<code>{text(it.name)}</code>, {at(it.path, it.line)}: {numbers(laws, it.key)}" for it in proved]
    case_items = [f"{at(file.path)} ({len(file.cases)}): {numbers(cases, file.path)}" for file in dossier.cases]
    named, others = definitions_list(dossier)
    sections = [("Rules without a definition, law, clause, chain, case or wrong body", "gaps", gaps_list(dossier)),
                ("Laws, and the rules that need them", "laws", law_items),
                ("Definitions, and the rules that name them", "definitions", named),
                ("Definitions of apex_machine and apex_laws that no rule names", "others", others),
                ("Cases, and the rules that they exercise", "cases", case_items),
                ("Wrong bodies, and the rules that need them", "bodies", bodies_list(dossier)),
                ("The last audit", "audit", audits_list(dossier)),
                ("Promises, and the rules that they carry", "promises", promises_list(dossier))]
    body = [OTHER_DIRECTION, "<ul>"]
    body += [f'<li><a href="#{anchor}">{title}</a></li>' for title, anchor, _ in sections] + ["</ul>"]
    for title, anchor, items in sections:
        body += listed(title, anchor, items)
    return page("Partners and the rules that need them", body)
