"""Writes the pages that the rules' page leads to: each cited source with an anchor for each line, and the wrong bodies of each crate."""
import re
from pathlib import Path

from contracts import SETS, WrongBody
from html_words import at, page, rule_links, text
from links import Dossier, reverse_of

CITED = re.compile(r'href="(?:\.\./)*sources/([^"#]+)\.html')


def numbered(lines: list[str]) -> str:
    """Lines with their numbers, each an anchor."""
    rows = [f'<a id="L{number}" href="#L{number}">{number}</a> {text(line)}' for number, line in enumerate(lines, 1)]
    return '<pre class="lines">' + "\n".join(rows) + "</pre>"


def source_page(root: Path, path: str) -> str:
    """The page of a file of the repository, or of a folder with its files, which are an example's."""
    up = "../" * (path.count("/") + 1)
    body = [f'<p><a href="{up}rules.html">All rules</a></p>']
    source = root / path
    if source.is_file():
        return page(path, [*body, numbered(source.read_text(encoding="utf-8").splitlines())])
    for file in sorted(it for it in source.iterdir() if it.suffix in (".toml", ".csv", ".txt")):
        body += [f"<h2>{text(file.name)}</h2>", f"<pre>{text(file.read_text(encoding='utf-8'))}</pre>"]
    return page(path, body)


def body_section(dossier: Dossier, body: WrongBody, rules: list[str]) -> str:
    """A wrong body: its edit, the functions that it changes, and the rules or promises that it breaks."""
    functions = [dossier.code.functions[key] for key in body.functions]
    changed = ", ".join(f"<code>{text(it.name)}</code> ({at(it.path, it.line, '../')})" for it in functions)
    promises = ", ".join(f'<a href="../partners.html#p{number}">{number}</a>' for number in dossier.promises_of(body)[1])
    broken = f"rules {rule_links(rules, '../')}" if rules else f"promises {promises}"
    return (f'<section id="{body.part}-{body.name}"><h3>{body.name}</h3><p>{body.path}, {SETS[body.part]} set. Changes {changed}. '
            f"Linked to {broken}.</p><pre>{text(body.text)}</pre></section>")


def bodies_pages(dossier: Dossier) -> dict[str, str]:
    """A page for each crate that has wrong bodies."""
    rules = reverse_of(dossier.rows, lambda row: [body.path for body, _ in row.bodies])
    found: dict[str, list[str]] = {}
    for body in dossier.code.bodies:
        found.setdefault(body.crate, []).append(body_section(dossier, body, rules.get(body.path, [])))
    words = "<p>Each edit turns one or more lines <code>old</code> of a file into <code>new</code>. The prover must refuse the crate then.</p>"
    return {f"bodies/{crate}.html": page(f"Wrong bodies of {crate}", [words, *sections]) for crate, sections in found.items()}


def sources_pages(root: Path, files: dict[str, str]) -> dict[str, str]:
    """A page for each source that these pages cite."""
    cited = sorted({path for words in files.values() for path in CITED.findall(words)})
    return {f"sources/{path}.html": source_page(root, path) for path in cited}
