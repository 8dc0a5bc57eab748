"""Finds the relative links of pages that lead nowhere."""
import re
from collections.abc import Callable
from html import unescape
from os.path import dirname, exists, normpath
from pathlib import Path

LINK = re.compile(r'(?:href|src)="([^"]*)"')
# Code has no links: a span of it is matched first, and gives no name.
MARKDOWN = re.compile(r"`[^`\n]*`|\]\(([^)\s]+)\)")
ANCHOR = re.compile(r'\bid="([^"]*)"')
ELSEWHERE = re.compile(r"^[a-z][a-z0-9+.-]*:")


def links_of(name: str, text: str) -> list[str]:
    """The relative links of a page, or of a file of Markdown."""
    pattern = LINK if name.endswith(".html") else MARKDOWN
    return sorted(it for it in set(map(unescape, pattern.findall(text))) if it and not ELSEWHERE.match(it))


def broken_links(pages: dict[str, str], is_there: Callable[[str], bool]) -> tuple[int, list[str]]:
    """How many relative links these pages have, by their names, and those that lead to no page, no other file, or no anchor of a page."""
    anchors = {name: set(ANCHOR.findall(text)) for name, text in pages.items() if name.endswith(".html")}
    count, broken = 0, []
    for name in sorted(pages):
        for link in links_of(name, pages[name]):
            count += 1
            file, _, anchor = link.partition("#")
            target = normpath(f"{dirname(name)}/{file}".lstrip("/")) if file else name
            if target not in pages and not is_there(target):
                broken.append(f"{name} links to {link}, which there is not")
            elif anchor and target in anchors and anchor not in anchors[target]:
                broken.append(f"{name} links to {link}, which has no such anchor")
    return count, broken


def broken_links_below(folder: Path) -> tuple[int, list[str]]:
    """The same of the pages and the Markdown below a folder. What is outside it is not there."""
    pages = [it for it in folder.rglob("*") if it.suffix in (".html", ".md") and it.is_file()]
    texts = {str(it.relative_to(folder)): it.read_text(encoding="utf-8") for it in pages}
    return broken_links(texts, lambda name: not name.startswith("..") and exists(folder / name))
