"""The words of HTML that all pages have in common. A page needs no script, no network and no file outside its folder."""
import re
from html import escape

STYLE = """:root{color-scheme:light dark}body{font:16px/1.5 sans-serif;max-width:62em;margin:1em auto;padding:0 1em}code,pre{font-size:.9em;background:#f2f2f2}
pre{overflow-x:auto;margin:.2em 0;padding:.3em;line-height:1.3}pre.lines a{display:inline-block;width:4em;color:#555}pre.lines a:target{background:#fd6}
section{border-top:1px solid #bbb;margin-top:1.2em}h3{margin:.6em 0 .2em}dt{font-weight:bold;float:left;width:8.5em}
dd{margin:0 0 .3em 9em}b.none{color:#a00}i{color:#444}summary{color:#444}
a,code{overflow-wrap:anywhere}@media(max-width:40em){dt{float:none}dd{margin-left:0}ul{padding-left:1.2em}}
@media(prefers-color-scheme:dark){code,pre{background:#2a2a2a}pre.lines a{color:#bbb}pre.lines a:target{background:#420}b.none{color:#f99}i,summary{color:#bbb}section{border-color:#666}}"""


def text(words: str) -> str:
    """Words as HTML. Quotes stay, since no attribute has them."""
    return escape(words, quote=False)


def inline(markdown: str) -> str:
    """Markdown of one line as HTML: code, bold and slanted text."""
    shown = text(markdown)
    shown = re.sub(r"`([^`]+)`", r"<code>\1</code>", shown)
    shown = re.sub(r"\*\*([^*]+)\*\*", r"<b>\1</b>", shown)
    return re.sub(r"\*([^*]+)\*", r"<i>\1</i>", shown)


def page(title: str, body: list[str]) -> str:
    """A whole page."""
    kind = '<meta charset="utf-8"><meta name="viewport" content="width=device-width">'
    head = f'<!DOCTYPE html>\n<html lang="en"><head>{kind}<title>{text(title)}</title>\n<style>{STYLE}</style></head><body>'
    return "\n".join([head, f"<h1>{text(title)}</h1>", *body, "</body></html>"]) + "\n"


def at(path: str, line: int = 0, up: str = "") -> str:
    """A link to the page of a file of the repository, at its line, from a page of the folder, or from one below it with `up`."""
    shown = re.sub(r"^crates/|(?<=/)(?:specs|src|case_runner/data)/", "", path) + (f":{line}" if line else "")
    return f'<a href="{up}sources/{text(path)}.html{f"#L{line}" if line else ""}">{text(shown)}</a>'


def rule_links(numbers: list[str], up: str = "") -> str:
    """Links to rules by their numbers."""
    return ", ".join(f'<a href="{up}rules.html#{number}">{number}</a>' for number in numbers)


def function_name(key: str) -> str:
    """The name of a function by its key, without its file."""
    return key.split(":", 1)[1]
