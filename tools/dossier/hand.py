"""Reads links.toml and bodies.toml, the links that no text of the repository gives."""
import tomllib
from dataclasses import dataclass, field
from pathlib import Path


@dataclass
class Link:
    """What is linked by hand to the one rule whose text begins with `rule`, and that is under the one whose text begins with `under`."""
    rule: str
    under: str = ""
    definitions: list[str] = field(default_factory=list)
    laws: list[str] = field(default_factory=list)
    services: list[str] = field(default_factory=list)
    cases: list[str] = field(default_factory=list)
    bodies: list[str] = field(default_factory=list)
    tests: list[str] = field(default_factory=list)
    known_as: str = ""


@dataclass
class Broken:
    """The one rule or promise whose words begin so and that wrong bodies break, by patterns over CRATE/NAME. A rule is chosen as for a link."""
    bodies: list[str]
    rule: str = ""
    under: str = ""
    promise: str = ""


@dataclass
class Hand:
    """The files: links of rules, texts that explain, how words are to be read, and how many rules may be without a kind of partner."""
    set_up: set[str]
    spoken: set[str]
    means: dict[str, str]
    kinds: dict[str, str]
    causes: dict[str, list[str]]
    explains: list[str]
    links: list[Link]
    broken: list[Broken]
    open: dict[str, int]


def hand_of(folder: Path) -> Hand:
    """Reads the files of a folder."""
    data = tomllib.loads((folder / "links.toml").read_text(encoding="utf-8"))
    broken = tomllib.loads((folder / "bodies.toml").read_text(encoding="utf-8"))["body"]
    kinds = {name: kind for kind, names in data["kinds"].items() for name in names}
    return Hand(set(data["set_up"]), set(data["spoken"]), data["means"], kinds, data["causes"], data["explains"],
                [Link(**link) for link in data["link"]], [Broken(**it) for it in broken], data["open"])
