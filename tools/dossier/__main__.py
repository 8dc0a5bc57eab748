"""Makes the dossier from the repository: from each rule to its definition, law, code, cases and wrong bodies, and back.

    python3 tools/dossier            writes the files into docs/dossier, where the repository has only REVIEW.md
    python3 tools/dossier FOLDER     writes them into another folder
    python3 tools/dossier --check    writes nothing that stays, and exits with 1 if there is a fault

Nothing is proved or run. A fault is a link by hand that fits nothing, a name in docs/SPECIFICATION.md, docs/QUALIFICATION.md or
docs/dossier/REVIEW.md that there is not, a wrong body without a rule and a promise, a kind of partner that more rules lack than
links.toml allows, or a link of the pages that leads nowhere. If there is one, nothing is written.
"""
import re
import shutil
import sys
from pathlib import Path

sys.dont_write_bytecode = True

from anchors import broken_links  # noqa: E402
from definitions import Index  # noqa: E402
from hand import hand_of  # noqa: E402
from links import Dossier  # noqa: E402
from pages import partners_page, rules_page  # noqa: E402
from sources import bodies_pages, sources_pages  # noqa: E402
from tables import tables  # noqa: E402

ROOT = Path(__file__).resolve().parent.parent.parent
FOLDER = ROOT / "docs/dossier"
WRITTEN_BY_HAND = ["docs/QUALIFICATION.md", "docs/dossier/REVIEW.md"]


def made(dossier: Dossier) -> dict[str, str]:
    """The files by their names below the folder."""
    pages = {"rules.html": rules_page(dossier), "partners.html": partners_page(dossier), **bodies_pages(dossier)}
    return {**pages, **sources_pages(ROOT, pages), **tables(dossier)}


def write(files: dict[str, str], folder: Path) -> None:
    """Writes the files below a folder, in place of all that an earlier run left there."""
    for name in {name.split("/")[0] for name in files if "/" in name}:
        shutil.rmtree(folder / name, ignore_errors=True)
    for name, text in files.items():
        path = folder / name
        path.parent.mkdir(parents=True, exist_ok=True)
        path.write_text(text, encoding="utf-8")


def dead_links(files: dict[str, str]) -> list[str]:
    """The links of the files that lead nowhere when they are beside REVIEW.md alone."""
    review = (FOLDER / "REVIEW.md").read_text(encoding="utf-8")
    return broken_links(files | {"REVIEW.md": review}, lambda name: False)[1]


def absent(dossier: Dossier, files: dict[str, str], document: str) -> list[str]:
    """What a document names that there is not: files, wrong bodies as CRATE/NAME, and files of cases."""
    words = set(re.findall(r"`([^`\s]+)`", (ROOT / document).read_text(encoding="utf-8")))
    bodies = {f"{body.crate}/{body.name}" for body in dossier.code.bodies}
    there = bodies | {f"docs/dossier/{name}" for name in files} | {name.split("/")[0] + "/" for name in files if "/" in name}
    # What a run of the gate makes is not there before it.
    paths = [word for word in words if "/" in word and "/out/" not in word and word not in there and not any(ROOT.glob(word))]
    cases = {file.name for file in dossier.cases}
    named = [word for word in words if re.fullmatch(r"most_\w+|outside_\w+", word) and word not in cases]
    return [f"{document} names {word}, which there is not" for word in sorted(paths + named)]


def main(words: list[str]) -> int:
    """Writes or checks the files, and returns the exit status."""
    is_check = words == ["--check"]
    if len(words) > 1 or (words and words[0].startswith("-") and not is_check):
        print("usage: python3 tools/dossier [--check | FOLDER]", file=sys.stderr)
        return 2
    dossier = Dossier(Index(ROOT), hand_of(Path(__file__).parent))
    files = made(dossier)
    wrong = dossier.faults() + dead_links(files)
    for document in WRITTEN_BY_HAND:
        wrong += absent(dossier, files, document)
    for line in wrong:
        print(f"FAILED: {line}")
    if not wrong and not is_check:
        write(files, Path(words[0]) if words else FOLDER)
    print(f"dossier: {len(dossier.rows)} rules in {len(files)} files, {len(wrong)} failed")
    return 1 if wrong else 0


sys.exit(main(sys.argv[1:]))
