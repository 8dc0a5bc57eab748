"""Reads the worked cases of crates/case_runner/data and .ci/said, and runs a program on them.

crates/case_runner/data/README.md describes their form.
"""
import re
import subprocess
import sys
import tempfile
from dataclasses import dataclass, field
from pathlib import Path

sys.path.append(str(Path(__file__).resolve().parent.parent / "tools/dossier"))
from cases import sections_of  # noqa: E402

SECONDS = 20

CHANGED = re.compile(r"(config\.toml|rules\.toml|order\.csv|core\d+\.csv)(?: (line|from line) (\d+)| (\d+) times)?$")
VALUED = re.compile(r"(workers|depth) (\d+)$")


class Malformed(Exception):
    """A file that is not written as README.md says."""


@dataclass
class Case:
    """A case: its texts by the names of their files, and its other sections by their headings."""
    name: str
    texts: dict[str, list[str]] = field(default_factory=dict)
    sections: dict[str, list[str]] = field(default_factory=dict)
    settings: dict[str, str] = field(default_factory=dict)
    said: list[str] | None = None
    shows: list[str] = field(default_factory=list)

    def anew(self, name: str) -> "Case":
        """A case that begins with what this one has."""
        return Case(name, dict(self.texts), dict(self.sections), dict(self.settings), self.said, list(self.shows))

    def take(self, heading: str, lines: list[str]) -> None:
        """Takes a section."""
        if change := CHANGED.match(heading):
            self.texts[change[1]] = changed(self.text(change[1]), change, lines)
        elif setting := VALUED.match(heading):
            self.settings[setting[1]] = setting[2]
        elif heading == "said" or heading.startswith("said of "):
            self.said, self.shows = lines, shown_by(heading.removeprefix("said").removeprefix(" of "))
        elif heading in ("report", "last", "status", "rules", "words") or heading.startswith("cuts of "):
            self.sections[heading] = lines
        else:
            raise Malformed(f"no section is '{heading}'")

    def text(self, name: str) -> list[str]:
        """The lines of a text. Without a certificate, the records of core 0 in their own order."""
        if name == "order.csv" and name not in self.texts:
            return [f"0,{number}" for number in range(len(self.texts.get("core0.csv", [])))]
        return self.texts.get(name, [])

    def report(self) -> str:
        """The line that is required."""
        return "\n".join(self.sections.get("report", []))


def shown_by(words: str) -> list[str]:
    """The variants that the words of a heading name: one fault of the command line, or some variants."""
    return [words] if words.startswith("usage: ") else words.split()


def changed(text: list[str], change: re.Match[str], lines: list[str]) -> list[str]:
    """A text that is changed as a heading says."""
    if change[4]:
        numbered = range(len(text), len(text) + int(change[4]) * len(lines))
        return text + [lines[(number - len(text)) % len(lines)].replace("@", str(number)) for number in numbered]
    if not change[2]:
        return lines
    at = int(change[3])
    if at > len(text) or (change[2] == "line" and at == len(text)):
        raise Malformed(f"no line {at}")
    return text[:at] + lines + (text[at + 1:] if change[2] == "line" else [])


def cases_of(path: Path) -> list[Case]:
    """The cases of a file."""
    shared = Case("")
    cases: list[Case] = []
    for heading, lines in sections_of(path.read_text(encoding="utf-8")):
        if heading.startswith("case "):
            cases.append(shared.anew(heading.removeprefix("case ")))
        else:
            (cases[-1] if cases else shared).take(heading, lines)
    return cases


def words_of(case: Case) -> list[bytes]:
    """The command line of a case: its own words, in which `\\xff` is that byte, or those that name its files."""
    if "words" in case.sections:
        return [re.sub(rb"\\x(\w\w)", lambda byte: bytes.fromhex(byte[1].decode()), word.encode()) for word in case.sections["words"]]
    words = ["--config", "config.toml", "--order", "order.csv", "--workers", case.settings.get("workers", "1")]
    words += ["--depth", case.settings["depth"]] if "depth" in case.settings else []
    words += [word for option in case.sections.get("rules", []) for word in f"--{option}".split(" ", 1)]
    words += ["--rules", "rules.toml"] if "rules.toml" in case.texts else []
    words += ["--last"] if "last" in case.sections else []
    cores = [name for name in case.texts if name.startswith("core")]
    return [word.encode() for word in words + sorted(cores, key=lambda name: int(name[4:-4]))]


@dataclass
class Answer:
    """What a program printed on standard output and on standard error, and its status."""
    printed: str
    said: str
    status: int


def answer_of(program: Path, case: Case) -> Answer | None:
    """Runs a program on a case, in a folder that has its files. None if there is no answer in time."""
    with tempfile.TemporaryDirectory() as room:
        for name in {"order.csv", *case.texts}:
            Path(room, name).write_text("".join(f"{line}\n" for line in case.text(name)), encoding="utf-8")
        try:
            run = subprocess.run([str(program), *words_of(case)], cwd=room, stdin=subprocess.DEVNULL, capture_output=True, timeout=SECONDS)
        except subprocess.TimeoutExpired:
            return None
    return Answer(run.stdout.decode(errors="replace"), run.stderr.decode(errors="replace"), run.returncode)


def wrong_answer(case: Case, answer: Answer | None) -> str:
    """What is wrong with the line, the last records and the status of an answer. Empty if nothing is."""
    if answer is None:
        return f"no answer in {SECONDS} seconds"
    expected = "\n".join(case.sections.get("report", []) + case.sections.get("last", []))
    wrong = [] if answer.printed == expected + "\n" else [f"it printed '{answer.printed.rstrip()}', not '{expected}'"]
    if case.sections.get("status") != [str(answer.status)]:
        wrong.append(f"status {answer.status}, not {' '.join(case.sections.get('status', []))}")
    return "; ".join(wrong)
