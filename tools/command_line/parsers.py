"""What the parsers of the programs accept, from their sources, and how it differs from the table."""
import re
from dataclasses import dataclass
from pathlib import Path

from regions import without_regions
from sources import NAMED
from table import Program

HELPER = re.compile(r"^(?:pub(?:\(crate\))? )?fn (\w+)(?:<[^>]*>)?\(([^)]*)\)[^{\n]*(?:\n +(?:ensures|requires)\b[^\n]*)*\s*\{\n(.*?)^\}", re.M | re.S)
CALL = re.compile(r"\.(\w+)\(([^()]*)\)")
NUMBER = re.compile(r"u(32|64)::MAX|[\d_]+")


@dataclass(frozen=True)
class Accepted:
    """A word that a parser accepts, and how."""
    name: str
    is_option: bool
    has_value: bool
    is_required: bool
    is_repeated: bool

    def __str__(self) -> str:
        marks = [
            "an option" if self.is_option else "an operand",
            "a value" if self.has_value else "no value",
            "required" if self.is_required else "not required",
            "repeated" if self.is_repeated else "once",
        ]
        return ", ".join(marks)


def accepted_of(program: Program) -> dict[str, Accepted]:
    """What a program accepts by the table. The parsers know the recordings as `core`, and nothing of an option that is alone."""
    options = [it for it in program.options if it not in program.alone]
    found = {it.name: Accepted(it.name, True, bool(it.value), it in program.required, False) for it in options}
    for operand in program.operands:
        found["core"] = Accepted("core", False, True, True, operand.name.endswith("..."))
    return found


def balanced(text: str, start: int) -> str:
    """The text inside the parenthesis that opens before a position."""
    depth, end = 1, start
    while depth:
        depth += {"(": 1, ")": -1}.get(text[end], 0)
        end += 1
    return text[start:end - 1]


def arguments_of(body: str) -> list[str]:
    """What each call of `arg` in a body is given."""
    return [balanced(body, found.end()).strip() for found in re.finditer(r"\.arg\(", body)]


def argument(given: str, helpers: dict[str, tuple[str, str]]) -> Accepted:
    """The word that an argument of the parser accepts. A helper of the same file may make it."""
    call = re.match(r'(\w+)\(alloc(?:, "([\w-]+)")?\)', given)
    if call and call[1] in helpers:
        parameters, body = helpers[call[1]]
        given = (re.sub(r"\bname\b", f'"{call[2]}"', body) if "name" in parameters else body).strip() + given[call.end():]
    name = re.match(r'\s*Arg::new\(alloc, "([\w-]+)"\)', given)
    if not name:
        raise ValueError(f"an argument that cannot be read: {given}")
    calls = {it[1]: it[2] for it in CALL.finditer(given, name.end())}
    action = calls.get("action", "").removeprefix("ArgAction::")
    unknown = set(calls) - {"long", "required", "num_args", "action"}
    if unknown or action not in ("Set", "SetTrue", "Append") or calls.get("long", f'"{name[1]}"') != f'"{name[1]}"':
        raise ValueError(f"an argument that cannot be read: {given}")
    is_option = "long" in calls
    is_repeated = action == "Append" and (is_option or calls.get("num_args") == "1..")
    return Accepted(name[1], is_option, action != "SetTrue", calls.get("required") == "true", is_repeated)


def accepted_by_code(text: str) -> list[Accepted]:
    """What the function `command` of a source accepts."""
    helpers = {name: (parameters, body) for name, parameters, body in HELPER.findall(text)}
    if "command" not in helpers:
        raise ValueError("it has no function `command`")
    return [argument(given, helpers) for given in arguments_of(helpers["command"][1])]


def accepted_by_definition(text: str) -> list[Accepted]:
    """What the definitions of CommandLine.antt accept."""
    definitions = [
        "option_of name = record (new_rule name) { long = Some name; action = Some Set }",
        "flag_of name = record (new_rule name) { long = Some name; action = Some SetTrue }",
        "wanted rule = record rule { required = true }",
        'recordings = record (new_rule (codes "core")) { required = true; '
        "range = Some (record { start_inclusive = 1; end_inclusive = usize_max }); action = Some Append; }",
        "command_line = with_rule options recordings",
    ]
    words = " ".join(text.split())
    missing = [it for it in definitions if it not in words]
    if missing:
        raise ValueError(f"it has another definition of {missing[0].split()[0]}")
    rules = re.findall(r'\((wanted \()?(option_of|flag_of) \(codes "([\w-]+)"\)', words)
    rules += re.findall(r'(?<!\()(wanted )?(option_of|flag_of) \(codes "([\w-]+)"\)', words)
    found = [Accepted(name, True, kind == "option_of", bool(wanted), False) for wanted, kind, name in rules]
    if len(found) != words.count("_of (codes "):
        raise ValueError("it has a rule that cannot be read")
    return [*found, Accepted("core", False, True, True, True)]


def parser_faults(program: Program, path: Path) -> list[str]:
    """How a parser differs from the table."""
    text = path.read_text(encoding="utf-8")
    try:
        words = accepted_by_definition(text) if path.suffix == ".antt" else accepted_by_code(text)
    except ValueError as fault:
        return [str(fault)]
    wanted, found = accepted_of(program), {it.name: it for it in words}
    wrong = [f"it accepts {word.name} twice" for word in found.values() if words.count(word) > 1]
    wrong += [f"it lacks {name}" for name in wanted if name not in found]
    wrong += [f"it has {name}, which the table has not" for name in found if name not in wanted]
    differ = [(it, found[it.name]) for it in wanted.values() if found.get(it.name, it) != it]
    return wrong + [f"{ours.name} is {ours} in the table, and {theirs} here" for ours, theirs in differ]


def script_faults(programs: list[Program], program: Program, text: str) -> list[str]:
    """How the hand-written part of a script differs from the table: an option that it does not use, or that it passes on wrongly."""
    rest = without_regions(text)
    lists = dict(re.findall(r"^(JUDGED|SHOWN)=\((.*?)\)$", rest, re.M))
    uses = [*lists.values(), *re.findall(r"given\[(--[\w-]+)\]", rest), *re.findall(r"^ *(?:options|for name in) (--.*)$", rest, re.M)]
    used = {word for line in uses for word in re.findall(r"--[a-z][\w-]*", line)}
    words = {option.word for option in program.options}
    wrong = [f"it does not use {word}" for word in sorted(words - used)]
    wrong += [f"it uses {word}, which the table has not" for word in sorted(used - words)]
    for name, whose in (("JUDGED", "apexcheck"), ("SHOWN", "apexview")):
        known = {option.word for it in programs if it.name == whose for option in it.options}
        wrong += [f"{name} has {word}, which {whose} has not" for word in lists.get(name, "").split() if word not in known]
    return wrong


def number_of(words: str) -> int:
    """A number in a source: digits, or the greatest of a type, maybe divided."""
    parts = re.split(r" / ", words)
    numbers = [2 ** int(it[1]) - 1 if it[1] else int(it[0].replace("_", "")) for it in map(NUMBER.fullmatch, parts)]
    return numbers[0] // (numbers[1] if len(numbers) > 1 else 1)


def constant_fault(root: Path, source: str, number: int) -> str:
    """How a constant differs from a number, if it does. The source is its file and its name."""
    path, constant = source.split()
    text = (root / path).read_text(encoding="utf-8") if (root / path).exists() else ""
    found = re.search(rf"^(?:pub )?const {constant}: \w+ = ([\w:/ ]+);", text, re.M)
    if not found:
        return f"{path} has no constant {constant}"
    return "" if number_of(found[1]) == number else f"{constant} in {path} is {found[1]}, and not {number}"


def constant_faults(root: Path, program: Program) -> list[str]:
    """Constants of the sources that are not the numbers of the table."""
    numbers = [(option, which, source) for option in program.options for which, source in option.sources.items()]
    # A default in words has no constant.
    known = [(f"{option.word}: ", source, getattr(option, which)) for option, which, source in numbers]
    faults = [(words, constant_fault(root, source, number)) for words, source, number in known if isinstance(number, int)]
    return [words + fault for words, fault in faults if fault]


def named_faults(root: Path, path: str) -> list[str]:
    """Constants of options.rt that are not the numbers that the tables there mean."""
    faults = [constant_fault(root, f"{path} {name}", number) for number, name in NAMED.items()]
    return [fault for fault in faults if fault]
