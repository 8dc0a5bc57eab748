"""The table of the options: tools/command_line.toml as values."""
import re
import tomllib
from dataclasses import dataclass, field, fields
from pathlib import Path

ALL_OTHERS = "[OPTION]..."
TAKES = {"nothing", "file", "folder", "number", "service", "word"}
# What the words of a completion may not have.
UNQUOTED = set("'\"`$\\[]:")
# The most words of an option that a usage lists.
MOST_LISTED = 4
# The greatest number of 32 bits. A bound that is not below it is not worth a word in a list of options.
GREATEST = 2**32 - 1


@dataclass
class Option:
    """An option of a program. The table's head says what each field is."""
    name: str
    takes: str
    short: str
    text: str
    value: str = ""
    what: str = ""
    least: int = 0
    most: int = 0
    default: int | str = ""
    words: dict[str, dict[str, str]] = field(default_factory=dict)
    offers: list[int] | str = ""
    excludes: str = ""
    short_name: str = ""
    more: str = ""
    brief: str = ""
    page: str = ""
    document: str = ""
    see_section: str = ""
    see_heading: str = ""
    sources: dict[str, str] = field(default_factory=dict)

    @property
    def word(self) -> str:
        """The option as it is written."""
        return f"--{self.name}"

    @property
    def usage(self) -> str:
        """The option with the name of its value."""
        return f"{self.word} {self.value}" if self.value else self.word

    @property
    def usage_by_words(self) -> str:
        """The option with the words that it takes if these are few, and otherwise with the name of its value."""
        is_listed = 0 < len(self.words) <= MOST_LISTED
        return f"{self.word} {'|'.join(self.words)}" if is_listed else self.usage

    @property
    def is_bounded(self) -> bool:
        """Whether it is a number with a bound that is worth a word."""
        return self.takes == "number" and self.most < GREATEST

    def filled(self, text: str, number: str = "d") -> str:
        """A text with the option's own numbers, in a form."""
        numbers = {"least": format(self.least, number), "most": format(self.most, number), "default": str(self.default)}
        if isinstance(self.default, int):
            numbers["default"] = format(self.default, number)
        return text.format(**numbers)


@dataclass
class Operand:
    """A word of a usage that is no option."""
    name: str
    takes: str
    what: str
    short: str
    text: str
    offers: str = ""
    brief: str = ""


Word = Option | Operand


@dataclass
class Section:
    """A section of the help, with what it has in the order of the help."""
    title: str
    has: list[Word]


@dataclass
class Program:
    """A program: what it is, the forms of its usage, and the sections of its help. A script has a file, any other its parsers."""
    name: str
    about: str
    forms: list[list[str]]
    sections: list[Section]
    version: Option
    help: Option
    words: str = ""
    parsers: list[str] = field(default_factory=list)
    script: str = ""
    judges: str = ""
    runs_alone: bool = False

    @property
    def options(self) -> list[Option]:
        """The options of a run."""
        return [word for section in self.sections for word in section.has if isinstance(word, Option)]

    @property
    def operands(self) -> list[Operand]:
        """What is no option."""
        return [word for section in self.sections for word in section.has if isinstance(word, Operand)]

    @property
    def alone(self) -> list[Option]:
        """The options that are the only option of a form of the usage."""
        return [option for option in self.options if any(is_only(option, form) for form in self.forms)]

    @property
    def required(self) -> list[Option]:
        """The options that no form of the usage omits, but for those of the only option of a form."""
        forms = [form for form in self.forms if not any(is_only(option, form) for option in self.alone)]
        return [option for option in self.options if all(option.word in form for form in forms)]

    @property
    def widest_form(self) -> list[str]:
        """The form of the usage in which a reference names all options."""
        return [form for form in self.forms if ALL_OTHERS in form][-1]

    def others(self, form: list[str]) -> list[Option]:
        """The other options of a form."""
        return [option for option in self.options if option.word not in form and option not in self.alone]

    @property
    def takes_folder(self) -> bool:
        """Whether a folder may take the place of the recordings."""
        return any(operand.takes == "folder" for operand in self.operands)

    @property
    def names_folders(self) -> bool:
        """Whether a folder may be named somewhere."""
        return self.takes_folder or any(option.takes == "folder" for option in self.options)

    def option(self, word: str) -> Option:
        """The option that is written so."""
        for option in self.options:
            if option.word == word:
                return option
        raise ValueError(f"{self.name} has no option {word}")


def is_only(option: Option, form: list[str]) -> bool:
    """Whether an option is the only one of a form of the usage."""
    return [word for word in form if not word[0].isalpha()] == [option.word]


def made_of(kind, table: dict, **more):
    """A value of a kind from a table, which may have its fields and no others."""
    unknown = set(table) - {it.name for it in fields(kind)}
    if unknown:
        raise ValueError(f"{more.get('name')} has {', '.join(sorted(unknown))}, which {kind.__name__} has not")
    return kind(**table, **more)


def option_of(options: dict, own: dict, name: str) -> Option:
    """The option of a program."""
    option = made_of(Option, options[name] | own.get(name, {}), name=name)
    if set(option.short) & UNQUOTED:
        raise ValueError(f"{option.word} has a character in `short` that a shell may not take as it is")
    if option.takes not in TAKES or (option.takes == "nothing") == bool(option.value):
        raise ValueError(f"{option.word} takes {option.takes}, and its value is '{option.value}'")
    return option


def program_of(tables: dict, name: str, table: dict) -> Program:
    """A program, with its own options."""
    options, operands, own = tables["option"], tables["operand"], table.pop("own", {})

    def word_of(word: str) -> Word:
        return option_of(options, own, word[2:]) if word.startswith("--") else made_of(Operand, operands[word], name=word)

    sections = [Section(it["title"], [word_of(word) for word in it["has"].split()]) for it in table.pop("sections")]
    forms = [form.split() for form in table.pop("forms")]
    program = made_of(Program, table, name=name, forms=forms, sections=sections, version=word_of("--version"), help=word_of("--help"))
    named = [f"--{it}" for it in own if it not in ("help", "version")] + [word for form in forms for word in form if word.startswith("--")]
    for word in named:
        program.option(word)
    return program


def programs_of(path: Path) -> list[Program]:
    """The programs of the table in a file."""
    tables = tomllib.loads(path.read_text(encoding="utf-8"))
    programs = [program_of(tables, name, table) for name, table in tables["program"].items()]
    used = {option.name for program in programs for option in program.options} | {"help", "version"}
    unused = sorted(set(tables["option"]) - used)
    if unused:
        raise ValueError(f"no program has the option {', '.join(unused)}")
    return programs


def services_of(root: Path) -> list[str]:
    """The names of the services, in the order of their table."""
    text = (root / "crates/apex_types/src/service.rt").read_text(encoding="utf-8")
    return re.findall(r'^    row!\(\w+ => b"(\w+)"', text, re.M)
