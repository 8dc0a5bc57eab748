"""What the sources of the programs have of the table: the tables and the short helps of wording, and the head of a script."""
import re
import textwrap

from table import Operand, Option, Program, Section, Word

WIDTH = 79
# The greatest length of a line that `rt fmt` leaves whole.
LINE = 100
# The most that it has of the list in a pair of parentheses.
LIST = 60
# What options.rt calls these numbers.
NAMED = {2**32 - 1: "MOST", 2**62 - 1: "LAST_PLACE"}


def literal(number: int) -> str:
    """A number in Rust."""
    return NAMED.get(number, f"{number:_}")


def takes_of(option: Option) -> str:
    """What an option takes, as a value of `Takes`."""
    if option.takes == "number":
        return f'number!("{option.what}", {literal(option.least)}, {literal(option.most)})'
    if option.takes == "word":
        return "Takes::OneOf(&[{}])".format(", ".join(f'"{word}"' for word in option.words))
    return "Takes::File" if option.takes == "folder" else f"Takes::{option.takes.capitalize()}"


def row_of(program: Program, option: Option) -> str:
    """The row of an option in options.rt, as `rt fmt` lays it out."""
    mark = "required " if option in program.required else "alone " if option in program.alone else ""
    both = f'{mark}"{option.word}", {takes_of(option)}'
    if len(both) <= LIST or option.takes != "word":
        return f"    row!({both}),\n"
    taken = f"        {takes_of(option)}\n"
    if len(taken) <= LINE:
        return f'    row!(\n        "{option.word}",\n{taken}    ),\n'
    words = ",\n".join(f'            "{word}"' for word in option.words)
    return f'    row!(\n        "{option.word}",\n        Takes::OneOf(&[\n{words}\n        ])\n    ),\n'


def options_table(program: Program) -> str:
    """The table of a program in options.rt: those with a value, and then the flags."""
    options = sorted(program.options, key=lambda it: (it not in program.required, not it.value))
    rows = [row_of(program, option) for option in options]
    return f"pub static {program.words}_OPTIONS: [ProgramOption; {len(rows)}] = [\n{''.join(rows)}];"


def usage_of(program: Program) -> str:
    """The usage of a program."""
    forms = [" ".join(program.option(word).usage if word.startswith("--") else word for word in form) for form in program.forms]
    alone = f"{program.version.word} | {program.help.word}"
    lines = [f"{program.name} {form}" for form in [*forms, alone]]
    return "usage: " + "\n       ".join(lines)


def brief_item(word: Word) -> str:
    """An option or an operand in the short help."""
    if isinstance(word, Operand):
        return f"{word.name} ({word.brief})"
    return word.usage_by_words + (f" ({word.filled(word.brief)})" if word.brief else "")


def brief_section(section: Section, indent: int) -> list[str]:
    """The lines of a section of the short help. A line ends only between two items."""
    lines, line = [], f"  {section.title}:".ljust(indent)
    for word in section.has:
        item = brief_item(word) + ("" if word is section.has[-1] else ",")
        if len(line) + len(item) > WIDTH and line.strip() and line != " " * indent:
            lines.append(line.rstrip())
            line = " " * indent
        line += f"{item} "
    return [*lines, line.rstrip()]


def short_help(program: Program) -> str:
    """The short help of a program but for its last line."""
    indent = max(len(section.title) for section in program.sections) + 4
    sections = [line for section in program.sections for line in brief_section(section, indent)]
    return "\n".join([usage_of(program), *textwrap.wrap(program.about, WIDTH), *sections])


def help_constant(program: Program) -> str:
    """The constant with the short help of a program in short_help.rt."""
    text = f'"{short_help(program)}";'
    head = f"const {program.words}_HELP: &str ="
    is_long = len(head) + 1 + len(text.split("\n")[0]) > LINE
    return head + ("\n    " if is_long else " ") + text


def with_tables(text: str, programs: list[Program]) -> str:
    """options.rt with the tables of the programs."""
    for program in programs:
        text, found = re.subn(rf"^pub static {program.words}_OPTIONS: .*?^\];", lambda _: options_table(program), text, flags=re.M | re.S)
        if found != 1:
            raise ValueError(f"options.rt has no table of {program.name}")
    return text


def with_helps(text: str, programs: list[Program]) -> str:
    """short_help.rt with the short helps of the programs."""
    for program in programs:
        text, found = re.subn(rf'^const {program.words}_HELP: .*?";', lambda _: help_constant(program), text, flags=re.M | re.S)
        if found != 1:
            raise ValueError(f"short_help.rt has no help of {program.name}")
    return text


def help_words(word: Word) -> str:
    """What the help of a script says of an option or an operand."""
    if isinstance(word, Operand):
        return word.short
    bounds = ", {least} to {most}" if word.is_bounded else ""
    default = " (default: {default})" if word.default != "" else ""
    # A default in words may itself have a bound.
    return word.filled(word.filled(f"{word.short}{bounds}{default}{word.more}").replace("`", ""))


def whole_help(program: Program) -> str:
    """The help of a script."""
    ends = [("-h, --help", help_words(program.help)), ("--version", help_words(program.version))]
    rows = {}
    for section in program.sections:
        rows[section.title] = [(word.usage if isinstance(word, Option) else word.name, help_words(word)) for word in section.has]
    rows[program.sections[-1].title] += ends
    indent = max(len(name) for section in rows.values() for name, _ in section) + 4
    lines = [usage_of(program), "", *textwrap.wrap(program.about, WIDTH)]
    for title, section in rows.items():
        lines += ["", f"{title}:"]
        for name, words in section:
            lines += textwrap.wrap(words, WIDTH, initial_indent=f"  {name}".ljust(indent), subsequent_indent=" " * indent)
    return "\n".join(lines)


def script_head(program: Program) -> str:
    """The help of a script, and its lists of options."""
    def listed(options: list[Option]) -> str:
        return '"{}"'.format(" ".join(["", *(option.word for option in options), ""]))

    judged = [program.option(word) for word in program.judges.split()]
    most = [f"MOST_{option.name.replace('-', '_').upper()}={option.most}" for option in judged]
    return "\n".join([
        f'HELP="{whole_help(program)}"',
        "",
        "# The options with a value, those without, and those whose value is a file or a folder.",
        f"WITH_VALUE={listed([option for option in program.options if option.value])}",
        f"ALONE={listed([option for option in program.options if not option.value])}",
        f"FILES={listed([option for option in program.options if option.takes in ('file', 'folder')])}",
        "# The greatest value of those that are judged here.",
        " ".join(most),
    ])
