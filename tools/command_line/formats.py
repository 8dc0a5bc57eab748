"""The regions of docs/FORMATS.md: the usage of a program, and the table of its options."""
import re

from table import ALL_OTHERS, Operand, Program, Word


def usage(program: Program) -> str:
    """The usage of a program. Its widest form names all options."""
    lines = []
    for form in program.forms:
        words = []
        for word in form:
            if word == ALL_OTHERS and form is program.widest_form:
                words += [f"[{option.usage_by_words}]" for option in program.others(form)]
            else:
                words.append(program.option(word).usage if word.startswith("--") else word)
        lines.append(" ".join([program.name, *words]))
    lines += [program.name] if program.runs_alone else []
    lines += [f"{program.name} {option.word}" for option in (program.version, program.help)]
    return "\n".join(["```", *lines, "```"])


def as_cell(text: str) -> str:
    """Sentences as a cell of a table, which begins in lower case and has no full stop at its end."""
    text = text.removesuffix(".")
    return text[0].lower() + text[1:]


def cell(program: Program, word: Word) -> str:
    """What the table says of an option or an operand."""
    if isinstance(word, Operand):
        return as_cell(word.text)
    text = [word.filled(word.text, ",")]
    if word in program.required:
        text.append("This option is required.")
    if word.default != "":
        text.append(word.filled(word.filled("The default is {default}.", ","), ","))
    said = as_cell(" ".join([*text, *([word.document] if word.document else [])]))
    return said + (f'; see "{word.see_heading}"' if word.see_heading else "")


def rows_of(program: Program, word: Word) -> list[tuple[str, str]]:
    """The rows of an option or an operand: one for each word that an option takes."""
    if isinstance(word, Operand):
        return [(f"`{word.name}`", cell(program, word))]
    if word.words:
        texts = {name: " ".join([said["text"], said.get("document", "")]).strip() for name, said in word.words.items()}
        return [(f"`{word.word} {name}`", as_cell(text)) for name, text in texts.items()]
    return [(f"`{word.usage}`", cell(program, word))]


def table(program: Program, first: Program) -> str:
    """The table of a program. What it has as the first program has it is not said again."""
    said = {row for word in [*first.options, *first.operands] for row in rows_of(first, word)} if program is not first else set()
    lines, same = ["| Word | Meaning |", "|---|---|"], []
    for section in program.sections:
        for word in section.has:
            for name, meaning in rows_of(program, word):
                if (name, meaning) in said:
                    same.append(name)
                    continue
                lines += same_row(same, first)
                lines.append(f"| {name} | {meaning} |")
    return "\n".join([*lines, *same_row(same, first)])


def same_row(same: list[str], first: Program) -> list[str]:
    """The row of what is as the first program has it, which is then used up."""
    rows = [f"| {', '.join(same)} | as for `{first.name}` |"] if same else []
    same.clear()
    return rows


def headings(text: str) -> set[str]:
    """What docs/FORMATS.md has under a name: its headings, and the bold words that begin a paragraph."""
    return set(re.findall(r"^##+ (.*)$", text, re.M)) | set(re.findall(r"^\*\*(.*?)\.?\*\*", text, re.M))
