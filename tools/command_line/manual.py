"""The regions of a manual page: its synopsis, and its list of options."""
import re
import textwrap

from table import ALL_OTHERS, Option, Program

WIDTH = 80
FORMATS = "apexcheck-formats 5"
# How a page names the value of an option.
NAMES = {"N": "number"}


def flag(option: Option) -> str:
    """An option as a macro has it, with the name of its value."""
    return f"Fl -{option.name}" + (f" Ar {NAMES.get(option.value, option.value.lower())}" if option.value else "")


def synopsis_form(program: Program, form: list[str], is_widest: bool) -> list[str]:
    """The lines of a form of the usage. The widest form names all options, each on a line."""
    lines = [".Nm"]
    for word in form:
        if word == ALL_OTHERS and is_widest:
            lines += [f".Op {flag(option)}" for option in program.others(form)]
        elif word == ALL_OTHERS:
            lines.append(".Op Ar option ...")
        elif word.startswith("--"):
            lines.append(f".{flag(program.option(word))}")
        else:
            lines.append(f".Ar {word.lower().replace('...', ' ...')}")
    return lines


def synopsis(program: Program) -> str:
    """The synopsis of a program."""
    lines = []
    for form in program.forms:
        lines += synopsis_form(program, form, form is program.widest_form)
    alone = [".Nm"] if program.runs_alone else []
    return "\n".join([*lines, *alone, ".Nm", f".{flag(program.version)}", ".Nm", f".{flag(program.help)}"])


def macro_of(program: Program, programs: list[str], code: str) -> str:
    """The macro for a piece of code in a text."""
    if code == program.name:
        return ".Nm"
    if code in programs:
        return f".Xr {code} 1"
    if code.startswith("--") and code != "--":
        return f".Fl {code[1:]}"
    return f".Pa {code}" if re.fullmatch(r"[\w/]+\.\w+", code) else f".Ql {code}"


def sentence_lines(program: Program, programs: list[str], sentence: str) -> list[str]:
    """The lines of a sentence: a piece of code is a line of its own, with the mark that follows it."""
    lines = []
    pieces = sentence.split("`")
    for code, plain in zip(["", *pieces[1::2]], pieces[::2]):
        mark = re.match(r"[.,;:)]?", plain)[0] if code else ""
        if code:
            lines.append(f"{macro_of(program, programs, code)} {mark}".rstrip())
        lines += textwrap.wrap(plain[len(mark):].strip(), WIDTH, break_on_hyphens=False)
    return lines


def text_lines(program: Program, programs: list[str], text: str) -> list[str]:
    """The lines of a text, each sentence on lines of its own."""
    sentences = re.split(r"(?<=[.:]) +(?=[A-Z])", text) if text else []
    return [line for sentence in sentences for line in sentence_lines(program, programs, sentence)]


def sentences_of(program: Program, option: Option) -> str:
    """What the page says of an option, but for the words that it takes."""
    text = [option.filled(option.text)]
    if option in program.required:
        text.append("This option is required.")
    if option.default != "":
        text.append(option.filled(option.filled("The default is {default}.")))
    return " ".join([*text, *([option.page] if option.page else [])])


def item(program: Program, programs: list[str], option: Option) -> list[str]:
    """The lines of an option in the list."""
    lines = [f".It {flag(option)}" + (f" , Fl {option.short_name}" if option.short_name else "")]
    lines += text_lines(program, programs, sentences_of(program, option))
    if option.words:
        lines.append(".Bl -tag -width {}".format(max(option.words, key=len)))
        for word, said in option.words.items():
            lines += [f".It Cm {word}", *text_lines(program, programs, " ".join([said["text"], said.get("page", "")]).strip())]
        lines.append(".El")
    if option.see_section:
        lines += [f"See {option.see_section} in", f".Xr {FORMATS} ."]
    return lines


def options_list(program: Program, programs: list[str]) -> str:
    """The list of the options of a program."""
    items = [line for option in [*program.options, program.version, program.help] for line in item(program, programs, option)]
    return "\n".join([".Bl -tag -width Ds", *items, ".El"])
