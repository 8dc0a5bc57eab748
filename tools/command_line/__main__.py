"""Generates whatever lists the options of the programs from tools/command_line.toml.

    python3 tools/command_line            writes it
    python3 tools/command_line --check    compares it, and compares the parsers of the programs with the table

It generates the tables and the short helps of `wording`, the head of tools/apexrun, the synopsis and the list of options of each
manual page, the completions, and the usages and tables of docs/FORMATS.md. What a parser accepts is written by hand. The check requires
that each parser has exactly the options of the table, with a value or without, required or not, and that the constants of the sources
have the table's numbers.

The last line of the check is `command line: N passed, M failed`.
"""
import re
import sys
from pathlib import Path

sys.dont_write_bytecode = True

import formats  # noqa: E402
import manual  # noqa: E402
from completions import completions  # noqa: E402
from parsers import constant_faults, named_faults, parser_faults, script_faults  # noqa: E402
from regions import with_region  # noqa: E402
from sources import script_head, with_helps, with_tables  # noqa: E402
from table import Program, programs_of, services_of  # noqa: E402

ROOT = Path(__file__).resolve().parent.parent.parent
TABLE = ROOT / "tools/command_line.toml"
WORDS = "crates/wording/src"
FORMATS = "docs/FORMATS.md"
PAGE_OF_FORMATS = "packaging/man/apexcheck-formats.5"


def read(path: str) -> str:
    """A file of the repository."""
    return (ROOT / path).read_text(encoding="utf-8")


def with_regions(path: str, regions: dict[str, str]) -> str:
    """A file of the repository with its regions."""
    text = read(path)
    for name, lines in regions.items():
        text = with_region(text, name, lines, path)
    return text


def page_of(program: Program, names: list[str]) -> str:
    """The manual page of a program."""
    return with_regions(f"packaging/man/{program.name}.1", {
        "synopsis": manual.synopsis(program),
        "options": manual.options_list(program, names),
    })


def formats_of(programs: list[Program]) -> str:
    """docs/FORMATS.md."""
    usages = {f"usage of {program.name}": formats.usage(program) for program in programs}
    return with_regions(FORMATS, usages | {f"options of {it.name}": formats.table(it, programs[0]) for it in programs})


def made(programs: list[Program]) -> dict[str, str]:
    """The files by their paths."""
    names, services = [program.name for program in programs], services_of(ROOT)
    proved = [program for program in programs if not program.script]
    files = {
        f"{WORDS}/options.rt": with_tables(read(f"{WORDS}/options.rt"), proved),
        f"{WORDS}/short_help.rt": with_helps(read(f"{WORDS}/short_help.rt"), proved),
        FORMATS: formats_of(programs),
    }
    for program in programs:
        if program.script:
            files[program.script] = with_regions(program.script, {"options": script_head(program)})
        files[f"packaging/man/{program.name}.1"] = page_of(program, names)
        for name, text in completions(program, services).items():
            files[f"packaging/completions/{name}"] = text
    return files


def file_faults(files: dict[str, str]) -> list[list[str]]:
    """The fault of each file that is not what the table gives."""
    cases = []
    for path, text in files.items():
        is_same = (ROOT / path).exists() and read(path) == text
        cases.append([] if is_same else [f"{path} is not what the table gives; `python3 tools/command_line` writes it"])
    return cases


def reference_faults(program: Program) -> list[str]:
    """Options that point to a heading or a section that there is not."""
    headings, sections = formats.headings(read(FORMATS)), set(re.findall(r"^\.Sh (.*)$", read(PAGE_OF_FORMATS), re.M))
    wrong = [f"{FORMATS} has no '{it.see_heading}'" for it in program.options if it.see_heading not in {"", *headings}]
    return wrong + [f"{PAGE_OF_FORMATS} has no section {it.see_section}" for it in program.options if it.see_section not in {"", *sections}]


def source_faults(programs: list[Program]) -> list[list[str]]:
    """The faults of each parser and script, and those of the constants and references of options.rt and of each program."""
    cases = [named_faults(ROOT, f"{WORDS}/options.rt")]
    for program in programs:
        for path in program.parsers:
            cases.append([f"{path}: {fault}" for fault in parser_faults(program, ROOT / path)])
        if program.script:
            cases.append([f"{program.script}: {fault}" for fault in script_faults(programs, program, read(program.script))])
        cases.append([f"{program.name}: {fault}" for fault in constant_faults(ROOT, program) + reference_faults(program)])
    return cases


def check(programs: list[Program], files: dict[str, str]) -> int:
    """Prints each fault and the counts, and returns the exit status."""
    cases = file_faults(files) + source_faults(programs)
    for fault in sum(cases, []):
        print(f"FAILED: {fault}")
    failed = sum(map(bool, cases))
    print(f"command line: {len(cases) - failed} passed, {failed} failed")
    return 1 if failed else 0


def main() -> int:
    """Writes or checks, and returns the exit status."""
    if sys.argv[1:] not in ([], ["--check"]):
        print("usage: python3 tools/command_line [--check]", file=sys.stderr)
        return 2
    try:
        programs = programs_of(TABLE)
        files = made(programs)
    except (ValueError, KeyError) as fault:
        print(f"FAILED: {fault}\ncommand line: 0 passed, 1 failed")
        return 1
    if sys.argv[1:]:
        return check(programs, files)
    for path, text in files.items():
        if not (ROOT / path).exists() or read(path) != text:
            (ROOT / path).write_text(text, encoding="utf-8")
            print(f"wrote {path}")
    return 0


sys.exit(main())
