"""Reads what a campaign has kept: the answer of each recording, and the line that is expected of it."""
import os
import re
from dataclasses import dataclass

# The line that goes with each status, the element of JUnit XML that reports it, and that element's type. A Yes has no element.
ANSWERS = {
    0: (r"YES records=\d+", None, "Yes"),
    1: (r"NO place=\d+ (piece=\d+ cause=\w+|rule=\d+)", "failure", "No"),
    2: (r"REFUSED .+", "error", "Refused"),
    3: (r"MEMORY", "error", "Memory"),
    4: (r"apex(check|order|run): .+", "error", "Output"),
}
# The statuses that follow from the files of a recording, so that an expected.txt can have their lines.
OF_FILES = ("Yes", "No", "Refused")


@dataclass
class Answer:
    """The answer for one recording.

    `kind` is a type of ANSWERS, or AnotherLine, Expected, NoResult or NoAnswer. `element` is None if nothing is wrong. `line` is the
    first line of the result, `message` says what is wrong, and `words` explain it. `wanted` is the line of expected.txt, if there is one.
    """
    name: str
    kind: str
    element: str | None
    line: str
    message: str
    words: str
    wanted: str | None = None

    def __post_init__(self):
        # What the program answered, whatever is expected.
        self.found = self.kind


def read(path):
    with open(path, encoding="utf-8", errors="surrogateescape", newline="\n") as file:
        return file.read()


def of_result(name, path):
    """The answer of a result file, whatever is expected."""
    try:
        lines = read(path).split("\n")
    except FileNotFoundError:
        return Answer(name, "NoResult", "error", "", "no result", "")
    except OSError as fault:
        return Answer(name, "NoResult", "error", "", "the result cannot be read: " + fault.strerror, "")
    # The last line ends with a line feed, so the last piece is empty.
    status = re.fullmatch(r"status=(\d{1,3})", lines[-2]) if len(lines) > 1 and lines[-1] == "" else None
    if status is None:
        return Answer(name, "NoResult", "error", "", "the result does not end with a status", "\n".join(lines))
    line, words = lines[0] if len(lines) > 2 else "", "\n".join(lines[1:-2])
    form, element, kind = ANSWERS.get(int(status[1]), ("(?!)", None, None))
    if re.fullmatch(form, line):
        return Answer(name, kind, element, line, line, words)
    return Answer(name, "NoAnswer", "error", line, "no answer: " + status[0], "\n".join(lines[:-2]))


def with_expected(answer, path):
    """The same answer, by the line of expected.txt if there is such a file. Then the expected line passes, and another line fails."""
    try:
        answer.wanted = read(path).removesuffix("\n")
    except FileNotFoundError:
        if not os.path.islink(path):
            return answer
        answer.kind, answer.element, answer.message = "Expected", "error", "expected.txt is a link to a missing file"
        return answer
    except OSError as fault:
        answer.kind, answer.element, answer.message = "Expected", "error", "expected.txt cannot be read: " + fault.strerror
        return answer
    if answer.kind not in OF_FILES:
        return answer
    if answer.line == answer.wanted:
        answer.element = None
    else:
        answer.kind, answer.element, answer.message = "AnotherLine", "failure", "%s; expected %s" % (answer.line, answer.wanted)
    return answer


def names_in(recordings):
    """The names of the recordings in a folder, sorted."""
    with os.scandir(recordings) as entries:
        return sorted(entry.name for entry in entries if entry.is_dir() and not entry.name.startswith("."))


def answers_of(names, recordings, results):
    """The answer of each recording."""
    for name in names:
        answer = of_result(name, os.path.join(results, name + ".result"))
        yield with_expected(answer, os.path.join(recordings, name, "expected.txt"))


def page_of(name, results):
    """The page beside the result of a recording, or None."""
    page = os.path.join(results, name + ".html")
    return page if os.path.isfile(page) else None


# What an attribute of XML and a line of a terminal cannot hold: control characters, halves of surrogate pairs, and two that are no characters.
FORBIDDEN = r"\x00-\x1f\x7f-\x9f\ud800-\udfff\ufffe\uffff"
IN_LINE = re.compile("[" + FORBIDDEN + "]")


def escaped(text, forbidden=IN_LINE):
    """A text in which each forbidden character is shown as its number."""
    return forbidden.sub(lambda match: "\\u{%x}" % ord(match[0]), text)


def folders(parser, recordings, results):
    """The names of the recordings, or the end of the program with the reason."""
    if not os.path.isdir(results):
        parser.error(results + ": no such folder")
    try:
        names = names_in(recordings)
    except OSError as fault:
        parser.error(recordings + ": " + fault.strerror)
    if not names:
        parser.error(recordings + ": no recording in it")
    return names


def write(parser, text, output):
    """Writes the bytes to a file, or to standard output if none is named."""
    try:
        with os.fdopen(os.dup(1), "wb") if output is None else open(output, "wb") as file:
            file.write(text)
    except OSError as fault:
        parser.error("%s: %s" % (output or "standard output", fault.strerror))
