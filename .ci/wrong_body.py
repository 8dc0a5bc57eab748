"""Reads wrong bodies: the changes that one makes to the code of its crate."""


def changes_of(lines):
    """The file, the old and the new text of each change; a line that begins with none of the three words is wrong."""
    path = old = None
    for line in lines:
        word, colon, text = line.partition(":")
        text = text.removeprefix(" ")
        if word == "file" and colon:
            path = text
        elif word == "old" and colon and path:
            old = text
        elif word == "new" and colon and old:
            yield path, old, text
            old = None
        else:
            raise ValueError(f"it has a line that is not read: {line}")
    if old:
        raise ValueError("an old text has no new one")


def changed(crate, edit):
    """The texts of the files that a wrong body changes, as they are and as it makes them, by their paths in the crate's folder."""
    before, texts = {}, {}
    for path, old, new in changes_of(edit.read_text(encoding="utf-8").splitlines()):
        if path not in texts:
            texts[path] = before[path] = (crate / path).read_text(encoding="utf-8")
        found = texts[path].count(old)
        if found != 1:
            raise ValueError(f"its old text occurs {found} times in {path}")
        texts[path] = texts[path].replace(old, new)
    if texts == before:
        raise ValueError("it changes nothing")
    return before, texts
