"""Recordings that apexmake makes, rules for them, and faults in them. A seed gives the same ones each time.

.ci/run_views, .ci/run_traces, .ci/run_numbers and .ci/run_states import it. What a check answers to such a recording under such rules, or with such a
fault, is known only from apexcheck.
"""
import csv
import random
import subprocess
import tempfile
from pathlib import Path

# The fields of a row, by their number.
PART, PROC, PRIO, OUT, VAL, WOKEN = 2, 3, 10, 11, 12, 15
SERVICES = ["GET_TIME", "TIMED_WAIT", "SIGNAL_SEMAPHORE", "SEND_BUFFER", "SET_EVENT", "RELEASE_MUTEX", "SET_PARTITION_MODE"]
# Those of odd seeds are in format 3.
FORMATS = ["1", "3"]


def make(maker, seed, records, folder):
    """Makes a lawful recording of so many records by a seed, of a module of this seed, with some rules in its options.txt."""
    module = subprocess.run([maker, "--module", str(seed)], check=True, capture_output=True).stdout
    with tempfile.NamedTemporaryFile() as config:
        Path(config.name).write_bytes(module)
        words = ["--config", config.name, "--seed", str(seed), "--records", str(records), "--out", folder, "--format", FORMATS[seed % 2]]
        subprocess.run([maker, *words], check=True, capture_output=True)
    chance = random.Random(seed)
    words = []
    if chance.random() < 0.3:
        words += ["--max-elapsed", str(chance.choice([0, 2, 50, 1000]))]
    if chance.random() < 0.3:
        words += ["--forbid", chance.choice(SERVICES)]
    if chance.random() < 0.3:
        comparison = chance.choice(['field = "time", less = 5', 'field = "woken", less = 2', 'field = "part", less = 32'])
        Path(folder, "rules.toml").write_text(f'[[rule]]\nname = "a limit"\nholds = {{ {comparison} }}\n')
        words += ["--rules", "rules.toml"]
    Path(folder, "options.txt").write_text("".join(f"{word}\n" for word in words))


def spoil(seed, folder):
    """Changes one thing of the recording of a seed. Returns what was changed."""
    chance = random.Random(-seed)
    rows = {path: _rows_of(path) for path in sorted(Path(folder).glob("core*.csv"))}
    order = Path(folder, "order.csv")
    pairs = order.read_text().split()
    what = chance.choice(["row", "row", "row", "row", "cut", "order", "end"])
    if what == "row":
        return _spoil_row(chance, rows)
    if what == "cut":
        path = chance.choice([path for path in rows if rows[path]])
        seq = chance.randrange(len(rows[path]))
        rows[path][seq].pop()
        _write(path, rows[path])
        return f"row {seq} of {path.name} lacks a field"
    if what == "order":
        place = chance.randrange(len(pairs) - 1)
        pairs[place], pairs[place + 1] = pairs[place + 1], pairs[place]
    else:
        place = len(pairs) - 1
        pairs.pop()
    order.write_text("\n".join(pairs) + "\n")
    return f"place {place} of the certificate"


def _rows_of(path):
    """The rows of a recording, each as its fields."""
    with open(path, newline="", encoding="ascii") as text:
        return list(csv.reader(text))


def _write(path, rows):
    """Writes the rows of a recording."""
    with open(path, "w", newline="", encoding="ascii") as text:
        csv.writer(text, lineterminator="\n").writerows(rows)


def _spoil_row(chance, rows):
    """Changes a field of a row that has it, in a way that its format allows. Returns what was changed."""
    found = [(path, seq, field) for path in rows for seq, row in enumerate(rows[path]) for field in _fields_of(row)]
    # each field as often as any other, however many rows have it
    wanted = chance.choice(sorted({field for _, _, field in found}))
    path, seq, field = chance.choice([one for one in found if one[2] == wanted])
    values = rows[path][seq]
    if field == WOKEN:
        values[WOKEN] = "" if values[WOKEN] else "0:1"
    elif field == OUT:
        values[OUT] = "NO_ACTION" if values[OUT] == "NO_ERROR" else "NO_ERROR"
    elif field == PART:
        values[PART] = "31"
    else:
        values[field] = str(int(values[field]) + 1)
    _write(path, rows[path])
    return f"field {field} of row {seq} of {path.name}"


def _fields_of(values):
    """The fields of a row that can be changed."""
    filled = [field for field in (PART, PROC, PRIO, OUT, VAL) if values[field]]
    return filled + [WOKEN] if values[1] in ("tick", "call", "arrive", "depart") else filled
