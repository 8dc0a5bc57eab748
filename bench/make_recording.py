#!/usr/bin/env python3
"""Makes lawful recordings of a module with their configuration and their certificate.

    make_recording.py RECORDS FOLDER [CORES]

writes config.toml, a recording for each core (core0.csv and on) and order.csv to FOLDER. Without CORES there is one core.
The recordings have exactly RECORDS records together. Any number is lawful, since each first part of a lawful recording
is one. They are lawful too under many_windows.toml, in which 4,096 windows of ten ticks, shared out among the cores, fill
the major frame.

The module has one partition, whose windows are the whole major frame on each core. The initialising process creates
eight processes for each core, puts them on their cores, starts them and sets the partition to NORMAL. From then on each
process in turn asks for its number, asks for the time, or waits for some ticks, in a pattern that repeats. The cores take
turns. A core's time goes on while all of its processes wait, and now and then while one of them runs, so that a process
of higher priority takes the core from it; but no core runs further ahead of another than the skew.
"""
import os
import sys

# The processes of each core: priorities, with ties among them.
PRIORITIES = [10, 20, 20, 30, 10, 40, 20, 5]

# How long a process waits: a delay of 0 doesn't wait and puts it behind its equals.
DELAYS = [3, 1, 0, 7, 2, 5, 0, 4, 1, 6, 9]

# One call in so many is interrupted by a tick before it returns.
TICK_EVERY = 5

# How many ticks a core may be ahead of another.
SKEW = 10

# The partition creates at most 128 processes.
MOST_CORES = 128 // len(PRIORITIES)

CONFIGURATION = """cores = {cores}
frame = {frame}
skew = {skew}

[[partition]]
number = 0
period = 10
cores = {list}
processes = {processes}
buffers = {objects}
blackboards = {objects}
semaphores = {objects}
events = {objects}
mutexes = {objects}
"""

WINDOW = """
[[window]]
core = {core}
partition = 0
start = {start}
length = {length}
"""

# How many ticks a window has, and how many windows a module has at most.
LENGTH = 10
MOST_WINDOWS = 4096


class Process:
    """A created process: its priority, and what it is about to do."""

    def __init__(self, number, priority):
        self.number = number
        self.priority = priority
        self.ready_position = None  # the place where it became ready or was renewed; None while it waits
        self.due_time = None        # when its wait ends
        self.outcome = None         # the service and the value that it has to return
        self.calls = 0              # how many calls it has made


class Core:
    """A core: its recording, its time and its processes."""

    def __init__(self, number, rows):
        self.number = number
        self.rows = rows
        self.records = 0
        self.time = 0
        self.occupant = None
        self.processes = []
        self.turns = 0

    def choice(self):
        """The ready process of highest priority, then of least ready position, then of least number."""
        ready = [p for p in self.processes if p.ready_position is not None]
        return min(ready, key=lambda p: (-p.priority, p.ready_position, p.number), default=None)


class Enough(Exception):
    """The recordings are as long as they should be."""


class Module:
    """The cores of a module, whose records are written in one order."""

    def __init__(self, records, cores, order):
        self.records = records
        self.cores = cores
        self.order = order
        self.place = 0

    def put(self, core, kind, **fields):
        """Writes a row of the core with the fields given, and answers its place."""
        if self.place == self.records:
            raise Enough
        names = "part proc service n1 n2 n3 name msg prio out val data chan woken".split()
        given = [str(fields.get(name, "")) for name in names]
        core.rows.write("%d,%s,%s\n" % (core.records, kind, ",".join(given)))
        self.order.write("%d,%d\n" % (core.number, core.records))
        core.records += 1
        self.place += 1
        return self.place - 1

    def call_and_return(self, service, val="", **fields):
        """A call of the initialising process that answers NO_ERROR at once."""
        first = self.cores[0]
        self.put(first, "call", part=0, proc=0, service=service, prio=0, out="NO_ERROR", val=val, **fields)
        self.put(first, "ret", part=0, proc=0, service=service, out="NO_ERROR", val=val)

    def create_objects(self):
        """Creates what the processes use: nothing here."""

    def set_up(self):
        """Creates the processes of each core and starts them. With NORMAL all of them become ready, at one place."""
        first = self.cores[0]
        self.put(first, "disp", part=0, proc=0)
        self.create_objects()
        numbers = iter(range(1, len(self.cores) * len(PRIORITIES) + 1))
        for core in self.cores:
            for priority in PRIORITIES:
                process = Process(next(numbers), priority)
                self.call_and_return("CREATE_PROCESS", val=process.number, n1=priority, n2=-1, name="P%d" % process.number)
                if core is not first:
                    self.call_and_return("INITIALIZE_PROCESS_CORE_AFFINITY", n1=process.number, n2=core.number)
                core.processes.append(process)
        for core in self.cores:
            for process in core.processes:
                self.call_and_return("START", n1=process.number)
        place = self.put(first, "call", part=0, proc=0, service="SET_PARTITION_MODE", n1=3, prio=0, out="none")
        first.occupant = 0
        for core in self.cores:
            for process in core.processes:
                process.ready_position = place

    def dispatch(self, core, process):
        """Makes the process the occupant, where it isn't already."""
        number = process.number if process else None
        if core.occupant != number:
            if process:
                self.put(core, "disp", part=0, proc=number)
            else:
                self.put(core, "disp")
            core.occupant = number

    def may_tick(self, core):
        """Whether a tick keeps the core within the skew of each other."""
        return core.time + 1 <= min(other.time for other in self.cores) + SKEW

    def tick(self, core):
        """One tick: every wait that falls due ends, and its process becomes ready here."""
        due = [p for p in core.processes if p.due_time is not None and p.due_time <= core.time + 1]
        place = self.put(core, "tick", woken=";".join("0:%d" % p.number for p in due))
        core.time += 1
        for process in due:
            process.due_time = None
            process.ready_position = place

    def give_back(self, core, process):
        """The process returns from its call."""
        service, val = process.outcome
        self.put(core, "ret", part=0, proc=process.number, service=service, out="NO_ERROR", val=val)
        process.outcome = None

    def call(self, core, process):
        """The next call of the process: its number, a wait, the time and a wait, in turn."""
        number = process.number
        fields = dict(part=0, proc=number, prio=process.priority)
        if process.calls % 2 == 1:
            delay = DELAYS[(process.calls // 2 + number) % len(DELAYS)]
            out = "wait" if delay else "NO_ERROR"
            place = self.put(core, "call", service="TIMED_WAIT", n1=delay, out=out, **fields)
            process.outcome = ("TIMED_WAIT", "")
            if delay:
                process.ready_position = None
                process.due_time = core.time + delay
            else:
                process.ready_position = place
        else:
            service, val = ("GET_MY_ID", number) if process.calls % 4 == 0 else ("GET_TIME", core.time)
            self.put(core, "call", service=service, out="NO_ERROR", val=val, **fields)
            process.outcome = (service, val)
        process.calls += 1

    def turn(self, core):
        """The next record of a core, with a dispatch before it where another process is to run."""
        process = core.choice()
        self.dispatch(core, process)
        core.turns += 1
        if process is None or core.turns % TICK_EVERY == 0:
            if self.may_tick(core):
                self.tick(core)
                return
        if process is None:
            return
        if process.outcome is not None:
            self.give_back(core, process)
        else:
            self.call(core, process)

    def run(self):
        """Goes on until the recordings are long enough."""
        while True:
            for core in self.cores:
                self.turn(core)


def write_configuration(folder, name, cores, windows, objects=0):
    """The configuration of a module with so many cores, on each of which so many windows fill the major frame, and with so
    many objects of each kind."""
    with open(os.path.join(folder, name), "w") as text:
        text.write(CONFIGURATION.format(cores=cores, frame=windows * LENGTH, skew=SKEW, list=list(range(cores)),
                                        processes=cores * len(PRIORITIES), objects=objects))
        for core in range(cores):
            for window in range(windows):
                text.write(WINDOW.format(core=core, start=window * LENGTH, length=LENGTH))


def write_recordings(folder, count, module_of):
    """The recordings of so many cores and the order, by the module that is made of the cores and the order's file."""
    files = [open(os.path.join(folder, "core%d.csv" % number), "w") for number in range(count)]
    with open(os.path.join(folder, "order.csv"), "w") as order:
        module = module_of([Core(number, rows) for number, rows in enumerate(files)], order)
        try:
            module.set_up()
            module.run()
        except Enough:
            pass
    for rows in files:
        rows.close()


def main():
    words = sys.argv[1:]
    if len(words) == 2:
        words.append("1")
    if len(words) != 3 or not words[0].isdigit() or not words[2].isdigit() or not 1 <= int(words[2]) <= MOST_CORES:
        sys.exit(__doc__)
    records, folder, count = int(words[0]), words[1], int(words[2])
    os.makedirs(folder, exist_ok=True)
    write_configuration(folder, "config.toml", count, 1)
    write_configuration(folder, "many_windows.toml", count, MOST_WINDOWS // count)
    write_recordings(folder, count, lambda cores, order: Module(records, cores, order))


if __name__ == "__main__":
    main()
