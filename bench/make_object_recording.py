#!/usr/bin/env python3
"""Makes lawful recordings of a module whose processes use objects of every kind, with their configuration and their
certificate.

    make_object_recording.py RECORDS FOLDER [CORES [OBJECTS [KIND]]]

writes config.toml, a recording for each core (core0.csv and on) and order.csv to FOLDER. Without CORES there is one core.
The partition creates so many objects of each kind, at least one for each core, which is what it creates without OBJECTS: no
core uses another's. With a KIND (buffer, blackboard, semaphore, event or mutex) the processes use objects of that kind alone,
and events to wait.
The recordings have exactly RECORDS records together.

The module is that of make_recording.py. Each process in turn sends to a buffer and receives from it, displays a message
and reads it, signals a semaphore and waits for it, acquires a mutex and releases it, waits for an event with a time-out,
and now and then sets an event, which ends the waits of all who wait for it, and resets it.
"""
import os
import sys

from make_recording import MOST_CORES, Module, write_configuration, write_recordings

# The priority of each mutex: above all processes.
CEILING = 50

# The message of each buffer and blackboard, in hexadecimal digits, and how many bytes it has.
MESSAGE, SIZE = "0123456789abcdef", 8

# What each process does with objects of each kind, before it waits.
PAIRS = {"buffer": ["send", "receive"], "blackboard": ["display", "read"], "semaphore": ["signal", "take"],
         "mutex": ["acquire", "release"], "event": ["set", "reset"]}

# How long a process waits for an event.
DELAYS = [3, 1, 7, 2, 5, 4, 1, 6, 9]


class ObjectModule(Module):
    """A module whose processes use so many objects of each kind."""

    def __init__(self, records, cores, order, objects, kinds):
        super().__init__(records, cores, order)
        self.objects = objects
        self.steps = [step for kind in kinds for step in PAIRS[kind] + ["wait"]]
        self.up = [False] * (objects + 1)
        self.waiting = [[] for _ in range(objects + 1)]

    def create_objects(self):
        """Creates so many objects of each kind."""
        for number in range(1, self.objects + 1):
            self.call_and_return("CREATE_BUFFER", val=number, n1=SIZE, n2=64, n3=0, name="B%d" % number)
            self.call_and_return("CREATE_BLACKBOARD", val=number, n1=SIZE, name="D%d" % number)
            self.call_and_return("CREATE_SEMAPHORE", val=number, n1=1, n2=1000, n3=0, name="S%d" % number)
            self.call_and_return("CREATE_EVENT", val=number, name="E%d" % number)
            self.call_and_return("CREATE_MUTEX", val=number, n1=CEILING, n2=0, name="M%d" % number)

    def object_of(self, core, process):
        """The number of the objects that a process uses: no process of another core uses them."""
        own = self.objects // len(self.cores)
        return (core.number * own + process.number % own) % self.objects + 1

    def give_back(self, core, process):
        service, code, data = process.outcome
        self.put(core, "ret", part=0, proc=process.number, service=service, out=code, data=data)
        process.outcome = None

    def tick(self, core):
        due = [p for p in core.processes if p.due_time is not None and p.due_time <= core.time + 1]
        place = self.put(core, "tick", woken=";".join("0:%d" % p.number for p in due))
        core.time += 1
        for process in due:
            process.due_time = None
            process.ready_position = place
            process.outcome = ("WAIT_EVENT", "TIMED_OUT", "")
            self.waiting[process.event].remove(process)

    def call(self, core, process):
        number, step = self.object_of(core, process), self.steps[process.calls % len(self.steps)]
        fields = dict(part=0, proc=process.number, prio=process.priority, n1=number)
        getattr(self, step)(core, process, number, fields)
        process.calls += 1

    def at_once(self, core, process, service, data="", **fields):
        """A call that answers NO_ERROR at once."""
        self.put(core, "call", service=service, out="NO_ERROR", data=data, **fields)
        process.outcome = (service, "NO_ERROR", data)

    def send(self, core, process, number, fields):
        self.at_once(core, process, "SEND_BUFFER", n2=SIZE, n3=0, msg=MESSAGE, **fields)

    def receive(self, core, process, number, fields):
        self.at_once(core, process, "RECEIVE_BUFFER", data=MESSAGE, n2=0, **fields)

    def display(self, core, process, number, fields):
        self.at_once(core, process, "DISPLAY_BLACKBOARD", n2=SIZE, msg=MESSAGE, **fields)

    def read(self, core, process, number, fields):
        self.at_once(core, process, "READ_BLACKBOARD", data=MESSAGE, n2=0, **fields)

    def signal(self, core, process, number, fields):
        self.at_once(core, process, "SIGNAL_SEMAPHORE", **fields)

    def take(self, core, process, number, fields):
        self.at_once(core, process, "WAIT_SEMAPHORE", n2=0, **fields)

    def acquire(self, core, process, number, fields):
        self.at_once(core, process, "ACQUIRE_MUTEX", n2=0, **fields)
        process.priority, process.own = CEILING, process.priority

    def release(self, core, process, number, fields):
        self.at_once(core, process, "RELEASE_MUTEX", **fields)
        process.priority = process.own

    def set(self, core, process, number, fields):
        woken = sorted(self.waiting[number], key=lambda p: p.number)
        self.waiting[number] = []
        names = ";".join("0:%d" % p.number for p in woken)
        place = self.put(core, "call", service="SET_EVENT", out="NO_ERROR", woken=names, **fields)
        process.outcome = ("SET_EVENT", "NO_ERROR", "")
        self.up[number] = True
        for other in woken:
            other.due_time = None
            other.ready_position = place
            other.outcome = ("WAIT_EVENT", "NO_ERROR", "")

    def reset(self, core, process, number, fields):
        self.at_once(core, process, "RESET_EVENT", **fields)
        self.up[number] = False

    def wait(self, core, process, number, fields):
        if self.up[number]:
            self.at_once(core, process, "WAIT_EVENT", n2=0, **fields)
            return
        delay = DELAYS[(process.calls + process.number) % len(DELAYS)]
        self.put(core, "call", service="WAIT_EVENT", n2=delay, out="wait", **fields)
        process.ready_position = None
        process.due_time = core.time + delay
        process.event = number
        self.waiting[number].append(process)


def main():
    words = sys.argv[1:]
    if len(words) == 2:
        words.append("1")
    if len(words) == 3:
        words.append(words[2])
    if len(words) == 4:
        words.append("")
    if len(words) != 5 or not all(word.isdigit() for word in (words[0], words[2], words[3])) or words[4] not in ["", *PAIRS]:
        sys.exit(__doc__)
    records, folder, count, objects, kind = int(words[0]), words[1], int(words[2]), int(words[3]), words[4]
    if not 1 <= count <= min(MOST_CORES, objects) or objects > 64:
        sys.exit(__doc__)
    os.makedirs(folder, exist_ok=True)
    write_configuration(folder, "config.toml", count, 1, objects)
    kinds = [kind] if kind else list(PAIRS)
    write_recordings(folder, count, lambda cores, order: ObjectModule(records, cores, order, objects, kinds))


if __name__ == "__main__":
    main()
