#!/usr/bin/env python3
"""Makes lawful recordings of a module whose partitions talk through channels, with their configuration and their
certificate.

    make_channel_recording.py RECORDS FOLDER [CORES [CHANNELS]]

writes config.toml, a recording for each core (core0.csv and on) and order.csv to FOLDER. There are two cores at least, and four
without CORES; three channels for each core at least, and as many without CHANNELS.
The recordings have exactly RECORDS records together.

Each core has two partitions, which share the major frame by halves. In each frame the first sends a message to the second
through a queuing channel, writes a sampling channel to the first partition of the next core, reads what that of the core
before wrote, and writes one of its sampling channels to the second, which take turns. The second receives the message,
reads that channel, and asks for the time. The cores tick together.
"""
import os
import sys

# How many ticks a partition has in each major frame, and the priority of its process.
HALF, PRIORITY = 5, 10

# The most bytes of each message, and how many a queuing channel holds.
SIZE, CAPACITY = 8, 2

# How long a message stays valid: between cores half a frame, within a core for long.
SHORT, LONG = 5, 100


class Full(Exception):
    """The recordings have all their records."""


class Recorder:
    """The recordings of all cores, with the order of their records."""

    def __init__(self, folder, cores, records):
        self.files = [open(os.path.join(folder, f"core{core}.csv"), "w") for core in range(cores)]
        self.order = open(os.path.join(folder, "order.csv"), "w")
        self.seq = [0] * cores
        self.left = records

    def put(self, core, kind, part="", proc="", service="", n1="", n2="", n3="", name="", msg="", prio="", out="", val="",
            data="", chan=""):
        """The next record of a core."""
        if self.left == 0:
            raise Full
        self.left -= 1
        fields = (self.seq[core], kind, part, proc, service, n1, n2, n3, name, msg, prio, out, val, data, chan, "")
        self.files[core].write(",".join(map(str, fields)) + "\n")
        self.order.write(f"{core},{self.seq[core]}\n")
        self.seq[core] += 1

    def call(self, core, part, proc, service, val="", data="", **fields):
        """A call that answers NO_ERROR, and its return."""
        prio = PRIORITY if proc else 0
        self.put(core, "call", part, proc, service, prio=prio, out="NO_ERROR", val=val, data=data, **fields)
        self.put(core, "ret", part, proc, service, out="NO_ERROR", val=val, data=data)

    def close(self):
        for file in [*self.files, self.order]:
            file.close()


def channels_of(core, own):
    """The numbers of a core's channels: to the second partition, to the next core, and the others in turn."""
    first = core * own
    return first, first + 1, [first + number for number in range(2, own)]


def write_configuration(folder, cores, own):
    """The module: two partitions and so many channels for each core."""
    def end(partition, port):
        return f'{{ partition = {partition}, port = "{port}" }}'

    def sampling(channel, refresh, source, destination):
        return (f"[[sampling]]\nchannel = {channel}\nsize = {SIZE}\nrefresh = {refresh}\n"
                f"source = {source}\ndestinations = [ {destination} ]\n")

    with open(os.path.join(folder, "config.toml"), "w") as text:
        text.write(f"cores = {cores}\nframe = {2 * HALF}\nskew = 1\n")
        for number in range(2 * cores):
            text.write(f"[[partition]]\nnumber = {number}\nperiod = {2 * HALF}\ncores = [{number // 2}]\nprocesses = 1\n"
                       "buffers = 0\nblackboards = 0\nsemaphores = 0\nevents = 0\nmutexes = 0\n")
            text.write(f"[[window]]\ncore = {number // 2}\npartition = {number}\nstart = {number % 2 * HALF}\nlength = {HALF}\n")
        for core in range(cores):
            queue, state, others = channels_of(core, own)
            first, second = 2 * core, 2 * core + 1
            text.write(f"[[queuing]]\nchannel = {queue}\nsize = {SIZE}\ncapacity = {CAPACITY}\n"
                       f"source = {end(first, 'ORDER')}\nsource_discipline = \"FIFO\"\n"
                       f"destination = {end(second, 'ORDER')}\ndestination_discipline = \"FIFO\"\n")
            text.write(sampling(state, SHORT, end(first, "OWN"), end(2 * ((core + 1) % cores), "BEFORE")))
            for channel in others:
                text.write(sampling(channel, LONG, end(first, f"RATE{channel}"), end(second, f"RATE{channel}")))


def set_up(record, core, part, others):
    """The initialising process creates its process and its ports, and starts the process."""
    direction = part % 2
    record.put(core, "disp", part, 0)
    record.call(core, part, 0, "CREATE_PROCESS", n1=PRIORITY, n2=-1, name="P", val=1)
    record.call(core, part, 0, "CREATE_QUEUING_PORT", n1=SIZE, n2=CAPACITY, n3=direction, name="ORDER", val=1)
    for number, channel in enumerate(others, 1):
        record.call(core, part, 0, "CREATE_SAMPLING_PORT", n1=SIZE, n2=direction, n3=LONG, name=f"RATE{channel}", val=number)
    if direction == 0:
        record.call(core, part, 0, "CREATE_SAMPLING_PORT", n1=SIZE, n2=0, n3=SHORT, name="OWN", val=100)
        record.call(core, part, 0, "CREATE_SAMPLING_PORT", n1=SIZE, n2=1, n3=SHORT, name="BEFORE", val=101)
    record.call(core, part, 0, "START", n1=1)
    record.put(core, "call", part, 0, "SET_PARTITION_MODE", n1=3, prio=0, out="none")


def first_half(record, core, cores, frame, own):
    """What the first partition of a core does in a frame."""
    part, message = 2 * core, f"{frame % 2 ** 32:08x}"
    queue, state, others = channels_of(core, own)
    turn = frame % len(others)
    record.call(core, part, 1, "SEND_QUEUING_MESSAGE", n1=1, n2=4, n3=0, msg=message, chan=queue)
    record.call(core, part, 1, "WRITE_SAMPLING_MESSAGE", n1=100, n2=4, msg=message, chan=state)
    record.call(core, part, 1, "WRITE_SAMPLING_MESSAGE", n1=turn + 1, n2=4, msg=message, chan=others[turn])
    before = channels_of((core - 1) % cores, own)[1]
    # The core before wrote earlier in this frame, but for core 0: what it reads is a frame old, and no longer valid.
    if core > 0:
        record.call(core, part, 1, "READ_SAMPLING_MESSAGE", n1=101, val=1, data=message, chan=before)
    elif frame > 0:
        record.call(core, part, 1, "READ_SAMPLING_MESSAGE", n1=101, val=0, data=f"{(frame - 1) % 2 ** 32:08x}", chan=before)


def second_half(record, core, cores, frame, own):
    """What the second partition of a core does in a frame."""
    part, message = 2 * core + 1, f"{frame % 2 ** 32:08x}"
    queue, _, others = channels_of(core, own)
    turn = frame % len(others)
    record.call(core, part, 1, "RECEIVE_QUEUING_MESSAGE", n1=1, n2=0, data=message, chan=queue)
    record.call(core, part, 1, "READ_SAMPLING_MESSAGE", n1=turn + 1, val=1, data=message, chan=others[turn])
    record.call(core, part, 1, "GET_TIME", val=2 * HALF * frame + HALF)


def write_frames(record, cores, own):
    """Frame after frame, until the recordings are full."""
    frame = 0
    while True:
        for half, work in enumerate((first_half, second_half)):
            for core in range(cores):
                if frame == 0:
                    set_up(record, core, 2 * core + half, channels_of(core, own)[2])
                record.put(core, "disp", 2 * core + half, 1)
                work(record, core, cores, frame, own)
            for _ in range(HALF):
                for core in range(cores):
                    record.put(core, "tick")
        frame += 1


def main():
    records, folder = int(sys.argv[1]), sys.argv[2]
    cores = int(sys.argv[3]) if len(sys.argv) > 3 else 4
    own = int(sys.argv[4]) // cores if len(sys.argv) > 4 else 3
    os.makedirs(folder, exist_ok=True)
    write_configuration(folder, cores, own)
    record = Recorder(folder, cores, records)
    try:
        write_frames(record, cores, own)
    except Full:
        record.close()


if __name__ == "__main__":
    main()
