#!/usr/bin/env python3
"""Makes lawful recordings in format 3 of a module whose channels lead outside, with their configuration and their certificate.

    make_outside_recording.py RECORDS FOLDER [CORES [CHANNELS]]

writes config.toml, a recording for each core (core0.csv and on) and order.csv to FOLDER. There are four cores without CORES;
three channels for each core at least, and as many without CHANNELS.
The recordings have exactly RECORDS records together.

Each core has one partition, which has it all the time. In each tick its process waits for a message from outside, which wakes
it; sends a message, which departs to the outside; gets a message that has arrived meanwhile, while a further one finds the queue
full and is lost; and reads one of its sampling channels, which take turns. The sample has arrived in the recording of the core
before. At the end of each frame it clears its full queue, and looks at its status. The cores tick together.
"""
import os
import sys

# How many ticks a frame has, and the priority of each process.
FRAME, PRIORITY = 10, 10

# The most bytes of each message, and for how many ticks a sample is valid.
SIZE, FRESH = 8, 1


class Full(Exception):
    """The recordings have all their records."""


class Recorder:
    """The recordings of all cores, with the order of their records."""

    def __init__(self, folder, cores, records):
        self.files = [open(os.path.join(folder, f"core{core}.csv"), "w") for core in range(cores)]
        self.order = open(os.path.join(folder, "order.csv"), "w")
        self.seq = [0] * cores
        self.left = records

    def put(self, core, kind, part="", proc="", service="", n1="", n2="", n3="", name="", msg="", prio="", out="", val="",
            data="", chan="", woken="", val2="", val3=""):
        """The next record of a core."""
        if self.left == 0:
            raise Full
        self.left -= 1
        fields = (self.seq[core], kind, part, proc, service, n1, n2, n3, name, msg, prio, out, val, data, chan, woken, val2, val3, "")
        self.files[core].write(",".join(map(str, fields)) + "\n")
        self.order.write(f"{core},{self.seq[core]}\n")
        self.seq[core] += 1

    def call(self, core, proc, service, val="", data="", val2="", val3="", **fields):
        """A call of the core's partition that answers NO_ERROR, and its return."""
        prio = PRIORITY if proc else 0
        given = {"val": val, "data": data, "val2": val2, "val3": val3}
        self.put(core, "call", core, proc, service, prio=prio, out="NO_ERROR", **given, **fields)
        self.put(core, "ret", core, proc, service, out="NO_ERROR", **given)

    def close(self):
        for file in [*self.files, self.order]:
            file.close()


def channels_of(core, own):
    """The numbers of a core's channels: the queue from outside, the queue to the outside, and the sampling channels."""
    first = core * own
    return first, first + 1, [first + number for number in range(2, own)]


def write_configuration(folder, cores, own):
    """The module: a partition and so many channels for each core."""
    with open(os.path.join(folder, "config.toml"), "w") as text:
        text.write(f"cores = {cores}\nframe = {FRAME}\nskew = 1\n")
        for core in range(cores):
            text.write(f"[[partition]]\nnumber = {core}\nperiod = {FRAME}\ncores = [{core}]\nprocesses = 1\n"
                       "buffers = 0\nblackboards = 0\nsemaphores = 0\nevents = 0\nmutexes = 0\n")
            text.write(f"[[window]]\ncore = {core}\npartition = {core}\nstart = 0\nlength = {FRAME}\n")
        for core in range(cores):
            into, out, samples = channels_of(core, own)
            text.write(f"[[queuing]]\nchannel = {into}\nsize = {SIZE}\ncapacity = 1\noutside = \"SOURCE\"\n"
                       f"destination = {{ partition = {core}, port = \"IN\" }}\ndestination_discipline = \"FIFO\"\n")
            text.write(f"[[queuing]]\nchannel = {out}\nsize = {SIZE}\ncapacity = 1\noutside = \"DESTINATION\"\n"
                       f"source = {{ partition = {core}, port = \"OUT\" }}\nsource_discipline = \"FIFO\"\n")
            for channel in samples:
                text.write(f"[[sampling]]\nchannel = {channel}\nsize = {SIZE}\nrefresh = {FRESH}\noutside = \"SOURCE\"\n"
                           f"destinations = [ {{ partition = {core}, port = \"S{channel}\" }} ]\n")


def set_up(record, core, own):
    """The initialising process creates its process and its ports, and starts the process."""
    record.put(core, "disp", core, 0)
    record.call(core, 0, "CREATE_PROCESS", n1=PRIORITY, n2=-1, n3=-1, name="P", val=1)
    record.call(core, 0, "CREATE_QUEUING_PORT", n1=SIZE, n2=1, n3=1, name="IN", val=1)
    record.call(core, 0, "CREATE_QUEUING_PORT", n1=SIZE, n2=1, n3=0, name="OUT", val=2)
    for number, channel in enumerate(channels_of(core, own)[2], 1):
        record.call(core, 0, "CREATE_SAMPLING_PORT", n1=SIZE, n2=1, n3=FRESH, name=f"S{channel}", val=number)
    record.call(core, 0, "START", n1=1)
    record.put(core, "call", core, 0, "SET_PARTITION_MODE", n1=3, prio=0, out="none")
    record.put(core, "disp", core, 1)


def work(record, core, cores, time, own):
    """What passes the channels of a core at a time, which all cores have."""
    message, later, lost = (f"{kind}{time % 2 ** 24:06x}" for kind in ("a0", "b0", "c0"))
    into, out, samples = channels_of(core, own)
    turn = time % len(samples)
    record.put((core - 1) % cores, "arrive", msg=message, chan=samples[turn])
    record.put(core, "call", core, 1, "RECEIVE_QUEUING_MESSAGE", n1=1, n2=FRAME, prio=PRIORITY, out="wait", chan=into)
    record.put(core, "disp")
    record.put(core, "arrive", msg=message, chan=into, woken=f"{core}:1")
    record.put(core, "disp", core, 1)
    record.put(core, "ret", core, 1, "RECEIVE_QUEUING_MESSAGE", out="NO_ERROR", data=message)
    record.call(core, 1, "SEND_QUEUING_MESSAGE", n1=2, n2=4, n3=0, msg=message, chan=out)
    record.put(core, "depart", data=message, chan=out)
    record.put(core, "arrive", msg=later, chan=into)
    record.put(core, "arrive", msg=lost, chan=into)
    if time % FRAME == FRAME - 1:
        record.call(core, 1, "CLEAR_QUEUING_PORT", n1=1, chan=into)
        record.call(core, 1, "GET_PROCESS_STATUS", n1=1, val=2, val2=PRIORITY, val3=-1)
    else:
        record.call(core, 1, "RECEIVE_QUEUING_MESSAGE", n1=1, n2=0, data=later, chan=into)
    record.call(core, 1, "READ_SAMPLING_MESSAGE", n1=turn + 1, val=1, data=message, chan=samples[turn])


def main():
    records, folder = int(sys.argv[1]), sys.argv[2]
    cores = int(sys.argv[3]) if len(sys.argv) > 3 else 4
    own = int(sys.argv[4]) // cores if len(sys.argv) > 4 else 3
    os.makedirs(folder, exist_ok=True)
    write_configuration(folder, cores, own)
    record, time = Recorder(folder, cores, records), 0
    try:
        for core in range(cores):
            set_up(record, core, own)
        while True:
            for core in range(cores):
                work(record, core, cores, time, own)
            for core in range(cores):
                record.put(core, "tick")
            time += 1
    except Full:
        record.close()


if __name__ == "__main__":
    main()
