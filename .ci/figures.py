"""The figures of a run, worked out from its rows alone, as `apexview --format json` gives them.

.ci/run_numbers and states.py import it. It believes what the rows claim: the outcomes of calls, and the processes whose waits a row ends. From these it
follows what each process waits for, who is in which queue, who owns which mutex, and what each queue of messages holds.
"""
import csv
import tomllib
from pathlib import Path

NAMES = ("seq kind part proc service n1 n2 n3 name msg prio out val data chan woken val2 val3 err").split()
NUMBERS = {"part", "proc", "n1", "n2", "n3", "prio", "val", "chan", "val2", "val3"}
ACTIVITIES = ["running", "ready", "waiting", "suspended", "faulted", "dormant"]
KINDS = ["buffer", "blackboard", "semaphore", "event", "mutex"]
# At which object, and at which end, the caller of a service waits.
SETS = {
    "SEND_BUFFER": ("buffer", 0), "RECEIVE_BUFFER": ("buffer", 1), "READ_BLACKBOARD": ("blackboard", 1), "WAIT_SEMAPHORE": ("semaphore", 1),
    "WAIT_EVENT": ("event", 1), "ACQUIRE_MUTEX": ("mutex", 1),
}
QUEUES = {"SEND_QUEUING_MESSAGE": 0, "RECEIVE_QUEUING_MESSAGE": 1}
# The services whose waits time out when they fall due.
TIMED = {*SETS, *QUEUES, "SUSPEND_SELF", "LOCK_PREEMPTION"}
NORMAL, IDLE = 3, 0


class Row:
    """A row: each field by its name, None if it is empty."""

    def __init__(self, core, fields):
        fields = fields + [""] * (len(NAMES) - len(fields))
        for name, field in zip(NAMES, fields):
            setattr(self, name, None if field == "" else int(field) if name in NUMBERS else field)
        self.core = core
        self.woken = [tuple(map(int, pair.split(":"))) for pair in self.woken.split(";")] if self.woken else []
        self.who = (self.part, self.proc)


class Process:
    def __init__(self, core, base, period=None, capacity=None):
        self.core, self.base, self.priority, self.retained = core, base, base, base
        self.period, self.capacity = period, capacity
        self.alive = self.suspended = self.faulted = False
        # What it waits for: a word, its time and the service that it called, if it did.
        self.wait = None
        self.release, self.called, self.deadline = 0, 0, None
        # The release since which it has not run.
        self.late = None

    def activity(self, runs):
        if runs:
            return "running"
        if not self.alive:
            return "dormant"
        if self.faulted:
            return "faulted"
        if self.suspended or (self.wait and self.wait[0] == "self"):
            return "suspended"
        return "waiting" if self.wait else "ready"

    def stop(self):
        self.alive = self.suspended = self.faulted = False
        self.wait = self.deadline = None


class Partition:
    def __init__(self, keys):
        self.number, self.period, self.first_core = keys["number"], keys["period"], keys["cores"][0]
        self.on_error = keys.get("on_error", "IGNORE")
        self.start(1)

    def start(self, mode):
        self.mode, self.handler, self.errors = mode, None, []
        self.processes = {} if mode == IDLE else {0: Process(self.first_core, 0)}
        if mode != IDLE:
            self.processes[0].alive = True
        self.messages, self.mutexes, self.objects, self.lock = {}, {}, set(), None


class Peak:
    """The greatest value and its first place, or the least one."""

    def __init__(self, sign=1):
        self.sign, self.best = sign, None

    def add(self, value, place):
        if self.best is None or self.sign * value > self.sign * self.best["value"]:
            self.best = {"value": value, "place": place}


class Figures:
    def __init__(self, folder, limit):
        self.prepare(folder)
        for row in rows_of(folder, self.config["cores"], limit):
            self.take(row)
            self.place += 1

    def prepare(self, folder):
        """What is so before the first row."""
        self.config = tomllib.loads(Path(folder, "config.toml").read_text())
        self.time = [0] * self.config["cores"]
        self.occupant = [None] * self.config["cores"]
        self.parts = {keys["number"]: Partition(keys) for keys in self.config["partition"]}
        self.windows = sorted(self.config.get("window", []), key=lambda window: (window["core"], window["start"]))
        self.sampling = {keys["channel"]: None for keys in self.config.get("sampling", [])}
        self.queuing = {keys["channel"]: 0 for keys in self.config.get("queuing", [])}
        self.capacity = {keys["channel"]: keys["capacity"] for keys in self.config.get("queuing", [])}
        self.sets = {}
        self.cores = [{"ticks": 0, "idle": 0} for _ in self.time]
        self.in_windows, self.by_process, self.by_object, self.by_channel, self.names = {}, {}, {}, {}, {}
        self.place = 0

    def take(self, row):
        getattr(self, f"take_{row.kind}")(row)

    # What is counted.

    def process_figures(self, who):
        if who not in self.by_process:
            self.by_process[who] = {
                "ticks": dict.fromkeys(ACTIVITIES, 0), "services": {}, "releases": 0, "lateness": Peak(), "response": Peak(), "missed": 0,
                "slack": Peak(-1),
            }
        return self.by_process[who]

    def service_figures(self, who, service):
        fresh = {"calls": 0, "waits": 0, "ended": 0, "timed_out": 0, "waited": 0, "longest": Peak()}
        return self.process_figures(who)["services"].setdefault(service, fresh)

    def object_figures(self, part, kind, number):
        fresh = {"waiting": Peak(), "messages": Peak(), "hold": Peak(), "outranked": Peak()}
        return self.by_object.setdefault((part, kind, number), fresh)

    def channel_figures(self, channel):
        fresh = {"writes": 0, "reads": 0, "invalid": 0, "age": Peak(), "waiting": Peak(), "messages": Peak()}
        return self.by_channel.setdefault(channel, fresh)

    # Processes, and the sets in which they wait.

    def process(self, who):
        return self.parts[who[0]].processes[who[1]]

    def enter(self, key, who):
        self.sets.setdefault(key, []).append(who)
        return len(self.sets[key])

    def leave(self, leaves):
        for key, waiting in self.sets.items():
            self.sets[key] = [who for who in waiting if not leaves(who)]

    def begin_waits(self, row, process, *wait):
        process.wait = (*wait, row.service)

    def end_wait(self, who, is_tick):
        """Ends a wait: what it gives is counted first, by the state before the row."""
        process = self.process(who)
        word, *more, service = process.wait
        ticks = self.time[process.core] - process.called
        if service:
            figures = self.service_figures(who, service)
            figures["ended"] += 1
            figures["waited"] += ticks
            figures["longest"].add(ticks, self.place)
            figures["timed_out"] += is_tick and service in TIMED
        if word == "set" and more[0][1] == "mutex":
            self.outrank(who, process, more[0][2], ticks)
        if word in ("first", "release"):
            self.process_figures(who)["releases"] += 1
            process.late = process.release = more[0]

    def outrank(self, who, process, mutex, ticks):
        part = self.parts[who[0]]
        owner = part.mutexes[mutex]["owner"]
        if owner is not None and part.processes[owner].retained < process.priority:
            self.object_figures(who[0], "mutex", mutex)["outranked"].add(ticks, self.place)

    def wake(self, row, is_tick):
        for who in row.woken:
            self.end_wait(who, is_tick)
        named = set(row.woken)
        self.leave(lambda who: who in named)

    def clear_waits(self, row):
        for who in row.woken:
            self.process(who).wait = None

    # Rows.

    def take_tick(self, row):
        core, runs = row.core, self.occupant[row.core]
        self.cores[core]["ticks"] += 1
        self.cores[core]["idle"] += runs is None
        self.tick_window(core, runs)
        for number, part in self.parts.items():
            for process, found in part.processes.items():
                if found.core == core:
                    who = (number, process)
                    self.process_figures(who)["ticks"][found.activity(who == runs)] += 1
        self.time[core] += 1
        self.wake(row, True)
        self.clear_waits(row)

    def tick_window(self, core, runs):
        offset = self.time[core] % self.config["frame"]
        for number, window in enumerate(self.windows, 1):
            if window["core"] == core and window["start"] <= offset < window["start"] + window["length"]:
                key = (core, number, window["partition"])
                figures = self.in_windows.setdefault(key, {"first": Peak(-1), "last": Peak(), "ticks": 0, "busy": 0})
                figures["first"].add(offset, self.place)
                figures["last"].add(offset, self.place)
                figures["ticks"] += 1
                figures["busy"] += runs is not None

    def take_disp(self, row):
        self.occupant[row.core] = None if row.part is None else row.who
        if row.part is not None:
            process = self.process(row.who)
            if process.period is not None and process.late is not None:
                self.process_figures(row.who)["lateness"].add(self.time[row.core] - process.late, self.place)
                process.late = None

    def take_ret(self, row):
        pass

    def take_err(self, row):
        if row.err == "DEADLINE_MISSED":
            self.process_figures(row.who)["missed"] += 1
        if row.out == "none":
            return self.restart_by_error(row.part)
        if row.err == "DEADLINE_MISSED":
            self.process(row.who).deadline = None
        self.hand_over(row.who)

    def take_arrive(self, row):
        channel = row.chan
        self.wake(row, False)
        self.clear_waits(row)
        if channel in self.sampling:
            self.channel_figures(channel)["writes"] += 1
            self.sampling[channel] = self.time[row.core]
        else:
            if not row.woken and self.queuing[channel] < self.capacity[channel]:
                self.queuing[channel] += 1
            self.channel_figures(channel)["messages"].add(self.queuing[channel], self.place)

    def take_depart(self, row):
        self.wake(row, False)
        self.clear_waits(row)
        self.queuing[row.chan] += len(row.woken) - 1
        self.channel_figures(row.chan)["messages"].add(self.queuing[row.chan], self.place)

    def take_call(self, row):
        who, now = row.who, self.time[row.core]
        figures = self.service_figures(who, row.service)
        figures["calls"] += 1
        figures["waits"] += row.out == "wait"
        process, part = self.process(who), self.parts[row.part]
        is_done = row.out in ("NO_ERROR", "wait", "none")
        if is_done:
            self.end_work(row, process, now)
            if row.service in ("RELEASE_MUTEX", "RESET_MUTEX"):
                self.end_hold(row, part)
        self.wake(row, False)
        process.called = now
        if row.out == "wait":
            self.begin_wait(row, process, now)
        if is_done:
            carry_out = getattr(self, f"do_{row.service.lower()}", None)
            if carry_out:
                carry_out(row, part, process, now)
        for other in row.woken:
            # A process whose wait ended may wait again only by a call of its own.
            if other[1] in self.parts[other[0]].processes:
                self.process(other).wait = None
        self.look_at_object(row, part)
        self.look_at_channel(row)

    # The end of the work of a process, and its releases.

    def end_work(self, row, process, now):
        figures = self.process_figures(row.who)
        if row.service in ("PERIODIC_WAIT", "REPLENISH", "STOP_SELF") and process.deadline is not None:
            figures["slack"].add(process.deadline - now, self.place)
        if row.service == "PERIODIC_WAIT":
            figures["response"].add(now - process.release, self.place)

    def do_periodic_wait(self, row, part, process, now):
        following = process.release + process.period
        process.deadline = None if process.capacity is None else following + process.capacity
        if row.out == "NO_ERROR":
            figures = self.process_figures(row.who)
            figures["releases"] += 1
            figures["lateness"].add(now - following, self.place)
            process.release = following

    def do_replenish(self, row, part, process, now):
        process.deadline = None if row.n1 == -1 else now + row.n1

    # Waits.

    def begin_wait(self, row, process, now):
        if row.service in SETS:
            kind, end = SETS[row.service]
            key = (row.part, kind, row.n1, end)
            self.begin_waits(row, process, "set", key)
            self.object_figures(row.part, kind, row.n1)["waiting"].add(self.enter(key, row.who), self.place)
        elif row.service in QUEUES:
            key = (None, "channel", row.chan, QUEUES[row.service])
            self.begin_waits(row, process, "set", key)
            self.channel_figures(row.chan)["waiting"].add(self.enter(key, row.who), self.place)
        elif row.service == "LOCK_PREEMPTION":
            key = (row.part, "lock", 0, 1)
            self.begin_waits(row, process, "set", key)
            self.object_figures(row.part, "lock", 0)["waiting"].add(self.enter(key, row.who), self.place)
        elif row.service == "SUSPEND_SELF":
            self.begin_waits(row, process, "self")
        elif row.service == "PERIODIC_WAIT":
            self.begin_waits(row, process, "release", process.release + process.period)
        else:
            self.begin_waits(row, process, "time")

    # Processes.

    def do_create_process(self, row, part, process, now):
        capacity = None if row.n3 in (None, -1) else row.n3
        part.processes[row.val] = Process(part.first_core, row.n1, None if row.n2 == -1 else row.n2, capacity)
        self.names[(row.part, "process", row.val)] = row.name

    def do_initialize_process_core_affinity(self, row, part, process, now):
        part.processes[row.n1].core = row.n2

    def do_start(self, row, part, process, now, delay=0):
        target = part.processes[row.n1]
        target.alive, target.priority, target.deadline = True, target.base, None
        if part.mode == NORMAL:
            self.enter_normal(part, target, delay)
        else:
            target.wait = ("normal", delay, None)

    def do_delayed_start(self, row, part, process, now):
        self.do_start(row, part, process, now, row.n2)

    def enter_normal(self, part, target, delay):
        now = self.time[target.core]
        if target.period is None:
            start = now + delay
            target.wait = ("delay", start, None) if delay else None
        else:
            start = (now // part.period + 1) * part.period + delay
            target.wait = ("first", start, None)
        target.deadline = None if target.capacity is None else start + target.capacity

    def do_set_partition_mode(self, row, part, process, now):
        if row.n1 != NORMAL:
            return self.restart(part, row.n1)
        part.mode = NORMAL
        for target in part.processes.values():
            if target.wait and target.wait[0] == "normal":
                self.enter_normal(part, target, target.wait[1])
        process.stop()

    def do_stop(self, row, part, process, now):
        target = part.processes[row.n1]
        target.stop()
        self.leave(lambda who: who == (row.part, row.n1))

    def do_stop_self(self, row, part, process, now):
        if part.mode == NORMAL and row.proc == 0:
            for number, other in part.processes.items():
                if other.faulted and number not in part.errors:
                    other.faulted = False
            if part.errors:
                return
        process.stop()

    def do_suspend(self, row, part, process, now):
        part.processes[row.n1].suspended = True

    def do_resume(self, row, part, process, now):
        part.processes[row.n1].suspended = False

    def do_set_priority(self, row, part, process, now):
        part.processes[row.n1].priority = row.n2

    # Errors.

    def restart(self, part, mode):
        part.start(mode)
        self.leave(lambda who: who[0] == part.number)

    def restart_by_error(self, number):
        part = self.parts[number]
        self.restart(part, {"IDLE": IDLE, "COLD_START": 1, "WARM_START": 2}[part.on_error])

    def hand_over(self, who):
        part = self.parts[who[0]]
        if part.mode != NORMAL or part.handler is None or who[1] == 0:
            return
        part.processes[who[1]].faulted = True
        if len(part.errors) < 128:
            part.errors.append(who[1])
        handler = part.processes[0]
        if not handler.alive:
            handler.alive, handler.core = True, part.handler

    def do_create_error_handler(self, row, part, process, now):
        part.handler = part.first_core

    def do_configure_error_handler(self, row, part, process, now):
        part.handler = row.n2

    def do_raise_application_error(self, row, part, process, now):
        if row.out == "none":
            self.restart_by_error(row.part)
        else:
            self.hand_over(row.who)

    def do_get_error_status(self, row, part, process, now):
        del part.errors[:1]

    # Objects.

    def create(self, row, part, kind):
        part.objects.add((kind, row.val))
        self.names[(row.part, kind, row.val)] = row.name

    def do_create_buffer(self, row, part, process, now):
        self.create(row, part, "buffer")
        part.messages[row.val] = 0

    def do_create_blackboard(self, row, part, process, now):
        self.create(row, part, "blackboard")

    def do_create_semaphore(self, row, part, process, now):
        self.create(row, part, "semaphore")

    def do_create_event(self, row, part, process, now):
        self.create(row, part, "event")

    def do_create_mutex(self, row, part, process, now):
        self.create(row, part, "mutex")
        part.mutexes[row.val] = {"priority": row.n1, "owner": None, "count": 0, "since": None}

    def do_send_buffer(self, row, part, process, now):
        if row.out == "NO_ERROR" and not row.woken:
            part.messages[row.n1] += 1

    def do_receive_buffer(self, row, part, process, now):
        if row.out == "NO_ERROR" and not row.woken:
            part.messages[row.n1] -= 1

    def look_at_object(self, row, part):
        if row.service in ("SEND_BUFFER", "RECEIVE_BUFFER") and row.n1 in part.messages:
            self.object_figures(row.part, "buffer", row.n1)["messages"].add(part.messages[row.n1], self.place)

    # Mutexes.

    def own(self, part, mutex, number):
        process = part.processes[number]
        mutex.update(owner=number, count=1, since=self.time[process.core])
        process.retained, process.priority = process.priority, mutex["priority"]

    def do_acquire_mutex(self, row, part, process, now):
        mutex = part.mutexes[row.n1]
        if row.out == "wait":
            return
        if mutex["owner"] is None:
            self.own(part, mutex, row.proc)
        else:
            mutex["count"] += 1

    def end_hold(self, row, part):
        mutex = part.mutexes[row.n1]
        if row.service == "RELEASE_MUTEX" and mutex["count"] > 1:
            return
        owner = part.processes[mutex["owner"]]
        self.object_figures(row.part, "mutex", row.n1)["hold"].add(self.time[owner.core] - mutex["since"], self.place)

    def pass_on(self, row, part):
        mutex = part.mutexes[row.n1]
        owner = part.processes[mutex["owner"]]
        owner.priority = owner.retained
        mutex.update(owner=None, count=0, since=None)
        if row.woken:
            self.own(part, mutex, row.woken[0][1])

    def do_release_mutex(self, row, part, process, now):
        mutex = part.mutexes[row.n1]
        if mutex["count"] > 1:
            mutex["count"] -= 1
        else:
            self.pass_on(row, part)

    def do_reset_mutex(self, row, part, process, now):
        self.pass_on(row, part)

    # Channels.

    def look_at_channel(self, row):
        channel = row.chan
        if channel is None:
            return
        if channel in self.sampling:
            self.use_sampling(row, self.channel_figures(channel), self.time[row.core])
            return
        if row.out == "NO_ERROR":
            woken = len(row.woken)
            if row.service == "SEND_QUEUING_MESSAGE":
                self.queuing[channel] += not woken
            elif row.service == "RECEIVE_QUEUING_MESSAGE":
                self.queuing[channel] += woken - 1
            elif row.service == "CLEAR_QUEUING_PORT":
                self.queuing[channel] = woken
        self.channel_figures(channel)["messages"].add(self.queuing[channel], self.place)

    def use_sampling(self, row, figures, now):
        if row.service == "WRITE_SAMPLING_MESSAGE":
            figures["writes"] += 1
            self.sampling[row.chan] = now
        elif row.service == "READ_SAMPLING_MESSAGE":
            figures["reads"] += 1
            figures["invalid"] += row.val != 1
            if self.sampling[row.chan] is not None:
                figures["age"].add(max(0, now - self.sampling[row.chan]), self.place)

    # All of it, as JSON has it.

    def as_json(self, services):
        return {
            "records": self.place,
            "cores": [self.core_json(core) for core in range(len(self.cores))],
            "processes": [self.process_json(who, services) for who in self.listed_processes()],
            "objects": [self.object_json(key) for key in self.listed_objects()],
            "channels": [self.channel_json(channel) for channel in sorted(self.by_channel, key=lambda number: (number in self.queuing, number))],
        }

    def core_json(self, core):
        windows = [
            {"window": number, "partition": part, "first_offset": found["first"].best, "last_offset": found["last"].best,
             "ticks": found["ticks"], "busy": found["busy"]}
            for (of, number, part), found in sorted(self.in_windows.items()) if of == core
        ]
        return {"core": core, **self.cores[core], "windows": windows}

    def listed_processes(self):
        named = {(part, number) for part, kind, number in self.names if kind == "process"}
        return sorted(named | set(self.by_process))

    def process_json(self, who, services):
        found = self.process_figures(who)
        return {
            "partition": who[0], "process": who[1], "name": self.names.get((who[0], "process", who[1])), "ticks": found["ticks"],
            "services": [
                {"service": service, "calls": one["calls"], "waits": one["waits"], "ended": one["ended"], "timed_out": one["timed_out"],
                 "waited": one["waited"], "longest_wait": one["longest"].best}
                for service, one in sorted(found["services"].items(), key=lambda pair: services.index(pair[0])) if one["calls"]
            ],
            "releases": found["releases"], "greatest_lateness": found["lateness"].best, "greatest_response": found["response"].best,
            "missed_deadlines": found["missed"], "least_slack": found["slack"].best,
        }

    def listed_objects(self):
        named = {key for key in self.names if key[1] != "process"}
        order = [*KINDS, "lock"]
        used = {key for key, found in self.by_object.items() if any(peak.best for peak in found.values())}
        return sorted(named | used, key=lambda key: (order.index(key[1]), key[0], key[2]))

    def object_json(self, key):
        found = self.object_figures(*key)
        one = {"partition": key[0], "kind": key[1], "number": key[2], "name": self.names.get(key), "most_waiting": found["waiting"].best}
        if key[1] == "buffer":
            one["most_messages"] = found["messages"].best
        if key[1] == "mutex":
            one["longest_hold"], one["longest_outranked_wait"] = found["hold"].best, found["outranked"].best
        return one

    def channel_json(self, channel):
        found = self.by_channel[channel]
        if channel in self.queuing:
            return {"channel": channel, "kind": "queuing", "most_waiting": found["waiting"].best, "most_messages": found["messages"].best}
        return {
            "channel": channel, "kind": "sampling", "writes": found["writes"], "reads": found["reads"], "invalid_reads": found["invalid"],
            "greatest_age": found["age"].best,
        }


def rows_of(folder, cores, limit):
    """The rows at the first places, in their order."""
    tables = [list(csv.reader(Path(folder, f"core{core}.csv").open())) for core in range(cores)]
    with Path(folder, "order.csv").open() as order:
        for place, pair in enumerate(csv.reader(order)):
            if place == limit:
                return
            core, seq = map(int, pair)
            yield Row(core, tables[core][seq])
