"""The states through which a run goes, worked out from its rows alone, as the traces and the pictures of apexview show them.

.ci/run_states imports it. To what figures.py follows it adds what objects, locks and channels hold, who waits there, when a wait is over, and
how all this is said. Of each track of a trace and of each lane of a picture it gives what is shown there from which place to which, and of
each counter its values.
"""
import figures

MODES = ["IDLE", "COLD_START", "WARM_START", "NORMAL"]
FIFO, PRIORITY = 0, 1
DISCIPLINES = {"FIFO": FIFO, "PRIORITY": PRIORITY}
# Which number of a call is its time-out or its delay.
TIME_OUTS = {
    "SEND_BUFFER": "n3", "RECEIVE_BUFFER": "n2", "READ_BLACKBOARD": "n2", "WAIT_SEMAPHORE": "n2", "WAIT_EVENT": "n2", "ACQUIRE_MUTEX": "n2",
    "SEND_QUEUING_MESSAGE": "n3", "RECEIVE_QUEUING_MESSAGE": "n2", "SUSPEND_SELF": "n1", "TIMED_WAIT": "n1",
}
# How many bytes of a message are shown.
MOST_BYTES = 16


class Spans:
    """What is shown on each track or lane: from which place, up to which, and what. A span lasts as long as its state stays the same."""

    def __init__(self):
        self.open, self.ended = {}, {}

    def see(self, place, now):
        """From this place on, these are the states: of each lane a state, and what is said of it."""
        for lane in [lane for lane in self.open if lane not in now]:
            self.end(lane, place)
        for lane, (state, said) in now.items():
            if lane in self.open and self.open[lane][0] == state:
                continue
            self.end(lane, place)
            self.open[lane] = state, said, place

    def end(self, lane, place):
        if lane in self.open:
            _, said, begun = self.open.pop(lane)
            if begun < place:
                self.ended.setdefault(lane, []).append((said, begun, place))

    def until(self, place):
        """All spans, of which the last ones end at this place."""
        for lane in list(self.open):
            self.end(lane, place)
        return self.ended


class Entry:
    """What is kept of a process that waits in a set, from its call on."""

    def __init__(self, row, place):
        self.who, self.priority, self.place, self.message = row.who, row.prio, place, row.msg


class States(figures.Figures):
    # Once rows are followed: the spans of a trace, of its waits and of a picture, and the values of its counters.

    def prepare(self, folder):
        super().prepare(folder)
        self.slices, self.waits, self.bars, self.counters = Spans(), Spans(), Spans(), {}
        self.things, self.entries, self.restarts, self.held = {}, {}, {}, {}
        self.locks = {number: {"owner": None, "level": 0} for number in self.parts}
        self.locked, self.time_of_row = set(), 0
        for keys in self.config.get("sampling", []):
            self.things[None, "channel", keys["channel"]] = {"written": None}
        for keys in self.config.get("queuing", []):
            ends = [DISCIPLINES.get(keys.get(f"{end}_discipline"), FIFO) for end in ("source", "destination")]
            self.things[None, "channel", keys["channel"]] = {"messages": [], "capacity": keys["capacity"], "disciplines": ends}
        # what slices say before the first row, which may be gone at once
        self.first = {track: said for track, (_, said) in self.slices_now()}
        self.look()

    def take(self, row):
        super().take(row)
        self.time_of_row = self.time[row.core]
        self.look()

    # Waits.

    def begin_wait(self, row, process, now):
        super().begin_wait(row, process, now)
        self.entries[row.who] = Entry(row, self.place)
        time_out = getattr(row, TIME_OUTS.get(row.service, "n1"))
        process.until = None if time_out in (None, -1) else now + time_out

    def waiting(self, key, disciplines):
        """The entries of a set in the order in which their waits end."""
        entries = [self.entries[who] for who in self.sets.get(key, [])]
        return sorted(entries, key=lambda entry: (-entry.priority if disciplines[key[3]] == PRIORITY else 0, entry.place))

    # Objects.

    def do_create_buffer(self, row, part, process, now):
        super().do_create_buffer(row, part, process, now)
        self.things[row.part, "buffer", row.val] = {"messages": [], "capacity": row.n2, "disciplines": [row.n3] * 2}

    def do_create_blackboard(self, row, part, process, now):
        super().do_create_blackboard(row, part, process, now)
        self.things[row.part, "blackboard", row.val] = {"board": None, "disciplines": [FIFO] * 2}

    def do_create_semaphore(self, row, part, process, now):
        super().do_create_semaphore(row, part, process, now)
        self.things[row.part, "semaphore", row.val] = {"value": row.n1, "maximum": row.n2, "disciplines": [row.n3] * 2}

    def do_create_event(self, row, part, process, now):
        super().do_create_event(row, part, process, now)
        self.things[row.part, "event", row.val] = {"up": False, "disciplines": [FIFO] * 2}

    def do_create_mutex(self, row, part, process, now):
        super().do_create_mutex(row, part, process, now)
        self.things[row.part, "mutex", row.val] = {"mutex": part.mutexes[row.val], "disciplines": [row.n2] * 2}

    def do_send_buffer(self, row, part, process, now):
        super().do_send_buffer(row, part, process, now)
        self.send(self.things[row.part, "buffer", row.n1], row)

    def do_receive_buffer(self, row, part, process, now):
        super().do_receive_buffer(row, part, process, now)
        self.receive(self.things[row.part, "buffer", row.n1], row)

    def send(self, queue, row):
        if row.out != "wait" and not row.woken:
            queue["messages"].append(row.msg)

    def receive(self, queue, row):
        if row.out != "wait":
            del queue["messages"][0]
            self.let_in(queue, row.woken)

    def let_in(self, queue, senders):
        """The messages of these senders, whose waits ended, become the newest ones."""
        entries = [self.entries[who] for who in senders]
        is_by_priority = queue["disciplines"][0] == PRIORITY
        for entry in sorted(entries, key=lambda entry: (-entry.priority if is_by_priority else 0, entry.place)):
            queue["messages"].append(entry.message)

    def do_display_blackboard(self, row, part, process, now):
        self.things[row.part, "blackboard", row.n1]["board"] = row.msg, row.who, self.place

    def do_clear_blackboard(self, row, part, process, now):
        self.things[row.part, "blackboard", row.n1]["board"] = None

    def do_wait_semaphore(self, row, part, process, now):
        self.things[row.part, "semaphore", row.n1]["value"] -= row.out != "wait"

    def do_signal_semaphore(self, row, part, process, now):
        self.things[row.part, "semaphore", row.n1]["value"] += not row.woken

    def do_set_event(self, row, part, process, now):
        self.things[row.part, "event", row.n1]["up"] = True

    def do_reset_event(self, row, part, process, now):
        self.things[row.part, "event", row.n1]["up"] = False

    # The lock of a partition.

    def do_lock_preemption(self, row, part, process, now):
        lock = self.locks[row.part]
        if row.out != "wait":
            lock.update(owner=row.proc, level=lock["level"] + 1)

    def do_unlock_preemption(self, row, part, process, now):
        lock = self.locks[row.part]
        lock["level"] -= 1
        if lock["level"] == 0:
            self.pass_lock_on(row)

    def do_stop(self, row, part, process, now):
        super().do_stop(row, part, process, now)
        if self.locks[row.part]["owner"] == row.n1:
            self.pass_lock_on(row)

    def do_stop_self(self, row, part, process, now):
        super().do_stop_self(row, part, process, now)
        if self.locks[row.part]["owner"] == row.proc:
            self.pass_lock_on(row)

    def pass_lock_on(self, row):
        """The owner gives the lock up: it is that of the process whose wait the row ends, or free."""
        owner = row.woken[0][1] if row.woken else None
        self.locks[row.part].update(owner=owner, level=0 if owner is None else 1)

    # Restarts.

    def restart(self, part, mode):
        super().restart(part, mode)
        self.things = {key: thing for key, thing in self.things.items() if key[0] != part.number}
        self.locks[part.number].update(owner=None, level=0)
        self.restarts[part.number] = self.place, None

    def restart_by_error(self, number):
        super().restart_by_error(number)
        self.restarts[number] = self.place, self.parts[number].mode

    # Channels.

    def take_arrive(self, row):
        super().take_arrive(row)
        thing = self.things[None, "channel", row.chan]
        if "written" in thing:
            thing["written"] = row.msg, None, self.place, self.time[row.core]
        elif not row.woken and len(thing["messages"]) < thing["capacity"]:
            thing["messages"].append(row.msg)

    def take_depart(self, row):
        super().take_depart(row)
        thing = self.things[None, "channel", row.chan]
        del thing["messages"][0]
        self.let_in(thing, row.woken)

    def look_at_channel(self, row):
        super().look_at_channel(row)
        thing = self.things.get((None, "channel", row.chan))
        if row.out != "NO_ERROR" or thing is None:
            return
        if row.service == "WRITE_SAMPLING_MESSAGE":
            thing["written"] = row.msg, row.who, self.place, self.time[row.core]
        elif row.service == "SEND_QUEUING_MESSAGE":
            self.send(thing, row)
        elif row.service == "RECEIVE_QUEUING_MESSAGE":
            self.receive(thing, row)
        elif row.service == "CLEAR_QUEUING_PORT":
            thing["messages"].clear()
            self.let_in(thing, row.woken)

    # What is shown now.

    def look(self):
        # before the first row, and then after each, its place
        self.slices.see(self.place, dict(self.slices_now()))
        self.waits.see(self.place, dict(self.waits_now()))
        self.bars.see(self.place, dict(self.bars_now()))
        for name, value in self.counters_now():
            values = self.counters.setdefault(name, [])
            while values and values[-1][0] == self.place:
                values.pop()
            if not values or values[-1][1] != value:
                values.append((self.place, value))

    def all_processes(self):
        return [((number, process), found) for number, part in self.parts.items() for process, found in part.processes.items()]

    def window(self, core):
        """The partition that has the window of a core, if there is one."""
        time = self.time[core] % self.config["frame"]
        return next((window["partition"] for window in self.windows
                     if window["core"] == core and window["start"] <= time < window["start"] + window["length"]), None)

    def is_running(self, who, process):
        return state_of(process) == "ready" and self.occupant[process.core] == who

    def all_things(self):
        """Each object and channel, and each lock that was owned once: its key, what it holds, and who waits to send there and for anything else."""
        locks = {(number, "lock", 0): {"lock": self.locks[number], "disciplines": [PRIORITY] * 2} for number in self.parts}
        self.locked |= {key for key, thing in locks.items() if thing["lock"]["owner"] is not None}
        for key, thing in [*self.things.items(), *((key, locks[key]) for key in sorted(self.locked))]:
            disciplines = thing.get("disciplines")
            yield key, thing, *([] if disciplines is None else self.waiting((*key, end), disciplines) for end in (0, 1))

    # In a trace: of each track, by its process and thread, the state and what its slice says: its name, its detail, and a time.

    def slices_now(self):
        for core, who in enumerate(self.occupant):
            window = self.window(core)
            detail = "no window" if window is None else f"window of partition {window}"
            yield (1, core + 1), (who, ("idle" if who is None else numbered(who), detail, self.time[core]))
        for number, part in self.parts.items():
            yield (10 + number, 1), (part.mode, (MODES[part.mode], "", 0))
        for who, process in self.all_processes():
            word, time = state_of(process), self.time[process.core]
            word = "running" if self.is_running(who, process) else word
            name = wait_of(process)[0] if word == "waits" else word
            yield (10 + who[0], 2 + who[1]), ((word, waited(process)), (name, wait_of(process)[1], time))
        for (part, kind, number), thing in self.things.items():
            shown = thing.get("board") or thing.get("written")
            if shown:
                track = (100 + part, number + 1) if kind == "blackboard" else (2, number + 1)
                yield track, (shown[2], (f"message {'from outside' if shown[1] is None else f'of {numbered(shown[1])}'}", "", self.time_of_row))

    def waits_now(self):
        for who, process in self.all_processes():
            if waited(process):
                yield (10 + who[0], 2 + who[1]), (waited(process), (*wait_of(process), self.time[process.core]))

    def counters_now(self):
        for who, process in self.all_processes():
            yield (10 + who[0], f"priority of process {who[1]}"), {"priority": process.priority}
        seen = set()
        for (part, kind, number), thing, senders, others in self.all_things():
            name = 2 if part is None else 10 + part, "the lock" if kind == "lock" else f"{kind} {number}"
            seen.add(name)
            yield name, {"held": held_number(thing), "waiting": len(senders) + len(others)}
        for name in self.counters:
            if name not in seen and not name[1].startswith("priority"):
                yield name, {"held": 0, "waiting": 0}

    # In a picture: of each lane what its bars say.

    def bars_now(self):
        for core, who in enumerate(self.occupant):
            window = self.window(core)
            # the text in a bar names the partition only outside its window
            yield ("core", core), ((who, who and who[0] == window), f"core {core} is idle" if who is None else f"core {core} runs {numbered(who)}")
            yield ("window", core), two(f"core {core} is in {'no window' if window is None else f'a window of partition {window}'}")
        for number, part in self.parts.items():
            yield ("partition", number), self.mode_now(number, part)
        self.held = {who: self.hold(who, process) for who, process in self.all_processes()}
        for who, process in self.all_processes():
            yield ("process", *who), two(self.process_said(who, process))
        for key, thing, senders, others in self.all_things():
            yield ("thing", *key), two(self.thing_said(key, thing, senders, others))

    def mode_now(self, number, part):
        restarted, by_error = self.restarts.get(number, (None, None))
        if by_error == part.mode:
            return (restarted, "error"), f"an error has restarted partition {number}"
        return (restarted, part.mode), f"partition {number} is in the mode {MODES[part.mode]}"

    def hold(self, who, process):
        """What a process has of its core: it runs; it is preempted, since another process of its partition took the core from it; or neither."""
        if state_of(process) != "ready":
            return None
        occupant = self.occupant[process.core]
        if occupant == who:
            return "runs"
        is_lost = self.held.get(who) is not None and occupant is not None and occupant[0] == who[0]
        return "preempted" if is_lost else None

    def process_said(self, who, process):
        word, hold = state_of(process), self.held[who]
        if word == "waits":
            text = waited_said(process)
        elif word == "ready":
            is_raised = hold == "runs" and process.priority > process.base
            text = f"{'runs' if hold == 'runs' else f'is {hold or word}'}, {'raised to' if is_raised else 'priority'} {process.priority}"
        else:
            text = f"is {word}{f', and {waited_said(process)}' if waited(process) else ''}"
        name = self.names.get((who[0], "process", who[1]))
        deadline = "" if process.deadline is None else f"; its deadline is at time {process.deadline}"
        return f"{numbered(who)}{quoted(name)} {text}; its own priority is {process.base}, and its core {process.core}{deadline}"

    def thing_said(self, key, thing, senders, others):
        part, kind, number = key
        name = "the lock" if kind == "lock" else f"{kind} {number}{quoted(self.names.get(key))}"
        return f"{name} {held_said(thing)}{queue_said('to send', senders)}{queue_said('here', others)}"


def two(said):
    """A state that is all that is said of it."""
    return said, said


def numbered(who):
    return f"process {who[1]} of partition {who[0]}"


def quoted(name):
    return f' "{name}"' if name else ""


def counted(count, what):
    return f"{count} {what}" if count == 1 else f"{count} {what}s"


def message_said(digits):
    shown = digits[:2 * MOST_BYTES] + (".." if len(digits) > 2 * MOST_BYTES else "")
    return f"the message {shown} ({counted(len(digits) // 2, 'byte')})"


def state_of(process):
    """The state of a process, in a word; whether a ready one runs is another question."""
    if not process.alive:
        return "dormant"
    if process.faulted:
        return "faulted"
    if process.suspended:
        return "suspended"
    return "waits" if process.wait else "ready"


def waited(process):
    """What a process waits for and until when, if it does, whatever else keeps it from running."""
    return (process.wait, due_of(process)) if process.alive and process.wait else None


def due_of(process):
    word, *more = process.wait
    if word in ("delay", "first", "release"):
        return more[0]
    return None if word == "normal" else process.until


def set_said(key):
    _, kind, number, end = key
    if kind == "channel":
        return f"to {'receive' if end else 'send'} through channel {number}"
    if kind == "buffer":
        return f"to {'receive from' if end else 'send to'} buffer {number}"
    return f"to read blackboard {number}" if kind == "blackboard" else "for the lock" if kind == "lock" else f"for {kind} {number}"


def wait_of(process):
    """What a trace says of a wait: its name, and until when; nothing if the process does not wait."""
    if not waited(process):
        return "", ""
    word, *more = process.wait
    due = due_of(process)
    name = {"normal": "waits for NORMAL", "first": "waits for its first release", "release": "waits for its release", "self": "suspended itself",
            "delay": "waits for its delay", "time": "waits in TIMED_WAIT"}.get(word) or f"waits {set_said(more[0])}"
    return name, "" if due is None else f"until time {due}"


def waited_said(process):
    """What a picture says of a wait."""
    word, *more = process.wait
    due = due_of(process)
    until = "" if due is None else f" until time {due}"
    if word in ("first", "release"):
        return f"waits for its release at time {due}"
    return {"normal": "waits for NORMAL", "delay": f"waits for its delay{until}", "time": f"waits{until}",
            "self": f"suspended itself{until}"}.get(word) or f"waits {set_said(more[0])}{until}"


def held_number(thing):
    """What a counter says that an object, a lock or a channel holds."""
    if "messages" in thing:
        return len(thing["messages"])
    if "mutex" in thing:
        return thing["mutex"]["count"]
    if "lock" in thing:
        return thing["lock"]["level"]
    return thing["value"] if "value" in thing else int(bool(thing.get("up") or thing.get("board") or thing.get("written")))


def held_said(thing):
    """What a picture says that an object, a lock or a channel holds."""
    if "messages" in thing:
        messages = thing["messages"]
        oldest = f", the oldest being {message_said(messages[0])}" if messages else ""
        return f"holds {counted(len(messages), 'message')} of {thing['capacity']}{oldest}"
    if "board" in thing:
        return f"shows {message_said(thing['board'][0])}" if thing["board"] else "is empty"
    if "value" in thing:
        return f"has the value {thing['value']} (maximum {thing['maximum']})"
    if "up" in thing:
        return "is up" if thing["up"] else "is down"
    if "written" in thing:
        return f"holds {message_said(thing['written'][0])}, written at time {thing['written'][3]}" if thing["written"] else "holds nothing"
    if "mutex" in thing:
        owner = thing["mutex"]["owner"]
        has = "is free" if owner is None else f"is owned by process {owner}, which has acquired it {counted(thing['mutex']['count'], 'time')}"
        return f"of priority {thing['mutex']['priority']} {has}"
    lock = thing["lock"]
    return "is free" if lock["owner"] is None else f"is owned by process {lock['owner']} with level {lock['level']}"


def queue_said(what, entries):
    if not entries:
        return ""
    said = [f"{numbered(entry.who)} since place {entry.place} with priority {entry.priority}" for entry in entries]
    return f"; waiting {what}: {', then '.join(said)}"
