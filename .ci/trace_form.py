#!/usr/bin/env python3
"""Whether a text is a trace in the Trace Event Format of Chrome, and one that each viewer shows whole.

    .ci/trace_form.py FILE...

It prints what is wrong with each file, and its status is 1 if anything is.

KINDS has the events that a trace of this repository may have, each with the members that the format demands of it and those that it
allows. A viewer sorts the events by their times, and those of one time stay in the order of the file; `faults_of` then follows what each
event begins and ends. Demanded are: on each track no time is less than the one before it; the slices of a track nest, and each of them
ends; a flow begins and ends on a slice that is open on its track, never before it begins, and once; a wait ends once, under its own
category, number, name and process; and what a counter has are numbers, since a viewer draws each.
"""
import json
import sys
from pathlib import Path

# Of each event the members that it must have beside `ph`, `pid` and `tid`, and those that it may have.
KINDS = {
    "M": ("name args", ""),
    "B": ("name ts", "cat args"),
    "E": ("ts", "name cat args"),
    "i": ("name ts s", "cat args"),
    "C": ("name ts args", "cat id"),
    "s": ("name cat id ts", "args"),
    "f": ("name cat id ts bp", "args"),
    "b": ("name cat id ts", "args"),
    "e": ("name cat id ts", "args"),
}
NAMES = {"process_name": "name", "thread_name": "name"}


def faults_of_members(event):
    """What is wrong with an event by itself."""
    if not isinstance(event, dict) or event.get("ph") not in KINDS:
        return "it is of no kind"
    must, may = (set(words.split()) for words in KINDS[event["ph"]])
    must |= {"ph", "pid", "tid"}
    if must - set(event):
        return f"it lacks {sorted(must - set(event))}"
    if set(event) - must - may:
        return f"it has {sorted(set(event) - must - may)}"
    for key in ("pid", "tid", "ts", "id"):
        if not isinstance(event.get(key, 0), int) or isinstance(event.get(key), bool) or event.get(key, 0) < 0:
            return f"its {key} is no number"
    for key in ("name", "cat"):
        if not isinstance(event.get(key, ""), str):
            return f"its {key} is no text"
    return faults_of_details(event, event.get("args", {}))


def faults_of_details(event, arguments):
    """What is wrong with the arguments of an event, and with what only its kind has."""
    if not isinstance(arguments, dict):
        return "its arguments are no object"
    if event["ph"] == "M" and (event["name"] not in NAMES or not isinstance(arguments.get(NAMES[event["name"]]), str)):
        return "it names nothing"
    if event["ph"] == "i" and event["s"] not in ("g", "p", "t"):
        return "its scope is none of the format"
    if event["ph"] == "f" and event["bp"] != "e":
        return "it is bound to the next slice"
    if event["ph"] == "C" and not (arguments and all(type(value) in (int, float) for value in arguments.values())):
        return "what it counts is no number"
    return ""


class Followed:
    """What is open while the events of a trace are followed in their order."""

    def __init__(self):
        self.slices, self.flows, self.ended, self.waits, self.done = {}, {}, set(), {}, set()

    def follow(self, event):
        """Follows the next event. Returns what is wrong with it."""
        track = event["pid"], event["tid"]
        return {"B": self.begin, "E": self.end, "s": self.begin_flow, "f": self.end_flow, "b": self.begin_wait,
                "e": self.end_wait}.get(event["ph"], lambda event, track: "")(event, track)

    def begin(self, event, track):
        self.slices.setdefault(track, []).append(event["name"])
        return ""

    def end(self, event, track):
        if not self.slices.get(track):
            return "no slice is open there"
        name = self.slices[track].pop()
        return "" if event.get("name", name) == name else f"the slice that is open there is {name!r}"

    def begin_flow(self, event, track):
        key = event["cat"], event["name"], event["id"]
        if key in self.flows or key in self.ended:
            return "this flow begins twice"
        self.flows[key] = event["ts"]
        return "" if self.slices.get(track) else "no slice is open where this flow begins"

    def end_flow(self, event, track):
        key = event["cat"], event["name"], event["id"]
        if key not in self.flows:
            return "this flow is not open"
        self.ended.add(key)
        if event["ts"] < self.flows.pop(key):
            return "this flow leads back"
        return "" if self.slices.get(track) else "no slice is open where this flow ends"

    def begin_wait(self, event, track):
        key = event["cat"], event["id"], track[0]
        if key in self.waits or key in self.done:
            return "this wait begins twice"
        self.waits[key] = event["name"], track
        return ""

    def end_wait(self, event, track):
        key = event["cat"], event["id"], track[0]
        if key not in self.waits:
            return "this wait is not open"
        self.done.add(key)
        return "" if self.waits.pop(key) == (event["name"], track) else "this wait began under another name or track"

    def left(self):
        """What is still open."""
        slices = {track: names for track, names in self.slices.items() if names}
        return f"these do not end: {slices} {self.flows} {self.waits}" if slices or self.flows or self.waits else ""


def events_of(text):
    """The events of a trace; its form is tested by `faults_of`."""
    return json.loads(text)["traceEvents"]


def faults_of(text):
    """The first thing that is wrong with a trace; nothing if it is right."""
    try:
        trace = json.loads(text)
    except json.JSONDecodeError as fault:
        return str(fault)
    if not isinstance(trace, dict) or not isinstance(trace.get("traceEvents"), list):
        return "it has no list of events"
    if trace.get("displayTimeUnit", "ms") not in ("ms", "ns"):
        return "its unit is none of the format"
    last = {}
    for event in trace["traceEvents"]:
        if wrong := faults_of_members(event):
            return f"{event}: {wrong}"
        track = event["pid"], event["tid"]
        if event.get("ts", 0) < last.get(track, 0):
            return f"{event}: the time before it on its track is {last[track]}"
        last[track] = event.get("ts", last.get(track, 0))
    followed = Followed()
    for event in sorted(trace["traceEvents"], key=lambda event: event.get("ts", 0)):
        if wrong := followed.follow(event):
            return f"{event}: {wrong}"
    return followed.left()


def main():
    """Prints what is wrong with each file that is named."""
    wrong = {name: faults_of(Path(name).read_text(encoding="utf-8")) for name in sys.argv[1:]}
    for name, fault in wrong.items():
        if fault:
            print(f"{name}: {fault}")
    sys.exit(any(wrong.values()))


if __name__ == "__main__":
    main()
