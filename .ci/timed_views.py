"""What pages and pictures by time must have, worked out from the recordings alone.

A strip by time has a short line where each tick begins, and the numbers of some of them. From these the script reads where each tick
is. Each record at a time must be in the lane of its core within its tick, the records of a tick must share its width in their order, and
what a record does must be drawn where the record is.
"""
import re
from collections import Counter, defaultdict

from view_form import SVG, elements, of_class, texts


def times_of(records):
    """The time of each record's core after it."""
    clock, times = Counter(), []
    for core, _, fields in records:
        clock[core] += fields[1] == "tick"
        times.append(clock[core])
    return times


def number(element, name):
    return int(element.get(name))


class Axis:
    """Where the ticks of a strip are: the first tick, where it begins, and the width of each."""

    def __init__(self, strip):
        self.shorts = [number(line, "x1") for line in of_class(strip, "short")]
        numbers = [(number(text, "x") - 2, int(texts(text))) for text in of_class(strip, "place") if texts(text).isdigit()]
        self.width = self.shorts[1] - self.shorts[0] if len(self.shorts) > 1 else None
        self.first = numbers[0][1] - self.shorts.index(numbers[0][0]) if numbers else None
        self.wrong = "" if numbers and all(self.left(time) == x for x, time in numbers) and \
            all(self.left(self.first + index) == x for index, x in enumerate(self.shorts)) else f"its times are at {numbers}"

    def left(self, time):
        return self.shorts[0] + (time - self.first) * (self.width or 0)

    def times(self):
        return range(self.first, self.first + len(self.shorts))


def slots_of(strip, kind):
    """The place of each record in the lanes of a strip, where it begins, its width and its height."""
    found = {}
    for record in of_class(strip, kind):
        for rect in of_class(record, "slot"):
            found[number(record, "data-place")] = number(rect, "x"), number(rect, "width"), number(rect, "y")
    return found


def faults_of_slots(axis, slots, records, times):
    """What is wrong with the records of a strip: each is within its tick, in the lane of its core."""
    lanes = defaultdict(set)
    for place, (x, width, y) in slots.items():
        core, time = records[place][0], times[place]
        lanes[core].add(y)
        if time not in axis.times():
            return f"place {place} is at time {time}, which is not shown"
        if x < axis.left(time) or axis.width and x + width > axis.left(time) + axis.width:
            return f"place {place} of time {time} is from {x} to {x + width}"
    if any(len(heights) > 1 for heights in lanes.values()) or len(set.union(set(), *lanes.values())) != len(lanes):
        return f"the heights of the records of each core are {dict(lanes)}"
    return ""


def faults_of_marks(strip, slots, records):
    """What is wrong with the marks of ticks, dispatches, calls and returns: each is where its record is. What arrives or departs is marked
    in the lane of its channel, which follows no core."""
    rows = {(core, fields[0]): place for place, (core, _, fields) in enumerate(records)}
    for kind in ("tick", "dispatch", "call", "return"):
        for mark in of_class(strip, "mark", kind):
            source = re.search(r"\ncore(\d+)\.csv, line \d+: (\d+),", texts(elements(mark, "title")[0]))
            place = source and rows[int(source[1]), source[2]]
            shape = [part for part in mark if part.tag != SVG + "title"][-1]
            x = int(shape.get("x1") or shape.get("cx") or shape.get("d")[1:].split(",")[0])
            if place in slots and x != slots[place][0] and records[place][2][1] not in ("arrive", "depart"):
                return f"the {kind} of place {place} is at {x}, not {slots[place][0]}"
    return ""


def faults_of_bars(strip, slots, records):
    """What is wrong with the occupants of the cores: a bar begins and ends where the records of its core are that begin and end it."""
    for lane in of_class(strip, "lane", "core"):
        core = int(texts(elements(lane, "title")[0]).split()[-1])
        for bar in [*of_class(lane, "occupied"), *of_class(lane, "idle"), *of_class(lane, "window")]:
            title, shape = elements(bar, "title"), of_class(bar, "fill")
            if not title:
                continue
            left, width = number(shape[0], "x"), number(shape[0], "width")
            for words, x in [(r"from place (\d+)", left), (r"up to place (\d+)", left + width)]:
                place = re.search(words, texts(title[0]))
                place = int(place[1]) if place else None
                if place in slots and records[place][0] == core and slots[place][0] != x:
                    return f"a bar of core {core} is {words} at {x}, and the record at {slots[place][0]}"
    return ""


def faults_of_strip(strip, kind, frame, records, times):
    """What is wrong with a strip by time, whose records are of this class, of a module whose major frame has this many ticks."""
    axis = Axis(strip)
    slots = slots_of(strip, kind)
    bounds = [number(line, "x1") for line in of_class(strip, "bound")]
    wanted = [axis.left(time) for time in axis.times() if time % frame == 0]
    if axis.wrong or bounds != wanted:
        return axis.wrong or f"its major frames begin at {bounds}, not {wanted}"
    return faults_of_slots(axis, slots, records, times) or faults_of_marks(strip, slots, records) or faults_of_bars(strip, slots, records)


def faults_of_sharing(strips, kind, records, times):
    """Whether the records of each tick share its width, in their order, over all strips."""
    widths, last = Counter(), {}
    for strip in strips:
        axis = Axis(strip)
        for place, (x, width, _) in sorted(slots_of(strip, kind).items()):
            tick = records[place][0], times[place]
            within = x - axis.left(times[place])
            if within != last.get(tick, 0):
                return f"place {place} begins at {within} of its tick, and the record before it ends at {last.get(tick, 0)}"
            last[tick] = within + width
            widths[tick] += width
    whole = {Axis(strip).width for strip in strips} - {None}
    if len(whole) > 1:
        return f"the ticks have the widths {whole}"
    wrong = {tick: width for tick, width in widths.items() if whole and {width} != whole}
    return f"the ticks have {whole}, and these records {wrong}" if wrong else ""


def strips_by_time(tree):
    return [strip for strip in of_class(tree, "strip") if of_class(strip, "short")]


def faults_of_times(tree, frame, records, last, is_rejected):
    """What is wrong with the strips of a page or a picture that is by time. `last` is the last record that is judged."""
    times = times_of(records)
    strips = [strip for strip in strips_by_time(tree) if not of_class(strip, "again")]
    for strip in strips:
        if wrong := faults_of_strip(strip, "record", frame, records, times):
            return wrong
    places = sorted(place for strip in strips for place in slots_of(strip, "record"))
    shown = sorted(int(record.get("data-place")) for record in of_class(tree, "record"))
    wanted = [place for place in shown if place < last + (not is_rejected)]
    if places != wanted or len(shown) != len(set(shown)):
        return f"the records at a time are {places} of {shown}"
    # the strips in which the records are in their order
    strips.sort(key=lambda strip: min(slots_of(strip, "record"), default=-1))
    return faults_of_sharing(strips, "record", records, times)


def frame_wanted(frame, records, times, first):
    """The ticks of the last major frame of which all are shown of each core, if a picture shows the records from the first one on; else those of
    the last one, as far as it is shown."""
    known = {}
    for place in range(first, len(records)):
        core = records[place][0]
        # the tick of its first record may have more records before it
        is_whole = records[place][2][1] == "tick" or first == 0
        known.setdefault(core, [times[place], 0, times[place] + (not is_whole)])[1] = times[place] + 1
    least, most = max(whole for _, _, whole in known.values()), min(end for _, end, _ in known.values())
    whole = [number for number in range(most // frame) if number * frame >= least]
    if whole:
        return range(whole[-1] * frame, whole[-1] * frame + frame)
    begin = (most - 1) // frame * frame
    earliest, latest = min(begin for begin, _, _ in known.values()), max(end for _, end, _ in known.values())
    return range(max(begin, earliest), min(begin + frame, latest))


def faults_of_frame(page, frame, records, first, is_by_time):
    """What is wrong with the major frame of a lawful page whose picture begins with this record: its ticks, its heading, and its records. There
    is none if the picture is one strip by time, which would show it again."""
    pieces = [piece for piece in of_class(page, "piece") if of_class(piece, "again")]
    if is_by_time and len(of_class(page, "piece")) - len(pieces) == 1:
        return "the strip shows its major frame too" if pieces else ""
    if len(pieces) != 1 or [strip for strip in of_class(page, "piece")][0] is not pieces[0]:
        return f"{len(pieces)} pieces have a major frame"
    times = times_of(records)
    strip = strips_by_time(pieces[0])[0]
    shown = Axis(strip).times()
    wanted = frame_wanted(frame, records, times, first)
    if shown != wanted:
        return f"its ticks are {shown}, not {wanted}"
    whole = len(wanted) == frame
    heading = texts(elements(pieces[0], "h2")[0])
    if heading != f"{'Major frame' if whole else 'A part of major frame'} {wanted[0] // frame} by time":
        return f"its heading is {heading!r}"
    places = sorted(slots_of(strip, "again"))
    if places != [place for place in range(first, len(records)) if times[place] in wanted]:
        return f"its records are {places}"
    return faults_of_strip(strip, "again", frame, records, times)
