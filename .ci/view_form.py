"""What is wrong with a page or a picture of apexview, by the records that it shows and the line of their check."""
import re
import xml.etree.ElementTree as ET

SVG = "{http://www.w3.org/2000/svg}"
# The width of the names of lanes, that of what a narrow screen shows first of a strip beside them, and the least that it shows of a fault, if
# that is not narrower.
NAMES, SHOWN, LEAST_SHOWN = 178, 212, 176
# The least width of a letter of a label, how far to its right a slanted label begins, and how far it goes to the right for its width.
LETTER, BEFORE_LABEL, SLANT = 5, 9, 0.47
# How many characters a field of a row has at most that is in one line, with the comma after it.
LONGEST_FIELD = 40
# The marks and arrows that a key explains.
SIGNS = ["mark tick", "mark dispatch", "mark call", "mark return", "mark restart", "mark error", "arrow wake", "arrow message"]


def texts(element):
    return "".join(element.itertext())


def classes(element):
    return element.get("class", "").split()


def elements(tree, name):
    """The elements of a name, in a page or in a picture."""
    return [element for element in tree.iter() if element.tag in (name, SVG + name)]


def of_class(tree, *wanted):
    return [element for element in tree.iter() if set(wanted) <= set(classes(element))]


def name_of(lane):
    """The whole name of a lane, which a person sees who points at it."""
    return texts(elements(lane, "title")[0])


def page_of(text):
    """A page as a tree. Its type is the one line that is no XML."""
    return ET.fromstring(text.replace("<!DOCTYPE html>\n", "", 1))


def faults_of_marks(tree, wanted, last, line):
    """What is wrong with the records of a picture, which must be at these places, the last of them that is judged at this one."""
    marked = {int(element.get("data-place")): classes(element) for element in of_class(tree, "record")}
    if sorted(marked) != wanted:
        return f"the places of its picture are {sorted(marked)}"
    for number in wanted:
        status = "accepted" if number < last or "place=" not in line else "after" if number > last else \
            "broken" if "rule=" in line else "rejected"
        if status not in marked[number]:
            return f"place {number} is {marked[number]}, not {status}"
    return ""


def faults_of_named(tree, last, explained):
    """Whether the accepted records whose places the explanation names, and no others, have the ground of such records. Lanes that are
    folded have it too."""
    named = {int(place) for place in re.findall(r"^ +place (\d+) is ", explained, re.MULTILINE)}
    lefts = {int(record.get("data-place")): rect.get("x") for record in of_class(tree, "record") for rect in of_class(record, "hit")}
    wanted = {lefts[place] for place in named if place in lefts and place < last}
    found = {ground.get("x") for strip in of_class(tree, "strip") for ground in of_class(strip, "ground-named")}
    return "" if found == wanted else f"records at {sorted(found)} are named, and not those at {sorted(wanted)}"


def faults_of_heading(page, records, last, line):
    """Whether the heading names the file and the line of the fault, and the row of the fault is marked so that a link can lead to it."""
    heading = texts(elements(page, "h1")[0])
    rows = [texts(row[0]) for row in elements(page, "tr") if row.get("id") == "fault"]
    if "place=" not in line:
        return f"its heading is {heading!r}, and its faults {rows}" if rows or ".csv" in heading else ""
    core, seq, _ = records[last]
    wanted = f" place {last} {'breaks a rule' if 'rule=' in line else 'is rejected'}: core{core}.csv, line {seq + 1}"
    links = [[link.get("href") for link in elements(part, "a")] for part in (elements(page, "h1")[0], page)]
    if links != [["#fault"], ["#fault"]]:
        return f"its links are {links}"
    return "" if heading.endswith(wanted) and rows == [str(last)] else f"its heading is {heading!r}, and its faults {rows}"


def faults_of_figures(page, wanted, last, line):
    """Whether the figures of a page are those of the records on it that are accepted. They are unfolded if the recording is lawful."""
    ends_before = "place=" in line and "rule=" not in line
    accepted = sum(1 for number in wanted if number < last or number == last and not ends_before)
    found = of_class(page, "figures")
    if not accepted:
        return "it has figures of no record" if found else ""
    if len(found) != 1 or ("open" in found[0].attrib) != line.startswith("YES "):
        return f"it has figures {len(found)} times"
    first = texts(elements(found[0], "pre")[0]).split("\n")[0]
    return "" if first == f"Figures of {accepted} record{'s' * (accepted != 1)}" else f"its figures begin with {first!r}"


def strip_of(box):
    """The strip of a box that scrolls, without the names of its lanes."""
    return [part for part in of_class(box, "strip") if "names" not in classes(part)][0]


def sides_of_fault(strip):
    """From where to where the record that is rejected or breaks a rule is in a strip, and so its label as far as its letters tell. By time,
    the label is level, and may begin before the record."""
    sides = [(int(frame.get("x")), int(frame.get("x")) + int(frame.get("width"))) for frame in of_class(strip, "frame")]
    for record in [*of_class(strip, "rejected"), *of_class(strip, "broken")]:
        for label in of_class(record, "label"):
            x, is_slanted = re.match(r"translate\((\d+),\d+\)( rotate)?", label.get("transform")).groups()
            width = LETTER * len(texts(label)) * (SLANT if is_slanted else 1)
            sides.append((int(x) - (BEFORE_LABEL if is_slanted else 0), int(x) + width))
    return sides


def faults_of_targets(page):
    """Whether each box that has a fault, and no other, begins scrolled to it: a narrow screen has room for what is shown beside the names of
    the lanes, which is the fault, or the beginning of a wide one, with its label, and what comes before it if there is room."""
    for box in of_class(page, "scrolled"):
        sides = sides_of_fault(strip_of(box))
        found = [[int(part.get("width")) for part in elements(target, "svg")] for target in of_class(box, "to-fault")]
        if len(found) != bool(sides):
            return f"the box with faults at {sides} begins at {found}"
        for first, width in found:
            begin, end = first + NAMES, first + width
            if end - begin > SHOWN or any(left < begin or min(right, left + LEAST_SHOWN) > end for left, right in sides):
                return f"of the box with faults at {sides} it shows {begin} to {end}"
    return ""


def faults_of_edges(page):
    """Whether each mark is whole in its strip, also at its left edge, and begins where the names of the lanes end."""
    for box in of_class(page, "scrolled"):
        names = int(of_class(box, "names")[0].get("width"))
        left = int(strip_of(box).get("viewBox").split()[0])
        cut = [x for mark in of_class(strip_of(box), "mark") for circle in elements(mark, "circle")
               if (x := int(circle.get("cx"))) - float(circle.get("r")) - 1 < left]
        if names != left or cut:
            return f"the names end at {names} and the strip begins at {left}, with marks at {cut}"
    return ""


def faults_of_extents(page, is_by_time):
    """Whether the heading of each strip names its places, and before them its times if the strip is by time and has some."""
    for piece in of_class(page, "piece"):
        if of_class(piece, "again"):
            continue
        heading = texts(elements(piece, "h3")[0])
        strip = strip_of(of_class(piece, "scrolled")[0])
        places = sorted(int(record.get("data-place")) for record in of_class(piece, "record"))
        if not places:
            return f"the strip below {heading!r} has no record"
        times = r"Times? \d+( to \d+)? of the cores; p" if is_by_time and of_class(strip, "short") else "P"
        if not re.fullmatch(rf"{times}laces {places[0]} to {places[-1]}", heading):
            return f"the strip of the places {places[0]} to {places[-1]} has the heading {heading!r}"
    return ""


def faults_of_bar_texts(tree):
    """Whether each text of a bar that is cut is cut in its middle, and each window names its partition as one."""
    for bar in of_class(tree, "bar"):
        for said in map(texts, of_class(bar, "said")):
            if "…" in said and not re.search("[^…]…[^…]", said):
                return f"a bar says {said!r}"
            if "window" in classes(bar) and not re.fullmatch(r"(window of )?partition \d+|part \d+|window.*….*", said):
                return f"a window says {said!r}"
    return ""


def faults_of_fields(page):
    """Whether each field in the table is in one line, with the comma after it, unless it is long."""
    for row in elements(page, "tr")[1:]:
        fields = texts(row[5]).partition(": ")[2].split(",")
        whole = [f"{field}," for field in fields[:-1]] + fields[-1:]
        wanted = [field for field in whole if 1 < len(field.encode()) <= LONGEST_FIELD]
        if wanted != [texts(field) for field in of_class(row[5], "field")]:
            return f"the fields of {texts(row[5])!r} are not in one line each"
    return ""


def faults_of_style(style):
    """Whether a dormant process has a colour, so that it differs from one that is not there."""
    fills = re.findall(r"\.dormant \.fill \{ fill: ([^;]*);", style)
    grounds = re.findall(r"\.ground \{ fill: ([^;]*);", style)
    return "" if len(fills) == 2 and "none" not in fills and not set(fills) & set(grounds) else f"the dormant are {fills} on {grounds}"


def faults_of_labels(tree, records):
    """Whether the label of each call and each return ends with its outcome, if a label says it: whole, however long the service is."""
    for record in of_class(tree, "record"):
        number = int(record.get("data-place"))
        fields = records[number][2]
        code = fields[11] if fields[1] in ("call", "ret") else ""
        outcome = "waits" if code == "wait" else code
        for label in map(texts, of_class(record, "label")):
            if outcome not in ("", "none", "NO_ERROR") and not label.endswith(f": {outcome}"):
                return f"the label of place {number} is {label!r}, and its outcome {outcome}"
    return ""


def faults_of_boxes(tree):
    """Whether each mark that has its text beside it has all of it, after its sign."""
    for mark in [*of_class(tree, "mark", "lawful"), *of_class(tree, "mark", "unlawful")]:
        whole, said = texts(elements(mark, "title")[0]), " ".join(map(texts, of_class(mark, "said")))
        if said[2:] != whole:
            return f"it has the mark {said!r} for {whole!r}"
    return ""


def faults_of_words(page):
    """Whether each option in the words of a page is in one piece, and each line that says more of the one before it hangs by its own
    indentation."""
    for part in [*elements(page, "pre"), *elements(page, "summary")]:
        options = [word for word in texts(part).split() if re.match("--[a-z]", word)]
        kept = [word for code in of_class(part, "option") for word in texts(code).split() if word.startswith("--")]
        if options != kept:
            return f"of the options {options} it keeps {kept} in one piece"
        rules = re.findall(r"(?:--forbid|--max-elapsed) \S+", texts(part))
        whole = [texts(code).strip() for code in of_class(part, "option")]
        if any(rule not in whole for rule in rules):
            return f"of the rules {rules} these are in one piece: {whole}"
        below = [line for line in texts(part).split("\n") if line.startswith(" " * 6)]
        hanging = [texts(code).removesuffix("\n") for code in of_class(part, "below")]
        if below != hanging:
            return f"of the lines {below} these hang: {hanging}"
    return ""


def faults_of_named_cores(page, line, explained):
    """Whether there is a lane for each core that the explanation of a fault names. How recordings may be named is no part of a fault."""
    if "place=" not in line:
        return ""
    names = {name_of(lane) for lane in of_class(page, "lane")}
    named = {core for said in explained.splitlines() if "are the recordings named" not in said for core in re.findall(r"\bcore \d+\b", said)}
    return f"there are no lanes of {sorted(named - names)}" if named - names else ""


def signs_of(part):
    """The marks and arrows in a part of a page."""
    return {sign for sign in SIGNS if of_class(part, *sign.split())}


def uses_of(part):
    """The looks of bars and the grounds of records in a part of a page. An occupied core looks like a process that runs."""
    looks = {classes(bar)[1] for bar in of_class(part, "bar")}
    grounds = {name for name in ("ground-named", "ground-rejected", "ground-after") if of_class(part, name)}
    return {"running" if look == "occupied" else look for look in looks} | grounds


def faults_of_key(page):
    """Whether the key has what the strips use. It has no other marks and arrows, and nothing else at all if the picture is one strip of
    records, all of whose bars are wide enough."""
    keys = of_class(page, "key")
    strips = [strip for strip in of_class(page, "strip") if "names" not in classes(strip)]
    if not keys:
        return "it has strips and no key" if strips else ""
    used, found = set().union(*map(uses_of, strips)), uses_of(keys[0])
    if used - found:
        return f"its key lacks {sorted(used - found)}"
    drawn, signs = set().union(*map(signs_of, strips)), signs_of(keys[0])
    if drawn != signs:
        return f"its key has {sorted(signs)}, and its strips {sorted(drawn)}"
    is_whole = len(of_class(page, "piece")) == 1 and not of_class(page, "slot")
    return f"its key has {sorted(found - used)}, which no strip uses" if is_whole and found != used else ""


def faults_of_order(tree):
    """Whether a line of an arrow, a mark or a frame comes after a text of a bar in the same strip, and so is over it."""
    for strip in of_class(tree, "strip"):
        kinds = ["text" if "said" in classes(element) else "line" for element in strip.iter()
                 if "said" in classes(element) or {"arrow", "frame", "tick", "dispatch", "call", "return", "restart"} & set(classes(element))]
        if "line" in kinds[kinds.index("text"):] if "text" in kinds else False:
            return "a line is over a text"
    return ""


def faults_of_lanes(page, records, wanted, last):
    """Whether there is a lane with bars for each core and each process that acts before the last record that is judged."""
    names = {}
    for lane in of_class(page, "lane"):
        names.setdefault(name_of(lane), []).append(lane)
    for core in {records[number][0] for number in wanted if number < last}:
        lanes = names.get(f"core {core}", [])
        if not any(of_class(lane, "bar") for lane in lanes):
            return f"core {core} has no bars"
    if not wanted or wanted[0] == last:
        return ""
    # what is recorded of the last record may be the fault
    for number in wanted:
        core, _, fields = records[number]
        if number >= last or fields[1] not in ("call", "ret"):
            continue
        lanes = [lane for name, found in names.items() for lane in found
                 if re.match(rf"process {fields[3]}\b" if fields[3] != "0" else r"0, (initialising|error)", name)]
        if not any(of_class(lane, "bar") for lane in lanes):
            return f"process {fields[3]} of place {number} has no bars"
    return ""
