"""The contrast of each text of a page or a picture with what is behind it, computed from its style sheet.

A text has the colour that the rules of the style give it, in the light scheme and in the dark one. Behind it are the shapes or boxes
that its place among the elements tells: a bar and its pattern, the plate of a text, a box of a mark, the paper, or the backgrounds of
the elements around it. The contrast is that of the Web Content Accessibility Guidelines, and must be 4.5 at least.
"""
import re

LEAST = 4.5
SVG = "{http://www.w3.org/2000/svg}"
SCHEMES = ("light", "dark")
COMPOUND = re.compile(r"(?P<tag>[a-z0-9]+)?(?P<marks>(?:[.#][\w-]+)*)(?P<state>(?:::?[\w-]+(?:\([^)]*\))?|\[\w+\])*)")


class Rule:
    """A selector with its declarations: it holds in a scheme, or in both."""

    def __init__(self, scheme, selector, declared, order):
        self.scheme, self.declared, self.order = scheme, declared, order
        self.parts = [COMPOUND.fullmatch(part) for part in selector.split()]
        names = [name for part in self.parts for name in re.findall(r"[.#][\w-]+|:[\w-]+|\[\w+\]", part["marks"] + part["state"])]
        self.weight = (sum(name[0] == "#" for name in names), sum(name[0] != "#" for name in names),
                       sum(bool(part["tag"]) for part in self.parts))

    def holds(self, chain):
        """Whether it is of the last element of a chain, each element of which is in the one before it."""
        if not fits(self.parts[-1], chain[-1]):
            return False
        left = len(self.parts) - 2
        for element in reversed(chain[:-1]):
            if left >= 0 and fits(self.parts[left], element):
                left -= 1
        return left < 0


def fits(part, element):
    """Whether a part of a selector is of an element: its name, its classes with a dot, its id with a hash, its states with a colon, and its
    attributes in brackets."""
    tag, marks = element
    wanted = re.findall(r"[.#][\w-]+", part["marks"])
    states = re.findall(r":[\w-]+(?:\([^)]*\))?|\[\w+\]", part["state"])
    return part["tag"] in (None, tag) and all(mark in marks for mark in wanted + states) and "::" not in part["state"]


def rules_of(style):
    """The rules of a style sheet that hold on a screen."""
    rules = []

    def add(text, scheme):
        for selectors, body in re.findall(r"([^{}]+)\{([^{}]*)\}", text):
            declared = dict(re.findall(r"([\w-]+):\s*([^;]+)", body))
            for selector in selectors.split(","):
                if "~" in selector:
                    # what an element before another one does to it: its size alone
                    if set(declared) != {"zoom"}:
                        raise ValueError(f"{selector.strip()} sets more than a size")
                    continue
                rules.append(Rule(scheme, selector.strip(), declared, len(rules)))

    position = 0
    for block in re.finditer(r"@([^{]+)\{((?:[^{}]*\{[^{}]*\})*[^{}]*)\}", style):
        add(style[position:block.start()], None)
        position = block.end()
        if "prefers-color-scheme: dark" in block[1]:
            add(block[2], "dark")
        elif "screen" in block[1]:
            add(block[2], None)
    add(style[position:], None)
    return rules


def colour(text):
    """The red, green, blue and opacity of a colour; nothing if it is none."""
    if text in ("transparent", "none"):
        return None
    if named := re.fullmatch(r"#([0-9a-f]{6})", text):
        return *(int(named[1][index:index + 2], 16) for index in (0, 2, 4)), 1.0
    if mixed := re.fullmatch(r"color-mix\(in srgb, (.+) (\d+)%, transparent\)", text):
        return *colour(mixed[1])[:3], int(mixed[2]) / 100
    raise ValueError(f"{text!r} is no colour")


def over(below, above):
    """An opaque colour, below another one."""
    *parts, opacity = above
    return *(old * (1 - opacity) + new * opacity for old, new in zip(below, parts)), 1.0


def luminance(one):
    parts = [part / 255 for part in one[:3]]
    red, green, blue = (part / 12.92 if part <= 0.03928 else ((part + 0.055) / 1.055) ** 2.4 for part in parts)
    return 0.2126 * red + 0.7152 * green + 0.0722 * blue


def contrast(one, other):
    light, dark = sorted((luminance(one), luminance(other)), reverse=True)
    return (light + 0.05) / (dark + 0.05)


class Style:
    """The rules of a style sheet in a scheme, and the patterns that shapes have."""

    def __init__(self, style, patterns, scheme):
        self.rules = [rule for rule in rules_of(style) if rule.scheme in (None, scheme)]
        self.patterns = patterns
        self.known = {}

    def declared(self, chain, name):
        """What the rules declare of an element under this name; nothing if they do not."""
        key = (chain, name)
        if key not in self.known:
            found = [rule for rule in self.rules if name in rule.declared and rule.holds(chain)]
            best = max(found, key=lambda rule: (rule.weight, rule.order), default=None)
            self.known[key] = best and self.resolved(chain, best.declared[name].strip())
        return self.known[key]

    def resolved(self, chain, text):
        return re.sub(r"var\((--[\w-]+)\)", lambda found: self.inherited(chain, found[1]), text)

    def inherited(self, chain, name):
        for end in range(len(chain), 0, -1):
            text = self.declared(chain[:end], name)
            if text not in (None, "inherit"):
                return text
        return None

    def layer(self, chain, name):
        """The colour of a shape or a background; nothing if it has none."""
        text = self.declared(chain, name)
        shape = text and colour(text)
        if not shape:
            return None
        return *shape[:3], shape[3] * float(self.declared(chain, f"{name}-opacity") or 1)

    def behind(self, layers):
        """An opaque colour, made of layers on white."""
        colour_of_all = (255, 255, 255, 1.0)
        for layer in layers:
            if layer:
                colour_of_all = over(colour_of_all, layer)
        return colour_of_all


def named(element, *states):
    """An element as selectors see it."""
    marks = {f".{name}" for name in element.get("class", "").split()}
    if element.get("id"):
        marks.add("#" + element.get("id"))
    if element.get("open"):
        marks.add("[open]")
    return element.tag.removeprefix(SVG), frozenset(marks | set(states))


def shape(name, *classes):
    return name, frozenset(f".{one}" for one in classes)


def patterns_of(tree):
    """The colour of the pattern of each kind of bar that has one, by the classes of the bar."""
    found, bars = {}, {}
    for element in tree.iter():
        tag = element.tag.removeprefix(SVG)
        for part in element:
            for name in ("stroke", "fill"):
                if tag == "pattern" and part.get(name):
                    found[f"url(#{element.get('id')})"] = *colour(part.get(name))[:3], float(part.get(f"{name}-opacity", 1))
            if part.get("class") == "pattern":
                bars[named(element)[1]] = part.get("fill")
    return {classes: found[pattern] for classes, pattern in bars.items()}


def paper_of(style, chain):
    """What is behind a picture, as layers from the lowest up: the boxes of its page around it, or its own paper."""
    boxes = [style.layer(chain[:end], "background") for end in range(1, len(chain)) if chain[end - 1][0] != "svg"]
    return boxes or [style.layer((chain[0], shape("rect", "paper")), "fill")]


def grounds_of_svg(style, chain):
    """What can be behind a text of a picture, each as layers from the lowest up."""
    paper = paper_of(style, chain[:-1])
    *around, nearest, _ = chain
    inside = (*around, nearest)
    if ".names" in around[-1][1]:
        return [[style.layer((*around, shape("rect", "paper")), "fill")]]
    if ".bar" in nearest[1]:
        ground = style.layer((*around, shape("rect", "ground")), "fill")
        bar = [*paper, ground, style.layer((*inside, shape("rect", "fill")), "fill"), style.patterns.get(nearest[1])]
        return [bar, [*bar, style.layer((*inside, shape("rect", "plate")), "fill")]]
    if ".mark" in nearest[1]:
        return [[*paper, style.layer((*inside, ("rect", frozenset())), "fill")]]
    if ".record" in nearest[1] and ".place" in chain[-1][1]:
        pointed = (*around, (nearest[0], nearest[1] | {":hover"}), shape("rect", "hit"))
        return [paper, [*paper, style.layer(pointed, "fill")]]
    return [paper]


def faults_of_tree(tree, text):
    """The texts of a page or a picture with this style sheet whose contrast is too low, each as a sentence."""
    faults = {}
    patterns = patterns_of(tree)
    for scheme in SCHEMES:
        style = Style(text, patterns, scheme)
        for chain in texts_of(tree):
            is_svg = chain[-1][0] == "text"
            ink = style.inherited(chain, "fill" if is_svg else "color") or "#000000"
            grounds = grounds_of_svg(style, chain) if is_svg else \
                [[style.layer(chain[:end], "background") for end in range(1, len(chain) + 1)]]
            for layers in grounds:
                found = contrast(colour(ink), style.behind(layers))
                if found < LEAST:
                    name = " ".join(tag + "".join(sorted(marks)) for tag, marks in chain[-3:])
                    faults[f"{name} has the contrast {found:.2f} in the {scheme} scheme"] = None
    return list(faults)


# Elements whose text is not shown.
UNSEEN = ("title", "style", "head")


def texts_of(tree):
    """Each element that has a text of its own, with those around it, once for each way in which their names and classes are."""
    found = {}

    def look(element, chain):
        chain = (*chain, named(element))
        if chain[-1][0] in UNSEEN:
            return
        if (element.text or "").strip() or any((part.tail or "").strip() for part in element):
            found[chain] = None
        for part in element:
            look(part, chain)

    look(tree, ())
    return list(found)


# Every look of a bar, with its pattern if it has one.
LOOKS = {"window": "", "no-window": "stripes", "occupied": "", "idle": "", "normal": "", "other-mode": "", "running": "", "raised": "",
         "ready": "", "preempted": "stripes", "waiting": "dots", "suspended": "grid", "faulted": "crosses",
         "dormant": "", "free": "", "awaited": ""}
LANES = ("core", "partition", "process", "thing")


def strip_of_all():
    """A strip that has every bar, mark, record, name and heading."""
    bars = "".join(f'<g class="bar {look}"><rect class="pattern" fill="url(#{pattern})"/><text class="said">x</text></g>' if pattern else
                   f'<g class="bar {look}"><text class="said small">x</text></g>' for look, pattern in LOOKS.items())
    marks = "".join(f'<g class="mark {kind}"><text class="said">x</text></g>' for kind in ("lawful", "unlawful"))
    lanes = "".join(f'<g class="lane {lane}">{bars}{marks}</g>' for lane in LANES)
    records = "".join(f'<g class="record {status}"><text class="label">x</text><text class="place">x</text></g>'
                      for status in ("accepted", "rejected", "broken", "after"))
    return f'{lanes}{records}<text class="place">x</text>'


def names_of_all():
    """The names of every lane, and a heading."""
    names = "".join(f'<g class="lane {lane}"><text class="name">x</text></g>' for lane in LANES)
    return f'{names}<text class="heading">x</text>'


def page_of_all(definitions):
    """A page that has every text, with these definitions of patterns."""
    rows = "".join(f"<tr{status}><td>x</td></tr>" for status in ("", ' class="rejected"', ' class="broken"', ' class="after"'))
    sizes = "".join(f'<details class="size {size}"{state}><summary>x</summary></details>'
                    for size, state in [("half", ""), ("whole", ' open="open"'), ("more", ""), ("twice", "")])
    figures = "".join(f'<details class="figures"{state}><summary>x</summary><pre>x</pre></details>' for state in ("", ' open="open"'))
    return (f'<html><body class="page"><h1>x<a>x</a></h1><p>x</p><pre>x</pre><h2>x</h2><svg class="hidden">{definitions}</svg>'
            f'<p class="size">x</p>{sizes}{figures}'
            f'<div class="piece"><h2>x</h2><h3>x</h3><div class="scrolled"><div class="beside"><svg class="strip names">{names_of_all()}</svg>'
            f'<svg class="strip">{strip_of_all()}</svg></div></div><details class="elsewhere"><summary>x</summary></details></div>'
            f'<ul class="key"><li>x</li><li><code>x</code></li></ul>'
            f'<table><caption>x</caption><thead><tr><th>x</th></tr></thead><tbody>{rows}</tbody></table></body></html>')


def picture_of_all(definitions):
    """A picture by itself that has every text."""
    return (f'<svg class="alone">{definitions}<svg class="strip">{names_of_all()}{strip_of_all()}</svg>'
            f'<g class="answer"><text class="line">x</text></g></svg>')
