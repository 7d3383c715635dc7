"""Makes card scripts by chance: the same number gives the same script.

Every call in a script is one that must be accepted. A card is a tree of elements and texts with attributes out of the
text module in all their forms, then come settings, stages, paints, and the calls that read the card.
"""
import random
import struct

import model
import reference

# ---- what values are made of

# One to four bytes a character, the ends of each range among them, and what a quoted text must escape.
LETTERS = (
    ["a", "b", "c", " ", "x", "Z", "0", "~", "!", "#"] * 3
    + ["é", "ß", "\u0080", "\u07ff", "א", "ا"] * 2
    + ["\ufeff", "\u0800", "\uffff", "鶴", "ก", "\u200d", "\ue000"] * 2
    + ["🦢", "\U00010000", "\U0010ffff", "𝔘"] * 2
    + ['"', "\\", "\n", "\r", "\t", "\0", "\x1f", "\x7f"]
)

UNITS = ["", "", "", "px", "em", "ex", "in", "cm", "mm", "pt", "pc", "%"]
NUMBERS = "0 1 2 3 5 10 12 40 100 0.5 1.2 0.1 33.333 -1 -7.25 -0 1e3 1e-3 16777216 16777217 1e10 1e-10".split()
EXTREMES = "1e38 3.4028235e38 -3e38 1e-38 1e-45 1.1754944e-38 -1e-40".split()

DECORATIONS = ["underline", "overline", "line-through", "none", "blink", "inherit", ""]
STRANGE = ["", "none", "inherit", "auto", "normal", "initial", "unset", "foo", "NORMAL", " normal", "0", "é"]

# Every property of the text module that is a word, with all its words and some that usvg does not read.
WORDS = {
    "text-anchor": ["start", "middle", "end", "left"],
    "alignment-baseline": model.ALIGNMENT + ["top", "text-top"],
    "dominant-baseline": model.DOMINANT + ["text-top", "hanging "],
    "lengthAdjust": ["spacing", "spacingAndGlyphs", "spacingandglyphs"],
    "font-style": ["normal", "italic", "oblique", "oblique 10deg"],
    "font-stretch": [word.decode() for word in model.STRETCHES] + ["normal", "50%", "110%"],
    "font-weight": [word.decode() for word in model.WEIGHTS] + ["bolder", "lighter", "450", "1000", "0700"],
    "font-variant": ["normal", "small-caps", "all-small-caps", "normal small-caps"],
    "font-kerning": ["auto", "normal", "none"],
    "font-optical-sizing": ["auto", "none"],
    "visibility": ["visible", "hidden", "collapse"],
    "writing-mode": [word.decode() for word in model.VERTICAL]
    + ["lr", "lr-tb", "rl", "rl-tb", "horizontal-tb", "sideways-rl", "sideways-lr"],
    "display": ["none", "inline", "block"],
    "direction": ["ltr", "rtl"],
    "unicode-bidi": ["normal", "embed"],
    "paint-order": ["normal", "stroke", "markers stroke"],
    "text-rendering": ["auto", "optimizeSpeed", "geometricPrecision"],
}
SIZE_WORDS = [word.decode() for word in list(model.ABSOLUTE_SIZES) + list(model.RELATIVE_SIZES)]
SIZE_WORDS += ["xxx-large", "math", "Large", "12", "calc(1em)"]
FAMILIES = ["Noto Sans", "serif, 'Noto'", "", "none", "inherit", "明朝"]
LANGUAGES = ["en", "de", "en-GB", "e", "", "en-", "zh-Hant-TW"]
LANGUAGE_LISTS = ["en", "de, en", "en-GB", " en ", "fr,de", "", ",", "en,", "EN", "\ten", "zh-Hant-TW", "-", "de-CH-1996"]
TRANSFORMS = ["translate(1)", "scale(0)", "matrix(0 0 0 0 0 0)", "none", "rotate(10 5 5)"]
LENGTH_NAMES = ["letter-spacing", "word-spacing", "kerning", "textLength", "baseline-shift"]
OTHER_NAMES = """
    fill stroke fill-opacity stroke-width stroke-opacity stroke-dasharray stroke-miterlimit opacity color class style d
    startOffset font font-size-adjust font-variation-settings text-decoration-line clip-path mask marker-start filter
""".split()

AXES = ["x", "y", "dx", "dy"]
LINK_NAMES = ["id", "href", "systemLanguage", "transform", "font-family"]
THEMES = AXES * 2 + ["rotate", "font-size", "text-decoration", "font-family", "systemLanguage"] + LENGTH_NAMES + sorted(WORDS)
NAMES = THEMES + AXES * 3 + ["font-size", "display", "rotate"] * 2 + LINK_NAMES + ["any"] * 2

INSIDE = ["tspan"] * 12 + ["textPath"] * 3 + ["a", "a", "g", "tref", "switch", "text", "path", "svg", "use"]
OUTSIDE = ["text"] * 12 + ["g", "a", "defs", "switch", "path", "path", "tspan", "textPath", "svg", "style"]


def quote(data, chance):
    """A text in quotes; bytes that need no escape have one now and then."""
    letters = {34: b'\\"', 92: b"\\\\", 10: b"\\n", 13: b"\\r", 9: b"\\t"}
    parts = []
    for byte in data:
        if byte in letters and (byte in (34, 92, 10) or chance.random() < 0.5):
            parts.append(letters[byte])
        elif chance.random() < 0.03:
            parts.append(b"\\x%02x" % byte)
        else:
            parts.append(bytes([byte]))
    return b'"' + b"".join(parts) + b'"'


def quote_table(data):
    """The same for the bytes of a table, all of them escaped."""
    return b'"' + b"".join(b"\\x%02x" % byte for byte in data) + b'"'


def table(count, *columns):
    """A stage or paint table: a count, and the columns behind it."""
    return struct.pack("<I", count) + b"".join(columns)


def codes(numbers):
    return struct.pack("<%dI" % len(numbers), *numbers)


class Element:
    """An element while its card is made."""

    def __init__(self, number, tag, above):
        self.number, self.tag, self.above = number, tag, above
        self.names = set()
        self.has_elements = False
        self.in_text = tag == "text" or (above is not None and above.in_text)
        self.in_path = tag == "textPath" or (above is not None and above.in_path)
        self.depth = 1 if above is None else above.depth + 1

    def sized_above(self):
        return self.above is not None and ("font-size" in self.above.names or self.above.sized_above())


class Maker:
    """Makes one script. Where `careful`, most of what shows a known fault of usvg is left out."""

    def __init__(self, chance, careful):
        self.chance, self.careful = chance, careful
        self.lines = []
        self.used = [2, 0, 0, 0]
        self.elements = {}
        self.texts = []
        self.budget = chance.choice([2, 4, 6, 8, 12, 16, 24, 40])
        self.busy = chance.choice([0.3, 0.6, 1.0, 1.5, 2.5])
        # Some names that many elements of this card have, so that one stands above another.
        self.themes = chance.sample(THEMES, chance.choice([0, 1, 2, 3, 5]))
        self.has_paths = chance.random() < 0.45

    def likely(self, share):
        return self.chance.random() < share

    def pick(self, choices):
        return self.chance.choice(choices)

    # ---- numbers, lengths and lists, as a script writes them

    def number(self):
        kind = self.chance.random()
        if kind < 0.6:
            return self.pick(NUMBERS)
        if kind < 0.9:
            return "%.*f" % (self.chance.randrange(5), self.chance.uniform(-200, 200))
        if kind < 0.95:
            return self.pick(EXTREMES)
        bits = self.chance.getrandbits(32) & 0xFF7FFFFF  # clears a bit of the exponent: never infinite, never NaN
        return "%.9g" % struct.unpack("<f", struct.pack("<I", bits))[0]

    def length(self):
        return self.number() + self.pick(UNITS)

    def lengths(self, make):
        count = self.pick([0, 1, 1, 1, 2, 3, 5, 9])
        return [make() for _ in range(count)]

    def spelled(self, parts):
        return self.pick([" ", ",", ", "]).join(parts)

    # ---- attributes

    def give(self, element, name, value, marks, lengths=()):
        data = value.encode()
        words = [b"give", name.encode(), quote(data, self.chance), marks.encode()] + [x.encode() for x in lengths]
        self.lines.append(b" ".join(words))
        self.used[1] += 1
        self.used[2] += len(data)
        self.used[3] += len(lengths)
        element.names.add(name)

    def give_lengths(self, element, name, parts, value=None):
        """An attribute with the reading that a parser would make of its value."""
        units = [part.lstrip("+-.0123456789e") for part in parts]
        plain = not any(units)
        single = len(parts) == 1
        marks = {(1, 1): "both", (1, 0): "single", (0, 1): "plain", (0, 0): "neither"}[single, plain]
        self.give(element, name, self.spelled(parts) if value is None else value, marks, parts)

    def give_number_list(self, element):
        parts = self.lengths(self.number)
        if self.careful and not parts and self.likely(0.9):
            parts = ["15"]
        self.give_lengths(element, "rotate", parts)

    def give_position(self, element, name):
        if self.careful and element.in_path and name == "y":
            name = "x"
        self.give_lengths(element, name, self.lengths(self.length))

    def give_size(self, element):
        if self.likely(0.6):
            length = self.length() if self.likely(0.2) else self.pick(["10", "8px", "2em", "0.5ex", "150%", "7.5pt", "3mm"])
            return self.give_lengths(element, "font-size", [length])
        word = self.pick(SIZE_WORDS + STRANGE)
        if self.careful and word.encode() in model.ABSOLUTE_SIZES and element.sized_above():
            word = self.pick(["larger", "smaller"])
        self.give(element, "font-size", word, "neither")

    def give_word(self, element, name):
        word = self.pick(WORDS[name] if self.likely(0.85) else STRANGE)
        if self.careful and (name, word) in CAREFUL and self.likely(0.9):
            word = self.pick(STRANGE)
            if (name, word) in CAREFUL:
                return
        if self.careful and name == "lengthAdjust" and self.likely(0.7):
            return
        self.give(element, name, word, "neither")

    def give_spacing(self, element, name):
        if self.likely(0.7):
            self.give_lengths(element, name, [self.length() if self.likely(0.5) else self.pick(["0", "-0", "1.5em", "25%"])])
        else:
            self.give(element, name, self.pick(["sub", "super", "baseline"] + STRANGE), "neither")

    def give_decoration(self, element):
        words = [self.pick(DECORATIONS) for _ in range(self.pick([1, 1, 2, 3]))]
        self.give(element, "text-decoration", self.pick([" ", " ", " ", "\t", ", "]).join(words), "neither")

    def give_link(self, element, name):
        values = {
            "id": ["p", "q", "r", "", "#p"],
            "href": ["#p", "#q", "#r", "#", "p", "", "##p"],
            "systemLanguage": LANGUAGE_LISTS,
            "transform": TRANSFORMS,
            "font-family": FAMILIES,
        }
        self.give(element, name, self.pick(values[name]), "neither")

    def give_any(self, element):
        """Any name with any value and any reading that is allowed, fitting or not."""
        name = self.pick(OTHER_NAMES + sorted(WORDS) + LENGTH_NAMES + ["x", "y", "dx", "rotate", "font-size"])
        if name not in reference.ATTRIBUTE_NAMES or self.likely(0.3):
            name = self.pick(reference.ATTRIBUTE_NAMES)
        if self.careful and name in ("display", "lengthAdjust", "font-weight", "dominant-baseline", "rotate", "y"):
            return
        value = self.pick(STRANGE + ["10 20", "sub", "3em"])
        reading = self.pick([("neither", []), ("single", [self.length()]), ("plain", [self.number(), self.number()])])
        if self.likely(0.2):
            reading = ("neither", self.lengths(self.length))
        self.give(element, name, value, *reading)

    def give_named(self, element, name):
        if name in AXES:
            self.give_position(element, name)
        elif name in WORDS:
            self.give_word(element, name)
        elif name in LENGTH_NAMES:
            self.give_spacing(element, name)
        elif name in LINK_NAMES:
            self.give_link(element, name)
        else:
            others = {"rotate": self.give_number_list, "font-size": self.give_size}
            others.update({"text-decoration": self.give_decoration, "any": self.give_any})
            others[name](element)

    def give_all(self, element):
        if element.tag == "textPath" and self.likely(0.7):
            self.give(element, "href", self.pick(["#p", "#q"]), "neither")
        if element.tag == "path" and self.likely(0.7):
            self.give(element, "id", self.pick(["p", "q"]), "neither")
        names = [name for name in self.themes if self.likely(0.5)]
        count = int(self.chance.expovariate(1 / self.busy))
        names += [self.pick(NAMES) for _ in range(min(count, 12))]
        for name in names:
            self.give_named(element, name)
            if self.likely(0.08):
                self.give_named(element, name)

    # ---- the tree

    def text(self):
        count = self.pick([0, 1, 1, 2, 2, 3, 4, 6, 9])
        return "".join(self.pick(LETTERS) for _ in range(count))

    def write(self):
        data = self.text().encode()
        self.lines.append(b"write " + quote(data, self.chance))
        self.texts.append(self.used[0])
        self.used[0] += 1
        self.used[2] += len(data)

    def open(self, tag, above):
        self.lines.append(b"open " + tag.encode())
        element = Element(self.used[0], tag, above)
        self.elements[element.number] = element
        above.has_elements = True
        self.used[0] += 1
        self.give_all(element)
        self.fill(element)
        self.lines.append(b"close")

    def fill(self, element):
        """Texts and elements in an element."""
        count = self.pick([1, 1, 2, 3, 4]) + (element.tag == "text") if element.in_text else self.pick([1, 2, 3])
        for i in range(count):
            if self.budget <= 0:
                return
            self.budget -= 1
            last = i == count - 1
            if element.in_text and self.likely(0.55):
                self.write()
            elif not element.in_text and self.likely(0.05):
                self.write()
            elif element.depth < reference.MOST_OPEN and self.admits(element, last):
                self.open(self.tag(element), element)

    def admits(self, element, last):
        """Whether an element may be nested here without a fault showing."""
        if not self.careful or not element.in_text:
            return True
        if "display" in element.names:
            return False
        return last or not element.in_path

    def tag(self, above):
        if self.likely(0.05):
            return self.pick(reference.TAGS)
        if self.has_paths and above.tag == "text" and self.likely(0.4):
            return "textPath"
        return self.pick(INSIDE if above.in_text else OUTSIDE)

    # ---- settings, stages, paints, and the calls

    def settings(self):
        if self.likely(0.4):
            return b"settings 96 12 100 100 100"
        numbers = [self.pick(["96", "72", "90.5", "300", "1", "0.25"]), self.pick(["12", "16", "10.5", "1", "0.1", "1e30"])]
        numbers += [self.pick(["100", "640", "33.3", "1e-3", "12345.678", "7"]) for _ in range(3)]
        if self.likely(0.1):
            numbers[self.chance.randrange(5)] = self.pick(["1e-45", "1e-38", "3.4028235e38", "1e19", "1e-19"])
        return " ".join(["settings"] + numbers).encode()

    def stage(self):
        kind = self.chance.random()
        if kind < (0.05 if self.has_paths else 0.3):
            return b"stage all"
        if kind < (0.2 if self.has_paths else 0.45):
            return b"stage language " + quote(self.pick(LANGUAGES).encode(), self.chance)
        return b"stage table " + quote_table(self.stage_table())

    def stage_table(self):
        count = self.pick([self.used[0]] * 6 + [self.used[0] + 3])
        if not self.careful and self.likely(0.1):
            count = self.chance.randrange(self.used[0] + 1)
        hidden = self.pick([0, 0.05, 0.3])
        drawn = bytes(0 if self.likely(hidden) and self.may_hide(k) else 1 for k in range(count))
        flows = [self.flow(k) for k in range(count)]
        return table(count, drawn, codes(flows))

    def may_hide(self, k):
        if not self.careful or k not in self.elements:
            return True
        element = self.elements[k]
        return not element.in_text or not (element.has_elements or element.tag == "textPath")

    def flow(self, k):
        is_path = k in self.elements and self.elements[k].tag == "textPath"
        return self.pick([1, 7, 7, 4096, 4294967295]) if self.likely(0.85 if is_path else 0.1) else 0

    def paint(self):
        kind = self.chance.random()
        if kind < 0.2:
            return b"paint none"
        if kind < 0.35:
            return b"paint clip"
        count = self.pick([self.used[0]] * 4 + [0, 1, self.used[0] + 2])
        paints = [[self.pick([0, k + 1, 255, 16777216, 4294967295]) for k in range(count)] for _ in range(2)]
        return b"paint table " + quote_table(table(count, codes(paints[0]), codes(paints[1])))

    def asks(self):
        """The calls that read the card, once it is sealed."""
        said = [k for k, element in self.elements.items() if element.tag == "text"]
        lines = [b"texts %d" % (len(said) + self.chance.randrange(3))]
        for k in self.some(said, 4):
            lines.append(b"rotations %d 65536" % k)
            for _ in range(self.pick([1, 1, 2])):
                lines += [self.settings(), self.stage(), b"collect %d" % k]
        styled = [k for k in self.texts if self.is_in_text(k)]
        for k in self.some(styled, 6):
            lines += [self.settings()] if self.likely(0.3) else []
            lines += [self.paint()] if self.likely(0.5) else []
            lines.append(b"style %d 64" % k)
        return lines

    def some(self, numbers, most):
        return numbers if len(numbers) <= most else sorted(self.chance.sample(numbers, most))

    def is_in_text(self, k):
        return self.parents.get(k) is not None and self.parents[k].in_text

    def script(self):
        svg = Element(1, "svg", None)
        self.elements[1] = svg
        self.give_all(svg)
        if self.has_paths and self.likely(0.6):
            self.open("path", svg)
        while self.budget > 0:
            self.fill(svg)
        self.lines.append(b"seal")
        if self.likely(0.15):
            self.add_more(svg)
        self.parents = self.text_parents()
        asked = self.asks()
        sizes = self.used if self.likely(0.3) else reference.LIMITS
        head = [b"tables %d %d %d %d" % tuple(sizes), b"begin"]
        start = [self.settings(), self.stage(), self.paint(), b"room 65536 65536 65536 65536"]
        return b"\n".join(head + self.lines + start + asked) + b"\n"

    def add_more(self, svg):
        """Opens the card again and builds on."""
        self.lines.append(b"reopen")
        self.budget = 5
        self.fill(svg)
        self.lines.append(b"seal")

    def text_parents(self):
        """The element of each text, found by going through the lines again."""
        parents, way, number = {}, [self.elements[1]], 2
        for line in self.lines:
            word = line.split(b" ")[0]
            if word == b"open":
                way.append(self.elements[number])
            elif word == b"write":
                parents[number] = way[-1]
            elif word == b"close":
                way.pop()
            number += word in (b"open", b"write")
        return parents


# Words with which a fault may show, so that a careful maker seldom takes them.
CAREFUL = {
    ("font-weight", "bolder"),
    ("font-weight", "lighter"),
    ("dominant-baseline", "no-change"),
}


def make(number, careful=False):
    return Maker(random.Random(number), careful).script()


def shows_fault(script):
    """Whether the answers differ with the known faults of usvg."""
    return model.Program().run(script) != model.Program(model.FAULTS).run(script)


def faultless(number):
    """A script on which no known fault of usvg shows: the first such of a row that belongs to the number."""
    attempt = 0
    while True:
        script = make("%d/%d" % (number, attempt), careful=True)
        if not shows_fault(script):
            return script
        attempt += 1


def card(number, only_faultless=False):
    return faultless(number) if only_faultless else make(number)
