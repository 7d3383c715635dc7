#!/usr/bin/env python3
"""A model of the whole card script: reads a script on standard input, prints what the program must print.

    python3 oracle/model.py < SCRIPT             the answers that the library is to give
    python3 oracle/model.py --as-usvg < SCRIPT   the same, but with each known fault of usvg

It shares no code with the library and none with usvg. The building calls, and the reading of a script, are those of
tools/reference.py; here are collect, rotations and style, with settings, stages and paints.

Each known fault is a name in FAULTS. Where a rule and usvg part, the code asks whether that fault is wanted; nothing else
depends on them. So a run with all faults should equal usvg on every card, and shows that the list is complete.

Parts of this file: floats, the contents of a card, values, lengths and sizes, stages and paints, positions, chunks,
angles, styles, the program.
"""
import functools
import math
import os
import struct
import sys
from collections import namedtuple
from fractions import Fraction

sys.dont_write_bytecode = True
HERE = os.path.dirname(os.path.abspath(__file__))
sys.path.insert(0, os.path.join(os.path.dirname(HERE), "tools"))
import reference  # noqa: E402
from reference import Refused, Unreadable  # noqa: E402

FAULTS = frozenset(
    [
        "hiding",  # only the direct texts of a hidden element are hidden
        "flow",  # a path's flow ends with the first element nested in it
        "keyword-size",  # the absolute size keywords start from the inherited size
        "hidden-path",  # a hidden text path is accepted
        "both-axes",  # under a path flow both x and y begin a chunk
        "empty-rotate",  # an empty list of angles repeats the last angle of any list before it
        "weight-steps",  # `bolder` and `lighter` go by fixed steps
        "no-change",  # `no-change` looks one element up only
        "length-adjust",  # `lengthAdjust` is also taken from the parent element
    ]
)

# ---- floats: every operation on f32 is made in f64 and rounded once, which for one product or quotient is exact


def f32(number):
    """The f32 closest to an f64."""
    try:
        return struct.unpack("<f", struct.pack("<f", number))[0]
    except OverflowError:
        return math.copysign(math.inf, number)


def times(a, b):
    return f32(a * b)


def over(a, b):
    return f32(a / b)


def is_above_zero(number):
    return math.isfinite(number) and number > 0


@functools.lru_cache(maxsize=100000)
def shortest(bits):
    """The fewest digits that read back as the positive finite f32 with these bits, and the power of ten of the first."""
    number = Fraction(struct.unpack("<f", struct.pack("<I", bits))[0])
    power = math.floor(math.log10(number))
    power += number >= Fraction(10) ** (power + 1)
    power -= number < Fraction(10) ** power
    for count in range(1, 10):
        step = Fraction(10) ** (power - count + 1)
        below = number // step
        fit = [d for d in (below, below + 1) if reference.round_to_f32(d * step) == number]
        if fit:
            closest = min(fit, key=lambda d: (abs(d * step - number), -d))  # of two as close, the larger
            digits = str(closest)
            return digits.rstrip("0"), power + len(digits) - count
    raise AssertionError("nine digits are enough for every f32")


def print_float(number):
    """A float as Rust's `{}` prints an f32: the fewest digits, and never an exponent."""
    if math.isnan(number):
        return "NaN"
    sign = "-" if math.copysign(1, number) < 0 else ""
    if math.isinf(number):
        return sign + "inf"
    size = abs(number)
    if size < 2**24 and size == int(size):
        return sign + str(int(size))
    digits, power = shortest(struct.unpack("<I", struct.pack("<f", size))[0])
    if power < 0:
        return sign + "0." + "0" * (-power - 1) + digits
    whole = digits[: power + 1].ljust(power + 1, "0")
    part = digits[power + 1 :]
    return sign + whole + ("." + part if part else "")


def print_optional(number):
    return "-" if number is None else print_float(number)


# ---- the contents of a card

Item = namedtuple("Item", "kind tag parent attributes text")
# `place` is the run of the value's bytes in the byte table.
Given = namedtuple("Given", "name value marks lengths place")


def read_item(tables, node):
    attributes, text = [], None
    if node.kind == "element":
        for attribute in tables[reference.ATTRIBUTES].part(node.run):
            value = bytes(tables[reference.BYTES].part(attribute.value))
            lengths = tables[reference.LENGTHS].part(attribute.lengths)
            attributes.append(Given(attribute.name, value, attribute.marks, lengths, attribute.value))
    elif node.kind == "text":
        text = bytes(tables[reference.BYTES].part(node.run)).decode("utf-8")
    return Item(node.kind, node.tag, node.parent, attributes, text)


# The names whose value `none` means that there is no value.
NONE_IS_ABSENT = frozenset(
    """
    mask marker-start marker-mid marker-end clip-path filter font-size-adjust text-decoration stroke stroke-dasharray
""".split()
)

# The names that a style asks for by their nearest value and that are looked for on every element above. Of the names that
# are asked for so, only alignment-baseline (and, with its fault, lengthAdjust) is not inherited.
INHERITED = frozenset(
    """
    dominant-baseline font-family font-kerning font-optical-sizing font-stretch font-style font-variant text-anchor
    visibility writing-mode
""".split()
)


class Contents:
    """What a sealed card holds, and all questions about it that need no stage and no paint."""

    def __init__(self, tables, counts, settings, faults=frozenset()):
        nodes = [tables[reference.NODES][k] for k in range(counts[reference.NODES])]
        self.items = [read_item(tables, node) for node in nodes]
        self.children = [[] for _ in self.items]
        for k, item in enumerate(self.items):
            if item.parent is not None:
                self.children[item.parent].append(k)
        self.settings = settings
        self.faults = faults
        self.sizes = {}

    def way_up(self, k):
        """The elements from node k upward, itself included."""
        while k is not None:
            if self.items[k].kind == "element":
                yield k
            k = self.items[k].parent

    def is_element(self, k, tag=None):
        if k >= len(self.items) or self.items[k].kind != "element":
            return False
        return tag is None or self.items[k].tag == tag

    def below(self, k):
        """Node k and all that lies in it, in document order."""
        yield k
        for child in self.children[k]:
            yield from self.below(child)

    def texts_below(self, k):
        return [j for j in self.below(k) if self.items[j].kind == "text"]

    def count(self, k):
        """How many characters lie in node k."""
        return sum(len(self.items[j].text) for j in self.texts_below(k))

    # ---- values

    def raw(self, k, name):
        """The first attribute of a name."""
        return next((given for given in self.items[k].attributes if given.name == name), None)

    def own(self, k, name):
        """The same, but where `none` means that there is none."""
        given = self.raw(k, name)
        if given is not None and name in NONE_IS_ABSENT and given.value == b"none":
            return None
        return given

    def closest(self, k, name):
        """The closest element from k upward that has the name."""
        return next((j for j in self.way_up(k) if self.raw(j, name) is not None), None)

    def nearest(self, k, name):
        """The value on the closest element with the name. Other names than inherited ones: on k or its parent element."""
        if name in INHERITED:
            found = self.closest(k, name)
        else:
            found = next((j for j in list(self.way_up(k))[:2] if self.raw(j, name) is not None), None)
        return None if found is None else self.own(found, name)

    def word(self, k, name, words, default):
        """The nearest value, if it is one of these words."""
        given = self.nearest(k, name)
        return keyword(given, words, default)

    # ---- lengths and sizes

    def convert(self, length, k, base):
        """A length on element k in user units; `base` is what a percentage is of."""
        number, unit, dpi = length.number, length.unit, self.settings.dpi
        if unit in ("", "px"):
            return number
        if unit == "%":
            return over(times(base, number), 100.0)
        if unit == "em":
            return times(number, self.size(k))
        if unit == "ex":
            return over(times(number, self.size(k)), 2.0)
        return to_user_units(number, unit, dpi)

    def by_presence(self, k, name, default):
        """The length on the closest element above with the name, if it reads there."""
        found = self.closest(k, name)
        if found is None:
            return default
        given = self.own(found, name)
        if given is None or not given.marks.single:
            return default
        return self.convert(given.lengths[0], found, self.settings.diagonal)

    def size(self, k):
        """The font size of element k."""
        if k not in self.sizes:
            above = list(self.way_up(k))[1:2]
            inherited = self.size(above[0]) if above else self.settings.size
            self.sizes[k] = self.own_size(k, inherited)
        return self.sizes[k]

    def own_size(self, k, inherited):
        given = self.raw(k, "font-size")
        if given is None:
            return inherited
        if given.marks.single:
            number, unit = given.lengths[0]
            if unit in ("", "px"):
                return number
            if unit == "%":
                return times(times(number, inherited), f32(0.01))
            if unit == "em":
                return times(number, inherited)
            if unit == "ex":
                return over(times(number, inherited), 2.0)
            return to_user_units(number, unit, self.settings.dpi)
        if given.value in ABSOLUTE_SIZES:
            start = inherited if "keyword-size" in self.faults else self.settings.size
            return times(start, power_of_scale(ABSOLUTE_SIZES[given.value]))
        return times(inherited, power_of_scale(RELATIVE_SIZES.get(given.value, 0)))


def keyword(given, words, default):
    if given is None:
        return default
    value = given.value.decode("utf-8")
    return value if value in words else default


ABSOLUTE_SIZES = {
    b"xx-small": -3,
    b"x-small": -2,
    b"small": -1,
    b"medium": 0,
    b"large": 1,
    b"x-large": 2,
    b"xx-large": 3,
}
RELATIVE_SIZES = {b"smaller": -1, b"larger": 1}


def power_of_scale(exponent):
    """1.2 to a power from -3 to 3."""
    scale = f32(1.2)
    square = times(scale, scale)
    positive = [1.0, scale, square, times(scale, square)][abs(exponent)]
    return over(1.0, positive) if exponent < 0 else positive


def to_user_units(number, unit, dpi):
    inches = times(number, dpi)
    divisor = {"in": None, "cm": f32(2.54), "mm": f32(25.4), "pt": 72.0, "pc": 6.0}[unit]
    return inches if divisor is None else over(inches, divisor)


Settings = namedtuple("Settings", "dpi size width height diagonal")

# ---- stages and paints


def read_table(data, kinds):
    """A count, then for each kind as many entries: bytes of 0 and 1 for "drawn", four-byte numbers for "code"."""
    if len(data) < 4:
        raise Refused(24, 0)
    count = int.from_bytes(data[:4], "little")
    widths = [1 if kind == "drawn" else 4 for kind in kinds]
    if count > 4096 or len(data) != 4 + count * sum(widths):
        raise Refused(24, 0)
    columns, at = [], 4
    for kind, width in zip(kinds, widths):
        column = [int.from_bytes(data[at + i * width : at + (i + 1) * width], "little") for i in range(count)]
        if kind == "drawn" and any(entry > 1 for entry in column):
            raise Refused(24, 0)
        columns.append(column)
        at += count * width
    return columns


class AllDrawn:
    def on(self, contents):
        return self

    def drawn(self, k):
        return True

    def flow(self, k):
        return 0


class StageTable:
    def __init__(self, data):
        self.drawn_bytes, self.flows = read_table(data, ["drawn", "code"])

    def on(self, contents):
        return self

    def drawn(self, k):
        return k < len(self.drawn_bytes) and self.drawn_bytes[k] == 1

    def flow(self, k):
        return self.flows[k] if k < len(self.flows) else 0


class LanguageStage:
    def __init__(self, language, contents=None):
        self.language = language
        self.contents = contents

    def on(self, contents):
        return LanguageStage(self.language, contents)

    def drawn(self, k):
        if not self.contents.is_element(k):
            return False
        given = self.contents.own(k, "systemLanguage")
        if given is None:
            return True
        entries = [entry.strip(b" ") for entry in given.value.split(b",")]
        return any(entry == self.language or entry.startswith(self.language + b"-") for entry in entries)

    def flow(self, k):
        if not self.contents.is_element(k):
            return 0
        href = self.contents.own(k, "href")
        if href is None or href.value[:1] != b"#" or len(href.value) < 2:
            return 0
        named = [j for j in range(len(self.contents.items)) if self.has_id(j, href.value[1:])]
        return named[-1] if named and self.contents.is_element(named[-1], "path") else 0

    def has_id(self, k, name):
        given = self.contents.own(k, "id")
        return given is not None and given.value == name


class PaintTable:
    def __init__(self, fills, strokes):
        self.fills, self.strokes = fills, strokes

    def codes(self, k):
        return (self.fills[k], self.strokes[k]) if k < len(self.fills) else (0, 0)


class ClipPaint:
    def codes(self, k):
        return (1, 0)


# ---- positions

AXES = ["x", "y", "dx", "dy"]


def positions(contents, element):
    """For each character of the element, its x, y, dx and dy, each a float or None."""
    settings = contents.settings
    bases = {"x": settings.width, "dx": settings.width, "y": settings.height, "dy": settings.height}
    places = [dict.fromkeys(AXES) for _ in range(contents.count(element))]
    start = 0
    for k in contents.below(element):
        if contents.items[k].kind == "text":
            start += len(contents.items[k].text)
        elif contents.items[k].tag in ("text", "tspan"):
            for axis in AXES:
                lay_list(contents, k, axis, bases[axis], places[start : start + contents.count(k)])
    return places


def lay_list(contents, k, axis, base, places):
    given = contents.own(k, axis)
    if given is not None:
        for place, length in zip(places, given.lengths):
            place[axis] = contents.convert(length, k, base)


# ---- chunks and spans

Chunk = namedtuple("Chunk", "x y anchor flow spans text")
# A span is a list [start, end, number of its text]; start and end are bytes in the chunk.

VERTICAL = [b"tb", b"tb-rl", b"vertical-rl", b"vertical-lr"]


def is_vertical(contents, element):
    mode = contents.nearest(element, "writing-mode")
    return mode is not None and mode.value in VERTICAL


class Collector:
    """Cuts one element into chunks."""

    def __init__(self, contents, stage, element):
        self.contents, self.stage, self.element = contents, stage, element
        self.places = positions(contents, element)
        self.vertical = is_vertical(contents, element)
        self.chunks = []
        self.character = 0
        self.shown = 0
        self.split = False
        self.flow = 0
        self.walk(element)

    def fault(self, name):
        return name in self.contents.faults

    def hides(self, k):
        display = self.contents.own(k, "display")
        return not self.stage.drawn(k) or (display is not None and display.value == b"none")

    def is_hidden(self, k):
        if self.fault("hiding"):
            return self.hides(k)
        way = list(self.contents.way_up(k))
        return any(self.hides(j) for j in way[: way.index(self.element) + 1])

    def walk(self, parent):
        for k in self.contents.children[parent]:
            item = self.contents.items[k]
            if item.kind == "text":
                self.take_text(k, parent)
            elif item.tag == "textPath":
                self.walk_path(k, parent)
            else:
                self.walk_element(k, self.flow)

    def walk_element(self, k, flow):
        before = self.flow
        self.flow = flow
        self.walk(k)
        self.flow = 0 if self.fault("flow") else before

    def walk_path(self, k, parent):
        code = self.stage.flow(k)
        hidden = self.is_hidden(k) and not self.fault("hidden-path")
        if hidden or code == 0 or self.contents.items[parent].tag != "text":
            self.character += self.contents.count(k)
            return
        self.split = True
        self.walk_element(k, code)
        self.split = True

    def take_text(self, k, parent):
        text = self.contents.items[k].text
        if self.is_hidden(parent) or not is_above_zero(self.contents.size(parent)):
            self.character += len(text)
            return
        for i, letter in enumerate(text):
            self.take_letter(k, parent, letter, i == 0)

    def starts_chunk(self, place):
        if self.split or not self.chunks:
            return True
        if self.flow != 0 and not self.fault("both-axes"):
            return place["y" if self.vertical else "x"] is not None
        return place["x"] is not None or place["y"] is not None

    def take_letter(self, k, parent, letter, is_first):
        data = letter.encode("utf-8")
        place = self.places[self.character]
        if self.starts_chunk(place):
            anchor = self.contents.word(parent, "text-anchor", ["start", "middle", "end"], "start")
            self.chunks.append(Chunk(place["x"], place["y"], anchor, self.flow, [[0, 0, k]], bytearray()))
        elif is_first:
            end = len(self.chunks[-1].text)
            self.chunks[-1].spans.append([end, end, k])
        self.split = False
        self.chunks[-1].text.extend(data)
        self.chunks[-1].spans[-1][1] += len(data)
        self.character += 1
        self.shown += 1


# ---- angles


def rotations(contents, element):
    angles = [0.0] * contents.count(element)
    start = 0
    last = 0.0
    for k in contents.below(element):
        if contents.items[k].kind == "text":
            start += len(contents.items[k].text)
            continue
        given = contents.own(k, "rotate")
        if given is None or not given.marks.plain:
            continue
        laid = [length.number for length in given.lengths]
        if not laid and "empty-rotate" in contents.faults:
            laid = [last]
        for i in range(contents.count(k) if laid else 0):
            last = laid[min(i, len(laid) - 1)]
            angles[start + i] = last
    return angles


# ---- styles

STRETCHES = {
    b"ultra-condensed": "ultra-condensed",
    b"extra-condensed": "extra-condensed",
    b"condensed": "condensed",
    b"narrower": "condensed",
    b"semi-condensed": "semi-condensed",
    b"semi-expanded": "semi-expanded",
    b"expanded": "expanded",
    b"wider": "expanded",
    b"extra-expanded": "extra-expanded",
    b"ultra-expanded": "ultra-expanded",
}

DOMINANT = """
    auto use-script no-change reset-size ideographic alphabetic hanging mathematical central middle text-after-edge
    text-before-edge
""".split()

ALIGNMENT = """
    auto baseline before-edge text-before-edge middle central after-edge text-after-edge ideographic alphabetic hanging
    mathematical
""".split()

WEIGHTS = {b"normal": 400, b"bold": 700}
WEIGHTS.update((str(weight).encode(), weight) for weight in range(100, 1000, 100))


def bolder(weight):
    return 400 if weight <= 300 else 700 if weight <= 500 else 900


def lighter(weight):
    return 100 if weight <= 500 else 400 if weight <= 700 else 700


def bolder_by_steps(weight):
    return min(900, weight + (300 if weight == 400 else 100))


def lighter_by_steps(weight):
    return max(100, weight - (200 if weight == 400 else 100))


class Style:
    """The style of one text, by its parent element and those above it."""

    def __init__(self, contents, paint, parent):
        self.contents, self.paint, self.parent = contents, paint, parent

    def fault(self, name):
        return name in self.contents.faults

    def is_nearest(self, name, value):
        given = self.contents.nearest(self.parent, name)
        return given is not None and given.value == value

    def family(self):
        given = self.contents.nearest(self.parent, "font-family")
        return given.place if given is not None else reference.EMPTY

    def stretch(self):
        given = self.contents.nearest(self.parent, "font-stretch")
        return STRETCHES.get(given.value, "normal") if given is not None else "normal"

    def weight(self):
        steps = {b"bolder": bolder, b"lighter": lighter}
        if self.fault("weight-steps"):
            steps = {b"bolder": bolder_by_steps, b"lighter": lighter_by_steps}
        weight = 400
        for k in reversed(list(self.contents.way_up(self.parent))):
            given = self.contents.own(k, "font-weight")
            value = b"" if given is None else given.value
            weight = steps[value](weight) if value in steps else WEIGHTS.get(value, weight)
        return weight

    def kerning(self):
        if self.contents.by_presence(self.parent, "kerning", -1.0) == 0:
            return False
        return not self.is_nearest("font-kerning", b"none")

    def dominant(self):
        k = self.parent
        found = self.contents.word(k, "dominant-baseline", DOMINANT, "auto")
        if found != "no-change":
            return found
        if self.fault("no-change"):
            above = list(self.contents.way_up(k))[1]
            return self.contents.word(above, "dominant-baseline", DOMINANT, "auto")
        given = [self.contents.own(j, "dominant-baseline") for j in self.contents.way_up(k)]
        rest = [g for g in given if g is not None and g.value != b"no-change"]
        return keyword(rest[0], DOMINANT, "auto") if rest else "auto"

    def length(self):
        given = self.contents.own(self.parent, "textLength")
        if given is None or not given.marks.single:
            return None
        length = self.contents.convert(given.lengths[0], self.parent, self.contents.settings.diagonal)
        return None if length < 0 else length

    def adjust(self):
        words = ["spacing", "spacingAndGlyphs"]
        if self.fault("length-adjust"):
            return self.contents.word(self.parent, "lengthAdjust", words, "spacing")
        return keyword(self.contents.own(self.parent, "lengthAdjust"), words, "spacing")

    def declares(self, k, word):
        given = self.contents.own(k, "text-decoration")
        return given is not None and word in given.value.split(b" ")

    def decoration(self, word):
        """The codes of a decoration's paint, or None without that decoration."""
        way = list(self.contents.way_up(self.parent))
        if not any(self.declares(k, word) for k in way):
            return None
        k = next(k for k in way if self.declares(k, word) or self.contents.items[k].tag == "text")
        return self.paint.codes(k)

    def shifts(self):
        shifts = []
        for k in self.contents.way_up(self.parent):
            if self.contents.items[k].tag == "text":
                break
            given = self.contents.raw(k, "baseline-shift")
            if given is not None:
                shifts.append(self.shift(k, given))
        return [] if all(shift == "baseline" for shift in shifts) else shifts

    def shift(self, k, given):
        if not given.marks.single:
            return {b"sub": "sub", b"super": "super"}.get(given.value, "baseline")
        length = given.lengths[0]
        if length.unit == "%":
            return times(self.contents.size(k), over(length.number, 100.0))
        return self.contents.convert(length, k, None)


def print_yes(is_so):
    return "yes" if is_so else "no"


def print_code(code):
    return str(code) if code else "-"


def print_decoration(codes):
    return "-" if codes is None else "/".join(print_code(code) for code in codes)


def print_shift(shift):
    return shift if isinstance(shift, str) else "number " + print_float(shift)


def style_words(style):
    """The words of a style's line from `size` on."""
    contents, parent = style.contents, style.parent
    fill, stroke = style.paint.codes(parent)
    visible = contents.word(parent, "visibility", ["visible", "hidden", "collapse"], "visible") == "visible"
    pairs = [
        ("size", print_float(contents.size(parent))),
        ("family", "%d..%d" % style.family()),
        ("style", contents.word(parent, "font-style", ["normal", "italic", "oblique"], "normal")),
        ("stretch", style.stretch()),
        ("weight", str(style.weight())),
        ("small-caps", print_yes(style.is_nearest("font-variant", b"small-caps"))),
        ("kerning", print_yes(style.kerning())),
        ("optical", "none" if style.is_nearest("font-optical-sizing", b"none") else "auto"),
        ("visible", print_yes(visible)),
        ("dominant", style.dominant()),
        ("alignment", contents.word(parent, "alignment-baseline", ALIGNMENT, "auto")),
        ("letter", print_float(contents.by_presence(parent, "letter-spacing", 0.0))),
        ("word", print_float(contents.by_presence(parent, "word-spacing", 0.0))),
        ("length", print_optional(style.length())),
        ("adjust", style.adjust()),
        ("fill", print_code(fill)),
        ("stroke", print_code(stroke)),
    ]
    pairs += [(word, print_decoration(style.decoration(word.encode()))) for word in DECORATIONS]
    return ["%s %s" % pair for pair in pairs]


DECORATIONS = ["underline", "overline", "line-through"]

# ---- the program


def quote(data):
    letters = {34: '\\"', 92: "\\\\", 10: "\\n", 13: "\\r", 9: "\\t"}
    plain = lambda byte: chr(byte) if 32 <= byte < 127 else "\\x%02x" % byte
    return '"%s"' % "".join(letters.get(byte) or plain(byte) for byte in data)


def read_word(*words):
    def read(word):
        if word not in words:
            raise Unreadable
        return word

    return read


class Program(reference.Program):
    """The program of tools/reference.py with the calls that read a card."""

    def __init__(self, faults=frozenset()):
        super().__init__()
        self.faults = faults
        self.settings = Settings(96.0, 12.0, 100.0, 100.0, 100.0)
        self.stage = AllDrawn()
        self.paint = PaintTable([], [])
        self.room = [math.inf] * 4

    def line_settings(self, words):
        settings = Settings(*[words.next(reference.read_float) for _ in range(5)])
        words.end()
        self.settings = settings
        return "settings"

    def line_stage(self, words):
        kind = words.next(read_word(b"all", b"table", b"language"))
        text = None if kind == b"all" else words.text()
        words.end()
        self.stage = AllDrawn() if kind == b"all" else {b"table": StageTable, b"language": LanguageStage}[kind](text)
        return "stage"

    def line_paint(self, words):
        kind = words.next(read_word(b"none", b"table", b"clip"))
        text = words.text() if kind == b"table" else None
        words.end()
        if kind == b"table":
            self.paint = PaintTable(*read_table(text, ["code", "code"]))
        else:
            self.paint = ClipPaint() if kind == b"clip" else PaintTable([], [])
        return "paint"

    def line_room(self, words):
        room = words.numbers(4)
        words.end()
        self.room = room
        return "room"

    def contents(self):
        """The contents of the sealed card, once it is found in order."""
        sealed = self.state(reference.Sealed)
        reference.check_card(self.tables, sealed.counts)
        return Contents(self.tables, sealed.counts, self.settings, self.faults)

    def check_settings(self):
        for index, setting in enumerate(self.settings):
            if not is_above_zero(setting):
                raise Refused(14, index)

    def line_collect(self, words):
        (k,) = words.numbers(1)
        words.end()
        contents = self.contents()
        self.check_settings()
        if not contents.is_element(k, "text"):
            raise Refused(15, k)
        return self.said_collected(Collector(contents, self.stage.on(contents), k))

    def said_collected(self, collected):
        chunks = collected.chunks
        needs = [len(collected.places), len(chunks), sum(len(c.spans) for c in chunks), sum(len(c.text) for c in chunks)]
        for number, (need, room) in enumerate(zip(needs, self.room)):
            if need > room:
                raise Refused(17 + number, need)
        counts = (needs[0], collected.shown, needs[1], needs[2], needs[3])
        said = ["collected characters %d shown %d chunks %d spans %d bytes %d" % counts]
        for i, place in enumerate(collected.places):
            said.append("position %d %s" % (i, " ".join(print_optional(place[axis]) for axis in AXES)))
        return "\n".join(said + said_chunks(chunks) + said_spans(chunks))

    def line_rotations(self, words):
        k, room = words.numbers(2)
        words.end()
        contents = self.contents()
        if not contents.is_element(k, "text"):
            raise Refused(15, k)
        angles = rotations(contents, k)
        if len(angles) > room:
            raise Refused(21, len(angles))
        return " ".join(["rotations"] + [print_float(angle) for angle in angles])

    def line_style(self, words):
        k, room = words.numbers(2)
        words.end()
        contents = self.contents()
        self.check_settings()
        is_text = k < len(contents.items) and contents.items[k].kind == "text"
        if not is_text or not any(contents.is_element(j, "text") for j in contents.way_up(k)):
            raise Refused(16, k)
        style = Style(contents, self.paint, contents.items[k].parent)
        shifts = style.shifts()
        if len(shifts) > room:
            raise Refused(22, len(shifts))
        said = [" ".join(["style %d" % k] + style_words(style) + ["shifts %d" % len(shifts)])]
        return "\n".join(said + ["shift %d %s" % (i, print_shift(shift)) for i, shift in enumerate(shifts)])

    LINES = dict(reference.Program.LINES)
    LINES.update(
        {
            b"settings": line_settings,
            b"stage": line_stage,
            b"paint": line_paint,
            b"room": line_room,
            b"collect": line_collect,
            b"rotations": line_rotations,
            b"style": line_style,
        }
    )


class ProgramWithModes(Program):
    """With one line more, which scripts for the library do not have: `mode K`, the writing mode of an element."""

    def line_mode(self, words):
        (k,) = words.numbers(1)
        words.end()
        contents = self.contents()
        if not contents.is_element(k, "text"):
            raise Refused(15, k)
        return "mode vertical" if is_vertical(contents, k) else "mode horizontal"

    LINES = dict(Program.LINES)
    LINES[b"mode"] = line_mode


def said_chunks(chunks):
    said, span, byte = [], 0, 0
    for i, chunk in enumerate(chunks):
        runs = (span, span + len(chunk.spans), byte, byte + len(chunk.text))
        coordinates = (print_optional(chunk.x), print_optional(chunk.y))
        said.append(
            "chunk %d x %s y %s anchor %s flow %d" % ((i,) + coordinates + (chunk.anchor, chunk.flow))
            + " spans %d..%d bytes %d..%d " % runs
            + quote(chunk.text)
        )
        span, byte = runs[1], runs[3]
    return said


def said_spans(chunks):
    spans = [(chunk, span) for chunk in chunks for span in chunk.spans]
    return [
        "span %d %d..%d text %d %s" % (i, start, end, k, quote(chunk.text[start:end]))
        for i, (chunk, (start, end, k)) in enumerate(spans)
    ]


if __name__ == "__main__":
    if hasattr(sys, "set_int_max_str_digits"):
        sys.set_int_max_str_digits(0)  # a float may have any number of digits
    wanted = FAULTS if "--as-usvg" in sys.argv[1:] else frozenset()
    sys.stdout.write(Program(wanted).run(sys.stdin.buffer.read()))
