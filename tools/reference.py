#!/usr/bin/env python3
"""A second opinion on the card script: reads a script on standard input, prints what the program must print.

    python3 tools/reference.py < cards/plain.card

It knows the calls on a card up to texts; the lines for settings, stages and angles are in oracle/model.py.

This model shares no code with the library. It follows the rules in docs/CARD.md, docs/REFUSALS.md and docs/SCRIPT.md,
and with oracle/model.py it makes the expected output of the program. It favours plain tests over speed.

Parts of this file: names, records, the order of a card, the calls, the reading of a script, the program.
"""
import math
import re
import sys
from collections import namedtuple
from fractions import Fraction

# ---- names, in the order of usvg's tables

TAGS = """
    a circle clipPath defs ellipse feBlend feColorMatrix feComponentTransfer feComposite feConvolveMatrix
    feDiffuseLighting feDisplacementMap feDistantLight feDropShadow feFlood feFuncA feFuncB feFuncG feFuncR
    feGaussianBlur feImage feMerge feMergeNode feMorphology feOffset fePointLight feSpecularLighting feSpotLight
    feTile feTurbulence filter g image line linearGradient marker mask path pattern polygon polyline
    radialGradient rect stop style svg switch symbol text textPath tref tspan use
""".split()

ATTRIBUTE_NAMES = """
    alignment-baseline amplitude azimuth background-color baseFrequency baseline-shift bias class clip clip-path
    clip-rule clipPathUnits color color-interpolation color-interpolation-filters color-profile color-rendering
    cx cy d diffuseConstant direction display divisor dominant-baseline dx dy edgeMode elevation
    enable-background exponent fill fill-opacity fill-rule filter filterUnits flood-color flood-opacity font
    font-family font-feature-settings font-kerning font-optical-sizing font-size font-size-adjust font-stretch
    font-style font-synthesis font-variant font-variant-caps font-variant-east-asian font-variant-ligatures
    font-variant-numeric font-variant-position font-variation-settings font-weight fr fx fy
    glyph-orientation-horizontal glyph-orientation-vertical gradientTransform gradientUnits height href id
    image-rendering in in2 inline-size intercept isolation k1 k2 k3 k4 kernelMatrix kernelUnitLength kerning
    lengthAdjust letter-spacing lighting-color limitingConeAngle line-height marker-end marker-mid marker-start
    markerHeight markerUnits markerWidth mask mask-border mask-border-mode mask-border-outset mask-border-repeat
    mask-border-slice mask-border-source mask-border-width mask-clip mask-composite mask-image mask-mode
    mask-origin mask-position mask-size mask-type maskContentUnits maskUnits mix-blend-mode mode numOctaves
    offset opacity operator order orient overflow paint-order path pathLength patternContentUnits
    patternTransform patternUnits points pointsAtX pointsAtY pointsAtZ preserveAlpha preserveAspectRatio
    primitiveUnits r radius refX refY requiredExtensions requiredFeatures result rotate rx ry scale seed
    shape-image-threshold shape-inside shape-margin shape-padding shape-rendering shape-subtract side slope
    space specularConstant specularExponent spreadMethod startOffset stdDeviation stitchTiles stop-color
    stop-opacity stroke stroke-dasharray stroke-dashoffset stroke-linecap stroke-linejoin stroke-miterlimit
    stroke-opacity stroke-width style surfaceScale systemLanguage tableValues targetX targetY text-align
    text-align-last text-anchor text-decoration text-decoration-color text-decoration-fill text-decoration-line
    text-decoration-stroke text-decoration-style text-indent text-orientation text-overflow text-rendering
    text-underline-position textLength transform transform-box transform-origin type unicode-bidi unicode-range
    values vector-effect viewBox visibility white-space width word-spacing writing-mode x x1 x2 xChannelSelector
    y y1 y2 yChannelSelector z
""".split()
UNITS = ["", "em", "ex", "px", "in", "cm", "mm", "pt", "pc", "%"]

# ---- records

# The tables by number: 0 nodes, 1 attributes, 2 bytes, 3 lengths.
NODES, ATTRIBUTES, BYTES, LENGTHS = range(4)
LIMITS = [4096, 16384, 65536, 16384]
MOST_OPEN = 64

# A run goes from `start` up to, not including, `end`.
Run = namedtuple("Run", "start end")
# `kind` is "root", "element" or "text". The run holds an element's attributes or a text's bytes. A link is a number or None.
Node = namedtuple("Node", "kind tag run parent next first last")
Attribute = namedtuple("Attribute", "name value marks lengths")
Marks = namedtuple("Marks", "single plain")
Length = namedtuple("Length", "number unit")

EMPTY = Run(0, 0)
CLEARED = [
    Node("root", None, EMPTY, None, None, None, None),
    Attribute(ATTRIBUTE_NAMES[0], EMPTY, Marks(False, False), EMPTY),
    0,
    Length(0.0, ""),
]


class Table:
    """A lent table: a fixed number of entries, kept sparsely, all cleared at first."""

    def __init__(self, size, cleared):
        self.size = size
        self.cleared = cleared
        self.written = {}

    def __getitem__(self, k):
        assert k < self.size
        return self.written.get(k, self.cleared)

    def __setitem__(self, k, entry):
        assert k < self.size
        self.written[k] = entry

    def part(self, run):
        return [self[k] for k in range(run.start, run.end)]


def lend(sizes):
    return [Table(size, cleared) for size, cleared in zip(sizes, CLEARED)]


class Refused(Exception):
    """A call is refused: `args` are the number and the place."""


# ---- bytes and readings


def valid_start(data):
    """The length of the longest start of `data` that is UTF-8."""
    try:
        data.decode("utf-8")
        return len(data)
    except UnicodeDecodeError as error:
        return error.start


def is_utf8(data):
    return valid_start(data) == len(data)


def keeps_rules(lengths, marks):
    """Whether a reading may stand in a card."""
    if not all(math.isfinite(length.number) for length in lengths):
        return False
    if marks.single and len(lengths) != 1:
        return False
    if marks.plain and any(length.unit != "" for length in lengths):
        return False
    return True


# ---- the order of a card


def check_tables(tables, counts):
    """Refusal 1, of the lowest table at fault."""
    for number in range(4):
        if counts[number] > tables[number].size or counts[number] > LIMITS[number]:
            raise Refused(1, number)


def way_up(tables, k):
    """The elements from node k upward, itself included, where the nodes up to k are in order."""
    found = []
    while k is not None:
        node = tables[NODES][k]
        if node.kind == "element":
            found.append(k)
        k = node.parent
    return found


def lies_in(run, count):
    return run.start <= run.end <= count


def attribute_in_order(tables, counts, attribute):
    if not lies_in(attribute.value, counts[BYTES]) or not lies_in(attribute.lengths, counts[LENGTHS]):
        return False
    if not is_utf8(bytes(tables[BYTES].part(attribute.value))):
        return False
    return keeps_rules(tables[LENGTHS].part(attribute.lengths), attribute.marks)


def well_placed(tables, k, node):
    """Whether the kind and the parent of node k are possible at its number, where the nodes before it are in order."""
    if k == 0:
        return node.kind == "root" and node.parent is None
    if k == 1:
        return node.kind == "element" and node.tag == "svg" and node.parent == 0
    return node.kind != "root" and node.parent in way_up(tables, k - 1)


def well_filled(tables, counts, node, attributes_end, is_last_element):
    """Whether the run of a node, and what lies in it, is in order."""
    if node.kind == "element":
        if not lies_in(node.run, counts[ATTRIBUTES]) or node.run.start != attributes_end:
            return False
        if is_last_element and node.run.end != counts[ATTRIBUTES]:
            return False
        return all(attribute_in_order(tables, counts, a) for a in tables[ATTRIBUTES].part(node.run))
    if node.kind == "text":
        return lies_in(node.run, counts[BYTES]) and is_utf8(bytes(tables[BYTES].part(node.run)))
    return True


def lowest_out_of_order(tables, counts):
    """The lowest node out of order, or None."""
    used = [tables[NODES][k] for k in range(counts[NODES])]
    children = {}
    for k, node in enumerate(used):
        if node.parent is not None:
            children.setdefault(node.parent, []).append(k)
    last_element = max((k for k, node in enumerate(used) if node.kind == "element"), default=None)
    attributes_end = 0
    for k, node in enumerate(used):
        if not well_placed(tables, k, node):
            return k
        if len(way_up(tables, k)) > MOST_OPEN:
            return k
        own = children.get(k, [])
        later = [j for j in children.get(node.parent, []) if j > k] if node.parent is not None else []
        if node.first != (k + 1 if k + 1 in own else None):
            return k
        if node.last != (own[-1] if own else None):
            return k
        if node.next != (later[0] if later else None):
            return k
        if not well_filled(tables, counts, node, attributes_end, k == last_element):
            return k
        if node.kind == "element":
            attributes_end = node.run.end
    return len(used) if len(used) < 2 else None


def check_card(tables, counts):
    """Refusals 1 and 13 of a card."""
    check_tables(tables, counts)
    lowest = lowest_out_of_order(tables, counts)
    if lowest is not None:
        raise Refused(13, lowest)


# ---- the calls


class Draft:
    def __init__(self, counts, open_element):
        self.counts = counts
        self.open = open_element


class Sealed:
    def __init__(self, counts):
        self.counts = counts


def check_draft(tables, draft):
    """Refusals 1 and 13 of a draft: those of its card, then its open element."""
    check_card(tables, draft.counts)
    if draft.open not in way_up(tables, draft.counts[NODES] - 1):
        raise Refused(13, draft.open)


def need(tables, number, count, refusal, place):
    """Refuses unless the table can hold so many entries; those beyond the limit are no space."""
    if count > min(tables[number].size, LIMITS[number]):
        raise Refused(refusal, place)


def need_utf8(data):
    if not is_utf8(data):
        raise Refused(6, valid_start(data))


def add_node(tables, draft, kind, tag, run):
    """Makes the next entry a node, the last child of the open element."""
    nodes, number = tables[NODES], draft.counts[NODES]
    parent = nodes[draft.open]
    if parent.last is None:
        parent = parent._replace(first=number)
    else:
        nodes[parent.last] = nodes[parent.last]._replace(next=number)
    nodes[draft.open] = parent._replace(last=number)
    nodes[number] = Node(kind, tag, run, draft.open, None, None, None)
    draft.counts[NODES] += 1
    return number


def append(tables, draft, number, entries):
    """Lays entries behind the used ones of a table, and answers their run."""
    start = draft.counts[number]
    for k, entry in enumerate(entries):
        tables[number][start + k] = entry
    draft.counts[number] += len(entries)
    return Run(start, start + len(entries))


def begin(tables):
    if tables[NODES].size < 2:
        raise Refused(2, 0)
    tables[NODES][0] = Node("root", None, EMPTY, None, None, 1, 1)
    tables[NODES][1] = Node("element", "svg", EMPTY, 0, None, None, None)
    return Draft([2, 0, 0, 0], 1)


def open_element(tables, draft, tag):
    check_draft(tables, draft)
    if len(way_up(tables, draft.open)) >= MOST_OPEN:
        raise Refused(3, draft.open)
    need(tables, NODES, draft.counts[NODES] + 1, 4, draft.open)
    used = draft.counts[ATTRIBUTES]
    draft.open = add_node(tables, draft, "element", tag, Run(used, used))
    return draft.open


def give(tables, draft, name, value, marks, lengths):
    check_draft(tables, draft)
    if draft.open != draft.counts[NODES] - 1:
        raise Refused(5, draft.open)
    need_utf8(value)
    if not keeps_rules(lengths, marks):
        raise Refused(7, draft.open)
    for number, more, refusal in [(ATTRIBUTES, 1, 8), (BYTES, len(value), 9), (LENGTHS, len(lengths), 10)]:
        count = draft.counts[number] + more
        need(tables, number, count, refusal, count)
    value_run = append(tables, draft, BYTES, value)
    length_run = append(tables, draft, LENGTHS, lengths)
    run = append(tables, draft, ATTRIBUTES, [Attribute(name, value_run, marks, length_run)])
    node = tables[NODES][draft.open]
    tables[NODES][draft.open] = node._replace(run=Run(node.run.start, run.end))
    return run.start


def write(tables, draft, text):
    check_draft(tables, draft)
    need(tables, NODES, draft.counts[NODES] + 1, 4, draft.open)
    need_utf8(text)
    count = draft.counts[BYTES] + len(text)
    need(tables, BYTES, count, 9, count)
    return add_node(tables, draft, "text", None, append(tables, draft, BYTES, text))


def close(tables, draft):
    check_draft(tables, draft)
    if draft.open == 1:
        raise Refused(11, draft.open)
    draft.open = tables[NODES][draft.open].parent
    return draft.open


def seal(tables, draft):
    check_tables(tables, draft.counts)
    if draft.open != 1:
        raise Refused(12, draft.open)
    return Sealed(draft.counts)


def reopen(tables, sealed):
    check_tables(tables, sealed.counts)
    return Draft(sealed.counts, 1)


def admit(tables, counts):
    check_card(tables, counts)
    return Sealed(counts)


def texts(tables, sealed, room):
    check_card(tables, sealed.counts)
    nodes = [tables[NODES][k] for k in range(sealed.counts[NODES])]
    found = [k for k, node in enumerate(nodes) if node.kind == "element" and node.tag == "text"]
    if len(found) > room:
        raise Refused(23, len(found))
    return found


# ---- the reading of a script


class Unreadable(Exception):
    pass


class NotNow(Exception):
    pass


class Text(bytes):
    """A word that was written between quotes."""


ESCAPES = {b'"': b'"', b"\\": b"\\", b"n": b"\n", b"r": b"\r", b"t": b"\t"}
QUOTED = re.compile(rb'"((?:[^"\\]|\\["\\nrt]|\\x[0-9a-fA-F]{2})*)"', re.S)
ESCAPE = re.compile(rb"\\(x[0-9a-fA-F]{2}|.)")


def unescape(found):
    escape = found.group(1)
    return bytes([int(escape[1:], 16)]) if escape[:1] == b"x" else ESCAPES[escape]


def split_words(line):
    """The words of a line: separated by one space, a text in quotes being one word."""
    words, at = [], 0
    while True:
        if line[at : at + 1] == b'"':
            found = QUOTED.match(line, at)
            if not found:
                raise Unreadable
            words.append(Text(ESCAPE.sub(unescape, found.group(1))))
            at = found.end()
        else:
            end = line.find(b" ", at)
            end = len(line) if end < 0 else end
            words.append(line[at:end])
            at = end
        if at == len(line):
            return words
        if line[at : at + 1] != b" ":
            raise Unreadable
        at += 1


def round_to_f32(exact):
    """The f32 closest to a fraction, ties to even; too large a number gives infinity."""
    if exact == 0:
        return 0.0
    size = abs(exact)
    exponent = size.numerator.bit_length() - size.denominator.bit_length()
    if Fraction(2) ** exponent > size:
        exponent -= 1
    step = Fraction(2) ** (max(exponent, -126) - 23)
    rounded = round(exact / step) * step
    if abs(rounded) >= Fraction(2) ** 128:
        return math.copysign(math.inf, exact)
    return float(rounded)


FLOAT = re.compile(rb"([+-]?)(?:(inf|infinity)|(nan)|(?=\.?[0-9])([0-9]*)\.?([0-9]*)(?:e([+-]?[0-9]+))?)", re.I)


def read_float(word):
    """A float as Rust's `f32::from_str` reads it."""
    found = FLOAT.fullmatch(word)
    if not found:
        raise Unreadable
    sign, infinite, nan, whole, part, power = found.groups()
    if nan:
        return math.nan
    if infinite:
        size = math.inf
    else:
        digits = (whole + part).lstrip(b"0") or b"0"
        power = int(power or b"0") - len(part)
        # Far outside the range of f32 the exact fraction is not worth making.
        if digits == b"0" or len(digits) + power < -60:
            size = 0.0
        elif len(digits) + power > 60:
            size = math.inf
        else:
            size = round_to_f32(int(digits) * Fraction(10) ** power)
    return -size if sign == b"-" else size


def read_length(word):
    """A float with its unit directly behind it; no float ends like a unit, so at most one unit fits."""
    for unit in sorted(UNITS, key=len, reverse=True):
        if word.endswith(unit.encode()):
            try:
                return Length(read_float(word[: len(word) - len(unit)]), unit)
            except Unreadable:
                pass
    raise Unreadable


def read_number(word):
    if not re.fullmatch(rb"[0-9]+", word):
        raise Unreadable
    digits = word.lstrip(b"0") or b"0"
    if len(digits) > 10 or int(digits) >= 2**32:
        raise Unreadable
    return int(digits)


def read_link(word):
    return None if word == b"-" else read_number(word)


def read_marks(word):
    known = {b"neither": (False, False), b"single": (True, False), b"plain": (False, True), b"both": (True, True)}
    if word not in known:
        raise Unreadable
    return Marks(*known[word])


def read_name(names):
    def read(word):
        try:
            spelling = word.decode("ascii")
        except UnicodeDecodeError:
            raise Unreadable from None
        if spelling not in names:
            raise Unreadable
        return spelling

    return read


read_tag = read_name(TAGS)
read_attribute_name = read_name(ATTRIBUTE_NAMES)


class Words:
    """The words of a line that are not read yet."""

    def __init__(self, line):
        self.words = split_words(line)

    def next(self, read):
        """The next word, which must not be a text, as `read` reads it."""
        if not self.words or isinstance(self.words[0], Text):
            raise Unreadable
        return read(self.words.pop(0))

    def numbers(self, count):
        return [self.next(read_number) for _ in range(count)]

    def text(self):
        if not self.words or not isinstance(self.words[0], Text):
            raise Unreadable
        return self.words.pop(0)

    def end(self):
        if self.words:
            raise Unreadable


# ---- the program


class Program:
    def __init__(self):
        self.tables = lend(LIMITS)
        self.card = None
        self.accepted = 0
        self.refused = 0

    def state(self, kind):
        """The card, if it is in the state that a call wants."""
        if not isinstance(self.card, kind):
            raise NotNow
        return self.card

    # One method for each word that begins a line: it reads the rest of the line, and only then looks at the card.

    def line_tables(self, words):
        sizes = words.numbers(4)
        words.end()
        self.tables = lend(sizes)
        self.card = None
        return "tables"

    def line_begin(self, words):
        words.end()
        self.card = begin(self.tables)
        return "begun"

    def line_open(self, words):
        tag = words.next(read_tag)
        words.end()
        return "opened %d" % open_element(self.tables, self.state(Draft), tag)

    def line_give(self, words):
        name, value, marks = words.next(read_attribute_name), words.text(), words.next(read_marks)
        lengths = [words.next(read_length) for _ in range(len(words.words))]
        return "given %d" % give(self.tables, self.state(Draft), name, value, marks, lengths)

    def line_write(self, words):
        text = words.text()
        words.end()
        return "wrote %d" % write(self.tables, self.state(Draft), text)

    def line_close(self, words):
        words.end()
        return "closed, open %d" % close(self.tables, self.state(Draft))

    def line_seal(self, words):
        words.end()
        self.card = seal(self.tables, self.state(Draft))
        return "sealed"

    def line_reopen(self, words):
        words.end()
        self.card = reopen(self.tables, self.state(Sealed))
        return "reopened"

    def line_admit(self, words):
        counts = words.numbers(4)
        words.end()
        self.card = admit(self.tables, counts)
        return "admitted"

    def line_texts(self, words):
        (room,) = words.numbers(1)
        words.end()
        return " ".join(["texts"] + [str(k) for k in texts(self.tables, self.state(Sealed), room)])

    def line_poke(self, words):
        table, entry = {
            b"node": (NODES, self.poked_node),
            b"attribute": (ATTRIBUTES, self.poked_attribute),
            b"byte": (BYTES, self.poked_byte),
            b"length": (LENGTHS, lambda words: words.next(read_length)),
        }.get(words.next(bytes), (None, None))
        if table is None:
            raise Unreadable
        (k,) = words.numbers(1)
        new = entry(words)
        words.end()
        if k >= self.tables[table].size:
            raise Unreadable
        self.tables[table][k] = new
        return "poked"

    def poked_node(self, words):
        kind, tag, run = words.next(bytes), None, EMPTY
        if kind == b"element":
            tag = words.next(read_tag)
        elif kind not in (b"root", b"text"):
            raise Unreadable
        if kind != b"root":
            run = Run(*words.numbers(2))
        parent, next_sibling, first, last = [words.next(read_link) for _ in range(4)]
        return Node(kind.decode(), tag, run, parent, next_sibling, first, last)

    def poked_attribute(self, words):
        name, value = words.next(read_attribute_name), Run(*words.numbers(2))
        marks, lengths = words.next(read_marks), Run(*words.numbers(2))
        return Attribute(name, value, marks, lengths)

    def poked_byte(self, words):
        (byte,) = words.numbers(1)
        if byte > 255:
            raise Unreadable
        return byte

    LINES = {
        b"tables": line_tables,
        b"begin": line_begin,
        b"open": line_open,
        b"give": line_give,
        b"write": line_write,
        b"close": line_close,
        b"seal": line_seal,
        b"reopen": line_reopen,
        b"admit": line_admit,
        b"texts": line_texts,
        b"poke": line_poke,
    }

    def answer(self, line):
        """Runs one line, and answers what it prints."""
        try:
            words = Words(line)
            word = words.next(bytes)
            if word not in self.LINES:
                raise Unreadable
            said = self.LINES[word](self, words)
            self.accepted += word != b"poke"
            return said
        except Unreadable:
            return "unreadable"
        except NotNow:
            return "not now"
        except Refused as refusal:
            self.refused += 1
            return "refused %d %d" % refusal.args

    def run(self, script):
        """Everything that a script prints."""
        said = [self.answer(line) for line in script.split(b"\n") if line and line[:1] != b"#"]
        calls = self.accepted + self.refused
        said.append("%d calls, %d accepted, %d refused" % (calls, self.accepted, self.refused))
        return "".join(line + "\n" for line in said)


if __name__ == "__main__":
    if hasattr(sys, "set_int_max_str_digits"):
        sys.set_int_max_str_digits(0)  # a float may have any number of digits
    sys.stdout.write(Program().run(sys.stdin.buffer.read()))
