"""All small cards of some kinds: trees of up to four nodes over a few tags, texts and attributes, and words above words.

Where chance makes large cards with much in them, these leave nothing out of what is small.
"""
import itertools

import cards

# An attribute as a script gives it, without `give`.
X1 = b'x "1" both 1'
X12 = b'x "1 2" plain 1 2'
Y5 = b'y "5" both 5'
HIDDEN = b'display "none" neither'
UPRIGHT = b'writing-mode "tb" neither'


def word(name, value):
    return b'%s "%s" neither' % (name.encode(), value.encode())


def single(name, value):
    return b'%s "%s" %s %s' % (name.encode(), value.encode(), b"both" if value[-1].isdigit() else b"single", value.encode())


# ---- trees

# A node is a text, or an element: (tag, attributes, nodes in it).


def forests(count, texts, elements):
    """Every list of trees with so many nodes in all."""
    if count == 0:
        yield []
        return
    for size in range(1, count + 1):
        for first in trees(size, texts, elements):
            for rest in forests(count - size, texts, elements):
                yield [first] + rest


def trees(size, texts, elements):
    if size == 1:
        yield from texts
    for tag, attributes in elements:
        for inside in forests(size - 1, texts, elements):
            yield (tag, attributes, inside)


def lines_of(node):
    if isinstance(node, bytes):
        return [b'write "%s"' % node]
    tag, attributes, inside = node
    lines = [b"open " + tag.encode()] + [b"give " + attribute for attribute in attributes]
    for child in inside:
        lines += lines_of(child)
    return lines + [b"close"]


def script(tree, asks, attributes=(), sizes=b"tables 64 256 1024 256", room=b"room 64 64 64 64"):
    """A script that builds `svg` with one tree in it, and then asks."""
    head = [sizes, b"begin"] + [b"give " + attribute for attribute in attributes]
    start = [b"seal", b"settings 96 12 100 100 100", b"stage all", b"paint none", room]
    return b"\n".join(head + lines_of(tree) + start + asks) + b"\n"


def every_flow(drawn=b"\x01"):
    """A stage on which every number has a flow."""
    return b"stage table " + cards.quote_table(cards.table(8, drawn * 8, cards.codes([7, 7, 7, 7, 8, 9, 8, 9])))


def tree_cards(roots, texts, elements, asks):
    for count in range(4):
        for root in roots:
            for inside in forests(count, texts, elements):
                yield script(("text", root, inside), asks)


def position_cards():
    elements = [(tag, attributes) for tag in ("tspan", "g") for attributes in ([], [X1], [X12], [Y5])]
    return tree_cards([[], [X12], [X1, Y5]], [b"", b"a", b"\xc3\xa9b"], elements, [b"collect 2"])


def path_cards():
    elements = [("textPath", []), ("textPath", [X1]), ("textPath", [HIDDEN]), ("tspan", []), ("tspan", [X1])]
    elements += [("tspan", [Y5]), ("tspan", [HIDDEN]), ("text", [])]
    roots = [[], [X12], [UPRIGHT, Y5]]
    return tree_cards(roots, [b"", b"ab"], elements, [every_flow(), b"collect 2", b"stage all", b"collect 2"])


def hidden_cards():
    elements = [(tag, attributes) for tag in ("tspan", "textPath", "text") for attributes in ([], [HIDDEN])]
    asks = [every_flow(), b"collect 2", every_flow(b"\0"), b"collect 2"]
    return tree_cards([[], [HIDDEN]], [b"", b"a"], elements, asks)


def angle_cards():
    lists = [[], [b'rotate "" plain'], [b'rotate "10" both 10'], [b'rotate "10 20" plain 10 20'], [b'rotate "1px" single 1px']]
    elements = [("tspan", attributes) for attributes in lists] + [("g", lists[1]), ("g", lists[3])]
    return tree_cards(lists, [b"", b"ab"], elements, [b"rotations 2 8"])


# ---- words above words


def tower_cards(choices, asks, others=()):
    """An `svg`, in it a `text`, in it two `tspan`s, one in the other, with one of the choices on each."""
    for svg, text, outer, inner in itertools.product(choices, repeat=4):
        tree = ("text", text, [("tspan", outer, [("tspan", list(inner) + list(others), [b"a"]), b"b"])])
        yield script(tree, asks, svg)


def given(name, values):
    return [[]] + [[word(name, value)] for value in values]


STYLES = [b"style 5 64", b"style 6 64"]


def size_cards():
    lengths = ["20", "2em", "150%", "3ex", "0", "-1pt"]
    words = ["small", "xx-large", "medium", "larger", "smaller", "none"]
    choices = given("font-size", words) + [[single("font-size", length)] for length in lengths]
    return tower_cards(choices, STYLES + [b"collect 2"], [single("x", "1em")])


def weight_cards():
    return tower_cards(given("font-weight", ["bold", "100", "300", "600", "800", "bolder", "lighter", "450"]), STYLES)


def baseline_cards():
    yield from tower_cards(given("dominant-baseline", ["no-change", "hanging", "auto", "strange", ""]), STYLES)
    yield from tower_cards(given("alignment-baseline", ["hanging", "auto", "strange"]), STYLES)


def adjust_cards():
    return tower_cards(given("lengthAdjust", ["spacing", "spacingAndGlyphs", "strange"]), STYLES)


def shift_cards():
    lengths = [[single("baseline-shift", length)] for length in ("10%", "2em", "-0")]
    return tower_cards(given("baseline-shift", ["sub", "super", "baseline", ""]) + lengths, STYLES)


def decoration_cards():
    codes = cards.codes([11, 12, 13, 14, 15, 16, 17])
    paints = [b"paint table " + cards.quote_table(cards.table(7, codes, codes[:8] + bytes(20)))]
    return tower_cards(given("text-decoration", ["underline", "none", "overline underline", "line-through\t"]), paints + STYLES)


def spacing_cards():
    lengths = ["0", "1em", "50%"]
    for name in ("kerning", "letter-spacing", "word-spacing", "textLength"):
        choices = given(name, ["none"]) + [[single(name, length)] for length in lengths]
        yield from tower_cards(choices, STYLES)


def word_cards():
    """Each property with each of its words, on one element or above another of its words."""
    for name in sorted(cards.WORDS):
        values = cards.WORDS[name] + cards.STRANGE
        for outer, inner in itertools.product([None] + values, repeat=2):
            text = [] if outer is None else [word(name, outer)]
            tspan = [] if inner is None else [word(name, inner)]
            tree = ("text", text, [("tspan", tspan, [b"a"]), b"b"])
            yield script(tree, [b"collect 2", b"style 4 64", b"style 5 64"])


def language_cards():
    """Each list of languages with each chosen one, and a path that is found by its id."""
    for listed, chosen in itertools.product(cards.LANGUAGE_LISTS, cards.LANGUAGES):
        path = ("textPath", [b'href "#p" neither', word("systemLanguage", listed)], [b"a"])
        tree = ("text", [], [("path", [b'id "p" neither'], []), path, b"b"])
        yield script(tree, [b'stage language "%s"' % chosen.encode(), b"collect 2"])


def deep_cards():
    """Elements nested as deep as may be, each with a value that the next one builds on."""
    values = [single("font-size", "2em"), single("font-size", "50%"), single("font-size", "0.9ex"), word("font-size", "larger")]
    values += [single("baseline-shift", "10%"), word("baseline-shift", "sub"), word("dominant-baseline", "no-change")]
    values += [word("font-weight", "bolder"), word("font-weight", "lighter"), X12, b'rotate "5 6" plain 5 6']
    for value, tag, depth in itertools.product(values, ("tspan", "text", "textPath"), (1, 2, 30, 61, 62)):
        tree = b"a"
        for _ in range(depth):
            tree = (tag, [value], [tree, b"b"])
        numbers = [b"%d" % (depth + 3), b"%d" % (2 * depth + 2), b"%d" % (2 * depth + 3)]
        asks = [b"collect 2", every_flow(), b"collect 2", b"rotations 2 128"] + [b"style %s 64" % k for k in numbers]
        yield script(("text", [], [tree, b"c"]), asks, sizes=b"tables 256 256 1024 256", room=b"room 256 256 256 256")


def long_cards():
    """Texts of many characters, and lists that are shorter, as long, or longer."""
    for letter, count in itertools.product(("a", "é", "鶴", "🦢"), (1, 2, 700, 2000)):
        for length in (1, count - 1, count, count + 1):
            numbers = [b"%d" % (k % 13) for k in range(length)]
            lists = [b'%s "" plain %s' % (name, b" ".join(numbers)) for name in (b"x", b"dy", b"rotate")]
            lists = [line.rstrip(b" ") for line in lists]
            asks = [b"collect 2", b"rotations 2 4096"]
            text = (letter * count).encode()
            tree = ("text", lists[1:], [("tspan", lists[:1], [text]), text[: len(letter.encode())]])
            yield script(tree, asks, sizes=b"tables 8 8 16384 16384", room=b"room 4096 4096 4096 16384")


FAMILIES = [
    position_cards,
    path_cards,
    hidden_cards,
    angle_cards,
    size_cards,
    weight_cards,
    baseline_cards,
    adjust_cards,
    shift_cards,
    decoration_cards,
    spacing_cards,
    word_cards,
    language_cards,
    deep_cards,
    long_cards,
]


def all_cards(only_faultless=False):
    """Every card, with a name for it."""
    for family in FAMILIES:
        for number, made in enumerate(family()):
            if not only_faultless or not cards.shows_fault(made):
                yield "%s %d" % (family.__name__, number), made
