#!/usr/bin/env python3
"""Checks the model against answers worked out by hand, and its floats: python3 oracle/test_model.py"""
import math
import random
import struct
import sys

sys.dont_write_bytecode = True
import cards
import model
import reference
import shrink
import sides


def answers(*lines):
    """The answers to the calls behind `seal`; where the first line is no `begin`, the card has one `text` of these lines."""
    if lines[0] != "begin":
        split = lines.index("seal")
        lines = ("begin", "open text") + lines[:split] + ("close",) + lines[split:]
    said = model.Program().run("".join(line + "\n" for line in lines).encode())
    found, _ = sides.answers(said)
    return found[lines.index("seal") + 1 :]


def chunks(said):
    """Of a collect: x, flow and text of each chunk."""
    lines = [line.split(" ") for line in said.split("\n") if line.startswith("chunk ")]
    return [(words[3], words[9], words[-1].strip('"')) for words in lines]


def spans(said):
    return [line.split(" ")[2] for line in said.split("\n") if line.startswith("span ")]


def style(said, name):
    words = said.split("\n")[0].split(" ")
    return words[2 + words[2:].index(name) + 1]


def test_texts_without_and_with_characters():
    assert answers("seal", "collect 2") == ["collected characters 0 shown 0 chunks 0 spans 0 bytes 0"]
    (said,) = answers('write "\\xef\\xbb\\xbfa"', "seal", "collect 2")
    assert said.startswith("collected characters 2 shown 2 chunks 1 spans 1 bytes 4") and spans(said) == ["0..4"]


def test_a_position_begins_a_chunk():
    tspan = ["open tspan", 'give x "40" both 40', 'write "é"', "close"]
    (said,) = answers('give x "10" both 10', 'write "ab"', *tspan, 'write "c"', "seal", "collect 2")
    assert chunks(said) == [("10", "0", "ab"), ("40", "0", "\\xc3\\xa9c")]
    assert spans(said) == ["0..2", "0..2", "2..3"]


def test_hidden_characters_take_positions():
    hidden = ["open tspan", 'give display "none" neither', 'write "pq"', "open tspan", 'write "r"', "close", "close"]
    (said,) = answers('give x "1 2 3 4" plain 1 2 3 4', *hidden, 'write "z"', "seal", "collect 2")
    assert chunks(said) == [("4", "0", "z")]


def path_answer(attributes, stage):
    path = ["open path", 'give id "p" neither', "close"]
    along = ["open textPath", 'give href "#p" neither'] + attributes + ["close"]
    return answers('write "a"', *path, *along, 'write "b"', "seal", stage, "collect 2")[1]


def test_paths():
    assert chunks(path_answer([], 'stage language "en"')) == [("-", "0", "a"), ("-", "0", "b")]
    assert chunks(path_answer(['give display "none" neither'], 'stage language "en"')) == [("-", "0", "ab")]
    refused = path_answer(['write "q"'], "stage all")
    assert chunks(refused) == [("-", "0", "ab")] and "characters 3 shown 2" in refused
    nested = ['write "q"', "open tspan", 'write "r"', "close", "open tspan", 'give x "5" both 5', 'write "s"', "close"]
    assert chunks(path_answer(nested, 'stage language "en"'))[1:3] == [("-", "4", "qr"), ("5", "4", "s")]


def test_angles():
    first = ["open tspan", 'give rotate "10 20" plain 10 20', 'write "abc"', "close"]
    second = ["open tspan", 'give rotate "" plain', 'write "d"', "close"]
    assert answers(*first, *second, "seal", "rotations 2 4") == ["rotations 10 20 20 0"]


def weights(*words):
    lines = [line for word in words for line in ("open tspan", 'give font-weight "%s" neither' % word)]
    lines += ['write "a"'] + ["close"] * len(words)
    (said,) = answers(*lines, "seal", "style %d 0" % (len(words) + 3))
    return int(style(said, "weight"))


def test_weights():
    assert [weights("bolder"), weights("bolder", "bolder")] == [700, 900]
    assert [weights("lighter"), weights("lighter", "lighter")] == [100, 100]
    assert [weights(str(w), "bolder") for w in range(100, 1000, 100)] == [400] * 3 + [700] * 2 + [900] * 4
    assert [weights(str(w), "lighter") for w in range(100, 1000, 100)] == [100] * 5 + [400] * 2 + [700] * 2
    assert weights("600", "450") == 600


def size(value, settings="96 12 100 100 100"):
    lines = ['give font-size "%s" neither' % value] if value.isalpha() or "-" in value else []
    lines = lines or ['give font-size "%s" single %s' % (value, value)]
    said = answers(*lines, 'write "a"', "seal", "settings " + settings, "style 3 0")
    return style(said[1], "size")


def test_sizes():
    assert size("2em") == "24" and size("3ex") == "18" and size("1in") == "96" and size("6pc") == "96"
    assert size("2.54cm") == "96" and size("72pt") == "96" and size("200%") == "24"
    assert size("medium") == "12" and size("large") == "14.400001" and size("strange") == "12"


def test_refusals():
    assert answers('write "ab"', "seal", "collect 3", "rotations 1 9", "style 2 9") == [
        "refused 15 3",
        "refused 15 1",
        "refused 16 2",
    ]
    assert answers('write "ab"', "seal", "settings 96 0 1 inf 1", "collect 2")[1] == "refused 14 1"
    rooms = ["room 1 9 9 9", "room 2 0 9 9", "room 2 1 0 9", "room 2 1 1 1", "room 2 1 1 2"]
    asked = [line for room in rooms for line in (room, "collect 2")]
    found = answers('write "ab"', "seal", *asked)[1::2]
    assert found[:4] == ["refused 17 2", "refused 18 1", "refused 19 1", "refused 20 2"]
    assert found[4].startswith("collected")
    assert answers('write "ab"', "seal", "rotations 2 1") == ["refused 21 2"]
    shift = ["open tspan", 'give baseline-shift "sub" neither', 'write "a"', "close", "seal"]
    assert answers(*shift, "style 4 0", "style 4 1")[0] == "refused 22 1"
    assert answers("seal", 'stage table "\\x01\\x00\\x00\\x00\\x02\\x00\\x00\\x00\\x00"', 'paint table ""') == ["refused 24 0"] * 2


def test_printed_floats_read_back():
    chance = random.Random(3)
    for _ in range(20000):
        number = struct.unpack("<f", struct.pack("<I", chance.getrandbits(32)))[0]
        if math.isfinite(number):
            printed = model.print_float(number)
            assert "e" not in printed
            assert reference.read_float(printed.encode()) == number
    for number, printed in [(1e10, "10000000000"), (-0.0, "-0"), (model.f32(0.1), "0.1"), (1651300.75, "1651300.8")]:
        assert model.print_float(number) == printed


def test_made_cards_are_accepted():
    for number in range(60):
        for script in (cards.card(number), cards.card(number, only_faultless=True)):
            found, _ = sides.answers(model.Program().run(script))
            assert not any(answer.startswith(sides.TROUBLE) for answer in found), number
        assert cards.card(number) == cards.card(number)
        assert not cards.shows_fault(cards.card(number, only_faultless=True))


def test_shrinking():
    for number in range(200):
        script = cards.card(number)
        if cards.shows_fault(script):
            small = shrink.shrink(script, is_accepted_fault)
            assert is_accepted_fault(small) and len(small.split(b"\n")) <= 25, small
            return


def is_accepted_fault(script):
    found, _ = sides.answers(model.Program().run(script))
    return not any(answer.startswith(sides.TROUBLE) for answer in found) and cards.shows_fault(script)


if __name__ == "__main__":
    tests = [test for name, test in sorted(globals().items()) if name.startswith("test_")]
    for test in tests:
        test()
    print("%d tests passed" % len(tests))
