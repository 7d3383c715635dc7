#!/usr/bin/env python3
"""Checks the reference model against simple facts: python3 tools/test_reference.py"""
import math
import random
import struct
from fractions import Fraction

import reference
from reference import NODES, Program, Unreadable, lowest_out_of_order, read_float, read_length, split_words, valid_start


def brute_valid_start(data):
    """The same as `valid_start`, by trying every start."""
    for end in range(len(data), -1, -1):
        try:
            data[:end].decode("utf-8")
            return end
        except UnicodeDecodeError:
            pass


def test_valid_start():
    random.seed(1)
    pieces = [b"a", "é".encode(), "日".encode(), "😀".encode(), b"\xc3", b"\xe6\x97", b"\xf0\x9f", b"\x80", b"\xff",
              b"\xed\xa0\x80", b"\xc0\x80", b"\xf4\x90\x80\x80", b"\xe0\x9f\xbf", b"\x00"]
    for _ in range(3000):
        data = b"".join(random.choice(pieces) for _ in range(random.randrange(6)))
        assert valid_start(data) == brute_valid_start(data), data


def test_floats():
    for word in [b"1", b"+1", b"1.", b".5", b"1.5e3", b"1E-3", b"-0", b"007", b"1.e1"]:
        assert read_float(word) == struct.unpack("f", struct.pack("f", float(word)))[0], word
    for word in [b"inf", b"-INF", b"Infinity", b"+iNfInItY", b"1e39", b"1e99999999999", b"9" * 5000]:
        assert math.isinf(read_float(word)), word
    for word in [b"nan", b"NaN", b"-NAN"]:
        assert math.isnan(read_float(word)), word
    for word in [b"", b".", b"-", b"e5", b"1e", b"1e+", b"1_0", b"0x1", b" 1", b"1 ", b"infin", b"--1", b"1f32", b".e1"]:
        try:
            read_float(word)
            assert False, word
        except Unreadable:
            pass
    # Rounding twice, through f64, would give infinity for the first of these.
    assert math.isfinite(read_float(b"340282356779733661637539395458142568447"))
    assert math.isinf(read_float(b"340282356779733661637539395458142568448"))
    assert read_float(b"1.4e-45") == 2.0**-149 and read_float(b"7e-46") == 0.0
    random.seed(2)
    for _ in range(3000):
        word = "%d.%de%d" % (random.randrange(10**6), random.randrange(10**9), random.randrange(-50, 30))
        read = read_float(word.encode())
        # An f32 with 24 bits is at most half a step away from the exact value.
        step = Fraction(2) ** (max(math.frexp(read)[1] - 1, -126) - 23)
        assert abs(Fraction(word) - Fraction(read)) * 2 <= step, word
        assert struct.unpack("f", struct.pack("f", read))[0] == read, word


def test_lengths():
    for word, number, unit in [(b"1em", 1, "em"), (b"1ex", 1, "ex"), (b"1e1em", 10, "em"), (b"5%", 5, "%"),
                               (b"1e1", 10, ""), (b"infin", math.inf, "in"), (b"-2.5pt", -2.5, "pt")]:
        assert read_length(word) == (number, unit), word
    for word in [b"em", b"1EM", b"1 em", b"1q", b"1e", b"in", b"%"]:
        try:
            read_length(word)
            assert False, word
        except Unreadable:
            pass


def test_words():
    assert split_words(b'give x "a b" both 1') == [b"give", b"x", b"a b", b"both", b"1"]
    assert split_words(rb'write "\"\\\n\r\t\x4a\x4A"') == [b"write", b'"\\\n\r\tJJ']
    for line in [b'write "a', b'write "a"b', rb'write "\q"', rb'write "\x4"', rb'write "a\"', b'write "a""b"']:
        try:
            split_words(line)
            assert False, line
        except Unreadable:
            pass


def test_built_cards_are_in_order():
    """Whatever calls are made, a draft that only calls wrote stays in order."""
    random.seed(3)
    lines = [b"open g", b"open text", b'give x "1 2" plain 1 2', b'give y "5" both 5', b'give id "\xc3" neither',
             'write "日本"'.encode(), b'write ""', b"close", b"close", b"seal", b"reopen", b'give dx "x" single']
    for _ in range(200):
        program = Program()
        program.answer(b"tables %d %d %d %d" % tuple(random.choice([2, 3, 8, 20]) for _ in range(4)))
        program.answer(b"begin")
        for _ in range(30):
            said = program.answer(random.choice(lines))
            assert not said.startswith(("refused 13", "refused 1 ")), said
            assert lowest_out_of_order(program.tables, program.card.counts) is None


def test_any_damage_to_a_link_is_seen():
    """Every link of a small card is decided by the parents, so no other value of it is in order."""
    program = Program()
    for line in [b"begin", b"open text", b'write "a"', b"open tspan", b'write "b"', b"close", b"close", b"open g"]:
        program.answer(line)
    nodes, counts = program.tables[NODES], program.card.counts
    for k in range(counts[NODES]):
        sound = nodes[k]
        for link in ["next", "first", "last"]:
            for value in [None, *range(counts[NODES] + 1), 2**32 - 1]:
                nodes[k] = sound._replace(**{link: value})
                lowest = lowest_out_of_order(program.tables, counts)
                assert lowest == (None if nodes[k] == sound else k)
        nodes[k] = sound


def test_names():
    assert (len(reference.TAGS), len(reference.ATTRIBUTE_NAMES)) == (53, 211)


if __name__ == "__main__":
    reference.sys.set_int_max_str_digits(0)
    for name, test in list(globals().items()):
        if name.startswith("test_"):
            test()
            print("passed", name)
