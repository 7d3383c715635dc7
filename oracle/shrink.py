"""Makes a script smaller that shows a difference, as long as it still does.

Lines are left out one by one or in pieces, an element with all that lies in it or without, and texts are shortened. Where a
node is left out, the numbers in later calls, and the tables of stages and paints, are changed to fit.
"""
import struct

import cards
import reference


def first_word(line):
    return line.split(b" ", 1)[0]


def blocks(lines):
    """For each line that opens an element, the line that closes it."""
    ends, opened = {}, []
    for i, line in enumerate(lines):
        if first_word(line) == b"open":
            opened.append(i)
        elif first_word(line) == b"close" and opened:
            ends[opened.pop()] = i
    return ends


def numbers(lines, gone):
    """For each node number, its number when some lines are gone, or None where the node is gone itself."""
    new, old_next, new_next = {0: 0, 1: 1}, 2, 2
    for i, line in enumerate(lines):
        if first_word(line) in (b"open", b"write"):
            new[old_next] = None if i in gone else new_next
            new_next += i not in gone
            old_next += 1
    return new


def moved_table(data, widths, new):
    """A stage or paint table with the entries of nodes that are gone left out."""
    count = struct.unpack("<I", data[:4])[0]
    kept = [k for k in range(count) if new.get(k, k) is not None]
    columns, at = [], 4
    for width in widths:
        columns.append(b"".join(data[at + k * width : at + (k + 1) * width] for k in kept))
        at += count * width
    return cards.quote_table(cards.table(len(kept), *columns))


def moved(line, new):
    """A line with the node numbers in it changed, or None where it asks for a node that is gone."""
    words = line.split(b" ")
    if words[0] in (b"collect", b"mode", b"rotations", b"style"):
        number = new.get(int(words[1]))
        return None if number is None else b" ".join([words[0], b"%d" % number] + words[2:])
    if words[:2] in ([b"stage", b"table"], [b"paint", b"table"]):
        data = reference.split_words(line)[2]
        widths = [1, 4] if words[0] == b"stage" else [4, 4]
        return b" ".join(words[:2] + [moved_table(data, widths, new)])
    return line


def without(lines, gone):
    new = numbers(lines, gone)
    kept = [moved(line, new) for i, line in enumerate(lines) if i not in gone]
    return [line for line in kept if line is not None]


def attributes_after(lines, i):
    """The lines behind line i that give attributes."""
    found = set()
    while i + 1 < len(lines) and first_word(lines[i + 1]) == b"give":
        i += 1
        found.add(i)
    return found


def smaller(lines):
    """Scripts that are a bit smaller, the much smaller ones first."""
    half = len(lines) // 2
    while half > 1:
        for start in range(0, len(lines), half):
            yield without(lines, set(range(start, min(start + half, len(lines)))))
        half //= 2
    for start, end in sorted(blocks(lines).items(), key=lambda block: block[0] - block[1]):
        yield without(lines, set(range(start, end + 1)))
        yield without(lines, {start, end} | attributes_after(lines, start))
    for i in range(len(lines)):
        yield without(lines, {i})
    yield from shorter_texts(lines)


def shorter_texts(lines):
    for i, line in enumerate(lines):
        if first_word(line) == b"write":
            text = reference.split_words(line)[1].decode("utf-8")
            for shorter in (text[: len(text) // 2], text[1:], "a" * len(text)):
                if shorter != text and (len(shorter) < len(text) or set(text) != {"a"}):
                    yield lines[:i] + [b'write "%s"' % escaped(shorter)] + lines[i + 1 :]


def escaped(text):
    plain = lambda byte: bytes([byte]) if 32 <= byte < 127 and byte not in (34, 92) else b"\\x%02x" % byte
    return b"".join(plain(byte) for byte in text.encode())


def shrink(script, still_differs):
    """The smallest script that is found by steps from this one, each of which still shows the difference."""
    lines = [line for line in script.split(b"\n") if line]
    while True:
        for candidate in smaller(lines):
            if len(candidate) <= len(lines) and candidate != lines and still_differs(join(candidate)):
                lines = candidate
                break
        else:
            return join(lines)


def join(lines):
    return b"".join(line + b"\n" for line in lines)
