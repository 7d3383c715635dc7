"""The programs that are compared: each takes a script and answers it, line by line.

    oracle          usvg's own files
    port            the library's program, `captions`
    model           the model in model.py
    model-as-usvg   the same with the known faults of usvg
"""
import os
import subprocess

import model
import reference

HERE = os.path.dirname(os.path.abspath(__file__))
TOP = os.path.dirname(HERE)
PROGRAMS = {
    "oracle": os.environ.get("ORACLE", os.path.join(TOP, "target", "oracle", "oracle")),
    "port": os.environ.get("CAPTIONS", os.path.join(TOP, "crates", "captions", "out", "captions")),
}
MODELS = {"model": frozenset(), "model-as-usvg": model.FAULTS}
SIDES = list(PROGRAMS) + list(MODELS)
# Those that know the line `mode K`, which is no part of the script's format.
WITH_MODES = {"oracle", "model", "model-as-usvg"}

# The first words of lines that belong to the answer before them.
LISTED = ("position ", "chunk ", "span ", "shift ")
TROUBLE = ("unreadable", "unsupported", "not now", "refused ")

# A line of each call, to find out which of them a program has.
PROBE = {
    b"tables": b"tables 4 4 4 4",
    b"begin": b"begin",
    b"open": b"open g",
    b"give": b'give id "" neither',
    b"write": b'write ""',
    b"close": b"close",
    b"seal": b"seal",
    b"reopen": b"reopen",
    b"settings": b"settings 1 1 1 1 1",
    b"stage": b"stage all",
    b"paint": b"paint none",
    b"room": b"room 1 1 1 1",
    b"collect": b"collect 2",
    b"rotations": b"rotations 2 1",
    b"style": b"style 2 1",
    b"texts": b"texts 1",
}


def is_there(side):
    return side in MODELS or os.access(PROGRAMS[side], os.X_OK)


def trust_cards():
    """Lets the models skip the check of the whole card at each call: cards made by calls alone are always in order."""
    reference.check_draft = lambda *_: None
    reference.check_card = lambda *_: None


def run(side, script):
    """All that a side prints, as text. A program that fails prints a last line of its own."""
    if side in MODELS:
        return model.ProgramWithModes(MODELS[side]).run(script)
    done = subprocess.run([PROGRAMS[side]], input=script, capture_output=True)
    said = done.stdout.decode("utf-8", "replace")
    if done.returncode != 0:
        error = done.stderr.decode("utf-8", "replace").strip().replace("\n", " | ")
        said += "failed with status %d: %s\n" % (done.returncode, error)
    return said


def with_modes(script):
    """The script with the writing mode asked for behind each collect."""
    lines = []
    for line in script.split(b"\n"):
        lines.append(line)
        if line.startswith(b"collect "):
            lines.append(line.replace(b"collect", b"mode"))
    return b"\n".join(lines)


def calls(script):
    """The lines of a script that are answered."""
    return [line for line in script.split(b"\n") if line and line[:1] != b"#"]


def answers(said):
    """The answers to the lines, each with its listing, and the last line."""
    found = []
    for line in said.splitlines():
        if line.startswith(LISTED) and found:
            found[-1] += "\n" + line
        else:
            found.append(line)
    return found[:-1], found[-1] if found else ""


def lacking(side):
    """The first words of calls that a side does not have."""
    if side in MODELS:
        return set()
    script = b"\n".join(PROBE.values()) + b"\n"
    found, _ = answers(run(side, script))
    return {word for word, answer in zip(PROBE, found) if answer == "unreadable"}
