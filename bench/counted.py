"""Counts the instructions that the program takes for a script, by callgrind."""

import os
import re
import subprocess
import sys
import tempfile

HERE = os.path.dirname(os.path.dirname(os.path.abspath(__file__)))
PROGRAM = os.path.join(HERE, "crates", "captions", "out", "captions")
# a script makes a call so many times, and then so many: the difference is what the calls between cost
FEW, MANY = 2, 12


def instructions(script, is_right):
    """How many instructions a script takes; `is_right` looks at the answer of its last line."""
    if not os.path.exists(PROGRAM):
        sys.exit("no program yet: ./run builds it")
    with tempfile.TemporaryDirectory() as work:
        run = subprocess.run(
            ["valgrind", "--tool=callgrind", f"--callgrind-out-file={work}/out", PROGRAM],
            input=script.encode(),
            capture_output=True,
        )
        if run.returncode != 0 or not is_right(run.stdout.decode().split("\n")[-3]):
            sys.exit("the program did not answer as it should:\n" + run.stderr.decode()[-500:])
        return int(re.search(r"Collected : (\d+)", run.stderr.decode())[1])


def cost(script_of, is_right):
    """What one call costs, in a script that makes it a given number of times."""
    return (instructions(script_of(MANY), is_right) - instructions(script_of(FEW), is_right)) / (MANY - FEW)
