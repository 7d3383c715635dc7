#!/usr/bin/env python3
"""Count the places in the code that today's Rattle has a plainer form for.

usage: places.py [COMMIT]   (the working tree, or a commit of this repository)

For each kind of place it prints a line with their number, and one with file, line and text for each place. What a
number means, and why a place stays, is in docs/DESIGN-PASS.md. It reads the crates' src/ alone, and proves nothing.
"""

import collections
import glob
import os
import re
import subprocess
import sys

ROOT = os.path.dirname(os.path.dirname(os.path.abspath(__file__)))


def sources(commit):
    """The lines of each source file."""
    if not commit:
        for path in sorted(glob.glob(os.path.join(ROOT, "crates", "*", "src", "*.rt"))):
            yield os.path.relpath(path, os.path.join(ROOT, "crates")), open(path).read().split("\n")
        return
    names = subprocess.run(["git", "ls-tree", "-r", "--name-only", commit, "crates"], cwd=ROOT, capture_output=True, text=True).stdout.split()
    for name in sorted(n for n in names if re.match(r"crates/\w+/src/\w+\.rt$", n)):
        text = subprocess.run(["git", "show", f"{commit}:{name}"], cwd=ROOT, capture_output=True, text=True).stdout
        yield name[len("crates/"):], text.split("\n")


# A name for each kind of place, and what a line of one looks like.
KINDS = [
    ("1 a value handed back in a tuple with the fault or the answer", r"-> .*Result<[^;{]*\((Draft|Sealed|Card), |-> \(Card,"),
    ("1 an error that is told by None inside a Result", r"-> Result<Option<"),
    ("1 a number for a kind", r"(TableShort|SettingOutOfRange)\(u8\)|-> Option<u8>$|\(table: u8|check_table\(\d"),
    ("3 a loop over numbers that index a table", r"\bfor \w+ in \(?\w*\.*\d*\.\.|\bfor \w+ in \w+\.\.[\w.]+"),
    ("3 a loop that moves an index by hand", r"\bwhile .*(<|>)|^\s+(at|start|end|i|k|j|left) [+-]= 1;"),
    ("3 a test of each element written as a loop", r"^\s+for (length|attribute|byte|row|word) in |for \(i, byte\) in "),
    ("4 equality by hand", r"fn (is|is_same|is_tag|is_id)\(|\.is\([A-Z]|\.is\(name\)"),
    ("4 a kind of node matched arm by arm for one answer", r"NodeKind::\w+(\([^)]*\)| \{[^}]*\})? => (true|false|None|&\[\]),"),
    ("4 a record of blanks written out", r"^\s+(next|last|single): (None|false),$"),
    ("6 a table in parts beside others of the same length", r"\[Option<u32>; 4096\]|\[u8; 4096\]"),
    ("7 a word compared in a chain of ifs", r"if (word|table) == \""),
    ("7 a trait for one test or one step", r"trait (ElementTest)\b"),
]


def functions(lines):
    """Name, line, contract and body of each function."""
    for i, line in enumerate(lines):
        m = re.match(r"(\s*)(pub(\(crate\))? )?(final )?fn (\w+)", line)
        if not m:
            continue
        j = i
        while j < len(lines) and not re.match(r"\s*\{$|.*\{$|.*;$", lines[j]):
            j += 1
        k = j
        while k < len(lines) and lines[k] != m[1] + "}":
            k += 1
        yield m[5], i + 1, lines[i:j], lines[j:k]


def shape(body):
    """A body with its names and constants taken out, in the order in which they come."""
    seen = {}
    return re.sub(r"\w+|\"[^\"]*\"", lambda m: seen.setdefault(m[0], f"x{len(seen)}"), "\n".join(b.strip() for b in body))


def main():
    files = list(sources(sys.argv[1] if len(sys.argv) > 1 else None))
    for name, pattern in KINDS:
        found = [(f, n, l.strip()) for f, lines in files for n, l in enumerate(lines, 1)
                 if re.search(pattern, l) and not l.strip().startswith("//") and "ensures" not in l and "requires" not in l]
        print(f"{len(found):4} {name}")
        for f, n, l in found:
            print(f"       {f}:{n}: {l[:100]}")
    # twins: bodies of three lines or more, or one long line, of one shape
    shapes = collections.defaultdict(list)
    for f, lines in files:
        for name, n, head, body in functions(lines):
            text = "\n".join(b.strip() for b in body[1:])
            if len(text) > 25 and ("\n" in text or "==" in text):
                shapes[shape(body)].append((f, n, name))
    twins = [group for group in shapes.values() if len(group) > 1]
    print(f"{sum(len(g) - 1 for g in twins):4} 2 functions with the body of another but for names and constants")
    for group in twins:
        print("       " + " = ".join(f"{f}:{n} {name}" for f, n, name in group))
    # facts and parameters that stand in three contracts or more
    needs, pairs = collections.Counter(), collections.Counter()
    for f, lines in files:
        crate = f.split("/")[0]
        for name, n, head, body in functions(lines):
            text = "\n".join(head)
            needs.update((crate, t) for t in set(re.findall(r"requires (?:\w+ )?(\{.*\})", text)))
            params = re.findall(r"(\w+): ([&\w<>'\[\]]+)", text.split("->")[0])
            pairs.update((crate, a, b) for a in params for b in params if a < b)
    facts = [(k, c) for k, c in needs.items() if c >= 3]
    print(f"{len(facts):4} 5 facts that stand in the requires of three functions or more")
    for (crate, fact), c in sorted(facts):
        print(f"       {crate}: {c} times {fact[:100]}")
    together = [(k, c) for k, c in pairs.items() if c >= 3]
    print(f"{len(together):4} 5 pairs of parameters that go together in three functions or more")
    for (crate, a, b), c in sorted(together, key=lambda x: -x[1]):
        print(f"       {crate}: {c} times {a[0]}: {a[1]}, {b[0]}: {b[1]}")


if __name__ == "__main__":
    main()
