#!/usr/bin/env python3
"""Respells the repository's own definitions, lemmas and fields as Rattle spells them.

Words get underscores in place of hyphens, types and records get capitals. What it renames is what specs/ and proofs/
declare with a hyphen; names of the library, and goals that Rattle makes, keep theirs. It is run once, at the top, after
the toolchain's own script. With --dry it only prints the names, and what would fall together.
"""
import collections
import glob
import re
import sys

TOKEN = re.compile(r"[^\s(){}\[\];,.:λ→×⊎⟨⟩\"'`≡◌|]+(?:['′]+)?")
DECLARED = re.compile(
    r"^\s*(?:(?:unfoldable|abbrev|pub|data|record|ruleset)\s+)*"
    r"([^\s(){}:;,.λ=]+)((?:\s[^:=]*)?)\s*:(?:\s|$)"
)


def proof_files():
    return sorted(
        glob.glob("crates/*/specs/*.antt") + glob.glob("crates/*/proofs/**/*.antt", recursive=True)
    )


def source_files():
    return sorted(glob.glob("crates/*/src/**/*.rt", recursive=True)) + sorted(
        glob.glob("crates/*/must-fail/*.edit")
    )


def declared():
    """The names with a hyphen that the files declare, and that are no goal of Rattle's."""
    names = set()
    for path in proof_files():
        for line in open(path, encoding="utf-8"):
            if line.lstrip().startswith("--") or line.startswith("use ") or ": goal." in line:
                continue
            match = DECLARED.match(line)
            if match and "-" in match.group(1):
                names.add(match.group(1))
    return names


def of_the_library(text):
    """The names that a file takes from the library."""
    names = set()
    for match in re.finditer(r"use ([\w.·]+)\.\{([^}]*)\}", text):
        own = re.match(r"Rattle\.(\w+)", match.group(1))
        if own and glob.glob(f"crates/{own.group(1)}/"):
            continue
        names.update(n.strip().split(" as ")[0] for n in match.group(2).split(","))
    return names


def respelled(name):
    if name[0].isupper():
        return "".join(part[0].upper() + part[1:] for part in name.split("-"))
    return name.replace("-", "_")


def turn(text, names, comment):
    """The text with the names respelled, but for strings, and in comments only within backticks."""
    out = []
    for line in text.split("\n"):
        pieces = re.split(r'("(?:[^"\\]|\\.)*")', line)
        said = False
        for k, piece in enumerate(pieces):
            if k % 2 == 1:
                continue
            if said:
                continue
            at = piece.find(comment)
            code, rest = (piece, "") if at < 0 else (piece[:at], piece[at:])
            said = at >= 0
            code = TOKEN.sub(lambda m: names.get(m.group(0), m.group(0)), code)
            rest = re.sub(
                r"`([^`]*)`",
                lambda m: "`" + TOKEN.sub(lambda n: names.get(n.group(0), n.group(0)), m.group(1)) + "`",
                rest,
            )
            pieces[k] = code + rest
        out.append("".join(pieces))
    return "\n".join(out)


def main():
    dry = "--dry" in sys.argv
    every = {n: respelled(n) for n in declared()}
    together = collections.Counter(every.values())
    for old, new in sorted(every.items()):
        if together[new] > 1:
            print(f"fall together: {old} -> {new}")
    for path in proof_files() + source_files():
        text = open(path, encoding="utf-8").read()
        taken = of_the_library(text)
        names = {old: new for old, new in every.items() if old not in taken}
        used = set(TOKEN.findall(text))
        for old in sorted(used & set(names)):
            if names[old] in used:
                print(f"{path}: {old} -> {names[old]}, which stands there already")
        turned = turn(text, names, "--" if path.endswith(".antt") else "//")
        if turned != text and not dry:
            open(path, "w", encoding="utf-8").write(turned)
    print(f"{len(every)} names respelled")


main()
