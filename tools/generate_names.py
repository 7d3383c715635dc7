#!/usr/bin/env python3
"""Write the tables of the crate `names` from usvg's sources.

usage: generate_names.py FOLDER   (the folder of usvg's sources that holds names.rs and mod.rs)

It writes src/lib.rt, src/tags.rt, src/attributes.rt, src/inherited.rt, specs/EIds.antt, specs/AIds.antt and the answers
of the longer test of attributes in proofs/AId, and runs `rt fmt`. The crate's other files are written by hand.
"""

import os
import re
import subprocess
import sys

ROOT = os.path.dirname(os.path.dirname(os.path.abspath(__file__)))
CRATE = os.path.join(ROOT, "crates", "names")
UNITS = ["None", "Px", "Em", "Ex", "In", "Cm", "Mm", "Pt", "Pc", "Percent"]


def variants(text, name):
    """The variants of an enum, in order."""
    body = re.search(r"pub enum %s \{(.*?)\}" % name, text, re.S)[1]
    return [v.strip() for v in body.split(",") if v.strip()]


def spellings(text, name):
    """The spelling of each variant."""
    return {v: s for s, v in re.findall(r'\("([^"]+)", %s::(\w+)\)' % name, text)}


def matched(text, start):
    """The variants of the first matches! behind a text."""
    body = re.search(r"matches!\((.*?)\)\s", text[text.index(start):], re.S)[1]
    return set(re.findall(r"AId::(\w+)", re.sub(r"//.*", "", body)))


def write(path, text):
    with open(os.path.join(CRATE, path), "w") as f:
        f.write(text)


def listed(names, width=120):
    """Variants as a list of antt, over several lines."""
    lines, line = [], ""
    for name in names:
        word = f"v.{name} ∷ "
        if len(line) + len(word) > width:
            lines.append(line.rstrip())
            line = ""
        line += word
    return "\n".join("    " + l for l in lines + [line + "[]"])


def enum(name, doc, names, default=None):
    """An enum; `default` is the variant that stands for nothing said, where there is one."""
    derives = "Clone, Copy, PartialEq, Eq" + (", Default" if default else "")
    return (f"/// {doc}\n#[derive({derives})]\npub enum {name} {{\n"
            + "".join(("    #[default]\n" if n == default else "") + f"    {n},\n" for n in names) + "}\n")


def clauses(function, comment, kind, result, cases):
    out = f"-- {comment}\nabbrev pub {function} : {kind} → {result}\n"
    return out + "".join(f"{function} v.{n} = {value}\n" for n, value in cases)


def spelled(path, first, kind, word, plural, module, names, spelt):
    """The table of one enum, and what it says of itself as a spelled one."""
    write(path, f"//! {first}\n"
          f"ghost use Rattle.names.specs.{module}.{{all, place, spelling}};\n"
          f"ghost use Rattle.names.specs.Laws.{{{plural}_equal, {plural}_stand, {plural}_read}};\n\n"
          f"use crate::{kind};\nuse crate::spelled::Spelled;\n\n"
          f"/// Each {word} with its spelling, in the order of the enum.\nconst ROWS: [({kind}, &str); {len(names)}] = [\n"
          + "".join(f'    ({kind}::{n}, "{spelt[n]}"),\n' for n in names) + "];\n\n"
          f"impl Spelled for {kind} {{\n"
          + "".join(f"    ghost {member} = {{ {value} }};\n\n" for member, value in
                    (("all", "all"), ("place", "place"), ("spelling", "spelling"), ("equal_at_one_place", f"{plural}_equal"),
                     ("each_stands_at_its_place", f"{plural}_stand"), ("each_is_read_from_its_spelling", f"{plural}_read")))
          + "    fn place(self) -> u8 {\n        self as u8\n    }\n\n"
          f"    fn rows() -> &'static [({kind}, &'static str)] {{\n        &ROWS\n    }}\n}}\n")


def spec(path, first, kind, word, names, spelt, more=()):
    """The definitions over one enum."""
    truths = "true, false, " if more else ""
    uses = [f"use Rattle.std.specs.Prelude.{{ℕ, Bool, {truths}List, [], ◌∷◌, codes, ◌==◌}}",
            f"use Rattle.names.specs.declared.{kind}.{{{kind}}}",
            f"use Rattle.names.specs.declared.{kind}.TheVariants as v"]
    parts = [
        clauses("place", f"the place of a {word} in its list", kind, "ℕ", [(n, i) for i, n in enumerate(names)]),
        f"-- two {word}s are the same\nabbrev pub same : {kind} → {kind} → Bool\nsame a b = place a == place b\n",
        *more,
        clauses("spelling", f"how a {word} is written", kind, "List ℕ", [(n, f'codes "{spelt[n]}"') for n in names]),
        f"-- every {word}, by place\nabbrev pub all : List {kind}\nall =\n{listed(names)}\n",
    ]
    write(path, f"-- {first}\n" + "\n".join(uses) + "\n\n" + "\n".join(parts))


def each_in_turn(function, names):
    """The proof that a test by a list of variants is `true` at each of them."""
    goal = f"returns-in-{names[0]}"
    steps = ["⊎_elim at ("] * (len(names) - 1)
    lines = ["    " + " ".join(steps[i:i + 10]) for i in range(0, len(steps), 10)]
    return ("-- Each of the listed names passes the test.\n"
            "use Rattle.std.proofs.Common.{◌≡◌, sym, ap, ⊎_elim}\n"
            "use Rattle.names.specs.declared.AId.{AId}\n"
            f"use Rattle.names.specs.AIds.{{{function}}}\nuse Rattle.names.proofs.AId.{function}.Goals as goal\n\n"
            f"at : {{a v : AId}} → a ≡ v → {function} v ≡ {function} a\nat e = sym (ap {function} e)\n\n"
            f"pub {goal} : goal.{goal}\n{goal} c =\n" + "\n".join(lines) + "at" + ")" * len(steps) + f" c.in-{names[0]}.is\n")


def main():
    folder = sys.argv[1]
    names = open(os.path.join(folder, "names.rs")).read()
    tree = open(os.path.join(folder, "mod.rs")).read()
    eids, aids = variants(names, "EId"), variants(names, "AId")
    eid_spelt, aid_spelt = spellings(names, "EId"), spellings(names, "AId")
    assert (len(eids), len(aids)) == (53, 211), (len(eids), len(aids))
    assert set(eid_spelt) == set(eids) and set(aid_spelt) == set(aids)
    inherited = matched(tree, "fn is_presentation") - matched(tree, "fn is_non_inheritable")
    absent = matched(tree, "let is_possible_none")
    assert inherited <= set(aids) and absent <= set(aids) and len(absent) == 10, (len(inherited), len(absent))

    def truth(chosen):
        return [(n, "true" if n in chosen else "false") for n in aids]

    write("src/lib.rt",
          "//! The tags of elements, the names of attributes and the units of lengths.\n#![tactic(auto)]\n\n"
          + "".join(f"mod {m};\n" for m in ("attributes", "inherited", "rows", "spelled", "tags", "units")) + "\n"
          + "pub use rows::find;\npub use spelled::Spelled;\n\n"
          + enum("EId", "The tag of an element.", eids) + "\n"
          + enum("AId", "The name of an attribute.", aids) + "\n"
          + enum("LengthUnit", "The unit of a length.", UNITS, "None"))

    spelled("src/tags.rt", "The tags of elements: how they are written.", "EId", "tag", "tags", "EIds", eids, eid_spelt)
    spelled("src/attributes.rt", "The names of attributes: how they are written.", "AId", "name", "names", "AIds", aids, aid_spelt)

    def chosen(function, doc, set_):
        arms = " | ".join(f"AId::{n}" for n in aids if n in set_)
        return (f"    /// {doc}\n    pub fn {function}(self) -> bool\n        ensures {{ result ≡ {function} self }}\n"
                f"    {{\n        matches!(self, {arms})\n    }}\n")

    write("src/inherited.rt",
          "//! Which attributes reach what lies below their element, and for which `none` is as good as no value.\n"
          "ghost use Rattle.std.specs.Prelude.{◌≡◌};\nghost use Rattle.names.specs.AIds.{is_inheritable, none_is_absent};\n\nuse crate::AId;\n\n"
          "impl AId {\n"
          + chosen("is_inheritable", "Whether a value of this name reaches all that lies below its element.", inherited) + "\n"
          + chosen("none_is_absent", "Whether the value `none` says that there is no value.", absent) + "}\n")

    spec("specs/EIds.antt", "The tags of elements: their places and their spellings.", "EId", "tag", eids, eid_spelt)
    spec("specs/AIds.antt", "The names of attributes: their places, which are inherited, which take `none` as absent, and their spellings.",
         "AId", "name", aids, aid_spelt,
         [clauses("is_inheritable", "a value of this name reaches all that lies below its element", "AId", "Bool", truth(inherited)),
          clauses("none_is_absent", "the value `none` says that there is no value", "AId", "Bool", truth(absent))])
    write("proofs/AId/is_inheritable/Answers.antt", each_in_turn("is_inheritable", [n for n in aids if n in inherited]))
    subprocess.run(["rt", "fmt"], cwd=CRATE, check=True)


if __name__ == "__main__":
    main()
