#!/usr/bin/env python3
"""Turns the repository's own camel-case words of definitions and lemmas to snake case, in sources, definitions, proofs and must-fail edits.

usage: python3 tools/respell.py [--dry]     at the top of the repository, once, after the kit's own scripts

A name is a row of words joined by dashes, and each word that begins with a small letter and has a capital after it is turned: newLabelBy is
new_label_by, tables-takeOut is tables-take_out. Names of the library keep their spelling, and so do types, constructors and modules, which begin with
a capital. It prints each file where a word comes to be spelled as another that stood there.
"""

import glob
import os
import re
import sys

# Lemmas that would come to be spelled as the definition that they speak of: what a file calls them, and what it then calls them.
LEMMAS = {
    "crates/base/proofs/Lists.antt": {"all_in": "all_in-each"},
    "crates/model/proofs/Range.antt": {"all_in": "all_in-each"},
    "crates/formats/proofs/EntryLaws.antt": {"plain_body": "plain_body-with"},
    "crates/fraction/proofs/Simplest.antt": {"least_above": "least_above-is"},
    "crates/steps/proofs/running/run/Proof.antt": {"goes_on": "goes_on-begun"},
    "crates/text/proofs/TextLaws.antt": {"digits_of": "digits_of-last"},
}
# Modules that have a name which Rattle now gives to a module of its own.
MODULES = {
    "crates/console/specs/Contracts.antt": "EntryContracts",
    "crates/script/specs/Contracts.antt": "ScriptContracts",
    "crates/text/specs/Contracts.antt": "TextContracts",
}
# Of the library, or of what Rattle makes.
KEPT = {"andThen", "uint_Tells", "mut_slice_Tells", "walk_Meets", "is_Known", "uint_Makes", "mut_Tells"}
NAME = re.compile(r"(?<![A-Za-z0-9_'\-])[A-Za-z][A-Za-z0-9_'\-₀-₉]*")
CAMEL = re.compile(r"[a-z][a-z0-9_]*[A-Z][A-Za-z0-9_]*(?P<end>'*[₀-₉]*)$")


def respelled(word):
    if word in KEPT or not CAMEL.match(word):
        return word
    return re.sub(r"(?<=[a-z0-9])([A-Z])", lambda m: "_" + m.group(1).lower(), word)


def turned(name):
    return "-".join(respelled(word) for word in name.split("-"))


def main():
    dry = "--dry" in sys.argv[1:]
    changed = 0
    for path in sorted(glob.glob("crates/**/*", recursive=True)):
        if not path.endswith((".rt", ".antt", ".edit")):
            continue
        with open(path, encoding="utf-8") as f:
            text = f.read()
        for lemma, name in LEMMAS.get(path, {}).items():
            text = re.sub(r"(?<![.\w'-])" + lemma + r"(?![\w'.-])", name, text)
        stood = {m.group(0) for m in NAME.finditer(text)}
        together = sorted({n for n in stood if turned(n) != n and turned(n) in stood})
        if together:
            print(f"{path}: {' '.join(together)}")
        new = NAME.sub(lambda m: turned(m.group(0)), text)
        for module, name in MODULES.items():
            crate = module.split("/")[1]
            new = new.replace(f"Rattle.{crate}.specs.Contracts", f"Rattle.{crate}.specs.{name}")
            if path == f"crates/{crate}/specs/Lib.antt":
                new = re.sub(r"(?m)^pub mod Contracts$", f"pub mod {name}", new)
        if path.endswith(".edit"):
            # A projection is written tight.
            new = re.sub(r"(?<=[\w)']) \.(?=[\w«])", ".", new)
        if new != text or path in LEMMAS:
            changed += 1
            if not dry:
                with open(path, "w", encoding="utf-8") as f:
                    f.write(new)
    for module, name in MODULES.items():
        if not dry and os.path.exists(module):
            os.rename(module, os.path.join(os.path.dirname(module), name + ".antt"))
    print(f"files changed: {changed}")


if __name__ == "__main__":
    main()
