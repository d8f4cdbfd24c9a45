#!/usr/bin/env python3
"""Turns this repository's own definitions and lemmas to the spelling of today's Rattle: words in snake case, types and modules in camel case.

usage: python3 tools/respell.py [FOLDER]     in a repository that the kit's port/port.py has turned, once

It rewrites, in place, the .antt and .rt files below crates/: each word in lower camel case (all are names of definitions, of lemmas or of their
variables; Rust's own names have none), the seven lemmas that would then have the name of a definition, and the names with a middle dot under which
.rt files import a definition that has a function's name. Must-fail edits, docs and tools are not touched.
"""

import glob
import re
import sys

CAMEL = re.compile(r"(?<![A-Za-z0-9_'])[a-z][a-z0-9]*(?:[A-Z][a-z0-9]*)+(?![A-Za-z0-9_'])")
# Lemmas that port.py gave the name that a definition has now, and fell together with it.
LEMMAS = {
    "entered_by": ["transcript/specs/Steps.antt", "desk/", "entries/"],
    "leaves_of": ["answers/specs/AuctionCalls.antt"],
    "member_of": ["desk_auction/specs/AuctionCalls.antt", "clearing_laws/specs/Owed.antt"],
    "on_step": ["terms/specs/Made.antt", "terms/proofs/parameters/Parameters/new/Proof.antt"],
    "rest_from": ["auction/specs/"],
    "settled_at": ["book/specs/Settling.antt"],
    "write_done": ["writer/"],
}
ALIAS = re.compile(r"([A-Za-z_']+) as ([A-Z][A-Za-z]*)·([A-Za-z_]+)")


def snake(word):
    return re.sub(r"(?<=[a-z0-9])([A-Z])", lambda m: "_" + m.group(1).lower(), word)


def respelled(text):
    return CAMEL.sub(lambda m: snake(m.group()), text)


def without_dots(text, fields):
    """Names with a middle dot: a variant as Type.Variant, with no import; else the bare name where it is no field's or parameter's; else with the module's name."""
    text = re.sub(r"ghost use Rattle\.records\.specs\.declared\.kinds\.Record\.TheVariants\.\{[^}]*·record[^}]*\};\n", "", text)
    text = re.sub(r"(?<![A-Za-z])([A-Z][a-z]+)·record(?![A-Za-z_])", r"Record.\1", text)
    for name, module, last in ALIAS.findall(text):
        bare = snake(name)
        new = snake(module[0].lower() + module[1:]) + "_" + bare if bare in fields else bare
        text = text.replace(f"{name} as {module}·{last}", name if bare not in fields else f"{name} as {new}")
        text = re.sub(r"(?<![A-Za-z])%s·%s(?![A-Za-z_])" % (module, last), new, text)
    return text


def main(argv):
    root = argv[0] if argv else "."
    files = sorted(glob.glob(root + "/crates/*/src/**/*.rt", recursive=True))
    files += sorted(glob.glob(root + "/crates/*/specs/**/*.antt", recursive=True)) + sorted(glob.glob(root + "/crates/*/proofs/**/*.antt", recursive=True))
    fields = set()
    for path in files:
        if path.endswith(".rt"):
            with open(path, encoding="utf-8") as f:
                fields |= set(re.findall(r"\b([a-z][a-z0-9_]*): ", f.read()))
    for path in files:
        with open(path, encoding="utf-8") as f:
            old = f.read()
        new = old
        if path.endswith(".antt"):
            for name, places in LEMMAS.items():
                if any("/crates/" + place in path for place in places):
                    new = re.sub(r"(?<![A-Za-z0-9_'.·-])%s(?![A-Za-z0-9_'-])" % name, name + "_lem", new)
        else:
            new = without_dots(new, fields)
        new = respelled(new).replace("written as the-written-Writing", "written").replace("the-written-Writing", "written")
        if new != old:
            with open(path, "w", encoding="utf-8") as f:
                f.write(new)
    return 0


if __name__ == "__main__":
    raise SystemExit(main(sys.argv[1:]))
