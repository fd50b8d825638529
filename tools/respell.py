#!/usr/bin/env python3
"""Spells the definitions, fields and lemmas of specs/ and proofs/ in snake case: stakeOf becomes stake_of.

    tools/respell.py        at the top of the repository, once, after the toolchain's own port.py

Functions of src/, exported names, strings, inputs and outputs keep their names. A lemma that would
get its function's name has `_lem` after it.
"""

import glob
import re

CAMEL = re.compile(r"(?<![A-Za-z0-9_])[a-z][a-z0-9]*(?:[A-Z][A-Za-z0-9]*)+(?![A-Za-z0-9_])")

# Lemmas, and one constructor, whose names fall together with those of definitions.
TOGETHER = {
    "crates/certificates/proofs/Bytes.antt": {"nums_at": "nums_at_lem"},
    "crates/certificates/proofs/StartLaws.antt": {"nums_at": "nums_at_lem"},
    "crates/trace/proofs/Fronts.antt": {"too_long": "too_long_lem"},
    "crates/trace/proofs/record/split/Proof.antt": {"too_long": "too_long_lem"},
    "crates/nickelhush/proofs/Laws.antt": {"refused_as": "refused_as_lem"},
    "crates/nickelhush/proofs/memory/refuse/Proof.antt": {"refused_as": "refused_as_lem"},
    "crates/reader/proofs/Places.antt": {"by_front": "by_front_lem"},
    "crates/outputs/proofs/ReadBack.antt": {"hash_at": "hash_at_lem"},
    "crates/synchronizer/proofs/Lookups.antt": {"walk_from": "walk_from_lem"},
    "crates/aggregator/proofs/Additions.antt": {"no_room": "no_row"},
    "crates/serving/proofs/StateLaws.antt": {"met_by": "met_by_lem"},
    "crates/serving/proofs/state/met/Proof.antt": {"met_by": "met_by_lem"},
    "crates/replica/proofs/StepLaws.antt": {"room_of": "room_of_lem"},
    "crates/runs/proofs/Late.antt": {"left_by": "left_by_lem"},
}

# Names of the library, in its own spelling today.
LIBRARY = {"getD": "get_or"}


def snake(name):
    name = LIBRARY.get(name, name)
    name = re.sub(r"([a-z0-9])([A-Z])", r"\1_\2", name)
    return re.sub(r"([A-Z]+)([A-Z][a-z])", r"\1_\2", name).lower()


def files():
    for part in ("specs/**/*.antt", "proofs/**/*.antt", "src/*.rt", "must-fail/*.edit"):
        yield from glob.glob("crates/*/" + part, recursive=True)
    yield from ["README.md", "bench/README.md", "hosts/README.md", "oracle/README.md"]
    yield from glob.glob("docs/*.md")


def main():
    text = {path: open(path, encoding="utf-8").read() for path in files()}
    own = set()
    for path, it in text.items():
        if path.endswith((".antt", ".rt")):
            own.update(CAMEL.findall(it))
    for path, it in text.items():
        new = it
        for old, name in TOGETHER.get(path, {}).items():
            new = re.sub(r"(?<![A-Za-z0-9_])%s(?![A-Za-z0-9_])" % old, name, new)
        new = CAMEL.sub(lambda m: snake(m[0]) if m[0] in own else m[0], new)
        if new != it:
            open(path, "w", encoding="utf-8").write(new)


main()
