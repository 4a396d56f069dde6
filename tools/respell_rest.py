#!/usr/bin/env python3
"""Spells the names that tools/respell.py left, because a lemma elsewhere has the same name, and shorter names of imports.

usage: python3 tools/respell_rest.py      run once, at the top of the repository, after tools/respell.py
"""
import os
import re

ROWS = [
    ("language/specs/Meaning language/proofs/Growth", "num-of", "num_of"),
    ("grammar/specs/Text", "at-end", "at_end"),
    ("grammar/ steps/proofs/PlacesBound", "not-before", "not_before"),
    ("grammar/specs/Equations grammar/proofs/", "one-is", "one_is"),
    ("bodies/", ".one-is", ".one_is"),
    ("limits/", "size-within", "size_within"),
    ("limits/src/stages", "stage-of", "stage_of"),
    ("lower/specs/Build", "of-program", "of_program"),
    ("lower/specs/Promise", "one-program", "one_program"),
    ("lower/specs/Promise", "never-wrong", "never_wrong"),
    ("lower/proofs/Builds", "one-program =", "one_program ="),
    ("lower/proofs/Builds", "never-wrong =", "never_wrong ="),
    ("lower/proofs/ImageSize", "words-from", "words_from"),
    ("steps/proofs/", "no-more-es", "no_more_es"),
    ("front/proofs/Checked reader/proofs/Checked", "files-l", "files_l"),
    ("front/proofs/Checked reader/proofs/Checked", "items-l", "items_l"),
    ("front/proofs/Checked reader/proofs/Checked", "item-l", "item_l"),
    ("front/proofs/Checked reader/proofs/Checked", "resolved-l", "resolved_l"),
    ("resolver/proofs/CheckedNodes", "no-args", "no_args"),
    ("resolver/", "is_plain_tag", "plain_tag_of"),
    ("stepper/proofs/Routines stepper/proofs/routine/", "vars-is", "vars_is"),
    ("stepper/proofs/Routines stepper/proofs/routine/", "base-is", "base_is"),
    ("assembler/src/", "two-seen", "two_seen"),
]


def main(root):
    for folder, dirs, files in os.walk(os.path.join(root, "crates")):
        dirs[:] = [d for d in dirs if d != "out"]
        for f in files:
            if not f.endswith((".antt", ".rt")):
                continue
            path = os.path.join(folder, f)
            short = os.path.relpath(path, os.path.join(root, "crates"))
            rows = [(a, b) for places, a, b in ROWS if any(short.startswith(p) for p in places.split())]
            if not rows:
                continue
            with open(path, encoding="utf-8") as it:
                old = it.read()
            new = old
            for a, b in rows:
                new = re.sub(("" if a[0] == "." else r"(?<![\w'-])") + re.escape(a) + r"(?![\w'-])", b, new)
            if new != old:
                with open(path, "w", encoding="utf-8") as it:
                    it.write(new)
                print(short)


main(os.getcwd())
