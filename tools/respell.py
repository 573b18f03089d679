#!/usr/bin/env python3
"""Brings to one spelling what port.py and tools/spell.py left in two.

usage: python3 tools/respell.py      at the top of the repository, once, after tools/spell.py

Fields of records in specs/ that still join words by a dash get snake case, as the others have; `getD` in names of lemmas, which
became `get_d`, is the library's `get_or`; and where the scripts wrote another name of the same word of the library for some uses of
it (`nat_lt`, `nat_le`, `slice_index`, `slice_index_or`), the word that the rest of the file or repository says stands again.
"""
import glob
import re

WORD = re.compile(r"[^\s(){}.;,@\"«»\[\]\\:`|/]+")
FIELDS = (
    "make-tells check-tells check-passes lookup-tells scan-tells insert-tells delete-tells run-tells request-refused lookup-refused "
    "scan-refused make-refused run-refused run-stops run-is-singly run-in-two request-keeps run-keeps is-set sequence-answered "
    "mixed-answered request-ruled sequence-ruled counts-are split-is climb-is insert-finds cells-aim lent-inside sizes-kept sweeps-told "
    "is-room lent-left slots-left cards-left table-left totals-left forecast-left reply-left cards-output"
).split()
EVERYWHERE = {name: name.replace("-", "_") for name in FIELDS}
EVERYWHERE |= {"get_d_zip": "get_or-zip", "get_d_past": "get_or-past", "get_d_front": "get_or-front"}
# Of one file: the library's word that its neighbours say.
HERE = {
    "crates/seeking/specs/Spots.antt": {"nat_lt": "ltb"},
    "crates/marks/specs/Marking.antt": {"nat_le": "leb"},
    "crates/marks/src/lib.rt": {"slice_index_or": "get_or"},
}


def main():
    paths = [p for part in ("specs/**/*.antt", "proofs/**/*.antt", "src/**/*.rt", "must-fail/*.edit") for p in glob.glob(f"crates/*/{part}", recursive=True)]
    for path in paths:
        with open(path, encoding="utf-8", newline="") as it:
            text = it.read()
        turned = EVERYWHERE | HERE.get(path, {})
        new = WORD.sub(lambda it: turned.get(it[0], it[0]), text)
        if path == "crates/marks/src/lib.rt":
            new = re.sub(r"slice_index counts\.now k(?= ≤)", "get_or counts.now k 0", new)
            new = new.replace("slice_index, get_or}", "get_or}")
        if path == "crates/seeking/specs/Spots.antt":
            new = new.replace("length, ltb, if◌", "length, if◌")
        if new != text:
            with open(path, "w", encoding="utf-8", newline="") as it:
                it.write(new)


main()
