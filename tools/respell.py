#!/usr/bin/env python3
"""Brings the repository's own names to the spelling of today's Rattle, once, right after the kit's port.py: run it at the top of the repository.

port.py respells the language and the library. This turns the definitions and lemmas that are the repository's own: a name in camel case that begins
with a small letter becomes snake case (builtG1: built_g1), inside a lemma's name too (measuredD0-told: measured_d0-told). Facts and types keep their
capital, functions of src/, strings and texts of programs keep their names. Where two names would fall together, TAKEN says what the definition is called."""
import glob
import os
import re
import sys

# What would fall together with a function, a variable or a label of that name.
TAKEN = {"pageAfter": "page_after_write", "oneEach": "one_each_slot", "pageRead": "page_reading", "forR": "place_r", "forQ": "place_q", "getD": "get_or", "token-upTo": "token-up_to"}
# Parameters of the same names, in files where they are no definitions.
PARAMETERS = {"forP": "for_p", "forR": "for_r", "forQ": "for_q"}
DEFINED = re.compile(r"^\s*(?:abbrev |unfoldable )?(?:pub )?([^\s:(){}λ.,;=]+)(?: \{[^}]*\})?(?: [({].*)? : ")
WORD = re.compile(r"[A-Za-z_][A-Za-z0-9_']*")


def snake(name):
    return re.sub(r"(?<=[a-z0-9])([A-Z])", lambda m: "_" + m[1].lower(), name)


def files(*patterns):
    return sorted(f for p in patterns for f in glob.glob(p, recursive=True) if os.path.isfile(f) and "/out/" not in f)


def own_names():
    """The words in camel case of the names that specs/ and proofs/ define, and what each becomes."""
    words = {}
    for f in files("crates/*/specs/**/*.antt", "crates/*/proofs/**/*.antt"):
        for line in open(f, encoding="utf-8"):
            m = DEFINED.match(line)
            for w in re.split(r"-", m[1]) if m else []:
                if re.fullmatch(r"[a-z][A-Za-z0-9_']*", w) and re.search(r"[a-z0-9][A-Z]", w):
                    words[w] = TAKEN.get(w, snake(w))
    return words


def main():
    words = own_names()
    there = {w for f in files("crates/**/*.rt", "crates/**/*.antt") for w in WORD.findall(open(f, encoding="utf-8").read())}
    fallen = sorted(v for k, v in words.items() if v in there and k not in ("getD", "upTo"))
    if fallen:
        sys.exit("these names would fall together with others: " + " ".join(fallen))
    for f in files("crates/**/*.rt", "crates/**/*.antt", "crates/*/must-fail/*.edit"):
        old = open(f, encoding="utf-8").read()
        mine = dict(PARAMETERS, **words) if "/tableverbs/" in f else dict(words, **PARAMETERS)
        new = WORD.sub(lambda m: mine.get(m[0], m[0]), old)
        if new != old:
            open(f, "w", encoding="utf-8").write(new)


if __name__ == "__main__":
    main()
