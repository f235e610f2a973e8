#!/usr/bin/env python3
"""Spells the names of this repository's definitions and lemmas as today's Rattle does.

usage: python3 tools/respell.py      at the top, once, directly after /opt/rattle/port/port.py

Facts and types: camel case, as Reads-header to ReadsHeader. All other names: snake case, as first-no to first_no. A dash stays
where it joins the names of two functions, as in length-field, and getD, which is gone, is get_or there. Only names that
crates/*/specs and crates/*/proofs declare are touched, wherever they stand in .antt and .rt files; the goals that Rattle names
are not. Functions of src/, strings, inputs, outputs and must-fail edits keep their text.
"""
import collections
import glob
import os
import re

# Lemmas named for the outer and the inner function of their left side.
JOINED = set("""length-bits length-bytes length-card length-field length-filled length-head length-marks length-packed length-row
length-rows number-field has-and has-or has-xor has-not has-shl has-pow has-zero""".split())
TURNED = {
    "getD_bits": "get_or-bits",
    "getD-field": "get_or-field",
    "getD-marks": "get_or-marks",
    "getD-same": "get_or_same",
    "getD-zeros": "get_or-zeros",
}
# Names of parameters and of cases.
BOUND = set("small-zeroed small-new is-rest n-fits p-fits m-fits q-fits no-to".split())
GOAL = re.compile(r"^(returns|loop|invariant|decreases|overflow|[a-z_-]+-requires$)")
TOKEN = re.compile(r"[^\s(){}\[\];,.λ\"|·`]+")
DECLARED = re.compile(r"(?m)^\s*(?:abbrev |unfoldable )?(?:pub )?(?:record |data )?([^\s(){}\[\];,.λ\":|]+)\s+(?:\(.*\)\s*)?:(?!:)\s")


def files(pattern):
    return sorted(f for f in glob.glob(pattern, recursive=True) if "/out/" not in f)


def spelled(name):
    if name in TURNED:
        return TURNED[name]
    if name in JOINED:
        return name
    parts = name.split("-")
    if name[0].isupper():
        return "".join(p[0].upper() + p[1:] for p in parts)
    return "_".join(parts)


def declared():
    names = set(TURNED) | BOUND
    for path in files("crates/*/specs/**/*.antt") + files("crates/*/proofs/**/*.antt"):
        text = re.sub(r"--.*", "", open(path, encoding="utf-8").read())
        answers = os.path.basename(path) in ("Answers.antt", "Invariants.antt", "Choices.antt")
        found = DECLARED.findall(text) + re.findall(r"\bas ([^\s,}]+)", text) + re.findall(r"\blet ([^\s(){}]+) (?::|=)", text)
        for name in found:
            if re.search(r"\w-\w", name) and not (answers and GOAL.match(name)):
                names.add(name)
    return names


def main():
    turned = {n: spelled(n) for n in declared() if spelled(n) != n}
    clash = collections.Counter(turned.values())
    for new, count in clash.items():
        if count > 1:
            print("fall together:", new, [n for n in turned if turned[n] == new])
    for path in files("crates/**/*.antt") + files("crates/*/src/**/*.rt"):
        text = open(path, encoding="utf-8").read()
        tokens = set(TOKEN.findall(text))
        for old, new in turned.items():
            if old in tokens and new in tokens:
                print("both stand in", path + ":", old, new)
        fresh = TOKEN.sub(lambda m: turned.get(m.group(0), m.group(0)), text)
        if fresh != text:
            open(path, "w", encoding="utf-8").write(fresh)
    print(len(turned), "names")


if __name__ == "__main__":
    main()
