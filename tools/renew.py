#!/usr/bin/env python3
"""Turns the names of goals and steps in proof files to those that today's check gives.

usage: python3 tools/renew.py CRATE..      at the top

Names from the sources keep their underscores there, as read_field, and the words of the check that join two words have one too,
as in_err and overflow_cast. Lemmas and definitions are left alone.
"""
import glob
import re
import sys

WORDS = ["in_err", "in_ok", "in_default", "from_residual", "type_inv", "overflow_cast", "overflow_mul", "overflow_sub", "overflow_add", "overflow_shl", "overflow_shr", "overflow_div", "into_iter"]


def identifiers():
    found = set()
    for path in glob.glob("crates/*/src/**/*.rt", recursive=True):
        found |= set(re.findall(r"\b[a-z][a-z0-9]*(?:_[a-z0-9]+)+\b", open(path, encoding="utf-8").read()))
    return found | {"div_ceil", "is_empty", "is_some", "is_ok", "is_err", "as_bytes", "count_ones", "trailing_zeros", "copy_from_slice"}


def main():
    names = sorted(identifiers() | set(WORDS), key=len, reverse=True)
    for crate in sys.argv[1:]:
        for kind in ("Answers", "Invariants", "Choices"):
            for path in glob.glob(f"crates/{crate}/proofs/**/{kind}.antt", recursive=True):
                text = open(path, encoding="utf-8").read()
                fresh = text
                for name in names:
                    dashed = name.replace("_", "-")
                    fresh = re.sub(r"(?<![A-Za-z0-9_'])" + re.escape(dashed) + r"(?![A-Za-z0-9_'])", name, fresh)
                if fresh != text:
                    open(path, "w", encoding="utf-8").write(fresh)


main()
