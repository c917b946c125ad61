#!/usr/bin/env python3
"""Brings the names of goals and steps in proofs/ to the spelling of the source: where the source has gives_way, a goal's name has
gives_way too, no longer gives-way.

usage: python3 tools/goal_names.py [CRATE..]       at the top of the repository, once, after tools/respell.py
"""

import os
import re
import sys

# words that Rattle itself puts into the names of goals
WORDS = ["overflow_add", "overflow_sub", "overflow_mul", "overflow_cast", "overflow_shl", "overflow_shr", "overflow_step", "slice_bounds", "offset_bounds", "invariant_of", "in_default"]


def files(folder, ending):
    for where, dirs, names in os.walk(folder):
        dirs[:] = sorted(d for d in dirs if d != "out")
        for name in sorted(names):
            if name.endswith(ending):
                yield os.path.join(where, name)


def source_names():
    found = set(WORDS)
    for path in files("crates", ".rt"):
        with open(path, encoding="utf-8") as f:
            code = "\n".join(line.split("//")[0] for line in f if not line.lstrip().startswith("ghost use"))
        found |= set(re.findall(r"\b[a-z][a-z0-9]*(?:_[a-z0-9]+)+\b", code))
    return found


def main():
    dashed = {name.replace("_", "-"): name for name in source_names()}
    # a name of the source is a part of a goal's name: it ends where a dash, a plus or the name itself ends
    part = re.compile(r"(?<![\w'])(" + "|".join(sorted(map(re.escape, dashed), key=len, reverse=True)) + r")(?![\w'])")
    for crate in sys.argv[1:] or sorted(os.listdir("crates")):
        for path in files(os.path.join("crates", crate, "proofs"), ".antt"):
            with open(path, encoding="utf-8") as f:
                text = f.read()
            lines = [line if line.lstrip().startswith("--") else part.sub(lambda m: dashed[m.group(1)], line) for line in text.split("\n")]
            if "\n".join(lines) != text:
                with open(path, "w", encoding="utf-8") as f:
                    f.write("\n".join(lines))


main()
