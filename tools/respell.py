#!/usr/bin/env python3
"""Respells the repository's own definitions, fields and lemmas by the table beside this file.

usage: python3 tools/respell.py        at the top of the repository, once, after the kit's port.py

It goes through crates/: .antt files, .rt files, must-fail edits, and names in backticks in the pages. Comments and strings are
left as they are.
"""

import os
import re

HERE = os.path.dirname(os.path.realpath(__file__))
TOKEN = re.compile(r"[\w'⁰⁺-]+")
COMMENT = {".antt": "--", ".rt": "//"}


def table():
    everywhere, in_one_file = {}, {}
    with open(os.path.join(HERE, "respelled.txt"), encoding="utf-8") as lines:
        for line in lines:
            words = line.split("#")[0].split()
            if len(words) == 2:
                everywhere[words[0]] = words[1]
            elif len(words) == 3:
                in_one_file.setdefault(words[2], {})[words[0]] = words[1]
    return everywhere, in_one_file


def respelled(text, names):
    return TOKEN.sub(lambda m: names.get(m.group(0), m.group(0)), text)


def line_respelled(line, names, comment):
    # what stands in double quotes is a string of the source
    code, mark, rest = line.partition(comment) if comment else (line, "", "")
    parts = code.split('"')
    parts[::2] = [respelled(part, names) for part in parts[::2]]
    return '"'.join(parts) + mark + rest


def in_backticks(text, names):
    return re.sub(r"`[^`\n]*`", lambda m: respelled(m.group(0), names), text)


def turned(path, text, names):
    ending = os.path.splitext(path)[1]
    if ending == ".md":
        return in_backticks(text, names)
    if ending == ".edit":
        keep = ("old:", "new:")
        return "\n".join(line_respelled(l, names, None) if l.startswith(keep) else l for l in text.split("\n"))
    return "\n".join(line_respelled(l, names, COMMENT[ending]) for l in text.split("\n"))


def paths():
    for top in ("crates", "docs"):
        for folder, dirs, files in os.walk(top):
            dirs[:] = sorted(d for d in dirs if d != "out")
            for name in sorted(files):
                if name.endswith((".antt", ".rt", ".edit", ".md")):
                    yield os.path.join(folder, name)
    yield "README.md"


def main():
    everywhere, in_one_file = table()
    for path in paths():
        with open(path, encoding="utf-8") as f:
            text = f.read()
        new = turned(path, text, everywhere | in_one_file.get(path, {}))
        if new != text:
            with open(path, "w", encoding="utf-8") as f:
                f.write(new)


main()
