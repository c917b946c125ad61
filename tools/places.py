#!/usr/bin/env python3
"""Prints the places in crates/*/src that docs/DESIGN-PASS.md counts, a line for each, and how many there are.

    python3 tools/places.py            every kind: options, twins, loops, traits, facts, buffers, steps
    python3 tools/places.py loops      one kind
    python3 tools/places.py --at REV   as they stood at a commit
"""
import difflib
import re
import signal
import subprocess
import sys
from collections import defaultdict

# For each kind, what is looked for in a line of code.
LINES = {
    "options": {
        "hands an Option or a Result on by hand": r"Err\((\w+)\) => (return )?Err\(\1\)|\breturn Err\(refusal\)|None => (None|0|Err\(.*\)),$|\bif let Some\(\w+\) = \w+\.at\(",
        "a flag that is a field or a parameter": r"^\s+(pub )?\w+: bool,$|\(.*\b\w+: bool\b.*\)|fn put<.*-> bool",
        "a number for a kind or a refusal": r"\b(kind|product|preconfirmed): u32|Result<\w+, u32>|\[\[u\w+; [79]\]|Err\(\d+\)|\(u32, u32, u32\)|fn outcome",
    },
    "loops": {
        "a loop that counts by hand": r"^\s*for \w+ in .*\.\.|^\s*while ",
    },
    "traits": {
        "a conversion between an enum and its number": r"fn (number|from_number|mark_from_number|into_request)\b",
        "a test of a state or a kind by hand": r"fn is_(network|pending|confirmed|challenged|living)\b",
        "an order or an equality by way of numbers": r"\.number\(\) (==|!=|<|<=|>|>=) ",
        "criteria compared one by one": r"^\s+(one|other)\.[\w.()]+ (<|>) (one|other)\.|return (one|other)\.|one\.minute < other\.minute",
        "words and rows printed by hand": r"fn (\w+_word|yes_or_no|tell_line|decimal_length|write_decimal)\b|println!\(.*number \{number\}",
    },
    "buffers": {
        "a buffer with a length beside it": r"^\s+(pub )?(used|days): (usize|u32),$|, days: u32\)",
        "parallel arrays": r"^\s+(pub )?(amounts|preschedule|free|held|aside): (&|\[)",
        "an array of a fixed length that is used in part": r"= \[0; 31\]|\[none; |\[u32; 31\]",
    },
    "steps": {
        "an enum or a flag that says what to run": r"\b(wanted: MustBe|settles: bool)\b|^\s+match wanted|!settles",
    },
}


def sources(rev):
    """The .rt files below crates/*/src, with their text, in order."""
    if rev:
        names = subprocess.run(["git", "ls-tree", "-r", "--name-only", rev, "crates"], capture_output=True, text=True, check=True).stdout.split()
        for name in sorted(n for n in names if re.fullmatch(r"crates/[^/]+/src/.*\.rt", n)):
            yield name, subprocess.run(["git", "show", f"{rev}:{name}"], capture_output=True, text=True, check=True).stdout
    else:
        names = subprocess.run(["git", "ls-files", "-co", "--exclude-standard", "crates"], capture_output=True, text=True, check=True).stdout.split()
        for name in sorted(n for n in names if re.fullmatch(r"crates/[^/]+/src/.*\.rt", n)):
            yield name, open(name).read()


def by_line(kind, files):
    for what, pattern in LINES[kind].items():
        for name, text in files:
            for n, line in enumerate(text.splitlines(), 1):
                if re.search(pattern, line) and not line.lstrip().startswith("//") and "ensures" not in line and "requires" not in line:
                    yield what, f"{name}:{n}: {line.strip()}"


def functions(files):
    """Each function: its file and line, its name, its clauses, and its body."""
    start = re.compile(r"^( *)(?:pub(?:\(crate\))? )?fn (\w+)")
    for name, text in files:
        lines = text.splitlines()
        for n, line in enumerate(lines):
            head = start.match(line)
            if not head:
                continue
            clauses, body, inside = [], [], False
            for later in lines[n + 1:]:
                stripped = later.strip()
                if not inside and re.match(r"(requires|ensures)\b", stripped):
                    clauses.append(stripped)
                elif later.startswith(head[1] + "{"):
                    inside = True
                elif later.startswith(head[1] + "}") or (not inside and later.startswith(head[1] + "fn")):
                    break
                elif inside:
                    body.append(stripped)
            yield f"{name}:{n + 1}", head[2], clauses, body


def shape(body):
    """The words and signs of a body, with its names and numbers taken out, so that twins read alike."""
    text = re.sub(r"//.*", "", " ".join(body))
    words = re.findall(r"[A-Za-z_]\w*|\d[\d_]*|[^\s\w]", text)
    kept = {"for", "in", "if", "else", "return", "match", "let", "while", "Some", "None", "Ok", "Err", "true", "false"}
    return [w if w in kept or not re.match(r"\w", w) else "x" for w in words]


def twins(files):
    """Pairs of functions whose bodies are of one shape, or nearly so."""
    bodies = [(f"{where}: {name}", shape(body)) for where, name, _, body in functions(files)]
    bodies = [(place, words) for place, words in bodies if len(words) >= 24]
    for i, (one, words) in enumerate(bodies):
        for other, others in bodies[i + 1:]:
            if difflib.SequenceMatcher(None, words, others, autojunk=False).ratio() >= 0.9:
                yield "of nearly one shape", f"{one} and {other}"


def facts(files):
    """Clauses that three functions or more ask for, and parameters that travel together through three or more."""
    asked, together = defaultdict(list), defaultdict(list)
    texts = dict(files)
    for where, name, clauses, _ in functions(files):
        for clause in clauses:
            if clause.startswith("requires"):
                fact = re.sub(r"^requires (\w+ )?\{ ?| ?\}$", "", clause)
                asked[re.sub(r"\.(old|now|new)\b", "", fact)].append(f"{where}: {name}")
        file, line = where.rsplit(":", 1)
        text = "\n".join(texts[file].splitlines()[int(line) - 1:])
        head = re.match(r"[^(]*\((.*?)\)\s*(->|\n|\{)", text, re.S)
        params = re.findall(r"(\w+): ", head[1]) if head else []
        for group in (("sheet", "minute", "request"), ("challenger", "defender", "minute", "posted"), ("start", "days"), ("request", "short")):
            if all(p in params for p in group):
                together[group].append(f"{where}: {name}")
    for fact, places in asked.items():
        if len(places) >= 3:
            yield f"asked by {len(places)} functions", fact
    for group, places in together.items():
        if len(places) >= 3:
            yield f"together in {len(places)} functions", ", ".join(group)


def main(words):
    rev = None
    if "--at" in words:
        rev = words[words.index("--at") + 1]
        words = [w for w in words if w not in ("--at", rev)]
    files = list(sources(rev))
    for kind in words or ["options", "twins", "loops", "traits", "facts", "buffers", "steps"]:
        find = {"twins": twins, "facts": facts}.get(kind, lambda fs, k=kind: by_line(k, fs))
        found = list(find(files))
        print(f"{kind}: {len(found)} places")
        for what, place in found:
            print(f"  {what}: {place}")


signal.signal(signal.SIGPIPE, signal.SIG_DFL)
main(sys.argv[1:])
