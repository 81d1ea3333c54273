#!/usr/bin/env python3
"""Brings the repository's own words of specs/ and proofs/ to the spelling of today's Rattle: definitions and lemmas in snake case,
types in upper camel case. It ran once, right after the kit's port.py (docs/PORT.md), and goes by text:

  tools/respell.py          rewrites crates/ and docs/
  tools/respell.py --list   prints the table, an old and a new name a line, and writes nothing

A name has parts, joined by dashes; a part with a hump, as `walkedTo`, becomes `walked_to`, and a type with dashes, as `Goes-any`,
becomes `GoesAny`. Functions of src/, exported names, strings, inputs and outputs keep their names. A new name that something
else has already gets another ending (`OTHERS`).
"""

import os
import re
import sys
from pathlib import Path

ROOT = Path(__file__).resolve().parent.parent
DECLARED = re.compile(r"(?m)^\s*(?:(?:abbrev|unfoldable|pub|opaque)\s+)*([^\W\d][\w'₀-₉-]*)\s+:\s")
TYPE = re.compile(r"(?m)^\s*(?:pub\s+)?(?:record|data|module)\s+([^\W\d][\w'₀-₉-]*)")
ALIAS = re.compile(r"\bas ([^\W\d][\w'₀-₉-]*)")
WORD = re.compile(r"(?<![\w'₀-₉-])[^\W\d][\w'₀-₉-]*")
STRING = re.compile(r'b?"(?:[^"\\\n]|\\.)*"')
# New names that would fall together with another: the old name, and the new one.
OTHERS = {
    "allAscii": "are_all_ascii",
    "goesOn": "does_go_on",
    "movedOn": "moved_on_by",
    "noneOf": "has_none_of",
    "sameBytes": "bytes_same",
}


def files(*patterns):
    """The files below crates/ that the patterns name, without what rt made."""
    for pattern in patterns:
        for path in sorted((ROOT / "crates").glob(pattern)):
            if "out" not in path.relative_to(ROOT / "crates").parts:
                yield path


def snake(part):
    """A part of a name in snake case, if it begins small and has a hump."""
    if not re.match(r"[a-z][a-z0-9_]*[A-Z]", part):
        return part
    return re.sub(r"(?<=[a-z0-9])(?=[A-Z])|(?<=[A-Z])(?=[A-Z][a-z])", "_", part).lower()


def new_name(name):
    """The new spelling of a name that the crates declare."""
    if name in OTHERS:
        return OTHERS[name]
    if re.match(r"[A-Z]", name):
        return "".join(it[:1].upper() + it[1:] for it in name.split("-"))
    return "-".join(snake(it) for it in name.split("-"))


def declared():
    """Each name that the crates' antt files or imports declare."""
    found = set()
    for path in files("*/specs/**/*.antt", "*/proofs/**/*.antt"):
        text = path.read_text()
        found |= set(DECLARED.findall(text)) | set(TYPE.findall(text)) | set(ALIAS.findall(text))
    for path in files("*/src/**/*.rt"):
        for line in re.findall(r"(?m)^ghost use [^;]*;", path.read_text()):
            found |= set(ALIAS.findall(line))
    return found


def table():
    """The names whose spelling changes, each with its new one."""
    pairs = {name: new_name(name) for name in declared()}
    return {old: new for old, new in pairs.items() if old != new}


def turned(text, pairs, keeps_strings):
    """The text with each name turned. A dashed name that is not declared goes by its parts."""

    def one(match):
        word = match[0]
        if word in pairs:
            return pairs[word]
        return "-".join(pairs.get(it, it) if re.match("[a-z]", it) else it for it in word.split("-"))

    if not keeps_strings:
        return WORD.sub(one, text)
    out, at = [], 0
    for it in STRING.finditer(text):
        out += [WORD.sub(one, text[at : it.start()]), it[0]]
        at = it.end()
    return "".join([*out, WORD.sub(one, text[at:])])


def main():
    pairs = table()
    if sys.argv[1:] == ["--list"]:
        print("\n".join(f"{old} {new}" for old, new in sorted(pairs.items())))
        return
    names = declared()
    rust = "\n".join(path.read_text() for path in files("*/src/**/*.rt"))
    code = re.sub(r"(?m)^ghost use [^;]*;|^\s*(?:requires|ensures)\b.*$|//.*", "", rust)
    for old, new in sorted(pairs.items()):
        if new in names and new not in pairs:
            print(f"falls together with a name of specs/ or proofs/: {old} {new}")
        if re.search(rf"\b{re.escape(new)}\b(?!\s*[(<])", re.sub(r"(?m)^\s*(?:pub )?use .*$", "", code)):
            print(f"falls together with a name of src/: {old} {new}")
    for new in sorted({it for it in pairs.values() if list(pairs.values()).count(it) > 1}):
        print(f"two names become one: {new}: {', '.join(old for old in pairs if pairs[old] == new)}")
    if "--try" in sys.argv:
        return
    for path in files("*/specs/**/*.antt", "*/proofs/**/*.antt", "*/src/**/*.rt", "*/must-fail/*.edit"):
        text = path.read_text()
        new = turned(text, pairs, path.suffix == ".rt")
        if new != text:
            path.write_text(new)
    for path in sorted((ROOT / "docs").glob("*.md")):
        text = path.read_text()
        path.write_text(re.sub(r"`[^`\n]+`", lambda it: turned(it[0], pairs, False), text))


if __name__ == "__main__":
    main()
