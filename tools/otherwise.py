#!/usr/bin/env python3
"""Gives this repository's choice by a Bool, `if c then a else b` of sifc_word/specs/Base.antt, a name of its own: `rt ci` refuses
one that is spelled as the library's. `if◌then◌else◌` becomes `if◌then◌otherwise◌`, and each `else` of it `otherwise`, in
definitions, laws and proofs, in clauses, and in the must-fail edits of these files. Comments, strings and the code of functions
stay. Run it in the repository's root; what it has turned it leaves alone.
"""

import re
from pathlib import Path

OLD, NEW = "if◌then◌else◌", "if◌then◌otherwise◌"
# a comment or a string, which stays, or the word alone
ANTT = re.compile(r'--(?:(?=\s)|$)[^\n]*|"[^"\n]*"|(?<![^\s()\[\]{},;])else(?![^\s()\[\]{},;])')


def turned(text):
    """A text of specs/ or proofs/ with the choice respelled."""
    text = text.replace(OLD, NEW)
    return ANTT.sub(lambda found: "otherwise" if found[0] == "else" else found[0], text)


def edited(text):
    """An edit with the same in what it has of files of specs/ and proofs/."""
    lines, in_antt = [], False
    for line in text.split("\n"):
        if line.startswith("file: "):
            in_antt = line.rstrip().endswith(".antt")
        elif in_antt and line.startswith(("old: ", "new: ")):
            line = line[:5] + turned(line[5:])
        lines.append(line)
    return "\n".join(lines)


def main():
    """Turns each file of the crates, and says how many there were."""
    count = 0
    for path in sorted(Path("crates").rglob("*")):
        if path.suffix not in (".antt", ".rt", ".edit") or "out" in path.parts:
            continue
        text = path.read_text()
        new = turned(text) if path.suffix == ".antt" else edited(text) if path.suffix == ".edit" else text.replace(OLD, NEW)
        if new != text:
            path.write_text(new)
            count += 1
    print(f"{count} files turned")


if __name__ == "__main__":
    main()
