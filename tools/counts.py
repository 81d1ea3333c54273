#!/usr/bin/env python3
"""How much stands in the crates: crates, functions, statements, edits that must fail, wrong answers in them, and texts
beside these that change nothing (`same:`, tools/edits.py).

.ci/counts has the numbers, and the gate holds the crates to it: what is taken away shows as a change of that file.

  tools/counts.py           prints the numbers
  tools/counts.py --check   fails where .ci/counts has others
  tools/counts.py --write   writes .ci/counts
"""

import re
import sys
from pathlib import Path

ROOT = Path(__file__).resolve().parent.parent
KEPT = ROOT / ".ci" / "counts"


def listed():
    """The crates that crates.txt lists."""
    return re.findall(r"^(\w+)(?: staticlib)?:", (ROOT / "crates.txt").read_text(), re.M)


def texts(pattern):
    """The files that a pattern names in the crates."""
    return [path.read_text() for crate in listed() for path in sorted((ROOT / "crates" / crate).glob(pattern))]


def laws():
    """The files of definitions and lemmas, without those that prove one function: what stands in or below a folder with its
    invariants, answers or walk."""
    folders = [ROOT / "crates" / crate / kind for crate in listed() for kind in ("specs", "proofs")]
    paths = [path for folder in folders for path in sorted(folder.glob("**/*.antt"))]
    ours = {path.parent for path in paths if path.name in ("Invariants.antt", "Answers.antt", "Proof.antt")}
    return [path.read_text() for path in paths if not ours.intersection(path.parents)]


def functions():
    """The functions of the code: each is proved."""
    return sum(len(re.findall(r'^ *(?:pub )?(?:extern "C" )?fn \w+', text, re.M)) for text in texts("src/**/*.rt"))


def statements(text):
    """The public statements of a file: laws and worked cases, and no abbreviation, definition, record or field."""
    count, in_module = 0, False
    for line in text.split("\n"):
        if re.match(r"\S", line) and not line.startswith("--"):
            in_module = line.startswith("module ")
        if re.match(r"pub (?!mod |use |record |data )\S+ :", line):
            count += 1
        elif in_module and re.match(r"  pub (?!record |data )\S+ :", line):
            count += 1
    return count


def wrong_answers(text):
    """The functions that an edit names in its header, or 1 for a definition."""
    return len(re.findall(r"^# [\w:]+: ", text, re.M))


def counted():
    """All numbers, as .ci/counts has them."""
    edits = texts("must-fail/*.edit")
    numbers = {
        "crates": len(listed()),
        "functions": functions(),
        "statements": sum(statements(text) for text in laws()),
        "edits": len(edits),
        "wrong answers": sum(wrong_answers(text) for text in edits),
        "texts that change nothing": sum(len(re.findall(r"^same: ", text, re.M)) for text in edits),
    }
    return "".join(f"{name}: {number}\n" for name, number in numbers.items())


def main(words):
    """Prints the numbers, writes them or holds the crates to them."""
    said = counted()
    if words == ["--write"]:
        KEPT.write_text(said)
    print(said, end="")
    if words == ["--check"] and KEPT.read_text() != said:
        print(f"counts: .ci/counts has other numbers:\n{KEPT.read_text()}", end="", file=sys.stderr)
        return 1
    return 0


if __name__ == "__main__":
    sys.exit(main(sys.argv[1:]))
