#!/usr/bin/env python3
"""side_by_side.py: old and new texts of what a commit changed, one under the other, in Markdown.

It reads from standard input what the comparison of contracts prints of two commits, as text or, with nothing left out, as JSON,
and writes to standard output: for each crate the signatures, contracts, definitions and edits that changed, and what went.
"""
import ast, collections, json, re, sys, textwrap

WIDTH = 120
KINDS = ["signatures", "contracts", "definitions", "ghost items and constants", "edits and outputs"]
HEADINGS = {"edits and outputs": "edits that must fail, and outputs"}
# how the text names a kind at the head of an entry
ENTRY = re.compile(r"^(signature|contract|definitions, changed|ghost items and constants, changed|edits and outputs, changed): (\S+) (.*)$")
GONE = re.compile(r"^(functions not found again|.*, gone): (\S+) (.*)$")
# findings that a reader must judge
JUDGE = ("ensures all gone", "fewer ensures", "more requires", "no longer pub", "a new Wait or Threads")


class Found:
    """What the comparison says: changed texts by kind, what went, what is to be judged, the counts, and how many entries it left out."""

    def __init__(self):
        self.changed = {kind: [] for kind in KINDS}
        self.gone = collections.OrderedDict()
        self.judge, self.counts, self.left_out = [], [], 0

    def add(self, kind, crate, name, old, new):
        self.changed[kind].append((crate, name, old, new))

    def lose(self, kind, crate, name):
        self.gone.setdefault((kind, crate), []).append(name)


def plain(text):
    """A definition's texts without the list in which they are printed; a clause or an edit as it is. A text of 300 characters is cut off."""
    if text.startswith(("['", '["')):
        if text.endswith(("']", '"]')):
            return ast.literal_eval(text)
        return [text[2:] + " .."]
    return [text + " .." if len(text) >= 300 else text]


def of_text(lines):
    found, last = Found(), None
    for line in (line.rstrip("\n") for line in lines):
        entry, gone = ENTRY.match(line), GONE.match(line)
        if line.startswith(("    - ", "    + ")) and last:
            last[0 if line[4] == "-" else 1].extend(plain(line[6:]))
            continue
        last = None
        if entry:
            kind = entry[1].split(", ")[0]
            last = ([], [])
            found.add(kind if kind in KINDS else kind + "s", entry[2], entry[3], *last)
        elif gone:
            found.lose(gone[1].split(", ")[0], gone[2], gone[3])
        elif line.startswith(JUDGE):
            found.judge.append(line)
        elif line.startswith("  .. and "):
            found.left_out += int(line.split()[2])
        elif " -> " in line:
            found.counts.append(line)
    return found


def clause(word, name, text):
    return f"{word} {name} {{ {text} }}" if name else f"{word} {{ {text} }}"


def texts(value):
    return value if isinstance(value, list) else [value]


def of_json(read):
    found = Found()
    for name, old, new in read["signatures changed"]:
        found.add("signatures", *name.split(" ", 1), [old], [new])
    for name, old_requires, old_ensures, new_requires, new_ensures in read["contracts changed"]:
        clauses = []
        for requires, ensures in ((old_requires, old_ensures), (new_requires, new_ensures)):
            clauses.append([clause("requires", *c) for c in requires] + [clause("ensures", *c) for c in ensures])
        both = set(clauses[0]) & set(clauses[1])
        found.add("contracts", *name.split(" ", 1), *([c for c in side if c not in both] for side in clauses))
    for kind in KINDS[2:]:
        for *key, old, new in read[kind]["changed"]:
            if kind.startswith("edits") and "/" not in key[-1]:
                old, new = "digest " + old, "digest " + new
            found.add(kind, key[0], " ".join(key[1:]), texts(old), texts(new))
        for key in read[kind]["gone"]:
            found.lose(kind, key[0], " ".join(key[1:]))
        found.counts.append(f"{kind} {read[kind]['old']} -> {read[kind]['new']}: the same {read[kind]['same']}, changed {len(read[kind]['changed'])}, gone {len(read[kind]['gone'])}")
    for name in read["functions not found again"]:
        found.lose("functions not found again", *name.split(" ", 1))
    found.judge = [f"{label}: {row}" for label in JUDGE for row in read[label]]
    found.counts.insert(0, "functions {} -> {}".format(*read["functions"]))
    return found


def wrapped(text):
    for line in text.split("\n"):
        yield from textwrap.wrap(line, WIDTH - 2, subsequent_indent="    ", break_long_words=False, break_on_hyphens=False) or [""]


def side(mark, items):
    for item in items or ["(none)"]:
        for i, line in enumerate(wrapped(item)):
            yield (mark if i == 0 else " ") + " " + line


def write(found):
    print("\n".join("- " + line for line in found.counts))
    if found.left_out:
        print(f"\n{found.left_out} entries are left out of the input; its JSON form has all.")
    if found.judge:
        print("\nTo be judged by a reader:\n\n" + "\n".join("- " + line for line in found.judge))
    for kind in KINDS:
        if not found.changed[kind]:
            continue
        print(f"\n### {HEADINGS.get(kind, kind).capitalize()}")
        crate = None
        for entry in sorted(found.changed[kind], key=lambda entry: entry[0]):
            if entry[0] != crate:
                crate = entry[0]
                print(f"\n#### {crate}")
            print(f"\n`{entry[1]}`\n\n```diff")
            print("\n".join([*side("-", entry[2]), *side("+", entry[3])]))
            print("```")
    print("\n### What went\n")
    for (kind, crate), names in found.gone.items():
        named = ", ".join("`" + name.split(" (requires")[0] + "`" for name in names)
        print("\n".join(textwrap.wrap(f"- {kind}, {crate}: {named}", WIDTH, subsequent_indent="  ", break_long_words=False, break_on_hyphens=False)))


def main():
    text = sys.stdin.read()
    write(of_json(json.loads(text)) if text.lstrip().startswith("{") else of_text(text.splitlines()))


main()
