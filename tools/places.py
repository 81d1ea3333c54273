#!/usr/bin/env python3
"""places.py [FOLDER]: the places of the eight points of docs/DESIGN-PASS.md in src/, a line for each point and a line for each
crate that has some. FOLDER is a checkout (default: this one). With --list the places themselves are printed."""
import collections, glob, os, re, sys

args = [a for a in sys.argv[1:] if a != "--list"]
root = args[0] if args else os.path.join(os.path.dirname(os.path.abspath(__file__)), "..")


def sources():
    for path in sorted(glob.glob(os.path.join(root, "crates/*/src/*.rt"))):
        crate = os.path.relpath(path, root).split(os.sep)[1]
        yield crate, path, open(path).read()


def enums(text):
    """The enums of the shape of Option or Result: two or three variants, of which one carries something and one is bare or a refusal."""
    for m in re.finditer(r"^(?:pub )?enum (\w+)[^{]*\{([^}]*)\}", text, re.M):
        variants = [v.strip() for v in re.sub(r"//[^\n]*", "", m.group(2)).split(",\n") if v.strip().strip(",")]
        full = [v for v in variants if "(" in v]
        bare = [v for v in variants if "(" not in v or v.startswith(("Refused", "Failed"))]
        if 2 <= len(variants) <= 3 and full and bare:
            yield m.start(), "enum " + m.group(1)


def lines(pattern):
    def find(text):
        for m in re.finditer(pattern, text, re.M):
            yield m.start(), m.group(0).strip()
    return find


def pair_functions(text):
    """Functions that take both token arrays as parameters of their own."""
    for m in re.finditer(r"fn (\w+)[^(\n]*\(([^)]*)\)", text):
        names = {p.strip().split(":")[0] for p in m.group(2).split(",") if ":" in p}
        if {"offs", "words"} <= names:
            yield m.start(), "fn " + m.group(1)


def requires(text):
    for m in re.finditer(r"^ *requires[^\n]*", text, re.M):
        yield m.start(), re.sub(r"^ *requires \w* ?", "", m.group(0))


POINTS = [
    ("1a own enums of the shape of Option or Result", enums),
    ("1b constants that stand for a kind, a sign or a message", lines(r"^(?:pub )?const \w+: (?:u8|u32) = (?:\d|b')[^;]*;")),
    ("1b constants that are made of an enum's variant", lines(r"^(?:pub )?const \w+: u32 = [A-Za-z][^;]*;")),
    ("1c kinds and signs as numerals", lines(r"(?:==|!=|<=?) \d+\b(?! \*)|^ *\d+(?: \| \d+)* =>|=> \d+,$|return \d+;|Word\(\d+|Panic\(\d+|kind: \d+")),
    ("3a while loops", lines(r"^ *while .*")),
    ("3b loops with several ends", lines(r"^ *loop \{")),
    ("3c for loops over numbers", lines(r"^ *for \w+ in [^{]*\.\.[^{\]]*\{")),
    ("4 equality, order and printing by hand", lines(r"^(?:pub )?fn (?:same|print\w*|wide|digit|bit_of|one_less|capped|within|clip)\b.*")),
    ("5 and 6 functions that take the token arrays one by one", pair_functions),
    ("6 tables and lists with a place and a length", lines(r"^const \w+: \[.*")),
    ("7 enums that say which step to run", lines(r"^(?:pub )?enum (?:Class|Layout|Names)\b.*")),
]


def main():
    counts = collections.OrderedDict((name, collections.Counter()) for name, _ in POINTS)
    facts, parts = collections.Counter(), collections.Counter()
    for crate, path, text in sources():
        for name, find in POINTS:
            for at, what in find(text):
                counts[name][crate] += 1
                if "--list" in sys.argv:
                    print(f"{name[:2].strip()} {os.path.relpath(path, root)}:{text.count(chr(10), 0, at) + 1}: {what}")
        for at, what in requires(text):
            facts[what] += 1
            for part in what.strip().strip("{}").split("×"):
                parts[part.strip().strip("()")] += 1
    for name, by in counts.items():
        print(f"{sum(by.values()):5} {name}")
        if by:
            print("      " + ", ".join(f"{crate} {n}" for crate, n in sorted(by.items())))
    often = [n for n in facts.values() if n >= 3]
    print(f"{len(often):5} 5 requires that stand in three or more contracts, {sum(often)} times in all")
    often = {part: n for part, n in parts.items() if n >= 3}
    print(f"{len(often):5} 5 facts that stand in three or more contracts, each clause cut at ×, {sum(often.values())} times in all")
    if "--list" in sys.argv:
        print("      " + "; ".join(f"{part} {n}" for part, n in sorted(often.items(), key=lambda x: -x[1])))
    proofs = glob.glob(os.path.join(root, "crates/*/proofs/**/*.antt"), recursive=True)
    print(f"{sum(open(p).read().count(chr(10)) for p in proofs):5} 8 lines of proofs")
    print(f"{sum(t.count(chr(10)) for _, _, t in sources()):5} lines of source")


main()
