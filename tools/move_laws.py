#!/usr/bin/env python3
"""Moves the theorems that rest on a definition which an edit changes from specs/ to proofs/, statements and proofs as they are.

It ran once, after tools/respell.py (docs/PORT.md): a theorem of specs/ that an edit makes false can hide what the edit was to show.
"""

import re
from pathlib import Path

ROOT = Path(__file__).resolve().parent.parent
CRATES = ROOT / "crates"
# The modules that move, by crate; a module stands for those below it.
MOVED = {
    "sifc_lex": ["LexCases", "LexLaws", "LexTrip", "Unicode"],
    "sifc_tokens": ["PlaceLaws", "TokensLaws"],
    "sifc_def": (
        "Cases Corners ExprLaws FuelLaws GroveLaws OutcomeLaws ReadLaws StepLaws StmtLaws TokLaws TreeLaws WalkLaws Round "
        "Canon.Bytes Canon.Calls Canon.Demand3 Canon.Demand3Cases Canon.Kinded Canon.Kinds Canon.Laws Canon.Lexed Canon.Operators "
        "Canon.Print Canon.Rooms Canon.Same Canon.Trees Canon.Words"
    ).split(),
    "sifc_deepest": ["DeepestLaws", "Depth", "Reached", "Shallow"],
    "sifc_lent": ["EntryLaws", "LexedLaws", "PartLaws"],
    "sifc_records": ["Listed", "RecordLaws"],
    "sifc_value": ["Cases"],
    "sifc_view": ["ViewLaws"],
}


def node(folder, parts):
    """The file that declares the modules below a module."""
    return folder / ("/".join(parts) + ".antt" if parts else "Lib.antt")


def declare(folder, parts, line):
    """Adds the line that declares a module, where it is not there."""
    path = node(folder, parts[:-1])
    text = path.read_text() if path.exists() else ""
    if line not in text.split("\n"):
        path.parent.mkdir(parents=True, exist_ok=True)
        path.write_text(text + line + "\n")
    if len(parts) > 1:
        declare(folder, parts[:-1], f"pub mod {parts[-2]}")


def move(crate, module):
    """Moves a module's file, the folder below it and the line that declares it."""
    specs, proofs = CRATES / crate / "specs", CRATES / crate / "proofs"
    parts = module.split(".")
    above = node(specs, parts[:-1])
    lines = above.read_text().split("\n")
    line = next(it for it in lines if re.fullmatch(rf"(pub )?mod {parts[-1]}", it))
    above.write_text("\n".join(it for it in lines if it != line))
    declare(proofs, parts, line)
    for old in (specs / ("/".join(parts) + ".antt"), specs / "/".join(parts)):
        if old.exists():
            new = proofs / old.relative_to(specs)
            new.parent.mkdir(parents=True, exist_ok=True)
            old.rename(new)


def turn(text):
    """The text with the paths of the modules that moved."""
    for crate, modules in MOVED.items():
        for module in modules:
            text = re.sub(rf"\bRattle\.{crate}\.specs\.{re.escape(module)}(?![\w'-])", f"Rattle.{crate}.proofs.{module}", text)
    return text


def main():
    for crate, modules in MOVED.items():
        for module in modules:
            move(crate, module)
    for path in CRATES.rglob("*"):
        if path.suffix in (".antt", ".rt", ".edit") and "out" not in path.relative_to(CRATES).parts:
            text = path.read_text()
            new = turn(text)
            if new != text:
                path.write_text(new)


if __name__ == "__main__":
    main()
