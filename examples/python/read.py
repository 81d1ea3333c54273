"""Reads a sif script: prints its declarations, its errors and its canonical text.

    pip install ./hosts/python        or PYTHONPATH=hosts/python, after make lib
    python3 examples/python/read.py FILE
"""

import sys

import sif


def main(name: str) -> int:
    with open(name, "rb") as file:
        script = file.read()
    try:
        reading = sif.read(script)
    except sif.Refused as refusal:
        print(f"{name}: refused {refusal.number:d}: {refusal}")
        return 1
    for declaration in reading.root.children:
        print(f"{declaration.kind.name} with {len(declaration.children)} children")
    for error in reading.problems:
        print(f"{name}:{error}")
    if reading.unread is not None:
        print(f"{name}: nothing is read from offset {reading.unread} on")
    if not reading.failed:
        print(sif.text(script).decode(), end="")
    return int(reading.failed)


if __name__ == "__main__":
    if len(sys.argv) != 2:
        sys.exit("usage: read.py FILE")
    sys.exit(main(sys.argv[1]))
