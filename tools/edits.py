#!/usr/bin/env python3
"""Which edits that must fail there are for which public function, by counting.

An edit that must fail is a file crates/CRATE/must-fail/LABEL.edit. Its first lines say of which functions it
makes a wrong answer and which, one line each: `# FUNCTION: sentence`, or `# TYPE::METHOD: sentence`, where the
type may be left out if no other function of the crate has the name. A trait's method has the trait's name too, as
`rt` writes it: `ScriptsIterator::next`. An edit that changes a definition, and that a law or a worked case
refuses, has `# definition: sentence`. An edit may change the bodies of several functions; then the prover must
find a fault in each, since a proof knows of another function its contract alone.

After a `new:` line there may be a line `same: TEXT`, which `rt` doesn't read: a text of the same form as the wrong one that
changes nothing. With these in place of the wrong texts of the edit's sources the crate must be proved, so that the wrong
one is refused for what it answers and not for its form. Where a proof can't deal with the form, the edit changes that
proof too (`file: proofs/..`), and then the function whose proof it is must have such a line. That the form is the same
is for a reader to see.

A wrong answer counts for a public function if the edit names it, or names a function of the same crate that it
reaches through functions that no other crate calls: what these answer is a part of its answer.

Another crate calls a function if its source imports it or names it by its path, a method also by `.METHOD(`, and
a method or another function of a type by `TYPE::NAME`, where it imports the type; and the `next` of an iterator
by a `for` over what a function of its type gives.

  tools/edits.py           prints the table (docs/EDITS.md has it)
  tools/edits.py --check   fails where an edit names no function or has a line that nobody reads, where a public function
                           that another crate or a host calls has fewer than two wrong answers, or where docs/EDITS.md is
                           another table
  tools/edits.py --logs LOG   fails where what `rt ci` wrote does not say of each edit that it is refused, by a fault that is
                           more than a name which the edit took away
  tools/edits.py --each [CRATE..]   fails where an edit that names several functions leaves one of them without a fault of
                           its own: `rt ci` says the first fault alone, so each such edit is checked here once more, in a
                           copy of its crate, over the libraries that `rt all check` left in out/. Names the functions
                           whose only faults are names that the edit took away. Fails, too, where a crate is not proved
                           with the lines `same:` of an edit, which is then looked into even if it names one function
"""

import os
import re
import shutil
import subprocess
import sys
import tempfile
from collections import namedtuple
from concurrent.futures import ThreadPoolExecutor
from pathlib import Path

ROOT = Path(__file__).resolve().parent.parent
CRATES = ROOT / "crates"
PAGE = ROOT / "docs" / "EDITS.md"
LEAST = 2
HEADER = re.compile(r"^# ([\w:]+): \S")
USE = re.compile(r"^(pub )?use ([^;]*);", re.M)
# the words that a line of an edit may begin with after the header, each with those of the line before it
FOLLOWS = {"file:": ("", "new:", "same:"), "old:": ("file:", "new:", "same:"), "new:": ("old:",), "same:": ("new:",)}
# what `rt ci` says of an edit
TOLD = re.compile(r"^rt: must-fail (\S+)\.edit: (.*)$", re.M)
# an error in a file of proofs: the folder, the file, the words
ERROR = re.compile(r"^\S*?proofs/(\S+?)/(Answers|Invariants|Proof|Proof/\w+)\.antt:\d+:\d+: error: (.*)$", re.M)
# a proof that names what the edit took away; one that rests on another that is not proved
GONE = re.compile(r"has no field|is not in scope|has no `|no module, record or data type|expected (a measure|an invariant)")
LATER = re.compile(r"was not admitted|which was rejected, was not checked")
FUNCTION = re.compile(r'^( *)(pub )?(extern "C" )?fn (\w+)', re.M)
# the head of an `impl`: the trait, if there is one, and the type
IMPL = re.compile(r"^impl(?:<[^>]*>)? (?:([\w:]+(?:<[^>]*>)?) for )?([\w:]+)", re.M)


class Function:
    """A function of a crate: its name (with its type, if it has one), whether it is public, and its body."""

    def __init__(self, crate, owner, trait, short, public, exported, text):
        self.crate, self.owner, self.trait, self.short = crate, owner, trait, short
        self.name = f"{owner}{trait}::{short}" if owner else short
        # (a trait's method is as public as its type)
        self.public, self.exported = public or trait != "", exported
        head, self.body = re.split(r"\{$", text, maxsplit=1, flags=re.M)
        self.method = re.search(r"\(\s*&?(?:'\w+ )?(?:mut )?self\b", head) is not None
        # (what a trait's method promises is said by the trait, and by the ghost items of the `impl`)
        self.promises = "ensures" in head or trait != ""
        # (what prints to a writer that it is lent answers whether the writer failed, and no more than that)
        prints = re.search(r"\bout: &mut W\b", head) and re.search(r"\)\s*->\s*io::Result<\(\)>\s*$", head)
        self.answers = re.search(r"\)\s*->", head) is not None and not prints


def without_comments(text):
    """The source with its line comments taken out."""
    return re.sub(r"//[^\n]*", "", text)


def functions_of(crate):
    """The functions of a crate, by name."""
    found = {}
    for path in sorted((CRATES / crate / "src").rglob("*.rt")):
        text = without_comments(path.read_text())
        starts = list(FUNCTION.finditer(text))
        for start, after in zip(starts, starts[1:] + [None]):
            body = text[start.start() : after.start() if after else len(text)]
            owner, trait = owner_at(text, start.start()) if start.group(1) else ("", "")
            function = Function(crate, owner, trait, start.group(4), bool(start.group(2)), bool(start.group(3)), body)
            found[function.name] = function
    return found


def owner_at(text, place):
    """The type whose `impl` holds the function at a place, and the trait of that `impl`; an empty text where there is none."""
    found = IMPL.findall(text[:place])
    trait, owner = found[-1] if found else ("", "")
    return owner.split("::")[-1], "".join(re.findall(r"\w+(?!\w*::)", trait))


def source_of(crate):
    """The source of a crate, without comments."""
    return "".join(without_comments(path.read_text()) for path in sorted((CRATES / crate / "src").rglob("*.rt")))


def named(text):
    """What a `use` item names: its paths, each with the name that it has there."""
    text = " ".join(text.split())
    head, brace, rest = text.partition("{")
    if not brace:
        path, _, name = text.partition(" as ")
        return [(path, name or path.split("::")[-1])]
    parts, depth = [""], 0
    for sign in rest.rpartition("}")[0]:
        depth += {"{": 1, "}": -1}.get(sign, 0)
        if sign == "," and depth == 0:
            parts.append("")
        else:
            parts[-1] += sign
    return [(head + path, name) for part in parts if part.strip() for path, name in named(part)]


def uses(source, public=False):
    """What the `use` items of a source name, or the `pub use` items alone."""
    return [it for is_public, text in USE.findall(source) if is_public or not public for it in named(text)]


def calls(function, path, source, imports):
    """Whether a source with these imports calls a function of another crate: the path is the function's, or its type's."""
    if not function.owner:
        return path in {it for it, _ in imports} or re.search(r"\b%s\b" % path, source)
    owner = r"\b(?:%s)::" % "|".join([path, *(name for it, name in imports if it == path)])
    forms = [owner + r"%s\b" % function.short]
    if function.method:
        forms.append(r"\.%s\(" % function.short)
    if function.trait == "Iterator" and function.short == "next":
        forms.append(r"\bfor [^;{}]* in [^;{}]*" + owner)
    return any(re.search(form, source) for form in forms)


def called_elsewhere(crates):
    """The public functions that another crate calls, and those that hosts link: crate and name, with the callers."""
    sources = {crate: source_of(crate) for crate in crates}
    imports = {crate: set(uses(source)) for crate, source in sources.items()}
    callers = {}
    for crate, functions in crates.items():
        aliases = {path.split("::")[-1]: name for path, name in uses(sources[crate], public=True)}
        for function in functions.values():
            if not function.public:
                continue
            item = function.owner or function.short
            path = f"{crate}::{aliases.get(item, item)}"
            names = [c for c in sources if c != crate and calls(function, path, sources[c], imports[c])]
            if function.exported:
                names.append("hosts")
            if names:
                callers[crate, function.name] = names
    return callers


# a change of an edit: the file, the old text, the wrong one, and one that changes nothing, or None
Change = namedtuple("Change", "file old wrong same")


def changes_of(lines):
    """The changes that the lines of an edit say, and the lines that stand where nobody reads them."""
    changes, unread, before = [], [], ""
    for line in lines:
        word, _, text = line.partition(" ")
        if line.strip() and before not in FOLLOWS.get(word, ()):
            unread.append(line)
        elif word == "file:":
            file, before = text.strip(), word
        elif word == "old:":
            old, before = text, word
        elif word == "new:":
            changes.append(Change(file, old, text, None))
            before = word
        elif word == "same:":
            changes[-1] = changes[-1]._replace(same=text)
            before = word
    return changes, unread


class Edit:
    """An edit that must fail: its label, the functions that it names, and what it changes."""

    def __init__(self, path):
        self.label = path.stem
        self.crate = path.parent.parent.name
        lines = path.read_text().split("\n")
        first = lines.index(next(line for line in lines if line.startswith("file: ")))
        header = lines[:first]
        self.names = [HEADER.match(line).group(1) for line in header if HEADER.match(line)]
        self.bad = [line for line in header if line.strip() and not HEADER.match(line)]
        self.changes, self.unread = changes_of(lines[first:])

    def compares(self):
        """Whether it has a text that changes nothing."""
        return any(change.same is not None for change in self.changes)

    def applied(self, folder, same=False):
        """The texts of the files that it changes, by their paths below a crate's folder; or with what changes nothing in
        place of the wrong texts of its sources."""
        texts = {}
        for change in self.changes:
            new = change.same if same and not change.file.startswith("proofs/") else change.wrong
            if new is None:
                continue
            path = folder / change.file
            texts.setdefault(path, path.read_text())
            if texts[path].count(change.old) != 1:
                raise ValueError(f"{self.label}: a text is in {path.name} {texts[path].count(change.old)} times, and not once")
            texts[path] = texts[path].replace(change.old, new)
        return texts


def edits_of(crate):
    """The edits of a crate, in the order of their labels."""
    return [Edit(path) for path in sorted((CRATES / crate / "must-fail").glob("*.edit"))]


def called_by(function, functions):
    """The functions of its crate that a function calls."""
    others = [other for other in functions.values() if other is not function]
    return [other for other in others if re.search(r"\b%s\(" % other.short, function.body)]


def reach(function, functions, callers):
    """A function, and what it reaches through functions that no other crate calls."""
    seen, waiting = {function.name}, [function]
    while waiting:
        for other in called_by(waiting.pop(), functions):
            if other.name not in seen and (other.crate, other.name) not in callers:
                seen.add(other.name)
                waiting.append(other)
    return seen


def meant(name, functions):
    """The names of the functions that a name in a header may mean: a method's may leave its type out."""
    return [name] if name in functions else [function.name for function in functions.values() if function.short == name]


def meant_by(edit, functions):
    """The names of the functions that an edit names."""
    return {full for name in edit.names for full in meant(name, functions)}


def holder(crate, file, text):
    """The name of the function of a source file in which a text stands."""
    source = (CRATES / crate / file).read_text()
    starts = [start for start in FUNCTION.finditer(source) if start.start() <= source.find(text)]
    return starts[-1].group(4) if starts else ""


def same_lacks(edit):
    """What is wrong with an edit's texts that change nothing. An edit that changes a definition may change proofs without."""
    same = [change for change in edit.changes if change.same is not None]
    faults = [f"a line `same:` of a proof: {it.same}" for it in same if it.file.startswith("proofs/")]
    faults += [f"a line `same:` that is the old text: {it.same}" for it in same if it.same == it.old]
    held = {}
    for it in same:
        if it.file.startswith("src/"):
            name = holder(edit.crate, it.file, it.old)
            held[name] = held.get(name, False) or it.same != it.wrong
    faults += [f"the lines `same:` of {name} are the wrong text" for name, others in held.items() if not others]
    proved = {it.file.split("/")[-2] for it in edit.changes if it.file.startswith("proofs/")}
    if not any(it.file.startswith("specs/") for it in edit.changes):
        lacking = [name for name in sorted(proved) if not (held if name.startswith("+") else name in held)]
        faults += [f"it changes the proof of {name}, which has no line `same:`" for name in lacking]
    return faults


def faults_of(edit, functions):
    """What is wrong with an edit's lines."""
    where = f"{edit.crate}/{edit.label}"
    faults = [f"{where}: a header line without a function: {line}" for line in edit.bad]
    faults += [f"{where}: a line that nobody reads there: {line}" for line in edit.unread]
    faults += [f"{where}: {lack}" for lack in same_lacks(edit)]
    if not edit.names:
        faults.append(f"{where}: it names no function")
    names = [name for name in edit.names if name != "definition"]
    for name in names:
        if len(meant(name, functions)) != 1:
            faults.append(f"{where}: {name} is {'more than one' if meant(name, functions) else 'no'} function of {edit.crate}")
    if len(set(edit.names)) < len(edit.names) or len(meant_by(edit, functions)) < len(names):
        faults.append(f"{where}: it names a function twice")
    return faults


def table():
    """The table as Markdown, and all faults."""
    crates = {crate: functions_of(crate) for crate in sorted(listed())}
    callers = called_elsewhere(crates)
    rows, faults = [], []
    for crate, functions in crates.items():
        edits = edits_of(crate)
        for edit in edits:
            faults += faults_of(edit, functions)
        for function in functions.values():
            if (crate, function.name) not in callers:
                continue
            reached = reach(function, functions, callers)
            labels = [edit.label for edit in edits if reached & meant_by(edit, functions)]
            count = sum(len(reached & meant_by(edit, functions)) for edit in edits)
            if function.answers and not function.promises:
                faults.append(f"{crate}::{function.name} answers and promises nothing")
            if function.promises and count < LEAST:
                faults.append(f"{crate}::{function.name} has {count} wrong answers")
            shown = ", ".join(labels) if function.promises or labels else "answers nothing, promises nothing"
            rows.append(f"| {crate} | `{function.name}` | {count} | {shown} |")
    return rows, faults


def page(rows):
    """docs/EDITS.md."""
    head = (
        "# Edits that must fail\n\n"
        "Written by `tools/edits.py`, which says how it counts; the gate holds this page to it. Each public function that\n"
        "another crate or a host calls, with how many wrong answers the prover must refuse, and the edits that make them.\n\n"
        "| crate | function | wrong answers | edits (crates/CRATE/must-fail) |\n|---|---|---|---|\n"
    )
    return head + "\n".join(rows) + "\n"


def log_faults(log):
    """Where what `rt ci` wrote does not say that an edit is refused, or says that no more than a name is gone."""
    told = dict(TOLD.findall(log))
    edits = [edit for crate in listed() for edit in edits_of(crate)]
    faults = []
    for edit in edits:
        said = told.get(f"{edit.crate}/{edit.label}", "rt ci did not say what it came to")
        if not said.startswith("refused, as it must be") or "(only " in said:
            faults.append(f"{edit.crate}/{edit.label}: {said}")
    return faults, len(edits) - len(faults)


def listed():
    """The crates that crates.txt lists, each with those that it is on."""
    lines = (line.partition("#")[0] for line in (ROOT / "crates.txt").read_text().split("\n"))
    return {line.split(":")[0].split()[0]: line.split(":")[1].split() for line in lines if ":" in line}


def below(crate, on):
    """The repository's crates that a crate stands on."""
    found = {other for other in on[crate] if other in on}
    return found.union(*(below(other, on) for other in found))


class Room:
    """A copy of a crate, with those below it as they were built, in which its edits are checked."""

    def __init__(self, folder, crate, on):
        self.crate, self.folder = crate, folder / "crates" / crate
        names = {crate} | below(crate, on)
        lines = [line for line in (ROOT / "crates.txt").read_text().split("\n") if line.split(":")[0].split(" ")[0] in names]
        for name in names:
            parts = ["src", "specs", "proofs"] + ["out/rlib"] * (name != crate)
            for part in parts:
                if (CRATES / name / part).is_dir():
                    shutil.copytree(CRATES / name / part, folder / "crates" / name / part)
        (folder / "crates.txt").write_text("\n".join(lines) + "\n")

    def checked(self):
        """The status of a check of the crate as it stands in the room, and what it said."""
        ran = subprocess.run(["rt", "check", "--jobs", "1"], cwd=self.folder, capture_output=True, text=True, errors="replace")
        return ran.returncode, ran.stdout + ran.stderr

    def with_edit(self, edit, same=False):
        """The same with an edit, or with its lines `same:`; the crate is then as it was."""
        texts = edit.applied(self.folder, same)
        kept = {path: path.read_text() for path in texts}
        try:
            for path, text in texts.items():
                path.write_text(text)
            return self.checked()
        finally:
            for path, text in kept.items():
                path.write_text(text)


def same_faults(room, edit):
    """The fault of an edit whose lines `same:` change something: with them the crate is not proved."""
    status, said = room.with_edit(edit, same=True)
    return [f"{room.crate}/{edit.label}: with its lines `same:` the crate is not proved: {said[-600:]}"] if status else []


def own_faults(room, edit):
    """Where an edit leaves a function that it names without a fault of its own; and the notes."""
    status, said = room.with_edit(edit)
    where = f"{room.crate}/{edit.label}"
    faults = [] if status == 1 else [f"{where}: its check ended with status {status}"]
    notes = []
    for name in edit.names:
        found = faults_in(said, name)
        if not found:
            faults.append(f"{where}: {name} is not refused for a fault of its own")
        elif all(GONE.search(fault) for fault in found):
            notes.append(f"{where}: {name} is refused as its proof names what the edit took away: {found[0][:160]}")
    return faults, notes


def each_of(crate, on, room):
    """Of a crate's edits that name several functions or have lines `same:`, and of these lines: how many there are, the
    faults, and the notes."""
    edits = [edit for edit in edits_of(crate) if len(edit.names) > 1 or edit.compares()]
    alike = [edit for edit in edits if edit.compares()]
    count = len(edits) + len(alike)
    faults, notes = [], []
    try:
        room = Room(room, crate, on)
        status, said = room.checked()
        if status:
            return count, [f"{crate}: a copy of it is not proved: {said[-600:]}"], []
        for edit in alike:
            faults += same_faults(room, edit)
        for edit in edits:
            found, noted = own_faults(room, edit)
            faults, notes = faults + found, notes + noted
    except (OSError, ValueError) as error:
        faults.append(f"{crate}: {error}")
    return count, faults, notes


def lanes():
    """How many checks run side by side: one a processor, where there are 4 GB for each."""
    free = int(re.search(r"MemAvailable:\s+(\d+)", Path("/proc/meminfo").read_text()).group(1)) // 4_000_000
    return max(1, min(len(os.sched_getaffinity(0)), free))


def each_fault(crates):
    """Where an edit that names several functions leaves one of them without a fault of its own, or a line `same:` changes
    something."""
    on = listed()
    several = [crate for crate in crates or on if any(len(edit.names) > 1 or edit.compares() for edit in edits_of(crate))]
    several.sort(key=lambda crate: -sum(path.stat().st_size for path in (CRATES / crate).glob("proofs/**/*.antt")))
    with tempfile.TemporaryDirectory(prefix="sif-edits-") as folder, ThreadPoolExecutor(lanes()) as pool:
        found = list(pool.map(lambda crate: each_of(crate, on, Path(folder) / crate), several))
    for _, _, notes in found:
        for note in notes:
            print(f"note: {note}")
    return [fault for _, faults, _ in found for fault in faults], sum(count for count, _, _ in found)


def faults_in(said, name):
    """The faults of a function's own in what a check said: errors in its own files of proofs, or among its own goals in the
    file of a cycle, and not that another proof is missing there; and goals of its own that are not proved."""
    *owner, short = name.split("::")
    title = "".join(word.capitalize() for word in short.split("_"))
    found = []
    for folder, rest, fault in ERROR.findall(said):
        last = folder.split("/")[-1]
        is_own = "/".join(folder.split("/")[-len(owner) - 1 :]).replace("+", "") == "/".join([*owner, short])
        in_cycle = last.startswith("+") and re.match(r"`(?:\w+::)*%s-" % short, fault)
        if (is_own or in_cycle or rest == f"Proof/{title}") and not LATER.search(fault):
            found.append(fault)
    for line in re.findall(r"^fn (?:\S*::)?%s: (?:not proved|no proof)(.*)$" % re.escape(name), said, re.M):
        for part in line.split("; "):
            goals = re.findall(r"`([^`]*)`", part.partition("did not prove")[2])
            in_cycle = re.search(r"/\+(?!%s/)" % short, line)
            if [goal for goal in goals if not in_cycle or re.match(r"(?:\w+::)*%s-" % short, goal)]:
                found.append(part)
            elif re.search(r"expected (a measure|an invariant|invariants)", part):
                found.append(part)
    return found


def main(words):
    """Prints the table, or checks it, or what the prover says of the edits."""
    rows, faults = table()
    count = len(rows)
    if words == ["--write"]:
        PAGE.write_text(page(rows))
    elif words[:1] == ["--logs"]:
        faults, count = log_faults(Path(words[1]).read_text())
    elif words[:1] == ["--each"]:
        faults, count = each_fault(words[1:])
    elif words == ["--check"]:
        if not PAGE.exists() or PAGE.read_text() != page(rows):
            faults.append("docs/EDITS.md is another table: tools/edits.py --write")
    else:
        print(page(rows), end="")
    for fault in faults:
        print(fault, file=sys.stderr)
    print(f"edits: {count} passed, {len(faults)} failed", file=sys.stderr)
    return 1 if faults else 0


if __name__ == "__main__":
    sys.exit(main(sys.argv[1:]))
