"""Tests of the command, in pipes and on a terminal. It is hosts/target/release/sif (`make sif`), or SIF_COMMAND."""

from __future__ import annotations

import fcntl
import json
import os
import pty
import re
import shutil
import struct
import subprocess
import sys
import tempfile
import termios
import unittest
from pathlib import Path

ROOT = Path(__file__).resolve().parents[3]
sys.path.insert(0, str(ROOT / "hosts/python"))

import sif as python  # noqa: E402

COMMAND = os.environ.get("SIF_COMMAND", str(ROOT / "hosts/target/release/sif"))
EXAMPLES = ROOT / "examples"


def sif(*words, data: bytes = b"", **more) -> subprocess.CompletedProcess:
    command = [COMMAND, *map(str, words)]
    return subprocess.run(command, input=data, capture_output=True, timeout=60, **more)


def on_terminal(columns: int, *words) -> tuple[int, str]:
    """Status and output of the command on a terminal with so many columns."""
    ours, its = pty.openpty()
    fcntl.ioctl(its, termios.TIOCSWINSZ, struct.pack("HHHH", 24, columns, 0, 0))
    command, terminal = [COMMAND, *map(str, words)], {**os.environ, "TERM": "xterm"}
    process = subprocess.Popen(command, stdin=its, stdout=its, stderr=its, env=terminal)
    os.close(its)
    seen = b""
    while True:
        try:
            part = os.read(ours, 65_536)
        except OSError:
            break
        if not part:
            break
        seen += part
    os.close(ours)
    return process.wait(), seen.decode().replace("\r\n", "\n")


def scripts(name: str) -> list[bytes]:
    """The scripts of a fixed list: for each its length in decimal, a newline, its bytes, a newline."""
    rest, found, at = (ROOT / "crates" / name / "stdin").read_bytes(), [], 0
    while at < len(rest):
        digits = rest.index(b"\n", at)
        start, length = digits + 1, int(rest[at:digits])
        found.append(rest[start : start + length])
        at = start + length + 1
    return found


class Case(unittest.TestCase):
    def setUp(self) -> None:
        self.folder = Path(tempfile.mkdtemp())
        self.addCleanup(shutil.rmtree, self.folder)

    def file(self, name: str, data: bytes) -> Path:
        path = self.folder / name
        path.write_bytes(data)
        return path


class Check(Case):
    def test_errors_in_a_pipe(self) -> None:
        ran = sif("check", "planted.sif", "schedule.sif", cwd=EXAMPLES)
        self.assertEqual(ran.returncode, 1)
        lines = ran.stdout.decode().splitlines()
        wanted = [
            "planted.sif:17:28: `j` is not declared",
            " 17 |     print(date, step(4.25, j));",
            "    |                            ^",
        ]
        self.assertEqual(lines[:3], wanted)
        summary = "2 files checked, 6 errors in 1 file (lines and columns count from 1)\n"
        self.assertEqual(ran.stderr.decode(), summary)

    def test_a_clean_script(self) -> None:
        ran = sif("check", EXAMPLES / "schedule.sif")
        self.assertEqual((ran.returncode, ran.stdout), (0, b""))
        self.assertEqual(ran.stderr, b"1 file checked, no errors\n")

    def test_numbers(self) -> None:
        ran = sif("check", "--machine", "-", data=b"5 5;\nvar 1 = 2;")
        self.assertEqual(ran.stdout.decode(), "standard input\tended\t1\t2\t6\nstandard input\tread\t9\t1\t0\t1\n")
        ran = sif("check", "--machine", "-", data=b"// c")
        self.assertEqual(ran.stdout.decode(), "standard input\trefused\t5\t1\t0\n")
        self.assertEqual((ran.returncode, ran.stderr), (1, b""))

    def test_what_is_not_read_is_told(self) -> None:
        for script in (b"var a = 1; $ var b = 2;\n", b'var a = 1; "var b = 2;\n'):
            ran = sif("check", "-", data=script)
            self.assertEqual(ran.returncode, 1)
            self.assertIn(b"standard input:1:12: ", ran.stdout)
            self.assertIn(b"nothing from here on is read", ran.stdout)

    def test_the_end_of_a_script(self) -> None:
        for script in (b"var a = 1", b"var a = 1\n"):
            ran = sif("check", "-", data=script)
            self.assertIn(b"standard input:1:10: expected `;`, found the end of the script\n", ran.stdout)

    def test_many_errors_are_cut(self) -> None:
        ran = sif("check", "-", data=b";" * 65_535)
        self.assertEqual(ran.stdout.count(b"cannot stand here"), 100)
        self.assertIn(b"and 65435 errors more; --all shows them", ran.stdout)
        ran = sif("check", "--all", "-", data=b";" * 2_000)
        self.assertEqual(ran.stdout.count(b"cannot stand here"), 2_000)

    def test_every_script_of_the_list(self) -> None:
        found = scripts("read_replay")
        paths = [self.file(f"{index}.sif", script) for index, script in enumerate(found)]
        ran = sif("check", "--all", *paths)
        self.assertEqual((ran.returncode, b"panicked" in ran.stderr), (2, False))
        told = re.findall(r"(\d+)\.sif:\d+:\d+: (.*)\n", ran.stdout.decode())
        for index, script in enumerate(found):
            self.assertEqual([why for at, why in told if at == str(index)], self.by_python(script), script)

    def by_python(self, script: bytes) -> list[str]:
        """What the Python package says of a script: the same words, but of what is not read."""
        try:
            reading = python.read(script)
        except python.Refused as refusal:
            not_ascii = "the byte {0} (0x{0:02X}) is not ASCII: a script has bytes below 128 only"
            if refusal.number == python.Refusal.NotAscii:
                return [not_ascii.format(script[refusal.offset])]
            return [] if refusal.offset == 0 and not refusal.kind else [str(refusal)]
        said = [error.reason for error in reading.problems]
        if reading.unread is None:
            return said
        sign = script[reading.unread : reading.unread + 1]
        if reading.hidden_fault is not None:
            return said + [str(python.Refused(5, 1 if sign == b"/" else 2, 0))]
        what = "a string with no end" if sign == b'"' else "unknown character"
        return said + [f"{what}: nothing from here on is read"]


class Terminal(Case):
    def test_lines_fit(self) -> None:
        path = self.file("long.sif", b"print(1, 2, 3); " * 40 + b"q; " + b"print(4); " * 40)
        for columns in (30, 60, 100, 200):
            status, seen = on_terminal(columns, "check", path)
            self.assertEqual(status, 1)
            line, caret = seen.splitlines()[1:3]
            self.assertLessEqual(max(len(line), len(caret)), columns)
            self.assertEqual(line[caret.index("^")], "q", seen)

    def test_progress(self) -> None:
        good = self.file("good.sif", b"var a = 1;\n")
        bad = self.file("bad.sif", b"var a = b;\n")
        status, seen = on_terminal(80, "check", *[good] * 50, bad, *[good] * 50)
        self.assertEqual(status, 1)
        self.assertRegex(seen, r"\d+ of 101 files")
        # Each state of the progress line is taken away before anything else is printed.
        for part in re.findall(r" of 101 files(.*)", seen):
            self.assertTrue(part == "" or part.startswith("\r\x1b[K"), seen)
        self.assertTrue(seen.endswith("101 files checked, 2 errors in 1 file (lines and columns count from 1)\n"), seen)

    def test_no_progress_for_one_file_or_in_a_pipe(self) -> None:
        good = self.file("good.sif", b"var a = 1;\n")
        self.assertEqual(on_terminal(80, "check", good)[1], "1 file checked, no errors\n")
        self.assertEqual(sif("check", good, good).stderr, b"2 files checked, no errors\n")

    def test_signs_that_steer_a_terminal_are_not_printed(self) -> None:
        path = self.file("steer.sif", b'var a = "\x1b[2J"; q;\n')
        for command in ("check", "tokens", "tree"):
            _, seen = on_terminal(80, command, path)
            self.assertNotIn("\x1b", seen)


class Format(Case):
    TEXT = b"var a = ( 1 + 2 ) * 3 ;\n"

    def test_print_and_check(self) -> None:
        ran = sif("fmt", "-", data=b"var a=(1+2)*3;")
        self.assertEqual((ran.returncode, ran.stdout), (0, self.TEXT))
        path = self.file("a.sif", b"var a=(1+2)*3;")
        ran = sif("fmt", "--check", path)
        self.assertEqual((ran.returncode, ran.stdout.decode()), (1, f"{path}\n"))
        self.assertEqual(sif("fmt", "--check", self.file("b.sif", self.TEXT)).returncode, 0)

    def test_write(self) -> None:
        path = self.file("a.sif", b"var a=(1+2)*3;")
        path.chmod(0o640)
        link = self.folder / "link.sif"
        link.symlink_to(path)
        ran = sif("fmt", "--write", link)
        self.assertEqual((ran.returncode, ran.stdout, ran.stderr), (0, b"", b""))
        self.assertEqual((path.read_bytes(), path.stat().st_mode & 0o777), (self.TEXT, 0o640))
        self.assertTrue(link.is_symlink())
        before = path.stat()
        self.assertEqual(sif("fmt", "--write", path).returncode, 0)
        after = path.stat()
        self.assertEqual((before.st_ino, before.st_mtime_ns), (after.st_ino, after.st_mtime_ns))
        self.assertEqual(sorted(entry.name for entry in self.folder.iterdir()), ["a.sif", "link.sif"])

    def unwritten(self, data: bytes, why: bytes, status: int = 1) -> None:
        path = self.file("kept.sif", data)
        ran = sif("fmt", "--write", path)
        self.assertEqual((ran.returncode, ran.stdout), (status, b""), ran)
        self.assertIn(why, ran.stderr)
        self.assertEqual(path.read_bytes(), data)
        self.assertEqual([entry.name for entry in self.folder.iterdir()], ["kept.sif"])

    def test_what_is_not_replaced(self) -> None:
        self.unwritten(b"var a=b;", b"kept.sif:1:7: `b` is not declared")
        self.unwritten(b"var a=1; $ var b=2;", b"unknown character")
        self.unwritten(b"(1+2)(3);", b"only a name or a string can be called")
        self.unwritten(b"var a=1; # one\n", b"1 comment would be lost; --drop-comments allows it")
        self.unwritten(b"var a;" + b"-a." * 110 + b"1;", b"its text is refused: the script nests too deeply")
        self.unwritten(b"1;" * 30_000, b"its text is refused: the script has more than 65,535 bytes")
        self.unwritten(b" " * 65_536, b"at most 65,535 bytes", 2)
        self.unwritten(b"var a=\xff;", b"not ASCII", 2)

    def test_comments_go_when_asked(self) -> None:
        path = self.file("a.sif", b"var a=(1+2)*3; # three\n")
        self.assertEqual(sif("fmt", "--write", "--drop-comments", path).returncode, 0)
        self.assertEqual(path.read_bytes(), self.TEXT)

    def test_a_write_protected_file(self) -> None:
        path = self.file("a.sif", b"var a=1;")
        path.chmod(0o444)
        ran = sif("fmt", "--write", path)
        self.assertEqual((ran.returncode, path.read_bytes()), (2, b"var a=1;"))
        self.assertIn(b"write-protected", ran.stderr)


class Show(Case):
    def test_the_listings_of_the_list(self) -> None:
        found = scripts("read_replay")
        stored = (ROOT / "crates/read_replay/stdout").read_text().splitlines(keepends=True)
        paths = [self.file(f"{index:04}.sif", script) for index, script in enumerate(found)]
        told = sif("list", *paths).stdout.decode()
        parts = re.split(r"==> .* <==\n", told)[1:]
        self.assertEqual(len(parts), len(found))
        at, limits = 0, 0
        for script, part in zip(found, parts):
            if stored[at].startswith("refused"):
                wanted, at = stored[at], at + 1
            else:
                errors = int(stored[at].split()[2])
                wanted, at = "".join(stored[at : at + 3 + errors]), at + 5 + errors
            if wanted in ("refused 1 0 0\n", "refused 9 0 0\n"):
                # The listing program has less room than the command.
                self.assertFalse(part.startswith("refused"))
                limits += 1
            else:
                self.assertEqual(part, wanted, script)
        self.assertEqual((at, limits), (len(stored), 2))

    def test_the_tokens_of_the_list(self) -> None:
        found = scripts("token_replay")
        stored = (ROOT / "crates/token_replay/stdout").read_text().splitlines()
        paths = [self.file(f"{index:04}.sif", script) for index, script in enumerate(found)]
        parts = re.split(r"==> .* <==\n", sif("tokens", "--machine", *paths).stdout.decode())[1:]
        for part, line in zip(parts, stored):
            told = [":".join(token.split()[:3]) for token in part.splitlines()]
            wanted = [] if line.startswith("refused") else [":".join(token.split(":")[:3]) for token in line.split()]
            self.assertEqual(told, wanted)
        self.assertEqual(len(parts), len(stored))

    def test_the_example_of_01(self) -> None:
        ran = sif("list", "-", data=b"var a = 1;\n")
        self.assertEqual(ran.stdout, b"6 3 0 0\n24 104 65\n3 1 0\n")

    def test_tree(self) -> None:
        ran = sif("tree", "-", data=b"{ var a = -1; }")
        wanted = "Program\n  Block scope 1\n    VarDecl a  1:7\n      UnaryExpr -  1:11\n        PrimaryExpr 1  1:12\n"
        self.assertEqual(ran.stdout.decode(), wanted)

    def test_values(self) -> None:
        data = b"var a = 007.50; 0.1; 12345678901234567890;"
        shown = sif("tokens", "-", data=data).stdout.decode().splitlines()
        numbers = [line.split()[2:] for line in shown if line.split()[1] == "Val"]
        self.assertEqual(numbers, [["007.50", "value", "7.5"], ["0.1", "value", "0.1"], ["12345678901234567890"]])
        nodes = json.loads(sif("tree", "--json", "-", data=data).stdout)["nodes"]
        values = [node["token"]["value"] for node in nodes if "value" in node.get("token", {})]
        self.assertEqual(values, [7.5, 0.1, None])

    def test_json(self) -> None:
        data = (EXAMPLES / "planted.sif").read_bytes()
        told = json.loads(sif("tree", "--json", "-", data=data).stdout)
        heads = sif("list", "-", data=data).stdout.splitlines()[1].split()
        made = [
            node["number"] + 32 * node.get("mark", False) + 64 * len(node["children"]) for node in told["nodes"]
        ]
        self.assertEqual(made, [int(head) for head in heads])
        self.assertEqual((told["failed"], len(told["errors"]), told["ended"]), (True, 6, None))
        self.assertEqual(told["errors"][0], {"line": 17, "column": 27, "number": 9, "reason": "`j` is not declared"})
        refused = json.loads(sif("tree", "--json", "-", data=b'"a').stdout)
        self.assertFalse(refused["failed"])
        refused = json.loads(sif("tree", "--json", "-", data=b"1(2);").stdout)
        self.assertEqual(refused["refused"]["number"], 5)

    def test_a_chain_that_is_high(self) -> None:
        data = b"1" + b"+1" * 32_000 + b";"
        self.assertEqual(len(json.loads(sif("tree", "--json", "-", data=data).stdout)["nodes"]), 64_003)
        ran = sif("tree", "-", data=data)
        self.assertEqual((ran.returncode, ran.stdout.count(b"\n")), (0, 64_003))


class Files(Case):
    """What is no script gets a message, status 2, and nothing is written."""

    def test_each_command_on_each_kind(self) -> None:
        kinds = [
            (self.folder / "missing.sif", b"there is no such file"),
            (self.folder, b"is a directory, not a script"),
            (self.file("long.sif", b" " * 65_536), b"is too long: a script has at most 65,535 bytes"),
            (self.file("wide.sif", b"var a;\n caf\xc3\xa9;"), b":2:5: the byte 195 (0xC3) is not ASCII"),
        ]
        for words in (["check"], ["fmt"], ["fmt", "--check"], ["fmt", "--write"], ["tokens"], ["tree"]):
            for path, why in kinds:
                ran = sif(*words, path)
                self.assertEqual(ran.returncode, 2, (words, path))
                told = ran.stdout + ran.stderr
                self.assertIn(str(path).encode() + (b"" if why.startswith(b":") else b": ") + why, told)
                if words != ["check"]:
                    self.assertEqual(ran.stdout, b"", (words, path))

    def test_an_unreadable_file(self) -> None:
        self.folder.chmod(0o755)
        path = self.file("secret.sif", b"var a;")
        path.chmod(0)
        command = self.folder / "sif"
        shutil.copy(COMMAND, command)
        as_nobody = {"user": 65_534} if os.getuid() == 0 else {}
        ran = subprocess.run([command, "check", path], capture_output=True, **as_nobody)
        self.assertEqual(ran.returncode, 2)
        self.assertIn(b"secret.sif: cannot be read: permission denied", ran.stderr)

    def test_the_longest_script_is_read(self) -> None:
        self.assertEqual(sif("check", self.file("a.sif", b" " * 65_535)).returncode, 0)

    def test_one_that_is_missing_does_not_hide_the_others(self) -> None:
        ran = sif("check", self.folder / "missing.sif", EXAMPLES / "planted.sif")
        self.assertEqual((ran.returncode, ran.stdout.count(b"planted.sif:")), (2, 6))

    def test_names_with_odd_signs(self) -> None:
        path = self.file("-odd\x1b name.sif", b"q;")
        ran = sif("check", "--", path.name, cwd=self.folder)
        self.assertEqual((ran.returncode, b"\x1b" in ran.stdout), (1, False))


class Line(Case):
    def test_help_and_version(self) -> None:
        ran = sif("--help")
        self.assertEqual((ran.returncode, ran.stderr), (0, b""))
        page = (ROOT / "hosts/sif/sif.1").read_text().replace("\\-", "-")
        for option in set(re.findall(r"--[a-z-]+", ran.stdout.decode())) - {"--help", "--version"}:
            self.assertIn(option, page)
        self.assertTrue(max(map(len, ran.stdout.decode().splitlines())) <= 110)
        self.assertEqual(sif("--version").stdout, b"sif 0.1.0\n")

    def test_wrong_lines(self) -> None:
        for words in ([], ["check"], ["chekc", "a"], ["fmt", "--wirte", "a"], ["fmt", "--write", "-"]):
            ran = sif(*words)
            self.assertEqual((ran.returncode, ran.stdout), (2, b""))
            self.assertTrue(ran.stderr.startswith(b"sif: "))

    def test_nobody_reads_on(self) -> None:
        script = self.file("many.sif", b"1;" * 30_000)
        ran = subprocess.run(f"{COMMAND} tree {script} | head -n 1", shell=True, capture_output=True)
        self.assertEqual((ran.stdout, ran.stderr), (b"Program\n", b""))


if __name__ == "__main__":
    unittest.main()
