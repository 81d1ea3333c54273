"""Tests of the package: the fixed lists of the Rust's answers (docs/COMPARISON.md), the stack, the exceptions."""

from __future__ import annotations

import doctest
import pickle
import re
import subprocess
import sys
import threading
import unittest
from pathlib import Path

import sif
from sif import _library, _reader
from sif._library import Rooms

CRATES = Path(__file__).resolve().parents[3] / "crates"


def scripts(name: str) -> list[bytes]:
    """The scripts of a list: for each its length in decimal, a newline, its bytes, a newline."""
    rest, found = (CRATES / name / "stdin").read_bytes(), []
    at = 0
    while at < len(rest):
        digits = rest.index(b"\n", at)
        start, length = digits + 1, int(rest[at:digits])
        found.append(rest[start : start + length])
        at = start + length + 1
    return found


def refused(error: sif.Refused) -> str:
    return f"refused {error.number:d} {error.kind:d} {error.offset}\n"


def line(words: list) -> str:
    return " ".join(f"{int(word)}" for word in words) + "\n"


def tokens_told(script: bytes) -> str:
    try:
        tokens = sif.tokens(script)
    except sif.Refused as error:
        return refused(error)
    told = []
    for token in tokens:
        at_line, column = sif.place(script, token.span.start)
        spelling = {sif.TokenKind.Val: "", sif.TokenKind.Eof: "EOF"}.get(token.kind, token.spelling)
        told.append(f"{token.kind:d}:{at_line}:{column}:{spelling.encode().hex()}")
    return " ".join(told) + "\n"


def reason_word(error: sif.ParseError) -> int:
    first = error.token.index if error.token else 0
    second = error.message or 0
    if error.kind is sif.ReasonKind.TknMismatch:
        second = error.expected
    if error.kind is sif.ReasonKind.FnParmCntExceeded:
        first = error.expected
    if error.kind is sif.ReasonKind.WrongFnParmCnt:
        first, second = error.expected, error.found
    return error.kind + 16 * first + 1_048_576 * second


def ending(error: sif.ParseError | None) -> str:
    if error is None:
        return "none\n"
    offset = error.token.span.start if error.token else 0
    return line([error.line, error.column, error.kind, offset, error.expected])


def head(node: sif.Node) -> int:
    return node.kind + 32 * node.mark + 64 * len(node.children)


def load(node: sif.Node) -> int:
    return node.token.index if node.token else node.scope or 0


def reading_told(script: bytes) -> str:
    """What the listing program prints for a script, with its rooms, and what it leaves out."""
    try:
        if len(script) > 4_096:
            raise sif.Refused(1, 0, 0)
        reading = _reader._read(script, Rooms(0, tokens=4_097, nodes=4_097, symbols=8_192, errors=1_024))
    except sif.Refused as error:
        return refused(error)
    tokens = len(reading.tokens) + (reading.hidden_fault is not None)
    told = line([tokens, len(reading.nodes), len(reading.errors), reading.failed])
    told += line([head(node) for node in reading.nodes]) + line([load(node) for node in reading.nodes])
    told += "".join(line([error.line, error.column, error.kind]) for error in reading.errors)
    return told + line([reason_word(error) for error in reading.errors]) + ending(reading.ended)


class Replay(unittest.TestCase):
    def replayed(self, name: str, told) -> int:
        found = scripts(name)
        stored = (CRATES / name / "stdout").read_text()
        at = 0
        for script in found:
            answer = told(script)
            self.assertEqual(stored[at : at + len(answer)], answer, script)
            at += len(answer)
        self.assertEqual(at, len(stored))
        return len(found)

    def test_the_stored_tokens(self) -> None:
        self.assertEqual(self.replayed("token_replay", tokens_told), 959)

    def test_the_stored_readings(self) -> None:
        self.assertEqual(self.replayed("read_replay", reading_told), 1_167)

    def test_texts_read_back(self) -> None:
        texts = 0
        for script in scripts("read_replay"):
            try:
                reading = sif.read(script)
            except sif.Refused as error:
                self.assertIn(error.number, (2, 5, 6))
                continue
            if reading.failed:
                with self.assertRaises(sif.Refused) as caught:
                    sif.text(script)
                self.assertEqual(caught.exception.number, sif.Refusal.Flagged)
                continue
            written = sif.text(script)
            texts += 1
            try:
                again = sif.read(written)
            except sif.Refused as error:
                self.assertEqual(error.number, sif.Refusal.TooDeep)
                continue
            self.assertTrue(again.same_tree(reading), script)
            self.assertEqual(sif.text(written), written)
        self.assertGreater(texts, 150)


class Kinds(unittest.TestCase):
    def test_the_header_has_the_same_numbers(self) -> None:
        header = (CRATES.parent / "include/sif.h").read_text()
        told = {name: int(number) for name, number in re.findall(r"^    (SIF_\w+) = (\d+)", header, re.M)}
        enums = [
            ("SIF_TOKEN_", sif.TokenKind),
            ("SIF_NODE_", sif.NodeKind),
            ("SIF_ERROR_", sif.ReasonKind),
            ("SIF_FAULT_", sif.Fault),
            ("SIF_MESSAGE_", sif.Message),
            ("SIF_", sif.Refusal),
        ]
        for prefix, enum in enums:
            for kind in enum:
                name = re.sub(r"(?<=[a-z])(?=[A-Z])", "_", kind.name.rstrip("_")).upper()
                self.assertEqual(told[prefix + name], kind)


class Calls(unittest.TestCase):
    def test_the_examples_of_the_documentation(self) -> None:
        failed, tried = doctest.testmod(sif)
        self.assertEqual(failed, 0)
        self.assertGreater(tried, 4)

    def test_values(self) -> None:
        self.assertEqual([token.value for token in sif.tokens(b'5. + "5" 0;')], [5.0, None, None, 0.0, None, None])
        self.assertEqual([sif.value(b"9007199254740993"), sif.value(b"0.1")], [9007199254740992.0, 0.1])
        for none in (b"", b".5", b"5..", b"1e5", b"+1", b"5 ", b"0" * 20):
            self.assertIsNone(sif.value(none))

    def test_refusals_carry_number_kind_and_offset(self) -> None:
        cases = [
            (b" " * 65_536, (1, 0, 0)),
            (b"a\x80", (2, 0, 1)),
            (b"var a; // c", (5, 1, 7)),
            (b"var a; (1 + 2)(a);", (5, 3, 14)),
            (b"(" * 256, (6, 0, 0)),
            (b"a;", (10, 0, 0)),
        ]
        for script, wanted in cases:
            with self.assertRaises(sif.Refused) as caught:
                sif.text(script)
            error = caught.exception
            self.assertEqual((error.number, error.kind, error.offset), wanted)
            copy = pickle.loads(pickle.dumps(error))
            self.assertEqual((copy.number, str(copy)), (error.number, str(error)))

    def test_the_deepest_script_of_a_length(self) -> None:
        for length in range(1, 256):
            script, depth = sif.deepest(length)
            self.assertEqual((script, depth), (b"(" * length, 3 * length + 3))
            self.assertTrue(sif.read(script).failed)
        for length in (-1, 0, 256, 1 << 63):
            with self.assertRaises(sif.Refused) as caught:
                sif.deepest(length)
            self.assertEqual((caught.exception.number, caught.exception.kind), (sif.Refusal.NoLength, 0))
        self.assertEqual(_library.deepest(3, 5), (0, 12, b"(((\0\0"))
        self.assertEqual(_library.deepest(3, 2), (20, 0, b"\0\0"))

    def test_a_script_is_bytes(self) -> None:
        self.assertEqual(len(sif.tokens(memoryview(b"a;"))), 3)
        self.assertFalse(sif.read(bytearray(b"")).failed)
        with self.assertRaises(TypeError):
            sif.read("var a;")

    def test_the_longest_script(self) -> None:
        self.assertEqual(len(sif.read(b" " * 65_535).nodes), 1)
        self.assertEqual(len(sif.read(b";" * 65_535).errors), 65_535)
        chain = sif.read(b"1" + b"+1" * 32_000 + b";")
        self.assertEqual(sum(1 for _ in chain.root.walk()), len(chain.nodes))

    def test_an_error_says_what_and_where(self) -> None:
        reading = sif.read(b"fn f(a) { }\nf(1, 2);\nvar b = 1")
        self.assertEqual([str(error) for error in reading.problems][0], "2:8: expected 1 argument, found 2")
        self.assertEqual(str(reading.ended), "4:1: expected `;`, found the end of the script")

    def test_what_is_not_read(self) -> None:
        cases = [(b"", None), (b"a; # c", None), (b"a; $ b", 3), (b'a; // c\n "b', 9), (b'"b', 0), (b"5 5 // c", 4)]
        for script, wanted in cases:
            self.assertEqual(sif.read(script).unread, wanted, script)

    def test_the_example(self) -> None:
        root = CRATES.parent
        for name, status, said in (("schedule", 0, b"var notional = 1000000 ;"), ("planted", 1, b":17:28: `j` is not")):
            words = [sys.executable, "examples/python/read.py", f"examples/{name}.sif"]
            ran = subprocess.run(words, cwd=root, capture_output=True)
            self.assertEqual((ran.returncode, ran.stderr), (status, b""))
            self.assertIn(said, ran.stdout)

    def test_deep_scripts_on_a_thread_with_little_stack(self) -> None:
        deep = [b"(" * 255 + b"1" + b")" * 255 + b";", b"{" * 768 + b"}" * 768, b"-" * 765 + b"1;"]
        answers = []
        before = threading.stack_size(256 << 10)
        try:
            thread = threading.Thread(target=lambda: answers.extend(sif.read(script).failed for script in deep))
            thread.start()
        finally:
            threading.stack_size(before)
        thread.join()
        self.assertEqual(answers, [False, False, False])
        self.assertEqual(threading.stack_size(), before)

    def test_threads_at_once(self) -> None:
        script = b"var a = (1 + 2) * 3;\n" * 500
        answers = []
        threads = [threading.Thread(target=lambda: answers.append(sif.text(script))) for _ in range(8)]
        for thread in threads:
            thread.start()
        for thread in threads:
            thread.join()
        self.assertEqual(answers, [b"var a = ( 1 + 2 ) * 3 ;\n" * 500] * 8)


if __name__ == "__main__":
    unittest.main()
