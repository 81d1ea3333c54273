"""Tests of the C interface: the header's numbers, what the libraries export, the example, the fixed lists, clearing."""

from __future__ import annotations

import os
import re
import shutil
import subprocess
import tempfile
import unittest
from pathlib import Path

ROOT = Path(__file__).resolve().parents[3]
CC = os.environ.get("CC", "cc")
STRICT = ["-std=c99", "-Wall", "-Wextra", "-Wpedantic", "-Werror"]


def run(*words, **more) -> subprocess.CompletedProcess:
    return subprocess.run([*map(str, words)], capture_output=True, timeout=60, cwd=ROOT, **more)


def cases(file: str, name: str) -> list[str]:
    """The names of the cases of an enum of the Rust source, in order."""
    source = (ROOT / "docs/src" / file).read_text()
    body = re.search(rf"enum {name} \{{(.*?)\n\}}", source, re.S).group(1)
    return re.findall(r"^    ([A-Z]\w*)", body, re.M)


def constant(prefix: str, name: str) -> str:
    return prefix + re.sub(r"(?<=[a-z])(?=[A-Z])", "_", name).upper()


# Prints length, refusal, depth, SIF_DEPTH and the script for every length; `-` where the buffer was left.
DEEPEST = """
#include <sif.h>
#include <stdio.h>

int main(void) {
    uint8_t script[257];
    size_t n, depth;
    for (n = 1; n <= 257; n++) {
        uint32_t number;
        script[0] = '-';
        script[1] = 0;
        number = sif_deepest(n % 257, script, sizeof script, &depth);
        printf("%zu %u %zu %zu %s\\n", n % 257, (unsigned)number, depth, SIF_DEPTH(n % 257), (const char *)script);
    }
    return 0;
}
"""


class Header(unittest.TestCase):
    def test_the_numbers_are_those_of_the_rust_source(self) -> None:
        header = (ROOT / "include/sif.h").read_text()
        told = {name: int(number) for name, number in re.findall(r"^    (SIF_\w+) = (\d+)", header, re.M)}
        lists = [
            ("SIF_TOKEN_", cases("sifc_parse/src/token.rs", "TokenTy"), ["Fault"]),
            ("SIF_NODE_", cases("sifc_parse/src/ast.rs", "AstNode")[:-1], []),
            ("SIF_ERROR_", cases("sifc_err/src/parse_err.rs", "ParseErrTy"), []),
        ]
        for prefix, names, more in lists:
            wanted = {constant(prefix, name): number for number, name in enumerate(names + more, 1)}
            self.assertEqual({name: told[name] for name in told if name.startswith(prefix)}, wanted)
        refusals = "NONE LONG_SCRIPT NOT_ASCII UNEVEN TOKENS_FULL SOURCE_FAULT TOO_DEEP NODES_FULL SYMBOLS_FULL"
        refusals += " ERRORS_FULL FLAGGED TEXT_FULL NO_NUMBER"
        for number, name in enumerate(refusals.split()):
            self.assertEqual(told["SIF_" + name], number)
        self.assertEqual(told["SIF_NO_LENGTH"], 20)

    def test_c_and_cpp_take_it(self) -> None:
        source = b"#include <sif.h>\nint main(void) { return SIF_TOKEN_EOF - 47; }\n"
        for words in ([CC, *STRICT, "-x", "c"], ["c++", "-Wall", "-Wextra", "-Werror", "-x", "c++"]):
            if shutil.which(words[0]) is None:
                continue
            ran = run(*words, "-Iinclude", "-fsyntax-only", "-", input=source)
            self.assertEqual((ran.returncode, ran.stderr), (0, b""))


class Libraries(unittest.TestCase):
    CALLS = ["sif_deepest", "sif_reading", "sif_text", "sif_tokens", "sif_value"]

    def exported(self, *words) -> list[str]:
        told = run("nm", "--defined-only", "--extern-only", *words).stdout.decode()
        return sorted(re.findall(r" T (\w+)", told))

    def test_what_is_exported(self) -> None:
        self.assertEqual(self.exported("target/staticlib/libsif_c.a"), self.CALLS)
        self.assertEqual(self.exported("-D", "target/lib/libsif_c.so"), self.CALLS)

    def test_the_archive_wants_nothing_but_memset(self) -> None:
        told = run("nm", "--undefined-only", "--format=posix", "target/staticlib/libsif_c.a").stdout.decode()
        wanted = {line.split()[0] for line in told.splitlines() if len(line.split()) > 1}
        self.assertEqual(wanted, {"memset"})

    def test_the_shared_library_is_sound(self) -> None:
        told = run("readelf", "-dlW", "target/lib/libsif_c.so").stdout.decode()
        self.assertIn("[libsif_c.so.0]", told)
        self.assertNotIn("TEXTREL", told)
        self.assertRegex(told, r"GNU_STACK.* RW ")


class Programs(unittest.TestCase):
    def setUp(self) -> None:
        self.folder = Path(tempfile.mkdtemp())
        self.addCleanup(shutil.rmtree, self.folder)

    def built(self, source: str, *words) -> Path:
        program = self.folder / "program"
        ran = run(CC, *STRICT, source, *words, "-o", program)
        self.assertEqual((ran.returncode, ran.stderr), (0, b""))
        return program

    def test_no_byte_is_cleared_twice(self) -> None:
        library = "target/staticlib/libsif_c.a"
        program = self.built("hosts/c/cleared.c", "-Iinclude", library, "-Wl,--wrap=memset")
        lines = [line.split() for line in run(program).stdout.decode().splitlines()]
        told = [(call, int(refusal)) for call, refusal, _, _ in lines]
        wanted = {"tokens": [0, 4, 5], "reading": [0, 5, 5, 7], "text": [0, 10, 11]}
        self.assertEqual(told, [(call, refusal) for call in wanted for refusal in wanted[call]])
        for call, refusal, due, cleared in lines:
            self.assertEqual(cleared, due, f"{call}, refusal {refusal}")

    def test_the_deepest_script_of_a_length(self) -> None:
        source = self.folder / "deepest.c"
        source.write_text(DEEPEST)
        told = run(self.built(source, "-Iinclude", "target/staticlib/libsif_c.a")).stdout.decode()
        wanted = [f"{n} 0 {3 * n + 3} {3 * n + 3} {'(' * n}" for n in range(1, 256)]
        none = ["256 20 0 768 -", "0 20 0 3 -"]
        self.assertEqual(told.splitlines(), wanted + none)

    def replayed(self, *words) -> None:
        program = self.built("hosts/c/replay.c", "-Iinclude", *words)
        for what, name in (("tokens", "token_replay"), ("readings", "read_replay")):
            folder = ROOT / "crates" / name
            told = run(program, what, input=(folder / "stdin").read_bytes()).stdout
            self.assertEqual(told, (folder / "stdout").read_bytes())

    def test_the_fixed_lists_with_the_static_library(self) -> None:
        self.replayed("target/staticlib/libsif_c.a")

    def test_the_fixed_lists_with_the_shared_library(self) -> None:
        self.replayed("-Ltarget/lib", "-lsif_c", f"-Wl,-rpath,{ROOT}/target/lib")

    def told(self, program: Path) -> None:
        ran = run(program, "examples/schedule.sif")
        lines = ran.stdout.decode().splitlines()
        self.assertEqual(ran.returncode, 0)
        self.assertEqual(lines[0], "examples/schedule.sif: 99 tokens, 67 nodes, 0 errors")
        self.assertEqual(lines[1], "var notional = 1000000 ;")
        ran = run(program, "examples/planted.sif")
        self.assertEqual(ran.returncode, 1)
        self.assertIn(b"examples/planted.sif:17:28: error 9\n", ran.stdout)
        self.assertEqual(run(program, "examples/missing.sif").returncode, 2)

    def test_the_example_in_the_repository(self) -> None:
        self.told(self.built("examples/c/read.c", "-Iinclude", "-Ltarget/staticlib", "-lsif_c"))

    def test_the_example_with_an_installed_library(self) -> None:
        prefix = self.folder / "prefix of ours"
        ran = run("make", "-s", "install-lib", f"PREFIX={prefix}")
        self.assertEqual((ran.returncode, ran.stderr), (0, b""))
        installed = sorted(str(path.relative_to(prefix)) for path in prefix.rglob("*") if not path.is_dir())
        libraries = ["lib/libsif_c.a", "lib/libsif_c.so", "lib/libsif_c.so.0"]
        self.assertEqual(installed, ["include/sif.h", *libraries, "lib/pkgconfig/sif.pc"])

    def test_pkg_config(self) -> None:
        if shutil.which("pkg-config") is None:
            self.skipTest("there is no pkg-config")
        prefix = self.folder / "prefix"
        run("make", "-s", "install-lib", f"PREFIX={prefix}")
        where = {**os.environ, "PKG_CONFIG_PATH": f"{prefix}/lib/pkgconfig"}
        asked = run("pkg-config", "--cflags", "--libs", "sif", env=where)
        words = asked.stdout.decode().split()
        self.assertEqual(words, [f"-I{prefix}/include", f"-L{prefix}/lib", "-lsif_c"])
        self.told(self.built("examples/c/read.c", *words, f"-Wl,-rpath,{prefix}/lib"))


if __name__ == "__main__":
    unittest.main()
