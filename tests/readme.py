#!/usr/bin/env python3
"""Compiles and runs README.md's examples, in C with warnings as errors and in Rust, and compares what they write with what README.md says.

    tests/readme.py ARCHIVE"""
import os
import re
import subprocess
import sys
import tempfile
from pathlib import Path

ROOT = Path(__file__).resolve().parent.parent
STRICT = ["-std=c11", "-Wall", "-Wextra", "-Wpedantic", "-Werror", "-O2"]
# As .ci/machine sets them where the machine is no x86-64.
COMPILER, EMULATOR = os.environ.get("CC", "gcc"), os.environ.get("EMULATOR", "").split()


def block(text, language):
    """The one piece of code in a language, and the text after it."""
    found = re.findall(rf"^```{language}\n(.*?)^```\n(.*)", text, re.M | re.S)
    if len(found) != 1:
        sys.exit(f"README.md has no example in {language}")
    return found[0]


def written(code, archive):
    """What a program in C writes."""
    with tempfile.TemporaryDirectory() as made:
        source, program = Path(made, "example.c"), Path(made, "example")
        source.write_text(code)
        subprocess.run([COMPILER, *STRICT, f"-I{ROOT}/include", source, archive, "-o", program], check=True)
        return subprocess.run([*EMULATOR, program], check=True, capture_output=True, text=True).stdout


def rust_written(code):
    """What the example of rust/examples writes, which is README.md's."""
    if code not in (ROOT / "rust/examples/deviation.rs").read_text(encoding="utf-8"):
        sys.exit("README.md's example in Rust is not that of rust/examples/deviation.rs")
    run = ["cargo", "run", "--release", "--offline", "--quiet", "--example", "deviation"]
    return subprocess.run(run, cwd=ROOT / "rust", check=True, capture_output=True, text=True).stdout


def main():
    text = (ROOT / "README.md").read_text(encoding="utf-8")
    code, after = block(text, "c")
    said = re.match(r"\s*writes `([^`]*)`", after)
    for wrote in (written(code, sys.argv[1]), rust_written(block(text, "rust")[0])):
        if not said or wrote != said[1] + "\n":
            sys.exit(f"README.md's example does not write what README.md says: {wrote}")
    print("readme: its examples write what it says")


main()
