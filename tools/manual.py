#!/usr/bin/env python3
"""Runs the examples of docs/MANUAL.md and compares what each prints with the block after it.

Usage: tools/manual.py [--installed], at the root, after tools/library has built the library. Blocks of Python follow on each other; a
block of C or Rust is a program of its own. With --installed the blocks of Python alone, with the installed package. Needs a C compiler and
cargo for the others. Prints what differs; exit status 1 where anything does."""
import contextlib
import io
import os
import pathlib
import re
import subprocess
import sys

sys.dont_write_bytecode = True
import usage

ROOT = pathlib.Path(__file__).resolve().parent.parent
FOLDER = ROOT / "target/examples/manual"
CARGO = '[package]\nname = "manual"\nversion = "0.1.0"\nedition = "2021"\n[dependencies]\nmixegorta = { path = "%s" }\n[workspace]\n'


def blocks():
    """Pairs of language and text, in the manual's order."""
    return re.findall(r"^```(\w+)\n(.*?)^```$", (ROOT / "docs/MANUAL.md").read_text(), re.M | re.S)


def printed_by(*command):
    return subprocess.run(command, stdout=subprocess.PIPE, text=True, check=True).stdout


def run_python(code, names):
    out = io.StringIO()
    with contextlib.redirect_stdout(out):
        exec(code, names)
    return out.getvalue()


def run_c(code):
    source, program = FOLDER / "example.c", FOLDER / "example"
    source.write_text(code)
    subprocess.run([os.environ.get("CC", "cc"), "-std=c11", "-Wall", "-Wextra", "-Wpedantic", "-Werror", "-I", ROOT / "c", "-o", program, source,
                    ROOT / "target/libmixegorta.a"], check=True)
    return printed_by(program)


def run_rust(code):
    (FOLDER / "rust/src").mkdir(parents=True, exist_ok=True)
    (FOLDER / "rust/src/main.rs").write_text(code)
    (FOLDER / "rust/Cargo.toml").write_text(CARGO % (ROOT / "rust"))
    return printed_by("cargo", "run", "--quiet", "--offline", "--manifest-path", FOLDER / "rust/Cargo.toml")


def main():
    usage.answer(__doc__, sys.argv[1:], ("--installed",))
    installed = sys.argv[1:] == ["--installed"]
    FOLDER.mkdir(parents=True, exist_ok=True)
    sys.path[:0] = [str(ROOT / "reference")] if installed else [str(ROOT / "python"), str(ROOT / "reference")]
    names, ran, same = {}, 0, True
    run = {"python": lambda code: run_python(code, names)}
    if not installed:
        run.update(c=run_c, rust=run_rust)
    listed = blocks()
    for (language, code), (after, wanted) in zip(listed, listed[1:] + [("", "")]):
        if language == "text" or installed and language not in run:
            continue
        printed = run[language](code)
        ran += 1
        if after != "text" or printed != wanted:
            same = False
            print(f"the manual's {language} example {ran} printed:\n{printed}")
    print(f"examples of the manual: {ran} run")
    return 0 if same and ran else 1


if __name__ == "__main__":
    sys.exit(main())
