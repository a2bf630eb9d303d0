#!/usr/bin/env python3
"""Bring the repository's own definitions and lemmas to snake case, as today's Rattle spells them.

    tools/snake_names.py            at the top of the repository, once, after the kit's port.py

Every name that a file of crates/*/specs or crates/*/proofs declares, that begins with a small letter and has a capital inside,
is written with underscores: halfWidth -> half_width. Names of types and modules, and names of src/, keep their spelling.
It rewrites .antt and .rt files, wrong edits and the pages of docs/. Two names that would fall together are named, and nothing is written.
"""
import pathlib
import re
import sys

NAME = r"[^\s():{}.,;\"=\[\]`|/*<>!?&]+"
DECLARED = re.compile(r"(?m)^\s*(?:(?:pub|abbrev|unfoldable|open)\s+)*(" + NAME + r") : ")
TOKEN = re.compile(r"(?<![\w'-])[a-z][\w'-]*")
# Lemmas that would have the name of the definition they are about, and the files that say them.
LEMMAS = {
    "bound_of": ("crates/sheet_laws/proofs/PartLaws.antt", "crates/record_sheet/proofs/lines/put_rows/Proof.antt"),
    "bytes_left": ("crates/job_laws/proofs/PriceLaws.antt",),
    "is_later": ("crates/report_laws/proofs/SumLaws.antt",),
    "row_number": ("crates/valuation/proofs/EntryLaws.antt",),
}


def snake(name):
    return re.sub(r"(?<=[a-z0-9])([A-Z])", lambda m: "_" + m.group(1).lower(), name)


def declared(root):
    names = set()
    for part in ("specs", "proofs"):
        for path in root.glob(f"crates/*/{part}/**/*.antt"):
            names.update(DECLARED.findall(path.read_text(encoding="utf-8")))
    return names


def mapping(names):
    camel = {n for n in names if re.match(r"[a-z]", n) and re.search(r"[a-z0-9][A-Z]", n)}
    table = {n: snake(n) for n in camel}
    seen = {}
    clash = []
    for old, new in sorted(table.items()):
        if new in names or new in seen:
            clash.append((old, new, seen.get(new, "declared")))
        seen[new] = old
    return table, clash


def main():
    if sys.argv[1:] in (["-h"], ["--help"]):
        print(__doc__.strip())
        return 0
    root = pathlib.Path(__file__).resolve().parent.parent
    if len(sys.argv) > 1:
        root = pathlib.Path(sys.argv[1])
    for name, files in LEMMAS.items():
        for path in (root / file for file in files):
            text = path.read_text(encoding="utf-8")
            path.write_text(TOKEN.sub(lambda m, n=name: n + "_lem" if m.group(0) == n else m.group(0), text), encoding="utf-8")
    table, clash = mapping(declared(root))
    for old, new, other in clash:
        print(f"{old} and {other} would both be {new}")
    if clash:
        return 1
    patterns = ("crates/*/src/**/*.rt", "crates/*/specs/**/*.antt", "crates/*/proofs/**/*.antt", "crates/*/must-fail/*.edit",
                "docs/*.md", "README.md")
    changed = 0
    for pattern in patterns:
        for path in sorted(root.glob(pattern)):
            text = path.read_text(encoding="utf-8")
            new = TOKEN.sub(lambda m: table.get(m.group(0), m.group(0)), text)
            if new != text:
                path.write_text(new, encoding="utf-8")
                changed += 1
    print(f"{len(table)} names, {changed} files")
    return 0


if __name__ == "__main__":
    sys.exit(main())
