#!/usr/bin/env python3
"""Tells the version and whether it is the same wherever it stands: the crate capi, whose export answers it, header, Cargo.toml and
Cargo.lock, python/, javascript/ and CHANGELOG.md, which also has an entry for the base and for each request that the
version counts, and above them may have one that is unreleased.

Usage: tools/version.py, at any place. Prints what differs; exit status 1 where anything does."""
import pathlib
import re
import sys

sys.dont_write_bytecode = True
import usage

ROOT = pathlib.Path(__file__).resolve().parent.parent
PYTHON_VERSION = r'^__version__\s*(?::\s*\w+\s*)?=\s*["\']([^"\']+)["\']'
SETTING_VERSION = r'^version\s*=\s*["\']?(\d[^"\'\s]*)'
# The first heading of a version; what is not released yet may stand above it.
CHANGELOG_VERSION = r'\A[^#]*# .*\n[^#]*(?:## Unreleased\n(?:(?!## ).*\n)*)?## (\S+):'
REQUESTS = ('i', 'ii', 'iii', 'iv', 'v', 'vi', 'vii', 'viii', 'ix', 'x', 'xi', 'xii', 'xiii', 'xiv')


def found(path, pattern):
    """Each version that the file states in this way, with the file's name."""
    return [(str(path.relative_to(ROOT)), version) for version in re.findall(pattern, path.read_text(), re.M)]


def header_versions():
    path = ROOT / 'c/mixegorta.h'
    numbers = [re.search(rf'^#define MIXEGORTA_VERSION_{part} (\d+)$', path.read_text(), re.M) for part in ('MAJOR', 'MINOR', 'PATCH')]
    joined = '.'.join(number[1] if number else '?' for number in numbers)
    return found(path, r'^#define MIXEGORTA_VERSION "(.*)"$') + [('c/mixegorta.h by its three numbers', joined)]


def crate_versions():
    """The definition that the export is proved to meet, and the number in its code."""
    defined = re.search(r'^version = version_number (\d+) (\d+) (\d+)$', (ROOT / 'crates/capi/specs/Version.antt').read_text(), re.M)
    coded = re.search(r'fn mixegorta_version\(\)[^{]*\{[^}]*\}\s*\{\s*([\d_]+)\s*\}', (ROOT / 'crates/capi/src/lib.rt').read_text())
    number = int(coded[1]) if coded else 0
    return ([('crates/capi/specs/Version.antt', '.'.join(defined.groups()) if defined else '?'),
             ('crates/capi/src/lib.rt', f'{number // 1_000_000}.{number // 1_000 % 1_000}.{number % 1_000}' if coded else '?')])


def rust_versions():
    return (found(ROOT / 'rust/Cargo.toml', r'\A\[package\]\nname = "mixegorta"\nversion = "(.*)"')
            + found(ROOT / 'rust/Cargo.lock', r'^name = "mixegorta"\nversion = "(.*)"'))


def python_versions():
    """Those of a module or of a package, and of the files that build it where they state one."""
    sources = [path for path in sorted((ROOT / 'python').rglob('*.py')) if 'build' not in path.parts]
    settings = [path for path in (ROOT / 'python/pyproject.toml', ROOT / 'python/setup.cfg') if path.exists()]
    return ([pair for path in sources for pair in found(path, PYTHON_VERSION)]
            + [pair for path in settings for pair in found(path, SETTING_VERSION)])


def javascript_versions():
    return found(ROOT / 'javascript/package.json', r'^    "version": "(.*)",$')


def lacking_entries(version):
    """Of the base and each request up to the version, those without an entry."""
    entries = (ROOT / 'CHANGELOG.md').read_text()
    wanted = [f'## 0.{k}.0: request ({name}),' for k, name in enumerate(REQUESTS[:int(version.split('.')[1])], 1)]
    return [entry for entry in ['## 0.0.0: the base', *wanted] if entry not in entries]


def main():
    usage.answer(__doc__, sys.argv[1:])
    groups = {'the header': header_versions(), 'crates/capi': crate_versions(), 'rust/': rust_versions(), 'python/': python_versions(),
              'javascript/': javascript_versions(), 'CHANGELOG.md': found(ROOT / 'CHANGELOG.md', CHANGELOG_VERSION)}
    silent = [name for name, pairs in groups.items() if not pairs]
    stated = [pair for pairs in groups.values() for pair in pairs]
    if silent:
        print('no version is stated by', ', '.join(silent))
    version = stated[0][1]
    different = len({number for _, number in stated}) > 1 or not re.fullmatch(r'\d+\.\d+\.\d+', version)
    if different:
        print(*(f'{place}: {number}' for place, number in stated), sep='\n')
    lacking = [] if different else lacking_entries(version)
    if lacking:
        print('CHANGELOG.md lacks', *lacking, sep='\n')
    if silent or different or lacking:
        return 1
    print(f'{version}, in {len(stated)} places')
    return 0


if __name__ == '__main__':
    sys.exit(main())
