#!/usr/bin/env python3
"""Writes the declarations of Rust, Python and JavaScript: what the crate capi exports, the refusals of tools/refusals.txt and the limits of
tools/limits.txt. Header and manual are written by hand, and compared with them.

    tools/declarations.py            writes what is written, and compares the rest
    tools/declarations.py --check    writes nothing: what would be written must stand there

Prints what differs; exit status 1 where anything does."""
import re
import sys

sys.dont_write_bytecode = True
import exports
import javascript_writers
import source_tables
import usage
import writers

ROOT = exports.ROOT
BEGIN, END = '# ---- begin: written by tools/declarations.py\n', '# ---- end\n'
NUMBERED = re.compile(r'(?<![\d,])(\d+)(?: to (\d+))?(?= [a-z])')


# ---- what is written

def regions(path, parts):
    """The file's text with each part between a pair of marks, in their order."""
    text = path.read_text()
    pieces = re.split(f'({re.escape(BEGIN)}|{re.escape(END)})', text)
    if pieces[1::2] != [BEGIN, END] * len(parts):
        raise exports.NotUnderstood(f'{path.name} has not {len(parts)} parts between marks')
    for place, part in enumerate(parts):
        pieces[4 * place + 2] = '\n'.join(part) + '\n'
    return ''.join(pieces)


def written(functions, records, refusals, limits):
    """Every written file with its text."""
    python, javascript = ROOT / 'python/mixegorta', ROOT / 'javascript'
    return {
        ROOT / 'rust/src/raw.rs': writers.rust_raw(functions, records),
        ROOT / 'rust/src/refusals.rs': writers.rust_refusals(refusals),
        ROOT / 'rust/src/limits.rs': writers.rust_limits(limits),
        python / '_declarations.py': writers.python_declarations(functions, records),
        python / '_limits.py': writers.python_limits(limits),
        ROOT / 'python/mixegorta_command/words.py': writers.command_words(refusals),
        ROOT / 'c/mixegorta_causes.h': writers.c_causes(refusals),
        javascript / 'declarations.js': javascript_writers.javascript(functions, records, refusals, limits),
        javascript / 'declarations.d.ts': javascript_writers.types(functions, records, refusals, limits),
        javascript / 'refusals.js': javascript_writers.refusal_classes(refusals),
        python / 'refusals.py': regions(python / 'refusals.py', [writers.python_causes(refusals), writers.python_classes(refusals)]),
    }


def stale(files, check):
    """Names the files that are not as they are written; writes them unless it is a check."""
    for path, text in files.items():
        if not path.exists() or path.read_text() != text:
            if check:
                yield f'{path.relative_to(ROOT)} is not what tools/declarations.py writes: run it'
            else:
                path.write_text(text)
                print(f'written: {path.relative_to(ROOT)}')


# ---- what is compared

def one_line(text):
    text = re.sub(r'\s+', ' ', text).strip()
    return re.sub(r',? ?([)}])', r'\1', re.sub(r'([({]) ', r'\1', text))


def header_constants(header):
    """The numbers that the header defines, by name without prefix."""
    return {name: int(value) for name, value in re.findall(r'^#define MIXEGORTA_(\w+) (?:UINT64_C\()?(\d+)\)?$', header, re.M)}


def header_declarations(header):
    """Functions and structs of the header as one line each, its constants as numbers."""
    for name, value in header_constants(header).items():
        header = re.sub(rf'\bMIXEGORTA_{name}\b(?=\])', str(value), header)
    plain = re.sub(r'^#.*$', '', re.sub(r'/\*.*?\*/', ' ', header, flags=re.S), flags=re.M)
    return [one_line(m[0]) for m in re.finditer(r'^(?:struct \w+|\w+) \w+\([^;{]*\);|^struct \w+ \{[^}]*\};', plain, re.M)]


def different_declarations(wanted, given):
    for line in wanted:
        if line not in given:
            yield f'c/mixegorta.h lacks: {line}'
    for line in given:
        if line not in wanted:
            yield f'c/mixegorta.h has, and capi has not: {line}'
    if len(given) != len(set(given)):
        yield 'c/mixegorta.h declares something twice'


def different_limits(limits, header):
    """Where the header or a crate has another number than the table."""
    given = header_constants(header)
    for limit in limits:
        if given.get(limit.name) != limit.value:
            yield f'c/mixegorta.h: MIXEGORTA_{limit.name} is {given.get(limit.name)}, not {limit.value}'
        for place in limit.stands:
            path, text = place.split(maxsplit=1)
            found = re.findall(r'([\d_]+)'.join(map(re.escape, text.split('{}'))), (ROOT / 'crates' / path).read_text())
            if {int(number) for number in found} != {limit.value}:
                yield f'crates/{path}: {limit.name} is {limit.value}, and `{text}` says {", ".join(found) or "nothing"}'
    listed = {limit.name for limit in limits}
    for name in given:
        if name.startswith(('MAX_', 'MIN_')) and name not in listed:
            yield f'c/mixegorta.h: MIXEGORTA_{name} is no limit of tools/limits.txt'


def different_causes(place, refusals, given):
    """Where a list of refusals, numbers with texts that begin with the cause, is not the table's."""
    if list(given) != [refusal.number for refusal in refusals]:
        yield f'{place} lists the refusals {list(given)}'
        return
    for refusal in refusals:
        if not re.match(re.escape(refusal.cause) + r'($|[:;,.] )', given[refusal.number]):
            yield f'{place}: refusal {refusal.number} begins with: {refusal.cause}'


def header_causes(header):
    listed = re.search(r'^ \* Refusals, .*?$(.*?)^ \* Memory', header, re.M | re.S)[1].replace('\n *', '\n')
    return {int(m[1]): ' '.join(m[2].split()) for m in re.finditer(r'^ {1,6}(\d+)  (\S.*?)(?=^ {1,6}\d+  |\Z)', listed, re.M | re.S)}


def manual_rows():
    """The manual's causes and remedies, by number."""
    rows = re.findall(r'^\| (\d+) \| (.*?) \| (.*) \|$', (ROOT / 'docs/MANUAL.md').read_text(), re.M)
    return {int(number): cause for number, cause, _ in rows}, {int(number): remedy for number, _, remedy in rows}


def numbers_told(comment, told):
    """The refusals that a function's comment tells; told has those of the functions before it."""
    found = re.search(r'Refusals?[^:.]*: (.*)', ' '.join(comment.replace('\n *', '\n').split()))
    if not found:
        return set()
    numbers = set()
    for name in re.findall(rf'{exports.PREFIX}\w+', found[1]):
        numbers |= told[name]
    for first, last in NUMBERED.findall(found[1]):
        numbers |= set(range(int(first), int(last or first) + 1))
    return numbers


def different_entries(refusals, functions, header):
    """Where a function's comment tells other refusals than the table."""
    names = [function.name for function in functions]
    unknown = {exports.PREFIX + entry for refusal in refusals for entry in refusal.entries} - set(names)
    if unknown:
        yield f'tools/refusals.txt names what is not exported: {", ".join(sorted(unknown))}'
    told = {}
    for comment, name in re.findall(rf'/\*((?:(?!\*/).)*)\*/\n(?:struct )?\w+ ({exports.PREFIX}\w+)\(', header, re.S):
        told[name] = numbers_told(comment, told)
        wanted = {refusal.number for refusal in refusals if name.removeprefix(exports.PREFIX) in refusal.entries}
        if told[name] != wanted:
            yield f'c/mixegorta.h: {name} tells the refusals {sorted(told[name])}, and the table {sorted(wanted)}'


def differences(functions, records, refusals, limits):
    header = (ROOT / 'c/mixegorta.h').read_text()
    yield from different_declarations(list(writers.c_declarations(functions, records)), header_declarations(header))
    yield from different_limits(limits, header)
    yield from different_causes('c/mixegorta.h', refusals, header_causes(header))
    causes, remedies = manual_rows()
    yield from different_causes('docs/MANUAL.md', refusals, causes)
    for refusal in refusals:
        if not remedies.get(refusal.number, '').startswith(refusal.remedy):
            yield f'docs/MANUAL.md: what to do about refusal {refusal.number} begins with: {refusal.remedy}'
    yield from different_entries(refusals, functions, header)


def main(arguments):
    usage.answer(__doc__, arguments, ('--check',))
    try:
        functions, records = exports.exported()
        refusals, limits = source_tables.refusals(), source_tables.limits()
        files = written(functions, records, refusals, limits)
    except (exports.NotUnderstood, source_tables.Broken) as why:
        sys.exit(str(why))
    found = [*stale(files, bool(arguments)), *differences(functions, records, refusals, limits)]
    print(*found, f'{len(functions)} functions, {len(records)} structs, {len(refusals)} refusals, {len(limits)} limits: {len(found)} differences', sep='\n')
    return 1 if found else 0


if __name__ == '__main__':
    sys.exit(main(sys.argv[1:]))
