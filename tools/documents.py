#!/usr/bin/env python3
"""Holds the documents against the tree: every link and its heading; in docs/TRUST.md and docs/READING.md every path and name; in docs/DECISIONS.md,
docs/LAYERS.md and docs/DEVELOPING.md that every path is there, and every other name somewhere in the sources. docs/PROMISES.md is held by tools/promises.py,
which this runs too.

    tools/documents.py

A name stands for what its block, a row of a table or a paragraph, named before it, as in docs/PROMISES.md. A path with `*` must fit a file. Every file of specs/
that is not in specs/inside/ stands in docs/READING.md. The rooms of crates.txt, its comments, are those of docs/LAYERS.md, with the same crates. Exit status 1 where
anything is wrong.
"""
import os
import pathlib
import re
import sys

sys.dont_write_bytecode = True
import promises
import usage

ROOT = promises.ROOT
HELD = ('docs/TRUST.md', 'docs/READING.md')
# Documents that speak of wrappers, tools and tests too, and where what they name stands.
SPOKEN = ('docs/DECISIONS.md', 'docs/LAYERS.md', 'docs/DEVELOPING.md')
SOURCES = ('crates', 'c', 'rust/src', 'rust/build.rs', 'python', 'javascript', 'page', 'compare', 'tools', 'reference', 'studies', 'bench', 'trials', 'examples')
WORD = re.compile(r'[^\W\d][\w-]*')
LINKED = ('README.md', 'CHANGELOG.md', 'examples/README.md', 'javascript/README.md', *(str(path.relative_to(ROOT)) for path in sorted((ROOT / 'docs').rglob('*.md'))))
LINK = re.compile(r'\]\(([^)\s]+)\)')
# What is made and not kept, and the size of a file that is no source.
MADE, MOST_BYTES = ('target', 'out/', 'dist', 'share', 'lib/'), 1_000_000
# Words that are no names of the tree: of the prover, the C library, the kit and files that are made.
OTHERS = {'memcpy', 'memset', 'mixegorta', 'stdout', 'dist/', 'target/', 'target/log/', 'target/module/mixegorta.bc', 'out/', 'src/', 'specs/', 'specs/inside/', 'proofs/', 'PROOF.txt', 'libmixegorta.a'}


def anchors(text):
    """The headings of a document as links name them."""
    plain = re.sub(r'^```.*?^```$', '', text, flags=re.M | re.S)
    return {re.sub(r'[^\w\- ]', '', head.lower()).replace(' ', '-') for head in re.findall(r'^#+ (.*)$', plain, re.M)}


def faults_of_links(name, root=ROOT):
    """Links of a document to files or headings that are not there."""
    place = root / name
    for target in LINK.findall(re.sub(r'^```.*?^```$', '', place.read_text(encoding='utf-8'), flags=re.M | re.S)):
        file, _, heading = target.partition('#')
        if '://' in target:
            continue
        path = place.parent / file if file else place
        if not path.exists():
            yield f'{name}: there is no {target}'
        elif heading and heading not in anchors(path.read_text(encoding='utf-8')):
            yield f'{name}: {file or name} has no heading {heading}'


def fault(block, token, root):
    """What is wrong of a token of docs/TRUST.md or docs/READING.md, or None."""
    word = token.split()[0] if token else ''
    if token in OTHERS or word in ('rt', 'fn', 'rt:') or '=' in token or token == 'N passed, 0 failed' or not re.search(r'[A-Za-z]', token):
        return None
    if '*' in token or token.endswith('/'):
        return None if list(root.glob(token.rstrip('/'))) else f'nothing is called {token}'
    if re.fullmatch(r'\.?[\w.-]+(/[\w.-]+)+( .*)?', token) and (root / word).exists():
        return None
    return block.fault(token)


def faults_of_names(name, root=ROOT):
    tree, text = promises.Tree(root), (root / name).read_text(encoding='utf-8')
    known = {tree.file(token) for token in promises.TOKEN.findall(text) if promises.PATH.fullmatch(token)} - {None}
    known = [path for path in known if path.suffix == '.antt']
    for line, content in promises.blocks(text):
        block = promises.Block(tree, known)
        for token in promises.TOKEN.findall(content):
            wrong = fault(block, token, root)
            if wrong:
                yield f'{name}, line {line}: {wrong}'


def sources_below(folder):
    """The files and folders below a folder but what is made: in target/, and in out/ by the kit."""
    for place, folders, files in os.walk(folder):
        folders[:] = [name for name in folders if name not in ('target', 'out')]
        yield from (pathlib.Path(place, name) for name in [*folders, *files])


def words_of_sources(root=ROOT):
    """Every word of the sources, and the names of their files and folders."""
    found = set()
    for path in (each for name in SOURCES for each in ([root / name] if (root / name).is_file() else sources_below(root / name))):
        found.update((path.name, path.stem))
        if path.is_file() and path.stat().st_size < MOST_BYTES:
            found.update(WORD.findall(path.read_text(encoding='utf-8', errors='ignore')))
    return found


def faults_of_mentions(name, words, root=ROOT):
    """Paths of a document that are not there, and names that no source has."""
    tree, text = promises.Tree(root), (root / name).read_text(encoding='utf-8')
    for token in promises.TOKEN.findall(re.sub(r'^```.*?^```$', '', text, flags=re.M | re.S)):
        word = token.split()[0] if token.split() else ''
        if promises.PATH.fullmatch(word) and not word.startswith(MADE):
            if tree.file(word) is None and not any(root.glob(word)) and not any(root.glob(f'crates/*/{word}')):
                yield f'{name}: there is no {word}'
        elif promises.CALL.fullmatch(token) or promises.NAME.fullmatch(token):
            missing = [part for part in WORD.findall(token.rstrip('*')) if part not in words and not token.endswith('*')]
            if missing:
                yield f'{name}: no source has {missing[0]}, which it names as {token}'


def faults_of_reading(root=ROOT):
    """Definitions that a reader is not led to; what stands in specs/inside/ need not be read."""
    text = (root / 'docs/READING.md').read_text(encoding='utf-8')
    for path in sorted((root / 'crates').glob('*/specs/*.antt')):
        crate = path.parent.parent.name
        if path.stem not in ('Lib', 'inside') and f'`{crate}/specs/{path.stem}`' not in text:
            yield f'docs/READING.md does not name {crate}/specs/{path.stem}'


def rooms_of_crates(text):
    """The rooms of crates.txt, each with its crates: a room is the first word of a comment, before its comma."""
    rooms = [['', []]]
    for line in text.splitlines():
        if line.startswith('#'):
            rooms.append([line[1:].partition(',')[0].strip(), []])
        elif ':' in line:
            # A static library has a word beside its name.
            rooms[-1][1].append(line.split(':')[0].split()[0])
    return [(room, crates) for room, crates in rooms if room or crates]


def rooms_of_layers(text):
    """The rooms of docs/LAYERS.md: its headings of the third level, each with the crates of its table's first column."""
    parts = re.split(r'^### (.*)$', text.partition('\n## Crates\n')[2].partition('\n## ')[0], flags=re.M)
    cells = [[row.split('|')[1] for row in part.splitlines() if row.startswith('| `')] for part in parts[2::2]]
    return [(room.strip(), promises.TOKEN.findall(' '.join(rows))) for room, rows in zip(parts[1::2], cells)]


def faults_of_rooms(root=ROOT):
    """Where crates.txt and docs/LAYERS.md tell the house differently."""
    listed = rooms_of_crates((root / 'crates.txt').read_text(encoding='utf-8'))
    told = rooms_of_layers((root / 'docs/LAYERS.md').read_text(encoding='utf-8'))
    if any(line.startswith('#') and ':' in line for line in (root / 'crates.txt').read_text(encoding='utf-8').splitlines()):
        yield 'a comment of crates.txt has a colon, by which its readers in Python and Rust tell a crate'
    if [room for room, _ in listed] != [room for room, _ in told]:
        yield f'the rooms of crates.txt, {[room for room, _ in listed]}, are not those of docs/LAYERS.md, {[room for room, _ in told]}'
        return
    for (room, crates), (_, names) in zip(listed, told):
        if crates != names:
            yield f'{room}: crates.txt has {" ".join(crates)}, docs/LAYERS.md {" ".join(names)}'


def main(arguments):
    usage.answer(__doc__, arguments)
    faults = [fault for name in LINKED if (ROOT / name).exists() for fault in faults_of_links(name)]
    faults += [fault for name in HELD for fault in faults_of_names(name)]
    words = words_of_sources()
    faults += [fault for name in SPOKEN for fault in faults_of_mentions(name, words)]
    faults += [*faults_of_reading(), *faults_of_rooms()]
    print(*faults, f'{len(LINKED)} documents: {len(faults)} faults', sep='\n')
    sys.argv[1:] = []
    return max(int(bool(faults)), promises.main())


if __name__ == '__main__':
    sys.exit(main(sys.argv[1:]))
