"""What the studies share: the library, blocks of documents that a script writes, and tables."""
import pathlib
import re
import sys

ROOT = pathlib.Path(__file__).resolve().parent.parent
DOCS = ROOT / 'docs'
PICTURES = DOCS / 'pictures/studies'
sys.dont_write_bytecode = True
sys.path[:0] = [str(ROOT / 'python')]
FREQUENCIES = (1, 2, 4, 12)
STEP_NAMES = {1: 'yearly', 2: 'half-yearly', 4: 'quarterly', 12: 'monthly'}


def library():
    """The package; the script that asks for it ends here where --help or an unknown argument is given, or where there is no library."""
    words = sys.argv[1:]
    if '-h' in words or '--help' in words:
        print((sys.modules['__main__'].__doc__ or '').strip())
        sys.exit(0)
    try:
        import mixegorta
    except (ImportError, OSError) as missing:
        sys.exit(f'no library ({missing}): run tools/library first')
    return mixegorta


def whole_reversion(yearly, frequency):
    """Ten-thousandths a step, to the nearest."""
    return round(yearly * 10_000 / frequency)


def table(head, rows):
    """A table of Markdown; the first column to the left, the others to the right."""
    lines = [head, ['---'] + ['---:'] * (len(head) - 1), *rows]
    return ''.join('| ' + ' | '.join(map(str, line)) + ' |\n' for line in lines)


def with_block(text, name, block):
    """The text of a document with the block between its two marks replaced."""
    pattern = re.compile(rf'(<!-- begin {name} -->\n).*?(<!-- end {name} -->)', re.S)
    if len(pattern.findall(text)) != 1:
        sys.exit(f'the document has not one place for {name}')
    return pattern.sub(lambda found: found[1] + block + found[2], text)


def outputs(document, blocks, pictures):
    """What the files of a study should hold, by path."""
    path = DOCS / document
    text = path.read_text()
    for name, block in blocks.items():
        text = with_block(text, name, block)
    return {path: text, **{PICTURES / name: picture for name, picture in pictures.items()}}


def write_or_compare(made):
    """Writes the files, or with --check names those that differ: exit status 1."""
    if '--check' not in sys.argv[1:]:
        for path, text in made.items():
            path.write_text(text)
        return 0
    stale = [str(path.relative_to(ROOT)) for path, text in made.items() if not path.exists() or path.read_text() != text]
    print('differs: ' + ' '.join(stale) if stale else f'as committed: {len(made)} files')
    return 1 if stale else 0
