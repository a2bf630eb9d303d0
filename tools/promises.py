#!/usr/bin/env python3
"""Holds docs/PROMISES.md against the tree, and what the kit said of wrong edits against what an edit must be refused for.

    tools/promises.py                      as far as the edits were tried
    tools/promises.py --edits [CRATE ...]  tries the edits of these crates first, or of all, by `rt must-fail`

Every file, name and edit that docs/PROMISES.md names is there, and every public function is named. A name stands for what its block, a row of a table or
a paragraph, named before it: a function of the crate, or a definition, theorem or field of the file. The table of fields and wrong edits has every field of
the joint statement with an edit, and every edit of the statement's crates. The first error of an edit, as `rt must-fail` and the gate print it and as
target/must-fail.log and target/gate.log keep it, is none that a true edit could give too; nor is the edit one that is still proved, that cannot be read or
that only a limit or a lost name refuses. An edit whose run did not end is told and not judged. `rt must-fail` tries again what changed, and nothing that the
gate tried. Exit status 1 where anything is wrong.
"""
import pathlib
import re
import subprocess
import sys

sys.dont_write_bytecode = True
import usage

ROOT = pathlib.Path(__file__).resolve().parent.parent
TOKEN = re.compile(r'`([^`]+)`')
FUNCTION = re.compile(r'^\s*pub (?:extern "C" )?fn (\w+)', re.M)
PATH = re.compile(r'[\w.-]+(/[\w.-]+)+')
CALL = re.compile(r'(\w+)::(\w+\*?)')
NAME = re.compile(r'[^\W\d][\w-]*')
# The joint statement; the crates whose records are told in one table with their wrong edits, and its columns: the other fields of the statement have tables of
# their own. A record of specs/, with its fields.
STATEMENT, STATED, COLUMNS = 'Engine', ('engine', 'promises', 'sheet_promises'), '| Record | Field | Line | Wrong edit |'
RECORD = re.compile(r'^pub record (\w+).*\n((?:(?:  .*)?\n)*)', re.M)
FIELD = re.compile(r'^  pub ([\w-]+) :(.*)', re.M)
EVERY = re.compile(r'^ \(.*\) → (\w+Promises)(?: \w+)*$')
# Words of the language that a contract is written in.
WORDS = {'requires', 'ensures'}
# What the kit prints of an edit: its verdict, and of a refused one the first line that the prover told. A line is cut short.
LOGS = ('target/gate.log', 'target/must-fail.log')
VERDICT = re.compile(r'^rt: must-fail (\w+/[\w.-]+)\.edit: (.*)$', re.M)
REFUSED, UNTRIED = 'refused, as it must be', 'NOT TRIED'
# What the first error of a wrong edit must not be about: these say that a proof does not fit, not that a fact is false.
HOLLOW = ('not in scope', 'has no `', 'has no field', 'was not admitted', 'no occurrence', 'found no proof')


class Tree:
    """The crates: their public functions, and what their files declare."""

    def __init__(self, root):
        self.root, self.crates = root, root / 'crates'
        self.functions = {crate.name: {name for source in crate.glob('src/*.rt') for name in FUNCTION.findall(source.read_text(encoding='utf-8'))}
                          for crate in self.crates.iterdir() if crate.is_dir()}

    def file(self, path):
        """The file or folder that a path of docs/PROMISES.md means, or None. It stands below crates/ or at the root."""
        for place in (self.crates / path, self.root / path):
            for found in (place, place.with_name(place.name + '.antt'), place.with_name(place.name + '.edit')):
                if found.exists():
                    return found
        return None

    def declares(self, path, name):
        """Whether a file declares a name, or a folder of edits has it."""
        if path.is_dir():
            return (path / f'{name}.edit').is_file()
        return re.search(rf'(?m)^\s*(?:[a-z]+ )*{re.escape(name)}(?=[\s(:])', path.read_text(encoding='utf-8')) is not None

    def cites(self, crate, name):
        """Whether a crate brings a name in for its contracts, such as one of the prover's own library."""
        brought = re.compile(rf'^ghost use [^;]*(?<![\w-]){re.escape(name)}(?![\w-])', re.M)
        return any(brought.search(source.read_text(encoding='utf-8')) for source in (self.crates / crate).glob('src/*.rt'))


def blocks(text):
    """The text of each row of a table and of each paragraph, with the line on which it starts."""
    start, lines = 1, []
    for number, line in enumerate(text.split('\n') + [''], 1):
        if lines and (not line.strip() or line.startswith('|')):
            yield start, '\n'.join(lines)
            lines = []
        if line.strip():
            start = start if lines else number
            lines.append(line)


class Block:
    """One block: what it named so far. A name is told by the last crate or file before it; then by any other of the block."""

    def __init__(self, tree, known):
        self.tree, self.known, self.places, self.crate, self.named = tree, known, [], None, set()

    def fault(self, token):
        """What is wrong of a token, or None."""
        if token in WORDS or not (PATH.fullmatch(token) or CALL.fullmatch(token) or NAME.fullmatch(token)):
            return None
        if CALL.fullmatch(token):
            return self.function(*CALL.fullmatch(token).groups())
        return self.path(token) if PATH.fullmatch(token) else self.name(token)

    def function(self, crate, name):
        self.crate = crate
        fitting = [each for each in self.tree.functions.get(crate, ()) if each == name or name.endswith('*') and each.startswith(name[:-1])]
        self.named.update((crate, each) for each in fitting)
        return None if fitting else f'crates/{crate} has no public function {name}'

    def path(self, token):
        found = self.tree.file(token)
        if found is None:
            return f'there is no {token}'
        self.places.insert(0, found.parent if found.suffix == '.edit' else found)
        self.crate = None
        return None

    def name(self, token):
        if self.crate and token in self.tree.functions.get(self.crate, ()):
            self.named.add((self.crate, token))
        elif not (any(self.tree.declares(place, token) for place in self.places) or any(self.tree.declares(place, token) for place in self.known)
                  or token in self.tree.functions or any(self.tree.cites(crate, token) for crate, _ in self.named)):
            return f'{token} is nowhere in what the block names'
        return None


def faults_of_text(text, tree):
    """What is wrong of the text of docs/PROMISES.md."""
    known = {tree.file(token) for token in TOKEN.findall(text) if PATH.fullmatch(token)} - {None}
    known, named, faults = [path for path in known if path.suffix == '.antt'], set(), []
    for line, content in blocks(text):
        block = Block(tree, known)
        faults += [f'docs/PROMISES.md, line {line}: {fault}' for fault in map(block.fault, TOKEN.findall(content)) if fault]
        named |= block.named
    public = {(crate, name) for crate, names in tree.functions.items() for name in names}
    return faults + [f'docs/PROMISES.md does not name {crate}::{name}' for crate, name in sorted(public - named)]


def fields_of(records, name):
    """The fields of a record, each with the record in which it stands; a field that is a record itself, all of it, stands for that one's fields, and so does one
    that is a record of promises for every argument."""
    for field, stated in records.get(name, ()):
        promised = EVERY.search(stated)
        if stated.strip() in records:
            yield from fields_of(records, stated.strip())
        elif promised and promised[1] in records:
            yield from fields_of(records, promised[1])
        else:
            yield name, field


def faults_of_fields(text, root):
    """What is wrong of the table of fields and wrong edits."""
    specs = [path for crate in STATED for path in sorted((root / 'crates' / crate / 'specs').glob('*.antt'))]
    records = {name: FIELD.findall(body) for path in specs for name, body in RECORD.findall(path.read_text(encoding='utf-8'))}
    rows = [re.findall(TOKEN, row) for row in text.partition(COLUMNS)[2].partition('\n\n')[0].splitlines()[2:]]
    there, named = {each for each in fields_of(records, STATEMENT) if each[0] != STATEMENT}, {tuple(row[:2]) for row in rows}
    faults = [f'no wrong edit of {record} {field}' for record, field in sorted(there - named)]
    faults += [f'{" ".join(each)} is no field of the statement' for each in sorted(named - there)]
    faults += [f'no wrong edit in the row of {" ".join(row[:2])}' for row in rows if '/must-fail/' not in row[-1]]
    edits = {f'{crate}/must-fail/{path.stem}' for crate in STATED for path in (root / 'crates' / crate / 'must-fail').glob('*.edit')}
    faults += [f'{edit} tries no field' for edit in sorted(edits - {row[-1] for row in rows})]
    return [f'docs/PROMISES.md, fields and wrong edits: {fault}' for fault in faults]


def faults_of_verdict(edit, verdict):
    """What is wrong of what the kit said of an edit: a refusal must name a false fact, and not what the kit itself says little of."""
    told, colon, line = verdict.partition(': ')
    if not verdict.startswith(REFUSED):
        return [f'{edit}: {verdict[:240]}']
    if told != REFUSED:
        return [f'{edit}: it is refused {told.removeprefix(REFUSED).strip()}: {line[:240]}' if colon else f'{edit}: {told[:240]}']
    if not line:
        return [f'{edit}: no error in its log']
    return [f'{edit}: its first error says "{word}": {line[:240]}' for word in [word for word in HOLLOW if word in line][:1]]


def verdicts(root):
    """What the kit said of each edit of the tree, by its name; of two logs the later says it."""
    logs = sorted((path for path in (root / name for name in LOGS) if path.is_file()), key=lambda path: path.stat().st_mtime)
    said = {name: verdict for path in logs for name, verdict in VERDICT.findall(path.read_text(encoding='utf-8', errors='replace'))}
    edits = [f'{edit.parent.parent.name}/{edit.stem}' for edit in sorted((root / 'crates').glob('*/must-fail/*.edit'))]
    return {edit: said[edit] for edit in edits if edit in said}


def judged(root):
    """The edits whose run ended, by their names, with what was said."""
    return {edit: verdict for edit, verdict in verdicts(root).items() if not verdict.startswith(UNTRIED)}


def unended(root):
    """The edits whose run did not end: it was broken off or killed."""
    return [edit for edit, verdict in verdicts(root).items() if verdict.startswith(UNTRIED)]


def try_edits(crates, root=ROOT):
    """Tries the edits of these crates, or of all; what was said of others is kept."""
    made = subprocess.run(['rt', 'must-fail', *crates], cwd=root, stdin=subprocess.DEVNULL, stdout=subprocess.PIPE, stderr=subprocess.STDOUT, text=True,
                          errors='replace')
    new = dict(VERDICT.findall(made.stdout))
    if not new:
        sys.exit(f'rt must-fail said nothing of an edit: {" ".join(made.stdout.split())[-400:]}')
    log = root / LOGS[-1]
    log.parent.mkdir(exist_ok=True)
    said = dict(VERDICT.findall(log.read_text(encoding='utf-8'))) if log.is_file() else {}
    log.write_text(''.join(f'rt: must-fail {edit}.edit: {verdict}\n' for edit, verdict in sorted({**said, **new}.items())), encoding='utf-8')


def main(arguments=()):
    usage.answer(__doc__, list(arguments), ('--edits',), most=len(arguments) if '--edits' in arguments else 0)
    if '--edits' in arguments:
        try_edits([word for word in arguments if word != '--edits'])
    tree, text = Tree(ROOT), (ROOT / 'docs/PROMISES.md').read_text(encoding='utf-8')
    faults = faults_of_text(text, tree) + faults_of_fields(text, ROOT)
    read = judged(ROOT)
    for edit, verdict in read.items():
        faults += faults_of_verdict(edit, verdict)
    count = len(list((ROOT / 'crates').glob('*/must-fail/*.edit')))
    print(f'first errors read of {len(read)} edits of {count}' if read else f'no first error read: there is no {" or ".join(LOGS)}')
    left = unended(ROOT)
    if left:
        named = f'{", ".join(left[:3])}{" and others" * (len(left) > 3)}'
        print(f'not judged: the run of {named} did not end, since it was broken off or killed')
    print(*faults, sep='\n', end='\n' if faults else '')
    return 1 if faults else 0


if __name__ == '__main__':
    sys.exit(main(sys.argv[1:]))
