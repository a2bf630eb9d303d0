#!/usr/bin/env python3
"""Tests of tools/promises.py, tools/proofs.py, tools/documents.py, tools/reach, tools/shorten, tools/trials, tools/stack.py and reference/widths.py: what is wrong is found, and what is right is let through.

    python3 tools/test_checks.py
"""
import importlib.machinery
import importlib.util
import os
import pathlib
import shutil
import subprocess
import sys
import tempfile
import unittest
from unittest import mock

ROOT = pathlib.Path(__file__).resolve().parent.parent
sys.path[:0] = [str(ROOT / 'reference'), str(ROOT / 'tools')]
sys.dont_write_bytecode = True
import documents
import promises
import stack
import widths



def script(name):
    """A script of tools/ without a suffix, as a module."""
    loader = importlib.machinery.SourceFileLoader(name, str(ROOT / 'tools' / name))
    module = importlib.util.module_from_spec(importlib.util.spec_from_loader(name, loader))
    loader.exec_module(module)
    return module


reach, shorten, trials = script('reach'), script('shorten'), script('trials')

SOURCE = '''ghost use Rattle.std.specs.Prelude.{
  nat_abs,
};
pub fn half_width(row: usize) -> usize
    ensures { result ≡ nat_abs (double_width row) }
{
    row
}

pub(crate) fn within(row: usize) -> usize { row }
    pub fn node_count(row: usize) -> usize { row }
pub extern "C" fn mixegorta_rows(row: usize) -> usize { row }
'''
FILES = {
    'crates/lattice/src/lib.rt': SOURCE,
    'crates/lattice/specs/Shape.antt': 'unfoldable pub double_width : ℕ → ℕ\ndouble_width i = i\n\npub record Shape : Type 0 where\n  pub width-is : ℕ\n',
    'crates/lattice/proofs/Sizes.antt': '-- start-first is proved below\npub row-ends : (i : ℕ) → i ≡ i\nrow-ends i = refl\n',
    'crates/lattice/must-fail/one_less.edit': 'file: src/lib.rt\nold: row\nnew: 0\n',
    'docs/notes.md': 'notes\n',
}
GOOD = '''# Promises

No function has a `requires`; see `docs/notes.md`.

| Entry | Contract | Definition |
|---|---|---|
| width; nodes; `refused 6` | `lattice::half_width`; `node_count` | `nat_abs`; `lattice/specs/Shape` `double_width`, `width-is` |
| exports | `lattice::mixegorta_*` | `double_width` |
| refused | `lattice/must-fail/one_less` | `lattice/must-fail` `one_less` |

Rows end: `lattice/proofs/Sizes` `row-ends`
(record `Shape`).
'''
# What the kit says of an edit, as it says it of a false fact, of a false contract and of what shows nothing.
REFUSED = 'refused, as it must be'
FALSE_FACT = f'{REFUSED}: proofs/Laws.antt:61:5: error: `value-below`: `omega`: the goal does not follow from what it read'
FALSE_CONTRACT = (f'{REFUSED}: note: src/lib.rt:85:1: it is not proved that what the function ensures holds when it returns (`returns`); '
                  'the facts known there allow values at which this goal i')
BY_A_NAME = (f'{REFUSED} (only because a proof file names what the edit took away, so this says little of the contract: change a value and keep the names): '
             'proofs/Laws.antt:61:5: error: `value-below`: `out` is not in scope')
BY_A_LIMIT = (f'{REFUSED} (only by a limit of the prover, which gave no verdict, so this says less of the contract: choose a change that it refuses sooner): '
              'proofs/Laws.antt:61:5: error: antt ran out of stack')
UNREADABLE = 'BAD EDIT: the prover cannot read the edited text, so no contract was tried: src/lib.rt:8:35: error: `ensures`: `+` is not in scope'
PROVED = 'NOT REFUSED: the crate is still proved with this edit (one that means the same as before cannot be refused: remove it)'
KILLED = 'NOT TRIED: its check was killed, most likely for memory, so nothing is known of it: run this again'
STATEMENT = {
    'crates/promises/specs/Promises.antt': '''pub record Rows (i : ℕ) : Type 0 where
  pub first : i ≡ i

pub record TreePromises : Type 0 where
  -- the rows
  pub tree-rows : (i : ℕ) → Rows i
  pub tree-sound : (i : ℕ) →
      i ≤ i
''',
    'crates/sheet_promises/specs/SheetPromises.antt': 'pub record SheetPromises : Type 0 where\n  pub sheets : ℕ\n',
    'crates/engine/specs/Engine.antt': 'pub record Engine : Type 0 where\n  pub tree : TreePromises\n  pub sheets : SheetPromises\n  pub shelf : ShelfPromises\n',
    'crates/promises/must-fail/one_row.edit': '',
    'crates/promises/must-fail/no_row.edit': '',
    'crates/sheet_promises/must-fail/no_sheet.edit': '',
}
FIELDS = '''| Record | Field | Line | Wrong edit |
|---|---|---|---|
| `TreePromises` | `tree-rows` | `first` | `promises/must-fail/one_row` |
| `TreePromises` | `tree-rows` | | `promises/must-fail/no_row` |
| `TreePromises` | `tree-sound` | | `lattice/must-fail/one_less` |
| `SheetPromises` | `sheets` | | `sheet_promises/must-fail/no_sheet` |

| Entry | Numbers |
|---|---|
| `fit` | 9 |
'''
TRIAL = 'A tree.\nRefused: crates/promises/proofs/Kept.antt tree-kept\n\n--- a/crates/lattice/specs/Shape.antt\n'
CRATES = 'lattice:\nfitting: lattice\npromises: lattice fitting io\ncapi staticlib: lattice\nsheet: promises\n'
TOLD = '''rt: chose --jobs 2 for fitting
fn fitting::state_price_error_bound: proved
logic=proved functions=1 sum=00ff
rt: chose --jobs 2 for promises
./proofs/Kept.antt:25:113: error: `tree-kept`: the two types differ
proofs/All.antt:4:1: error: `all-kept`: `tree-kept` was not admitted (it has holes)
logic=not-proved
'''
LACKING = 'rt: chose --jobs 2 for {0}\nlogic=not-proved\nrt: the library {0} did not build, so nothing above it was checked\n'


class Promises(unittest.TestCase):
    def setUp(self):
        folder = tempfile.TemporaryDirectory()
        self.addCleanup(folder.cleanup)
        self.root = pathlib.Path(folder.name)
        for name, content in FILES.items():
            (self.root / name).parent.mkdir(parents=True, exist_ok=True)
            (self.root / name).write_text(content, encoding='utf-8')

    def faults(self, *changes):
        text = GOOD
        for old, new in changes:
            self.assertEqual(text.count(old), 1, old)
            text = text.replace(old, new)
        return promises.faults_of_text(text, promises.Tree(self.root))

    def test_a_true_text(self):
        self.assertEqual(self.faults(), [])

    def test_what_is_not_there(self):
        for old, new, line, fault in (
                ('lattice::half_width', 'lattice::half_widths', 7, 'crates/lattice has no public function half_widths'),
                ('lattice::half_width', 'lattices::half_width', 7, 'crates/lattices has no public function half_width'),
                ('`node_count`', '`within`', 7, 'within is nowhere in what the block names'),
                ('`nat_abs`', '`nat_rel`', 7, 'nat_rel is nowhere in what the block names'),
                ('lattice/specs/Shape`', 'lattice/specs/Shapes`', 7, 'there is no lattice/specs/Shapes'),
                ('`width-is`', '`width-was`', 7, 'width-was is nowhere in what the block names'),
                ('mixegorta_*', 'mixegorta_x*', 8, 'crates/lattice has no public function mixegorta_x*'),
                ('must-fail/one_less`', 'must-fail/one_more`', 9, 'there is no lattice/must-fail/one_more'),
                ('must-fail` `one_less`', 'must-fail` `one_more`', 9, 'one_more is nowhere in what the block names'),
                ('`row-ends`', '`start-first`', 11, 'start-first is nowhere in what the block names'),
                ('docs/notes.md', 'docs/note.md', 3, 'there is no docs/note.md')):
            with self.subTest(new=new):
                self.assertIn(f'docs/PROMISES.md, line {line}: {fault}', self.faults((old, new)))

    def test_public_functions_that_are_not_named(self):
        self.assertEqual(self.faults(('; `node_count`', '')), ['docs/PROMISES.md does not name lattice::node_count'])
        self.assertEqual(self.faults(('`lattice::mixegorta_*`', 'none')), ['docs/PROMISES.md does not name lattice::mixegorta_rows'])

    def test_fields_and_wrong_edits(self):
        for name, content in STATEMENT.items():
            (self.root / name).parent.mkdir(parents=True, exist_ok=True)
            (self.root / name).write_text(content, encoding='utf-8')
        self.assertEqual(promises.faults_of_fields(FIELDS, self.root), [])
        sound = '| `TreePromises` | `tree-sound` | | `lattice/must-fail/one_less` |\n'
        for text, faults in (
                (FIELDS.replace(sound, ''), ['no wrong edit of TreePromises tree-sound']),
                (FIELDS.replace('`tree-sound`', '`tree-rows`'), ['no wrong edit of TreePromises tree-sound']),
                (FIELDS.replace(sound, sound + sound.replace('sound', 'round')), ['TreePromises tree-round is no field of the statement']),
                (FIELDS.replace('`lattice/must-fail/one_less`', ''), ['no wrong edit in the row of TreePromises tree-sound']),
                (FIELDS.replace('promises/must-fail/no_row', 'promises/must-fail/one_row'), ['promises/must-fail/no_row tries no field']),
                ('', ['no wrong edit of SheetPromises sheets', 'no wrong edit of TreePromises tree-rows', 'no wrong edit of TreePromises tree-sound',
                      'promises/must-fail/no_row tries no field', 'promises/must-fail/one_row tries no field', 'sheet_promises/must-fail/no_sheet tries no field'])):
            with self.subTest(faults=faults):
                self.assertEqual(promises.faults_of_fields(text, self.root), [f'docs/PROMISES.md, fields and wrong edits: {each}' for each in faults])

    def test_first_errors(self):
        for verdict in (FALSE_FACT, FALSE_CONTRACT):
            self.assertEqual(promises.faults_of_verdict('a/b', verdict), [])
        goal = 'the goal does not follow from what it read'
        for changed, new, word in ((goal, '`<` is not in scope', 'not in scope'), (goal, 'it has no `Need-returns-2`', 'has no `'),
                                   (goal, 'it has no field `low`', 'has no field'), (goal, '`low` was not admitted', 'was not admitted'),
                                   ('`omega`: ', '`rw`: no occurrence of the path: ', 'no occurrence'), (goal, '`search` found no proof', 'found no proof')):
            with self.subTest(word=word):
                faults = promises.faults_of_verdict('a/b', FALSE_FACT.replace(changed, new))
                self.assertEqual([fault.startswith(f'a/b: its first error says "{word}": ') for fault in faults], [True], faults)
        self.assertEqual(promises.faults_of_verdict('a/b', REFUSED), ['a/b: no error in its log'])

    def test_what_shows_nothing(self):
        for verdict, words in ((BY_A_NAME, 'it is refused (only because a proof file names'), (BY_A_LIMIT, 'it is refused (only by a limit'),
                               (UNREADABLE, 'BAD EDIT'), (PROVED, 'NOT REFUSED')):
            with self.subTest(words=words):
                self.assertEqual([fault.startswith(f'a/b: {words}') for fault in promises.faults_of_verdict('a/b', verdict)], [True])

    def test_logs_are_those_of_edits(self):
        """And of two logs the later one says what was found."""
        (self.root / 'target').mkdir()
        gate, log = self.root / 'target/gate.log', self.root / 'target/must-fail.log'
        log.write_text(f'rt: must-fail lattice/gone.edit: {PROVED}\nrt: must-fail lattice/one_less.edit: {FALSE_FACT}\n', encoding='utf-8')
        self.assertEqual(promises.verdicts(self.root), {'lattice/one_less': FALSE_FACT})
        gate.write_text(f'rt: lattice proved\nrt: must-fail lattice/one_less.edit: {PROVED}\n1 passed, 1 failed\n', encoding='utf-8')
        for age, said in ((10, PROVED), (-10, FALSE_FACT)):
            os.utime(gate, (log.stat().st_mtime + age,) * 2)
            self.assertEqual(promises.verdicts(self.root), {'lattice/one_less': said})

    def test_an_edit_whose_run_did_not_end_is_not_judged(self):
        """A check that was killed says nothing of an edit; one that ended without an error is a fault."""
        (self.root / 'target').mkdir()
        for verdict, left in ((KILLED, ['lattice/one_less']), (PROVED, [])):
            (self.root / 'target/gate.log').write_text(f'rt: must-fail lattice/one_less.edit: {verdict}\n')
            self.assertEqual((promises.unended(self.root), list(promises.judged(self.root))), (left, [] if left else ['lattice/one_less']))
            faults = [fault for name, said in promises.judged(self.root).items() for fault in promises.faults_of_verdict(name, said)]
            self.assertEqual(faults, [] if left else [f'lattice/one_less: {PROVED}'])

    def test_edits_that_are_tried(self):
        """What the kit says of these is kept beside what it said of others; where it says nothing, that is told."""
        kit, log = self.root / 'rt', self.root / 'target/must-fail.log'
        said = [f'rt: must-fail {name}.edit: {FALSE_FACT}' for name in ('fitting/half', 'lattice/one_less')]
        for line, content in ((said[1], [said[1]]), (said[0], said), (said[1].replace(FALSE_FACT, PROVED), [said[0], said[1].replace(FALSE_FACT, PROVED)])):
            kit.write_text(f'#!/bin/sh\necho "$*" >ran\ncat <<\\END\n{line}\nEND\nexit 1\n', encoding='utf-8')
            kit.chmod(0o755)
            with mock.patch.dict(os.environ, PATH=f'{self.root}:{os.environ["PATH"]}'):
                promises.try_edits(['lattice'], self.root)
            self.assertEqual((self.root / 'ran').read_text(), 'must-fail lattice\n')
            self.assertEqual(log.read_text(encoding='utf-8').splitlines(), content)
        kit.write_text('#!/bin/sh\necho "rt: there is no crate"\n')
        with mock.patch.dict(os.environ, PATH=f'{self.root}:{os.environ["PATH"]}'):
            with self.assertRaisesRegex(SystemExit, 'said nothing of an edit: rt: there is no crate'):
                promises.try_edits([], self.root)


class Trials(unittest.TestCase):
    def fault(self, patch=TRIAL, status=1, said=TOLD, **beside):
        return trials.fault(patch, CRATES, {'promises': (status, said), **beside})

    def test_a_refusal_at_its_place(self):
        self.assertIsNone(self.fault())
        # A crate that the patch changes and that does not stand below the statement is proved beside it.
        self.assertIsNone(self.fault(f'{TRIAL}+++ b/crates/capi/src/lib.rt\n', capi=(0, 'logic=proved functions=1 sum=00ff\n')))

    def test_crates_below(self):
        self.assertEqual(trials.below(CRATES, 'sheet'), {'lattice', 'fitting', 'promises'})
        self.assertEqual(trials.below(CRATES, 'capi'), {'lattice'})

    def test_what_is_no_refusal(self):
        place, pricing = 'crates/promises/proofs/Kept.antt tree-kept', f'{TRIAL}+++ b/crates/pricing/src/walk.rt\n'
        for given, fault in (
                ({'patch': TRIAL.replace('Refused', 'refused')}, 'the patch names no place: Refused: FILE PROOF'),
                ({'said': LACKING.format('lattice')}, 'not proved below or beside promises: lattice'),
                ({'said': LACKING.format('fitting')}, 'not proved below or beside promises: fitting'),
                ({'patch': pricing}, 'not proved below or beside promises: pricing'),
                ({'patch': pricing, 'pricing': (1, 'logic=not-proved\n')}, 'not proved below or beside promises: pricing'),
                ({'patch': pricing, 'pricing': (1, LACKING.format('walks'))}, 'not proved below or beside promises: pricing, walks'),
                ({'status': 0, 'said': 'logic=proved functions=1 sum=00ff\n'}, 'promises is not refused'),
                ({'status': 3}, 'the check of promises ended with status 3 and no verdict'),
                ({'said': TOLD.replace('logic=not-proved', 'killed')}, 'the check of promises ended with status 1 and no verdict'),
                ({'patch': TRIAL.replace('tree-kept', 'led-as')}, f'refused at {place}, not at crates/promises/proofs/Kept.antt led-as alone'),
                ({'said': TOLD.replace('was not admitted', 'differs')}, f'refused at crates/promises/proofs/All.antt all-kept, {place}, not at {place} alone'),
                ({'said': TOLD.replace(': error', ': note')}, f'refused at no place, not at {place} alone')):
            with self.subTest(fault=fault):
                self.assertEqual(self.fault(**given), fault)

    def test_patches_name_their_place(self):
        for path in sorted((ROOT / 'trials').iterdir()):
            with self.subTest(path=path.name):
                file, proof = trials.REFUSED.search(path.read_text(encoding='utf-8')).groups()
                self.assertRegex((ROOT / file).read_text(encoding='utf-8'), rf'(?m)^\s*(pub )?{proof} :')

    @unittest.skipUnless(shutil.which('git'), 'git is not installed')
    def test_patches_fit_the_crates(self):
        for path in sorted((ROOT / 'trials').iterdir()):
            with self.subTest(path=path.name):
                fits = subprocess.run(['git', 'apply', '--check', str(path)], cwd=ROOT, capture_output=True, text=True)
                self.assertEqual((fits.returncode, fits.stderr), (0, ''))


class Proofs(unittest.TestCase):
    """A clone with a kit that only prints: of two crates the gate proves one, and took the other from an earlier run."""

    LINE = 'logic=proved functions={} sum=00ff native=nat,char,string logic-built=trusted\n'
    GATE = ('rt: low is kept: an earlier run on this machine proved the same files over the same libraries\n'
            f'== capi: its tests\n{LINE.format(9)}rt: capi: its tests are proved\n'
            f'== capi\nfn capi::row: proved\n{LINE.format("3 axioms=2 target=x")}rt: capi proved\n1 passed, 0 failed\n')

    def setUp(self):
        folder = tempfile.TemporaryDirectory()
        self.addCleanup(folder.cleanup)
        self.root = pathlib.Path(folder.name)
        for name in ('tools', 'bin', 'crates/low/src', 'crates/capi/src'):
            (self.root / name).mkdir(parents=True)
        (self.root / 'crates.txt').write_text('# Doors\nlow:\ncapi staticlib: low\n')
        for name in ('building.py', 'proofs.py'):
            shutil.copy(ROOT / 'tools' / name, self.root / 'tools')
        (self.root / 'gate').write_text(self.GATE)
        (self.root / 'check').write_text('rt: chose --jobs 2 for low\n' + self.LINE.format(7))
        kit = self.root / 'bin/rt'
        kit.write_text(f'#!/bin/sh\necho "$1 $PWD" >>{self.root}/runs\ncase $1 in ci) cat {self.root}/gate ;; check) cat {self.root}/check ;; *) echo kit ;; esac\n')
        kit.chmod(0o755)

    def ran(self, code):
        made = subprocess.run([sys.executable, '-B', '-c', f'import proofs; {code}'], cwd=self.root / 'tools', capture_output=True, text=True,
                              env={**os.environ, 'PATH': f'{self.root}/bin:{os.environ["PATH"]}'})
        return made.stdout + made.stderr.splitlines()[-1] if made.returncode else made.stdout

    def checks(self):
        return [line for line in (self.root / 'runs').read_text().splitlines() if line.startswith('check ')]

    def test_lines_of_the_gate_and_of_a_check(self):
        self.assertEqual(self.ran('print(proofs.gate(), proofs.line("capi"), proofs.line("low"))'), "True (3, 2, '00ff') (7, 0, '00ff')\n")
        self.assertEqual(self.checks(), [f'check {self.root}/crates/low'])
        # What is kept is taken again, until a crate below changes.
        self.assertEqual(self.ran('print(proofs.line("capi"), proofs.line("low"))'), "(3, 2, '00ff') (7, 0, '00ff')\n")
        self.assertEqual(len(self.checks()), 1)
        (self.root / 'crates/low/src/lib.rt').write_text('')
        self.assertEqual(self.ran('print(proofs.line("capi"))'), "(7, 0, '00ff')\n")
        self.assertEqual(self.checks()[1:], [f'check {self.root}/crates/capi'])

    def test_what_is_not_proved(self):
        (self.root / 'check').write_text('logic=not-proved\n')
        self.assertIn('Failed: target/log/low.say does not say that low is proved', self.ran('proofs.line("low")'))


class Documents(unittest.TestCase):
    """A tree of one crate and its documents, right and then wrong in one place after the other."""

    FILES = {'crates/promises/specs/Promises.antt': 'pub record Promises where\n', 'crates/promises/src/lib.rt': '', 'tools/check': '', 'docs/TRUST.md': '# Trust\n\nRun `tools/check`: [reading](READING.md#the-end).\n',
             'docs/READING.md': '# Reading\n\n`promises/specs/Promises` has `Promises`.\n\n## The end\n'}

    def faults(self, **changed):
        with tempfile.TemporaryDirectory() as folder:
            root = pathlib.Path(folder)
            for name, text in {**self.FILES, **{f'docs/{name}.md': text for name, text in changed.items()}}.items():
                (root / name).parent.mkdir(parents=True, exist_ok=True)
                (root / name).write_text(text)
            names = [fault for name in documents.HELD for fault in (*documents.faults_of_names(name, root), *documents.faults_of_links(name, root))]
            return names + list(documents.faults_of_reading(root))

    def test_right(self):
        self.assertEqual(self.faults(), [])

    def test_wrong(self):
        for changed, words in (({'TRUST': 'Run `tools/none`.'}, 'there is no tools/none'), ({'TRUST': 'See [it](NONE.md).'}, 'there is no NONE.md'),
                               ({'TRUST': 'See [it](READING.md#the-start).'}, 'READING.md has no heading the-start'), ({'TRUST': '`crates/*/none/`'}, 'nothing is called'),
                               ({'READING': self.FILES['docs/READING.md'].replace('has `Promises`', 'has `Others`')}, 'Others is nowhere'),
                               ({'READING': self.FILES['docs/READING.md'].replace('specs/Promises', 'specs/Lib')}, 'there is no promises/specs/Lib')):
            faults = self.faults(**changed)
            self.assertTrue(any(words in fault for fault in faults), (words, faults))

    def test_a_definition_that_reading_leaves_out(self):
        self.assertIn('docs/READING.md does not name promises/specs/Promises', self.faults(READING='# Reading\n\n## The end\n'))


class Mentions(unittest.TestCase):
    FILES = {'crates/lattice/specs/Shape.antt': 'unfoldable pub double_width : ℕ → ℕ\n', 'crates/lattice/specs/Lib.antt': '', 'crates/lattice/src/lib.rt': 'pub fn half_width() {}\n',
             'rust/src/lib.rs': 'pub struct LentTree;\n'}
    RIGHT = 'See `lattice/specs/Shape` `double_width`, `lattice::half_width`, `LentTree`, `specs/Lib.antt`, `rust/src/lib.rs`, `target/made.log`, `a + b`, `half_*`.'

    def faults(self, text):
        with tempfile.TemporaryDirectory() as folder:
            root = pathlib.Path(folder)
            for name, content in {**self.FILES, 'docs/DECISIONS.md': text}.items():
                (root / name).parent.mkdir(parents=True, exist_ok=True)
                (root / name).write_text(content, encoding='utf-8')
            return list(documents.faults_of_mentions('docs/DECISIONS.md', documents.words_of_sources(root), root))

    def test_right(self):
        self.assertEqual(self.faults(self.RIGHT), [])

    def test_wrong(self):
        for old, new, words in (('`lattice/specs/Shape`', '`lattice/specs/Width`', 'there is no lattice/specs/Width'), ('`double_width`', '`triple_width`', 'no source has triple_width'),
                                ('lattice::half_width', 'lattice::whole_width', 'no source has whole_width'), ('`LentTree`', '`Lent`', 'no source has Lent'),
                                ('rust/src/lib.rs', 'rust/src/raw.rs', 'there is no rust/src/raw.rs')):
            faults = self.faults(self.RIGHT.replace(old, new))
            self.assertEqual([words in fault for fault in faults], [True], (words, faults))


class Rooms(unittest.TestCase):
    CRATES = '# Ground, numbers\narithmetic:\ntree: arithmetic\n\n# Doors\ncapi staticlib: tree\n'
    LAYERS = '# Layers\n\n## Crates\n\n### Ground\n\n| Crate | Gives |\n|---|---|\n| `arithmetic` | `rows` |\n| `tree` | trees |\n\n### Doors\n\n| `capi` | all |\n\n## Level one\n\n| `none` |\n'

    def faults(self, crates, layers):
        with tempfile.TemporaryDirectory() as folder:
            root = pathlib.Path(folder)
            (root / 'docs').mkdir()
            (root / 'crates.txt').write_text(crates)
            (root / 'docs/LAYERS.md').write_text(layers)
            return list(documents.faults_of_rooms(root))

    def test_right(self):
        self.assertEqual(self.faults(self.CRATES, self.LAYERS), [])

    def test_wrong(self):
        for crates, layers in ((self.CRATES.replace('# Doors', '# Yard'), self.LAYERS), (self.CRATES.replace('tree: arithmetic\n', ''), self.LAYERS),
                               (self.CRATES, self.LAYERS.replace('| `tree` | trees |\n', '')), (self.CRATES.replace('# Ground,', '# Ground, of:'), self.LAYERS),
                               (self.CRATES, self.LAYERS.replace('`capi`', '`capi`, `sheet`'))):
            self.assertEqual(len(self.faults(crates, layers)), 1, (crates, layers))


class Reach(unittest.TestCase):
    """Two crates: a contract, a theorem and a statement, each of which reaches what it names, and what nothing reaches."""

    FILES = {
        'crates/lattice/src/lib.rt': """ghost use Rattle.lattice.specs.Shape.{half_width};
ghost use Rattle.lattice.specs.inside.Loops.{Held};

fn held(row: usize) -> usize
    requires { Held row }
{
    row
}

pub fn half_width(row: usize) -> usize
    ensures { result ≡ half_width row }
{
    held(row)
}
""",
        'crates/lattice/specs/Shape.antt': """use Rattle.std.specs.Prelude.{ℕ, ◌+◌, ◌≤◌}

-- half the width, as node says
unfoldable pub half_width : ℕ → ℕ
half_width i = doubled i + steps i

abbrev pub doubled : ℕ → ℕ
doubled i = i + i

module _ (b : ℕ) where
  abbrev pub steps : ℕ
  steps = b

  pub record Signed (i : ℕ) : Type 0 where
    pub width : b ≡ i
""",
        'crates/lattice/specs/inside/Loops.antt': """use Rattle.lattice.specs.Shape.{doubled}

pub record Held (row : ℕ) : Type 0 where
  pub most : row.doubled ≤ doubled row
""",
        'crates/lattice/proofs/Laws.antt': """use Rattle.lattice.specs.Shape.{Signed}

pub as-written : (i : ℕ) → Signed i i
as-written i = refl
""",
        'crates/all_promises/specs/All.antt': """use Rattle.lattice.specs.Shape as shape

pub record AllPromises : Type 0 where
  pub widths : (i : ℕ) → Seen (shape.half_width i)

pub data Seen : ℕ → Type 0 where
  seen : (i : ℕ) → Seen i
""",
        'docs/PROMISES.md': '| signs | `lattice/proofs/Laws` `as-written` |\n',
    }

    def faults(self, *changes):
        with tempfile.TemporaryDirectory() as folder:
            root = pathlib.Path(folder)
            for name, text in self.FILES.items():
                for file, old, new in changes:
                    if file == name:
                        self.assertEqual(text.count(old), 1, old)
                        text = text.replace(old, new)
                (root / name).parent.mkdir(parents=True, exist_ok=True)
                (root / name).write_text(text, encoding='utf-8')
            return list(reach.faults(reach.House(root)))

    def test_right(self):
        self.assertEqual(self.faults(), [])

    def test_wrong(self):
        shape, laws = 'crates/lattice/specs/Shape.antt', 'docs/PROMISES.md'
        for change, faults in (
                ((shape, 'half_width i = doubled i + steps i', 'half_width i = i + steps i'), ['lattice/specs/Shape doubled is help, and stands outside specs/inside/']),
                ((laws, 'as-written', 'as-meant'), ['lattice/specs/Shape Signed is help, and stands outside specs/inside/']),
                (('crates/lattice/src/lib.rt', 'result ≡ half_width row', '(result ≡ half_width row) × Held result'), ['lattice/specs/inside/Loops Held is meaning, and stands in specs/inside/']),
                (('crates/all_promises/specs/All.antt', 'Seen (shape.half_width i)', 'i ≡ i'), [f'all_promises/specs/All {name} is help, and stands outside specs/inside/' for name in ('Seen', 'seen')])):
            self.assertEqual(self.faults(change), faults)

    def test_lines(self):
        self.assertEqual(set(reach.lines()), {'code', 'specs', 'inside', 'proofs'})
        self.assertTrue(all(reach.lines().values()))


class Shorten(unittest.TestCase):
    LONG = """use Rattle.lattice.proofs.half_width.Tie as tie

abbrev Inv-loop : tie.InvT-loop
Inv-loop row i = i ≤ row

-- why it holds
loop-holds : tie.Need-loop-holds Inv-loop
loop-holds c = omega arith

add-i : tie.Need-add-i Inv-loop
add-i c = search rules

expect-requires : tie.Need-expect-requires
expect-requires c κs = tt

shared : tie.Need-shared Inv-loop
shared c = search rules

returns : tie.Need-returns Inv-loop
returns c = omega (arith, shared c)

pub half-width-spec : {M : Type 1} → statement M
half-width-spec = tie.close (tie.spec Inv-loop loop-holds add-i expect-requires shared returns)
"""

    def test_needs_that_say_nothing(self):
        short = shorten.shortened(self.LONG)
        self.assertIn('(tie.spec Inv-loop loop-holds (λ c. search rules) (λ c κs. tt) shared returns)', short)
        self.assertEqual([name for name in ('loop-holds :', 'add-i', 'expect-requires', 'shared :', 'returns :') if name in short], ['loop-holds :', 'shared :', 'returns :'])
        self.assertEqual(shorten.shortened(short), short)

    BRINGS = """-- of a fit, and `unused`
use Rattle.std.proofs.Common.{◌≡◌, refl, sym, [◌], ⟨◌⟩}
use Rattle.fit.specs.Fit.{unused}
use Rattle.fit.specs.Other.{
  wide as wider,
  fit_most,
  fit,
}
ghost use Rattle.std.specs.Prelude.{◌+◌, ◌-◌};

law : (n : ℕ) → ◌≡◌ {A = ℕ} (n + 0) (wider fit_most_of [n])
law n = refl
"""

    def test_names_that_nothing_names(self):
        needed = shorten.needed(self.BRINGS)
        self.assertEqual([line for line in needed.splitlines() if 'use ' in line],
                         ['use Rattle.std.proofs.Common.{◌≡◌, refl, [◌]}', 'use Rattle.fit.specs.Other.{wide as wider}', 'ghost use Rattle.std.specs.Prelude.{◌+◌};'])
        self.assertEqual(needed.partition('law')[1:], self.BRINGS.partition('law')[1:])
        self.assertEqual(shorten.needed(needed), needed)

    ANSWERS = """use Rattle.std.proofs.Common.{rules}
use Rattle.lattice.proofs.half_width.Goals as goal

-- src/lib.rt:7:1
pub returns : goal.returns
returns c = search rules

-- why it holds
pub low : goal.low
low c = search rules

-- src/lib.rt:9:5
pub high : goal.high
high c = omega (arith, shared c)

pub shared : goal.shared
shared c = search rules

-- src/lib.rt:12:5
pub last : goal.last
last c = search rules
"""

    def test_answers_that_say_nothing(self):
        short = shorten.answered(self.ANSWERS)
        self.assertEqual([name for name in ('returns', 'low', 'high', 'shared', 'last') if f'pub {name} :' in short], ['low', 'high', 'shared'])
        self.assertNotIn('lib.rt:7', short)
        self.assertIn('-- why it holds\npub low : goal.low\nlow c = search rules\n', short)
        self.assertEqual(shorten.answered(short), short)
        first = self.ANSWERS.partition('-- why')[0]
        self.assertEqual((shorten.answered(first), shorten.answered(first.partition('-- src')[0])), ('', first.partition('-- src')[0]))

    def test_a_file_without_an_answer_goes(self):
        """And only a function's: a file of laws of that name stays as it is."""
        folder = pathlib.Path('crates/lattice/proofs')
        first = self.ANSWERS.partition('-- why')[0]
        self.assertEqual(shorten.short(folder / 'half_width/Answers.antt', first), '')
        self.assertIn('returns c', shorten.short(folder / 'Answers.antt', first))

    def test_without_a_last_answer(self):
        self.assertEqual(shorten.shortened(self.LONG.partition('pub half')[0]), self.LONG.partition('pub half')[0])


class Stack(unittest.TestCase):
    TEXTS = {'docs/MANUAL.md': 'x 768 KiB of stack are enough', 'engine.py': '768 KiB of stack are enough, so'}

    def test_programs(self):
        self.assertEqual(stack.faults_of_programs({'sheet': 704, 'exhibits': 20}, self.TEXTS), [])
        self.assertEqual(len(stack.faults_of_programs({'sheet': 708, 'exhibits': 20}, self.TEXTS)), 1)
        self.assertEqual(len(stack.faults_of_programs({'sheet': None}, self.TEXTS)), 1)
        self.assertEqual(len(stack.faults_of_programs({}, self.TEXTS)), 1)

    def test_places_that_differ(self):
        for text in ('1,024 KiB of stack are enough', 'some 700 KB of stack'):
            self.assertEqual(len(stack.faults_of_programs({'sheet': 20}, {**self.TEXTS, 'docs/MANUAL.md': text})), 1)

    def test_calls(self):
        manual = ('no more than 8 KiB for a fit, 16 KiB for a price, 24 KiB for a strip, 48 KiB for a commit, 40 KiB for a pair and 1,192 KiB for a sheet, '
                  '32 KiB for a reading and 24 KiB for a writing')
        enough = {'fit': 8_192, 'price': 9_720, 'strip': 24_576, 'commit': 40_000, 'pair': 40_960, 'sheet': 145_184, 'reading': 32_768, 'writing': 1}
        self.assertEqual(stack.faults_of_calls(enough, manual), [])
        for name, size in (('fit', 8_193), ('pair', 40_961), ('reading', 32_769), ('writing', 24_577)):
            self.assertEqual(len(stack.faults_of_calls({**enough, name: size}, manual)), 1)
        self.assertEqual(len(stack.faults_of_calls({'fit': 1, 'price': 1}, manual)), 1)

    def test_the_least_that_is_enough(self):
        self.assertIsNone(stack.least('/bin/cat', b'abc', b'ab'))
        self.assertLess(stack.least('/bin/cat', b'abc', b'abc'), stack.MOST)


class Widths(unittest.TestCase):
    HEADER = (ROOT / 'c/mixegorta.h').read_text(encoding='utf-8')

    def test_the_header(self):
        self.assertEqual(list(widths.faults(self.HEADER, 'same', 'same')), [])
        self.assertEqual(len(widths.declared(self.HEADER)), len(widths.named()) + len(widths.WITHOUT_NUMBERS))

    def test_what_the_table_lacks(self):
        for old, new in (('mixegorta_step_rate(uint64_t discount);', 'mixegorta_step_rate(uint64_t discount, uint64_t version);'),
                         ('mixegorta_step_rate(uint64_t discount);', 'mixegorta_yearly_rate(uint64_t discount);')):
            self.assertEqual(self.HEADER.count(old), 1)
            self.assertEqual(len(list(widths.faults(self.HEADER.replace(old, new), 'same', 'same'))), 1)
        self.assertEqual(len(list(widths.faults(self.HEADER, 'one', 'other'))), 1)

    def test_a_cut_that_would_not_show(self):
        unread = widths.entry(lambda number: [1], ('number', 'number', 5))
        with self.assertRaises(SystemExit):
            list(widths.lines_of(unread))


if __name__ == '__main__':
    unittest.main()
