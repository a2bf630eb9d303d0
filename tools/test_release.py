#!/usr/bin/env python3
"""Uses a release as a desk does: from an empty folder, with nothing of the repository and without the kit.

    tools/test_release.py

tools/release is run twice, and both must give the same bytes. Then the wheel is installed by pip without a network, and the archive is used from C, C++, CMake and
Rust, by the examples of README.md. The path holds the few programs that each needs; where this runs as root, the kit and the repository are hidden by
empty folders mounted over them, too. What is not installed here is skipped.
"""
import hashlib
import os
import pathlib
import re
import shutil
import subprocess
import sys
import tarfile
import tempfile
import unittest

sys.dont_write_bytecode = True
import release_targets

ROOT = pathlib.Path(__file__).resolve().parent.parent
KIT = '/opt/rattle'
PROGRAMS = ('sh', 'node', 'cc', 'gcc', 'c++', 'g++', 'as', 'ld', 'ar', 'cmake', 'make', 'pkg-config', 'env', 'uname', 'rm', 'mkdir')
PRICE = '1002500000 at most 2 from exact\n'
CMAKE = '''cmake_minimum_required(VERSION 3.13)
project(example C CXX)
find_package(mixegorta {version} REQUIRED)
add_executable(static example.c)
target_link_libraries(static mixegorta::mixegorta)
add_executable(shared example.cpp)
target_link_libraries(shared mixegorta::shared)
'''
CARGO = '[package]\nname = "example"\nversion = "0.1.0"\nedition = "2021"\n[dependencies]\nmixegorta = {{ path = "{}" }}\n[workspace]\n'


def example(language):
    """The code of README.md in a language."""
    return re.search(rf'^```{language}\n(.*?)^```$', (ROOT / 'README.md').read_text(encoding='utf-8'), re.M | re.S)[1]


def rust_folder():
    """Where cargo and rustc themselves stand, and not what finds them by a setting of the user's."""
    if not shutil.which('rustc'):
        return None
    return pathlib.Path(subprocess.run(['rustc', '--print', 'sysroot'], check=True, capture_output=True, text=True).stdout.strip()) / 'bin'


def commands(folder):
    """A folder with links to the programs that are there, and nothing else."""
    folder.mkdir()
    for name in PROGRAMS:
        if shutil.which(name):
            (folder / name).symlink_to(os.path.realpath(shutil.which(name)) if name not in ('cc', 'c++') else shutil.which(name))
    (folder / 'python3').symlink_to(os.path.realpath(sys.executable))
    for name in ('cargo', 'rustc'):
        if rust_folder():
            (folder / name).symlink_to(rust_folder() / name)
    return folder


def hidden():
    """The start of a command that hides kit and repository, or nothing where this may not mount."""
    hide = ['unshare', '-m', 'sh', '-c', 'for folder in {}; do [ ! -d "$folder" ] || mount -t tmpfs none "$folder" || exit 1; done; exec "$@"'.format(
        ' '.join(f"'{folder}'" for folder in (KIT, ROOT))), 'sh']
    try:
        return hide if subprocess.run([*hide, 'true'], cwd='/', capture_output=True).returncode == 0 else []
    except OSError:
        return []


class Release(release_targets.OtherSystems, unittest.TestCase):
    @classmethod
    def setUpClass(cls):
        place = tempfile.TemporaryDirectory()
        cls.addClassCleanup(place.cleanup)
        cls.folder = pathlib.Path(place.name).resolve()
        cls.dists = [cls.folder / 'first', cls.folder / 'second']
        cls.said = [subprocess.run(['setsid', ROOT / 'tools/release', dist], check=True, capture_output=True, text=True)
                    for dist in cls.dists]
        cls.wheel, = cls.dists[0].glob('*_x86_64.whl')
        archive, = cls.dists[0].glob('*-linux-x86_64.tar.gz')
        cls.empty = cls.folder / 'empty'
        cls.empty.mkdir()
        with tarfile.open(archive) as packed:
            packed.extractall(cls.empty)
        cls.prefix, = cls.empty.iterdir()
        cls.version = re.match(r'mixegorta-([\d.]+)-', cls.prefix.name)[1]
        cls.commands, cls.hidden = commands(cls.folder / 'commands'), hidden()
        for language, name in (('c', 'example.c'), ('c', 'example.cpp'), ('python', 'example.py')):
            (cls.empty / name).write_text(example(language), encoding='utf-8')

    def run_clean(self, *command, **settings):
        """What a command prints, run in the empty folder without kit and repository."""
        clean = {'PATH': str(self.commands), 'HOME': str(self.empty), 'TMPDIR': str(self.folder), 'PIP_NO_INDEX': '1', 'PIP_DISABLE_PIP_VERSION_CHECK': '1',
                 'CARGO_HOME': str(self.empty / 'cargo'), 'PYTHONDONTWRITEBYTECODE': '1', **settings}
        words = [*self.hidden, 'env', '-i', *(f'{name}={value}' for name, value in clean.items()), *map(str, command)]
        made = subprocess.run(words, cwd=self.empty, capture_output=True, text=True)
        self.assertEqual(made.returncode, 0, f'{command}: {made.stdout}{made.stderr}')
        return made.stdout

    def need(self, *names):
        for name in names:
            if not (self.commands / name).exists():
                self.skipTest(f'{name} is not installed')

    def test_the_kit_is_not_there(self):
        self.assertFalse((self.commands / 'rt').exists())
        if self.hidden:
            self.assertEqual(self.run_clean('sh', '-c', f'for file in {KIT}/* {ROOT}/*; do [ ! -e "$file" ] || echo "$file"; done'), '')

    def test_two_runs_give_the_same_bytes(self):
        names = [sorted(path.name for path in dist.iterdir()) for dist in self.dists]
        self.assertEqual(*names)
        # the four of every release, and what else is made beside them
        four = {self.wheel.name, f'mixegorta-{self.version}-linux-x86_64.tar.gz', 'PROOF.txt', 'SHA256SUMS'}
        self.assertEqual((len(four), four - set(names[0])), (4, set()))
        self.assertEqual(len(names[0]), len(four) + 4 + release_targets.count())
        for name in names[0]:
            self.assertEqual(*((dist / name).read_bytes() for dist in self.dists), name)

    def test_sums(self):
        lines = [line.split('  ') for line in (self.dists[0] / 'SHA256SUMS').read_text().splitlines()]
        self.assertEqual(sorted(name for _, name in lines), sorted(path.name for path in self.dists[0].iterdir() if path.name != 'SHA256SUMS'))
        for told, name in lines:
            self.assertEqual(hashlib.sha256((self.dists[0] / name).read_bytes()).hexdigest(), told)

    def test_the_summary_names_every_crate(self):
        text = (self.dists[0] / 'PROOF.txt').read_text()
        crates = [line.split(':')[0].split()[0] for line in (ROOT / 'crates.txt').read_text().splitlines() if ':' in line]
        self.assertEqual([line.split()[0] for line in text.partition('TRUST.md says what these are)\n\n')[2].splitlines()], crates)
        self.assertIn(f'crates {len(crates)}, all proved\n', text)
        self.assertEqual(text, (self.prefix / 'share/doc/mixegorta/PROOF.txt').read_text())
        for machine in (str(ROOT), str(self.folder)):
            self.assertNotIn(machine, text)

    def test_the_summary_names_module_and_targets(self):
        text = (self.dists[0] / 'PROOF.txt').read_text()
        for line, name in ((r'module mixegorta\.bc', 'bc'), (r'target wasm32 mixegorta\.wasm', 'wasm')):
            content = (self.dists[0] / f'mixegorta-{self.version}.{name}').read_bytes()
            self.assertRegex(text, rf'(?m)^{line} {hashlib.sha256(content).hexdigest()}, ')
            for machine in (ROOT, self.folder, KIT):
                self.assertNotIn(str(machine).encode(), content)

    def test_nothing_names_a_folder_of_this_machine(self):
        for path in self.prefix.rglob('*'):
            if path.is_file():
                content = path.read_bytes()
                for place in (ROOT, self.folder):
                    self.assertNotIn(str(place).encode(), content, path)

    def test_scripts_keep_their_run_bit(self):
        """Whatever begins with the name of its program, and nothing else."""
        files = [path for path in self.prefix.rglob('*') if path.is_file() and not path.is_symlink()]
        scripts = [path for path in files if path.read_bytes()[:2] == b'#!']
        self.assertEqual([path for path in files if os.access(path, os.X_OK)], scripts)
        night = self.prefix / 'share/doc/mixegorta/examples/night'
        self.assertEqual(sorted(path.name for path in scripts if path.parent == night),
                         ['names.sh', 'part.sh', 'slurm.sh', 'xargs.sh'])

    def test_it_says_what_it_does(self):
        """On standard error, while it does it; standard output has the names of the files alone."""
        for word in ('proving', 'the wheel', 'the archive', 'sums'):
            self.assertIn(f'release: {word}', self.said[0].stderr)
        for word in ('linking libmixegorta.so', 'writing mixegorta-'):
            self.assertIn(f'mixegorta: {word}', self.said[0].stderr)
        self.assertEqual(sorted(self.said[0].stdout.split()), sorted(path.name for path in self.dists[0].iterdir()))

    def test_python(self):
        self.assertRegex(self.wheel.name, rf'\Amixegorta-{self.version}-py3-none-manylinux_2_\d+_x86_64\.whl\Z')
        self.run_clean('python3', '-m', 'venv', 'installed')
        installed = self.empty / 'installed/bin'
        self.run_clean(installed / 'pip', 'install', '--quiet', self.wheel)
        self.assertEqual(self.run_clean(installed / 'python', 'example.py'), PRICE)
        first = self.run_clean(installed / 'mixegorta', 'example', 'coupon-put')
        self.assertEqual(first, (ROOT / 'examples/coupon-put.txt').read_text())
        self.assertIn('notes.book', self.run_clean(installed / 'mixegorta', 'example'))
        text, sheet = self.prefix / 'share/doc/mixegorta/examples/coupon-put.txt', (ROOT / 'examples/coupon-put.sheet').read_text()
        self.assertEqual(self.run_clean(installed / 'mixegorta', 'price', '--tree', text), sheet)
        self.assertEqual(self.run_clean(installed / 'python', '-m', 'mixegorta', 'price', text).splitlines()[0].split()[1], sheet.split()[-5])
        self.assertIn('of 24', self.run_clean(installed / 'mixegorta', 'check', text))
        self.assertTrue(self.run_clean(installed / 'mixegorta', 'draw', '--page', text).startswith('<!DOCTYPE html>'))
        self.assertEqual(self.run_clean(installed / 'mixegorta', '--version'), f'mixegorta {self.version}\n')
        for place in ('man/man1/mixegorta.1', 'bash-completion/completions/mixegorta'):
            self.assertEqual((self.empty / 'installed/share' / place).read_bytes(), (self.prefix / 'share' / place).read_bytes())

    def flags(self, *words):
        return self.run_clean('pkg-config', *words, 'mixegorta', PKG_CONFIG_PATH=self.prefix / 'lib/pkgconfig').split()

    def test_c(self):
        self.need('cc', 'pkg-config')
        self.assertEqual(self.flags('--modversion'), [self.version])
        self.run_clean('cc', '-std=c11', '-Wall', '-Werror', 'example.c', *self.flags('--cflags', '--libs'), '-o', 'shared')
        self.assertEqual(self.run_clean(self.empty / 'shared'), PRICE)
        self.run_clean('cc', 'example.c', '-I', self.prefix / 'include', self.prefix / 'lib/libmixegorta.a', '-o', 'static')
        self.assertEqual(self.run_clean(self.empty / 'static'), PRICE)

    def test_cxx(self):
        self.need('g++')
        self.run_clean('g++', '-std=c++11', '-Wall', 'example.cpp', *self.flags('--cflags', '--libs'), '-o', 'cxx')
        self.assertEqual(self.run_clean(self.empty / 'cxx'), PRICE)

    def test_cmake(self):
        self.need('cmake', 'make', 'g++')
        (self.empty / 'CMakeLists.txt').write_text(CMAKE.format(version=self.version))
        self.run_clean('cmake', '-S', '.', '-B', 'built', f'-DCMAKE_PREFIX_PATH={self.prefix}')
        self.run_clean('cmake', '--build', 'built')
        for name in ('static', 'shared'):
            self.assertEqual(self.run_clean(self.empty / 'built' / name), PRICE)

    def test_the_page_is_whole(self):
        text = (self.dists[0] / 'mixegorta.html').read_text(encoding='utf-8')
        self.assertLess(len(text.encode()), 300_000)
        self.assertIn(f'<small>{self.version}</small>', text)
        for machine in (ROOT, self.folder, KIT):
            self.assertNotIn(str(machine), text)

    def test_javascript(self):
        self.need('node')
        archive, = self.dists[0].glob('*-javascript.tar.gz')
        place = self.empty / 'node_modules'
        place.mkdir()
        with tarfile.open(archive) as packed:
            packed.extractall(place)
        (place / 'package').rename(place / 'mixegorta')
        text = (place / 'mixegorta/README.md').read_text()
        (self.empty / 'example.mjs').write_text(re.search(r'^```js\n(.*?)^```$', text, re.M | re.S)[1])
        self.assertEqual(self.run_clean('node', 'example.mjs'), f'{PRICE.strip()}, or 1.002500000\n')

    def test_rust(self):
        self.need('cargo', 'cc')
        (self.empty / 'rust/src').mkdir(parents=True)
        (self.empty / 'rust/src/main.rs').write_text(example('rust'))
        (self.empty / 'rust/Cargo.toml').write_text(CARGO.format(self.prefix / 'rust'))
        self.assertEqual(self.run_clean('cargo', 'run', '--quiet', '--offline', '--manifest-path', 'rust/Cargo.toml'), PRICE)


if __name__ == '__main__':
    unittest.main()
