"""Tests of a release's files for Windows and 64-bit ARM, run by tools/test_release.py: each archive and each wheel is
used from an empty folder, under wine and qemu where they are installed."""
import hashlib
import os
import re
import shutil
import subprocess
import sys
import tarfile
import zipfile

sys.dont_write_bytecode = True
import compiling
import target_tests
import test_arm
import test_windows


def count():
    """How many files of a release are for targets that are made here."""
    return 2 * sum(not compiling.lacking(name) for name in compiling.COMPILERS)


class OtherSystems:
    """The tests, of a release in self.dists[0] that is of self.version."""

    def one(self, target, pattern):
        """The file of a release for a target, which is skipped where the target's compiler is not installed."""
        if compiling.lacking(target):
            self.assertIn(f'target {target} not made: ', (self.dists[0] / 'PROOF.txt').read_text())
            self.skipTest(f'{compiling.lacking(target)} is not installed')
        found, = self.dists[0].glob(pattern)
        return found

    def unpacked(self, path):
        place = self.folder / f'unpacked-{path.name}'
        if not place.is_dir():
            with (zipfile.ZipFile if path.suffix != '.gz' else tarfile.open)(path) as archive:
                archive.extractall(place)
        return place

    def example_printed(self, target, emulator, settings, words, beside=()):
        """What README.md's example prints, compiled with words and run by an emulator in an empty folder."""
        place = self.folder / f'example-{target}'
        place.mkdir()
        (place / 'example.c').write_text(target_tests.readme_example(), encoding='utf-8')
        compiler = compiling.COMPILERS[target]
        made = subprocess.run([compiler, '-std=c11', '-Wall', '-Werror', 'example.c', '-o', 'example.exe', *words],
                              cwd=place, capture_output=True, text=True)
        self.assertEqual(made.returncode, 0, made.stderr)
        for path in beside:
            shutil.copy(path, place)
        if not shutil.which(emulator[0]):
            self.skipTest(f'{emulator[0]} is not installed')
        ran = subprocess.run([*emulator, place / 'example.exe'], cwd=place, env=settings, stdin=subprocess.DEVNULL,
                             capture_output=True, check=True)
        return ran.stdout.decode().replace('\r\n', '\n')

    def test_c_on_windows(self):
        prefix, = self.unpacked(self.one('windows-x86_64', '*-windows-x86_64.zip')).iterdir()
        names = {str(path.relative_to(prefix)) for path in prefix.rglob('*') if path.is_file()}
        self.assertLessEqual({'bin/mixegorta.dll', 'lib/libmixegorta.dll.a', 'lib/mixegorta.def', 'include/mixegorta.h',
                              'doc/PROOF.txt', 'doc/LICENSE', 'doc/docs/MANUAL.md'}, names)
        words = '-I', prefix / 'include', '-L', prefix / 'lib', '-lmixegorta'
        emulated = test_windows.Windows.emulator, test_windows.Windows.settings
        printed = self.example_printed('windows-x86_64', *emulated, words, [prefix / 'bin/mixegorta.dll'])
        self.assertEqual(printed, target_tests.README_PRICE)

    def test_c_on_arm(self):
        prefix, = self.unpacked(self.one('linux-aarch64', '*-linux-aarch64.tar.gz')).iterdir()
        words = '-I', prefix / 'include', '-L', prefix / 'lib', f'-Wl,-rpath,{prefix / "lib"}', '-lmixegorta'
        printed = self.example_printed('linux-aarch64', test_arm.Arm.emulator, dict(os.environ), words)
        self.assertEqual(printed, target_tests.README_PRICE)
        self.assertEqual((prefix / 'lib/libmixegorta.so').resolve().name, f'libmixegorta.so.{self.version}')

    def wheel_holds(self, target, tag, library):
        """A wheel's library, after its tag, its list of files and that there is no other library."""
        path = self.one(target, f'*{tag.rpartition("-")[2]}.whl')
        self.assertRegex(path.name, rf'\Amixegorta-{re.escape(self.version)}-{tag}\.whl\Z')
        place = self.unpacked(path)
        described = place / f'mixegorta-{self.version}.dist-info'
        self.assertRegex((described / 'WHEEL').read_text(), rf'(?m)^Tag: {tag}$')
        listed = [line.split(',')[0] for line in (described / 'RECORD').read_text().splitlines()]
        files = [str(each.relative_to(place)) for each in place.rglob('*') if each.is_file()]
        self.assertEqual(sorted(listed), sorted(files))
        self.assertEqual([name for name in files if name.endswith(('.so', '.dll'))], [f'mixegorta/{library}'])
        content = (place / 'mixegorta' / library).read_bytes()
        self.assertIn(hashlib.sha256(content).hexdigest(), (self.dists[0] / 'PROOF.txt').read_text())
        return place

    def test_the_wheel_for_windows(self):
        place = self.wheel_holds('windows-x86_64', 'py3-none-win_amd64', 'mixegorta.dll')
        self.assertEqual(self.path_found(place, 'nt'), str(place / 'mixegorta/mixegorta.dll'))

    def test_the_wheel_for_arm(self):
        place = self.wheel_holds('linux-aarch64', r'py3-none-manylinux_2_17_aarch64', 'libmixegorta.so')
        self.assertEqual(self.path_found(place, 'posix'), str(place / 'mixegorta/libmixegorta.so'))

    def path_found(self, place, system):
        """The library that the package loads where os.name is this: what ctypes is handed, not what it makes of it."""
        code = ('import ctypes, os; os.name = %r; ctypes.CDLL = ctypes.PyDLL = lambda path: print(path) or exit()\n'
                'import mixegorta' % system)
        settings = {'PYTHONPATH': str(place), 'PYTHONDONTWRITEBYTECODE': '1', 'PATH': os.environ['PATH']}
        made = subprocess.run([sys.executable, '-c', code], cwd=self.folder, env=settings, capture_output=True,
                              text=True)
        self.assertEqual(made.stderr, '')
        return made.stdout.strip()
