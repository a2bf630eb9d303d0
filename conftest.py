"""For pytest: where the modules under test stand, and that a test which needs the library, the kit or a browser is skipped without it."""
import pathlib
import re
import shutil
import sys

import pytest

ROOT = pathlib.Path(__file__).resolve().parent
sys.dont_write_bytecode = True
sys.path[:0] = [str(ROOT / name) for name in ('python', 'python/tests', 'reference', 'tools', 'studies')]
import browser

NEEDS_LIBRARY = re.compile(r'^\s*(?:import|from) (?:mixegorta\b(?!_)|common\b)|usage\.library\(', re.M)
NEED_KIT = ('test_readme.py', 'test_release.py')

try:
    import mixegorta
    WITHOUT = None
except ImportError as error:
    WITHOUT = str(error)


def lacking(path):
    """Why a file of tests cannot be run here, or None."""
    if WITHOUT and NEEDS_LIBRARY.search(path.read_text(encoding='utf-8')):
        return WITHOUT
    if path.name in NEED_KIT and not shutil.which('rt'):
        return "the Rattle kit's rt is not on the path"
    return 'no browser is installed' if path.name == 'test_page.py' and not browser.installed() else None


class LeftOut(pytest.Module):
    """A file of tests that cannot be run here."""

    def collect(self):
        pytest.skip(lacking(self.path), allow_module_level=True)


def pytest_pycollect_makemodule(module_path, parent):
    return LeftOut.from_parent(parent, path=module_path) if lacking(module_path) else None
