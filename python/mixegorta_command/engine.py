"""The proved engine: the programs of a source folder, made where they are missing or older than their crates, or the library of the
installed package."""
import os
import pathlib
import shutil
import subprocess
import sys

from .streams import Stop

ROOT = pathlib.Path(__file__).resolve().parent.parent.parent
BUILDER = ROOT / 'tools/building.py'
WITHOUT_KIT = {'sheet': "see the reference's sheet by `tools/job FILE | python3 reference/reference.py`",
               'book': "see the reference's report by `tools/book --frame FILE.. | python3 reference/book.py`"}


def built(name):
    """The program of the source folder, made anew where that is needed."""
    path = ROOT / 'target/bin' / name
    if not shutil.which('rt') and not path.is_file():
        raise Stop(f'the proved program target/bin/{name} is not built, and there is no Rattle kit to build it: install the kit and run `tools/building.py {name}`, '
                   f'or {WITHOUT_KIT[name]}')
    made = subprocess.run([sys.executable, '-B', BUILDER, name], stdout=subprocess.PIPE, text=True)
    if made.returncode:
        raise Stop(made.stdout.strip())
    return path


def program(name):
    """The program to run, or None where the library is to be asked."""
    setting = f'MIXEGORTA_{name.upper()}'
    named = os.environ.get(setting)
    if named and not pathlib.Path(named).is_file():
        raise Stop(f'there is no program {named}, which {setting} names: correct or unset it')
    if named:
        return pathlib.Path(named).absolute()
    return built(name) if BUILDER.is_file() else None


def printed_by(path, name, content):
    try:
        done = subprocess.run([path], input=content, stdout=subprocess.PIPE)
    except OSError as error:
        raise Stop(f'{path} does not run here ({error.strerror}): build it anew by `tools/building.py {name}`')
    if done.returncode < 0:
        raise Stop(f'output is lost: {path.name} was ended by signal {-done.returncode}; 768 KiB of stack are enough, so try '
                   '`ulimit -s 8192` and run it again')
    return done.stdout


def answered(name, content):
    """What the program would print, by the library of the installed package."""
    try:
        import mixegorta
    except ImportError as error:
        raise Stop(str(error))
    if name == 'book':
        return mixegorta.book_report(content).encode()
    try:
        return mixegorta.sheet(content).encode()
    except mixegorta.Refused as refusal:
        return b'refused %d\n' % refusal.number


def printed(name, content):
    """What the program of this name, sheet or book, prints for an input."""
    path = program(name)
    return printed_by(path, name, content) if path else answered(name, content)
