"""What a release has for Windows and for 64-bit ARM: an archive for C and a wheel each, made of the files for x86-64
Linux with the target's own library in the place of theirs. Two runs give the same bytes."""
import pathlib
import shutil
import sys
import tempfile
import zipfile

sys.dont_write_bytecode = True
import arm
import compiling
import windows

sys.path.insert(0, str(compiling.ROOT / 'python'))
import backend

HEADERS = ('mixegorta.h', 'mixegorta_causes.h')
DOCUMENTS = 'share/doc/mixegorta'


def by_name(paths):
    return {path.name: path for path in paths}


def zipped(folder, name):
    """The files of a folder by their names in a zip archive."""
    for path in sorted(path for path in folder.rglob('*') if path.is_file()):
        yield f'{name}/{path.relative_to(folder)}', path.read_bytes()


def write_zip(out, files):
    """A zip archive that is the same for the same files: no owner and no time."""
    with zipfile.ZipFile(out, 'w', zipfile.ZIP_DEFLATED) as archive:
        for name, content in files:
            entry = zipfile.ZipInfo(name)
            entry.external_attr = 0o100644 << 16
            archive.writestr(entry, content, zipfile.ZIP_DEFLATED)


def for_windows(out, prefix, paths, number, packed):
    """The zip archive and the wheel for Windows."""
    made, name = by_name(paths), f'mixegorta-{number}-windows-x86_64'
    with tempfile.TemporaryDirectory() as place:
        folder = pathlib.Path(place) / name
        shutil.copytree(prefix / DOCUMENTS, folder / 'doc')
        for part, sources in (('bin', [made[windows.DLL]]), ('lib', [made[windows.IMPORTS], made[windows.DEFINITIONS]]),
                              ('include', [prefix / 'include' / header for header in HEADERS])):
            (folder / part).mkdir()
            for source in sources:
                shutil.copyfile(source, folder / part / source.name)
        write_zip(out / f'{name}.zip', zipped(folder, name))
    backend.written_wheel(out, windows.DLL, made[windows.DLL].read_bytes(), backend.WINDOWS)


def for_arm(out, prefix, paths, number, packed):
    """The tar archive and the wheel for 64-bit ARM Linux."""
    made, name = by_name(paths), f'mixegorta-{number}-linux-aarch64'
    shared = made[arm.SHARED].read_bytes()
    with tempfile.TemporaryDirectory() as place:
        folder = pathlib.Path(place) / name
        shutil.copytree(prefix, folder, symlinks=True)
        (folder / 'lib' / arm.ARCHIVE).write_bytes(made[arm.ARCHIVE].read_bytes())
        (folder / 'lib' / f'{arm.SHARED}.{number}').write_bytes(shared)
        (out / f'{name}.tar.gz').write_bytes(packed(folder, name))
    backend.written_wheel(out, arm.SHARED, shared, backend.tag(shared, 'aarch64'))


# What makes a target's files of a release: into a folder, from the files for x86-64 Linux and the target's own.
MAKERS = {'windows-x86_64': for_windows, 'linux-aarch64': for_arm}
