"""What `pip install ./python` calls: makes a wheel of the packages and of the shared object, which is linked from the proved archive.

Needs a C compiler and the archive target/libmixegorta.a, no older than its crates, or the Rattle kit to make it; no package of a
registry, no network. MIXEGORTA_ARCHIVE_DIR names the folder of an archive to take as it is, if it is of the package's version. Nothing is
written beside the sources but the archive. What [project] of pyproject.toml says is said in TEXTS again, since Python reads TOML from 3.11 on only.
"""
import base64
import ctypes
import hashlib
import os
import pathlib
import re
import shutil
import subprocess
import sys
import sysconfig
import tempfile
import zipfile

HERE = pathlib.Path(__file__).resolve().parent
ROOT = HERE.parent
# The least C library that a tag of manylinux can name, by machine.
OLDEST = {"x86_64": (2, 5), "aarch64": (2, 17)}
WINDOWS = "py3-none-win_amd64"
TEXTS = {
    "METADATA": "Metadata-Version: 2.1\nName: mixegorta\nVersion: {version}\n"
                "Summary: A proved Hull-White trinomial rate tree in whole billionths\nRequires-Python: >=3.9\nLicense: by agreement with the owner, by level\n",
    "WHEEL": "Wheel-Version: 1.0\nGenerator: mixegorta {version}\nRoot-Is-Purelib: false\nTag: {tag}\n",
    "entry_points.txt": "[console_scripts]\nmixegorta = mixegorta_command.command:main\n",
}
# The files of the two packages, and the modules of the reference that the command reads.
KINDS = (".py", ".typed", ".html", ".js")
REFERENCE = ("reference.py", "book.py")
# The examples that the command lists, below the folder of examples.
EXAMPLES = ("*.txt", "*.book", "*.csv", "notes/*")


def say(words):
    """Says what is being made: on standard error where that is a terminal, else on the terminal itself, since pip keeps
    a build's output to itself, and where there is none on standard error."""
    try:
        out = sys.stderr if sys.stderr.isatty() else open("/dev/tty", "w")
    except OSError:
        out = sys.stderr
    print(f"mixegorta: {words}", file=out, flush=True)
    if out is not sys.stderr:
        out.close()


def version():
    """The one version number, which stands in the package."""
    return re.search(r'^__version__ = "(.*)"$', (HERE / "mixegorta/__init__.py").read_text(), re.M)[1]


def archive():
    """The proved archive: the one that is named, else that of the repository, made anew where it is older than a crate."""
    folder = os.environ.get("MIXEGORTA_ARCHIVE_DIR")
    if folder:
        path = pathlib.Path(folder).resolve() / "libmixegorta.a"
        if not path.exists():
            sys.exit(f"mixegorta cannot be built: there is no archive {path}, whose folder MIXEGORTA_ARCHIVE_DIR names.")
        return path
    say("making target/libmixegorta.a where it is missing or older than its crates; minutes the first time")
    made = subprocess.run([ROOT / "tools/archive"], stdout=subprocess.PIPE, text=True)
    if made.returncode:
        sys.exit(f"mixegorta cannot be built: {made.stdout.strip()}; or set MIXEGORTA_ARCHIVE_DIR to the folder of libmixegorta.a.")
    return ROOT / "target/libmixegorta.a"


def check_version(source, linked):
    """Refuses an archive of another version than the package's."""
    try:
        number = ctypes.CDLL(str(linked)).mixegorta_version()
    except AttributeError:
        sys.exit(f"mixegorta cannot be built: {source} tells no version, and the package is {version()}; build both from one source.")
    told = f"{number // 1_000_000}.{number // 1_000 % 1_000}.{number % 1_000}"
    if told != version():
        sys.exit(f"mixegorta cannot be built: {source} is of version {told}, and the package is {version()}; build both from one source.")


def shared_object():
    """The bytes of the shared object, linked from the archive."""
    if sysconfig.get_platform() != "linux-x86_64":
        sys.exit("mixegorta cannot be built: the archive is for x86-64 Linux and this is " + sysconfig.get_platform() + ".")
    compiler = os.environ.get("CC", "cc").split()
    if not shutil.which(compiler[0]):
        sys.exit(f"mixegorta cannot be built: there is no C compiler {compiler[0]} to link the archive; set CC to one.")
    source = archive()
    say(f"linking libmixegorta.so from {source.name}")
    with tempfile.TemporaryDirectory() as folder:
        linked = pathlib.Path(folder) / "libmixegorta.so"
        command = [*compiler, "-shared", "-nostartfiles", "-Wl,-z,defs", "-Wl,-soname,libmixegorta.so", "-o", linked,
                   "-Wl,--whole-archive", source, "-Wl,--no-whole-archive", "-lc"]
        done = subprocess.run(command, stdout=subprocess.PIPE, stderr=subprocess.STDOUT, text=True)
        if done.returncode:
            sys.exit(f"mixegorta cannot be built: {compiler[0]} did not link {source}: " + " ".join(done.stdout.split()))
        check_version(source, linked)
        return linked.read_bytes()


def tag(content, machine="x86_64"):
    """The wheel's tag by the newest version of the C library that the shared object names."""
    named = re.findall(rb"GLIBC_(\d+)\.(\d+)", content)
    needed = max([OLDEST[machine], *(tuple(map(int, numbers)) for numbers in named)])
    return f"py3-none-manylinux_{needed[0]}_{needed[1]}_{machine}"


def record_line(name, content):
    digest = base64.urlsafe_b64encode(hashlib.sha256(content).digest()).decode().rstrip("=")
    return f"{name},sha256={digest},{len(content)}\n"


def described(shared, told_tag=None):
    """The files that describe the package of a library, by their names in its folder; without a tag it is read off the library."""
    told = {"version": version(), "tag": told_tag or tag(shared)}
    files = {name: text.format(**told).encode() for name, text in TEXTS.items()}
    return {**files, "licenses/LICENSE": (ROOT / "LICENSE").read_bytes()}


def package_files():
    """The sources of both packages, and the reference and the examples beside the command."""
    for package in ("mixegorta", "mixegorta_command"):
        for path in sorted((HERE / package).iterdir()):
            if path.suffix in KINDS:
                yield f"{package}/{path.name}", path.read_bytes()
    for path in (ROOT / "reference" / name for name in REFERENCE):
        if path.exists():
            yield f"mixegorta_command/reference/{path.name}", path.read_bytes()
    for path in sorted(path for pattern in EXAMPLES for path in (ROOT / "examples").glob(pattern)):
        yield f"mixegorta_command/examples/{path.relative_to(ROOT / 'examples').as_posix()}", path.read_bytes()


def shared_files():
    """The manual page and the completion, below the folder that the package is installed to."""
    sys.path.insert(0, str(HERE))
    try:
        from mixegorta_command import pages
    finally:
        sys.path.remove(str(HERE))
    return {place: text.encode() for place, text in pages.files().items()}


def prepare_metadata_for_build_wheel(metadata_directory, config_settings=None):
    """Writes the folder that describes the package; gives its name."""
    folder = pathlib.Path(metadata_directory) / f"mixegorta-{version()}.dist-info"
    for name, content in described(shared_object()).items():
        (folder / name).parent.mkdir(parents=True, exist_ok=True)
        (folder / name).write_bytes(content)
    return folder.name


def build_wheel(wheel_directory, config_settings=None, metadata_directory=None):
    """Writes the wheel; gives its name."""
    shared = shared_object()
    return written_wheel(wheel_directory, "libmixegorta.so", shared, tag(shared))


def written_wheel(wheel_directory, library, shared, told_tag):
    """Writes the wheel of a library, of this machine or another, under its tag; gives its name."""
    folder = f"mixegorta-{version()}"
    files = {**dict(package_files()), f"mixegorta/{library}": shared}
    places = {} if told_tag == WINDOWS else shared_files()
    files.update((f"{folder}.data/data/{place}", content) for place, content in places.items())
    files.update((f"{folder}.dist-info/{name}", content) for name, content in described(shared, told_tag).items())
    record = f"{folder}.dist-info/RECORD"
    files[record] = ("".join(record_line(*file) for file in files.items()) + record + ",,\n").encode()
    wheel = f"{folder}-{told_tag}.whl"
    say(f"writing {wheel}, {len(files)} files")
    with zipfile.ZipFile(pathlib.Path(wheel_directory) / wheel, "w", zipfile.ZIP_DEFLATED) as out:
        for name, content in files.items():
            entry = zipfile.ZipInfo(name)
            entry.external_attr = 0o100644 << 16
            out.writestr(entry, content, zipfile.ZIP_DEFLATED)
    return wheel


def build_sdist(sdist_directory, config_settings=None):
    """There is none: the package is built from the archive, which stands outside this folder."""
    sys.exit("mixegorta has no source distribution: run pip install ./python in its source folder.")
