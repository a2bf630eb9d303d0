#!/usr/bin/env python3
"""Takes the one LLVM module that the kit proves and compiles, and compiles it for other targets.

    tools/compiling.py module            target/module/mixegorta.bc
    tools/compiling.py targets [NAME..]  target/targets/NAME/ for each name, or for all

The module is kept by a copy of the kit's folder in which everything is a link but the kit's command, which finds the kit
by its own place, and the compiler: a script that copies what it is handed and then calls the kit's own. The archive that comes out of it must be target/libmixegorta.a to the
byte, with the sum of the same logic in its log. Nothing of another target is proved beyond the module: docs/TRUST.md.
Two runs give the same bytes.
"""
import hashlib
import pathlib
import re
import shutil
import subprocess
import sys
import tempfile

sys.dont_write_bytecode = True
import building
import exports

ROOT = building.ROOT
MODULE = ROOT / 'target/module/mixegorta.bc'
KEPT_FOR = ROOT / 'target/module/kept.txt'
TARGETS = ROOT / 'target/targets'
LOG = ROOT / 'target/module/module.log'
SUM = re.compile(r'^logic=proved .*? sum=(\w+)', re.M)
# The files of the kit's command.
COMMANDS = ('rt', 'rtlib.py')
IDENTITY = re.compile(r'!"rattle logic=(\w+)"')
KEEPER = '''#!/bin/sh
for word in "$@"; do
    case $word in *.bc) cp "$word" '{kept}' || exit 1 ;; esac
done
exec '{clang}' "$@"
'''
# A memory of WebAssembly: the stack stands first, so that running out of it is a trap; what javascript/ lends to a call
# stands behind it.
WASM_STACK, WASM_FIRST_MEMORY, WASM_MOST_MEMORY = 1 << 20, 8 << 20, 64 << 20
# The flags by which the kit compiles the archive; a text without a triple takes the one that is asked for.
AS_THE_KIT = ('-O3', '-ffunction-sections', '-fdata-sections', '-mllvm', '-trap-unreachable', '-mllvm',
              '-no-trap-after-noreturn', '--no-default-config', '-Werror')
WARNED = '-Wno-override-module'
# The C functions around the module's are compiled by these, with the header of c/.
C_FLAGS = ('-std=c11', '-O2', '-Wall', '-Wextra', '-Wpedantic', '-Werror', '-fno-ident', '-I', ROOT / 'c')
MADE_FROM = 'made-from.txt'
MAKERS = ('tools/compiling.py', 'tools/wrapping.py', 'tools/windows.py', 'tools/arm.py', 'tools/exports.py',
          'tools/writers.py', 'c/mixegorta.h', 'c/mixegorta_causes.h')


class Failed(Exception):
    """What could not be made, in a sentence."""


def ran(*command, cwd=ROOT):
    made = subprocess.run([str(word) for word in command], cwd=cwd, stdin=subprocess.DEVNULL, stdout=subprocess.PIPE,
                          stderr=subprocess.STDOUT, text=True)
    if made.returncode:
        raise Failed(f'{pathlib.Path(str(command[0])).name} failed: {" ".join(made.stdout.split())[-400:]}')
    return made.stdout


def digest(path):
    return hashlib.sha256(path.read_bytes()).hexdigest()


# The module

def kit():
    """The kit's folder: that of rt."""
    found = shutil.which('rt')
    if not found:
        raise Failed("the module is taken from the Rattle kit's own compilation, and its rt is not on the path")
    return pathlib.Path(found).resolve().parent.parent


def tools():
    """The folder of the kit's compiler and linker."""
    return kit() / 'toolchain/bin'


def linked(source, place, *but):
    """A folder of links to everything of another, but for these names."""
    place.mkdir(parents=True)
    for path in source.iterdir():
        if path.name not in but:
            (place / path.name).symlink_to(path)


def keeping_kit(place, kept):
    """A folder in the form of the kit whose compiler also copies the module that it is handed; its rt."""
    home = kit()
    linked(home, place, 'bin', 'toolchain')
    linked(home / 'toolchain', place / 'toolchain', 'bin')
    linked(tools(), place / 'toolchain/bin', 'clang')
    # The kit's commands find the kit by where they stand.
    linked(home / 'bin', place / 'bin', *COMMANDS)
    for name in COMMANDS:
        shutil.copy(home / 'bin' / name, place / 'bin' / name)
    script = place / 'toolchain/bin/clang'
    script.write_text(KEEPER.format(kept=kept, clang=tools() / 'clang'), encoding='utf-8')
    script.chmod(0o755)
    return place / 'bin/rt'


def kept_module(place):
    """Builds the archive once more, over its proof, with the compiler that keeps its module; the module's path."""
    kept = place / 'module.bc'
    said = ran(keeping_kit(place / 'kit', kept), 'lib', *building.PROCESSOR, cwd=ROOT / 'crates/capi')
    LOG.write_text(said, encoding='utf-8')
    if building.KIT_ARCHIVE.read_bytes() != building.ARCHIVE.read_bytes():
        raise Failed('the archive that the module was compiled to is not target/libmixegorta.a')
    sums = SUM.findall(said)
    if not sums or not kept.is_file():
        raise Failed('no proved module came out of the kit: target/module/module.log')
    named = IDENTITY.search(assembly(kept))
    if not named or not named[1].startswith(sums[-1]):
        raise Failed(f'the module does not name the logic {sums[-1]} of its proof')
    return kept, sums[-1]


def module():
    """Makes the module where it is missing or of another archive; the sum of its logic."""
    wrong = building.make('archive')
    if wrong:
        raise Failed(wrong)
    words = KEPT_FOR.read_text(encoding='utf-8').split() if KEPT_FOR.is_file() and MODULE.is_file() else []
    if len(words) == 3 and words[:2] == [digest(building.ARCHIVE), digest(MODULE)]:
        return words[2]
    MODULE.parent.mkdir(parents=True, exist_ok=True)
    with tempfile.TemporaryDirectory() as place:
        kept, logic = kept_module(pathlib.Path(place))
        shutil.copyfile(kept, MODULE)
    KEPT_FOR.write_text(f'{digest(building.ARCHIVE)} {digest(MODULE)} {logic}\n', encoding='utf-8')
    return logic


def assembly(path):
    """A module as text, as it stands: no pass is run."""
    return ran(tools() / 'clang', '-x', 'ir', path, '-S', '-emit-llvm', '-Xclang', '-disable-llvm-passes', '-o', '-')


# The targets

def changed(text, pattern, new, least=1):
    """A text with every match replaced; fewer matches than expected are an error."""
    found, count = re.subn(pattern, new, text, flags=re.M)
    if count < least:
        raise Failed(f'the module has not what is changed for another target: {pattern}')
    return found


def plain(text):
    """The module without the x86-64 processor, layout and way to touch a stack; the target's own hold."""
    text = changed(text, r' "target-cpu"="x86-64"', '')
    text = changed(text, r' "probe-stack"="inline-asm" "stack-probe-size"="\d+"', '')
    return changed(text, r'^target (?:datalayout|triple) = .*\n', '', 2)


def names():
    """The exported functions in their order."""
    return [function.name for function in exports.exported()[0]]


def compiled(text, triple, out, *words):
    """Compiles a module's text for a target, with no path of this machine in what comes out."""
    source = out.with_suffix('.ll')
    source.write_text(text, encoding='utf-8')
    ran(tools() / 'clang', f'--target={triple}', '-x', 'ir', source, '-c', *AS_THE_KIT, WARNED, *words, '-o', out)
    source.unlink()
    return out


def archived(out, *object_files):
    """An archive of objects, which are removed."""
    out.unlink(missing_ok=True)
    ran(tools() / 'llvm-ar', 'rcsD', out, *object_files)
    for path in object_files:
        path.unlink()
    return out


def wasm32(text, folder):
    """mixegorta.wasm: the exports, its memory and where the memory is free; no import."""
    made = compiled(plain(text), 'wasm32-unknown-unknown', folder / 'mixegorta.o', '-mcpu=generic')
    with tempfile.TemporaryDirectory() as place:
        linker = pathlib.Path(place) / 'wasm-ld'
        linker.symlink_to(tools() / 'ld.lld')
        ran(linker, '--no-entry', '--stack-first', '-z', f'stack-size={WASM_STACK}', '--gc-sections', '--strip-all',
            f'--initial-memory={WASM_FIRST_MEMORY}', f'--max-memory={WASM_MOST_MEMORY}', '--export=__heap_base',
            *(f'--export={name}' for name in names()), '-o', folder / 'mixegorta.wasm', made)
    made.unlink()
    return [folder / 'mixegorta.wasm']


def windows_x86_64(text, folder):
    """mixegorta.dll, its import library and the list of its exports."""
    import windows
    return windows.built(text, folder)


def linux_aarch64(text, folder):
    """libmixegorta.a and libmixegorta.so for 64-bit ARM."""
    import arm
    return arm.built(text, folder)


# Each target by its name: what makes its files, from the module's text into a folder.
BUILDERS = {'wasm32': wasm32, 'windows-x86_64': windows_x86_64, 'linux-aarch64': linux_aarch64}
# The C compilers that compile and link the functions around the module's, by target.
COMPILERS = {'windows-x86_64': 'x86_64-w64-mingw32-gcc', 'linux-aarch64': 'aarch64-linux-gnu-gcc'}


def lacking(name):
    """What is not installed here of what a target is made by, or None."""
    compiler = COMPILERS.get(name)
    return compiler if compiler and not shutil.which(compiler) else None


def target(name, text=None):
    """Makes a target; its files."""
    if lacking(name):
        raise Failed(f'there is no {lacking(name)}, which {name} is compiled and linked by')
    text = assembly(MODULE) if text is None else text
    folder = TARGETS / name
    shutil.rmtree(folder, ignore_errors=True)
    folder.mkdir(parents=True)
    made = BUILDERS[name](text, folder)
    (folder / MADE_FROM).write_text(' '.join([source(), *(path.name for path in made)]), encoding='utf-8')
    return made


def source():
    """What a target is made from: the module, and the scripts and headers that make it."""
    content = b''.join((ROOT / name).read_bytes() for name in MAKERS)
    return f'{digest(MODULE)} {hashlib.sha256(content).hexdigest()}'


def known(name):
    """The files of a target that was made from the same module by the same script; None where there are none."""
    kept = TARGETS / name / MADE_FROM
    words = kept.read_text(encoding='utf-8').split() if kept.is_file() else []
    if ' '.join(words[:2]) != source():
        return None
    paths = [TARGETS / name / each for each in words[2:]]
    return paths if all(path.is_file() for path in paths) else None


def targets(wanted=None):
    """Makes the module and these targets, or all, where they are not made yet; their files, by name."""
    module()
    return {name: known(name) or target(name) for name in wanted or BUILDERS}


def main(arguments):
    if not arguments or set(arguments) & {'-h', '--help'}:
        print(__doc__.strip())
        return 0 if arguments else 2
    what, *wanted = arguments
    unknown = [name for name in wanted if what != 'targets' or name not in BUILDERS]
    if what not in ('module', 'targets') or unknown:
        print(f'{(unknown or [what])[0]!r} is none of {", ".join(BUILDERS)}', file=sys.stderr)
        return 2
    try:
        if what == 'module':
            logic = module()
            print(f'{MODULE.relative_to(ROOT)} sum={logic} sha256={digest(MODULE)}')
        else:
            for path in sum(targets(wanted).values(), []):
                print(f'{path.relative_to(ROOT)} {path.stat().st_size} bytes sha256={digest(path)}')
    except Failed as why:
        print(why, file=sys.stderr)
        return 1
    return 0


if __name__ == '__main__':
    # The modules of single targets import this file by its name, so that there is one of it.
    import compiling
    sys.exit(compiling.main(sys.argv[1:]))
