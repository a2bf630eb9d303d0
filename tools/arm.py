"""libmixegorta for 64-bit ARM Linux: the proved module, compiled by the kit, with C functions around its own.

C on ARM returns a struct of more than two numbers by a register of its own, and hands one over by a pointer, where the
module has a plain argument and the stack: tools/wrapping.py. Debian's gcc for aarch64 compiles the functions around and
links the shared object. Frames of more than a page touch each of their pages in order, as they do on x86-64."""
import re

import compiling
import exports
import wrapping

COMPILER = compiling.COMPILERS['linux-aarch64']
TRIPLE = 'aarch64-unknown-linux-gnu'
ARCHIVE, SHARED = 'libmixegorta.a', 'libmixegorta.so'
# Frames of a page and more touch their pages.
PROBED = ('-fstack-clash-protection', '--param', 'stack-clash-protection-guard-size=12')


def prepared(text, functions, records):
    """The module's text for ARM: the exports hidden in a shared object, and the stack touched page by page."""
    text = wrapping.module_text(compiling.plain(text), functions, records, 'hidden')
    return compiling.changed(text, r'^(attributes #0 = \{ nounwind) \}', r'\1 "probe-stack"="inline-asm" }')


def loader_name():
    """The shared object's name for the loader, which carries the first number of the version."""
    header = (compiling.ROOT / 'c/mixegorta.h').read_text(encoding='utf-8')
    return f'{SHARED}.{re.search(r"^#define MIXEGORTA_VERSION_MAJOR (.*)$", header, re.M)[1]}'


def built(text, folder):
    """The archive and the shared object."""
    functions, records = exports.exported()
    text = prepared(text, functions, records)
    module = compiling.compiled(text, TRIPLE, folder / 'module.o', '-fPIC', '-march=armv8-a')
    source, around = folder / 'functions.c', folder / 'functions.o'
    source.write_text(wrapping.c_text(functions, records), encoding='utf-8')
    compiling.ran(COMPILER, *compiling.C_FLAGS, '-fPIC', '-march=armv8-a', *PROBED, '-c', source, '-o', around)
    archive = compiling.archived(folder / ARCHIVE, module, around)
    source.unlink()
    compiling.ran(COMPILER, '-shared', '-nostartfiles', '-Wl,-z,defs', f'-Wl,-soname,{loader_name()}',
                  '-o', folder / SHARED, '-Wl,--whole-archive', archive, '-Wl,--no-whole-archive', '-lc')
    return [archive, folder / SHARED]
